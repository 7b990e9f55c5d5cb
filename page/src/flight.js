/** The flight: its drawing, what its marks mean, and what happened in words. */
import { byId, element, prose } from "./elements.js";
import { eventsOf, headlineOf, slackOf } from "./events.js";
import { FlightDrawing } from "./flight-drawing.js";
import { conductOf } from "./mission.js";
import { statedBy } from "./stated.js";

/** @typedef {import("./report.js").Flight} Flight */

/** What the marks of a drawing mean. */
function key() {
  /** @type {[string, string][]} */
  const marks = [
    ["works", "works"],
    ["faulty", "faulty"],
    ["out", "faulty, and out"],
    ["idle", "idle: works, and out"],
  ];
  return element(
    "ul",
    { class: "key", "aria-label": "What the marks mean" },
    ...marks.map(([kind, words]) => element("li", {}, element("span", { class: `swatch ${kind}` }), words)),
    element("li", {}, element("span", { class: "swatch catch" }, "1p"), "catches unit 1, by p poll, r relay, c clock"),
    element("li", {}, element("span", { class: "swatch caught" }), "is caught"),
    element("li", {}, element("span", { class: "swatch change" }), "a new configuration"),
  );
}

const MOST_EVENTS = 300;

/**
 * What happened, in words, each of which opens its frame.
 * @param {import("./document.js").Flown} flown
 * @param {(frame: number) => void} open
 */
function eventList({ flight, mission }, open) {
  const events = eventsOf(flight, statedBy(mission, flight));
  const last = flight.frames.length - 1;
  const shown = events.slice(0, MOST_EVENTS).map(({ frame, words }) =>
    element("li", {}, element("button", { type: "button", class: "event", onclick: () => open(Math.min(frame, last)) }, ...prose(words))),
  );
  const more = events.length - shown.length;
  return [...shown, ...(more > 0 ? [element("li", {}, `and ${more} more, which tools/picture --text tells`)] : [])];
}

/**
 * @param {HTMLElement} section
 * @param {import("./main.js").Page} page
 */
export function start(section, { store }) {
  const headline = element("h2", { class: "headline" }, "No flight yet");
  const slack = element("p", { class: "more" });
  const host = element("div", { class: "host" });
  const events = element("ol", { class: "events" });
  const drawing = new FlightDrawing(host, (frame, unit) => store.update({ frame, unit }));
  const tools = element(
    "div",
    { class: "tools", role: "group", "aria-label": "The drawing" },
    element("button", { type: "button", "aria-label": "narrower frames", onclick: () => drawing.scale(1 / 1.5) }, "−"),
    element("button", { type: "button", "aria-label": "wider frames", onclick: () => drawing.scale(1.5) }, "+"),
  );
  section.append(element("div", { class: "head" }, headline, tools), slack, host, key());
  byId("happened").append(element("h2", {}, "What happened"), events);

  store.subscribe((state, changed) => {
    section.classList.toggle("stale", state.told !== "flown");
    if (changed.has("flown") && state.flown) {
      const { flight, mission } = state.flown;
      drawing.conduct = (unit, frame) => conductOf(mission, unit, frame);
      headline.textContent = headlineOf(flight);
      slack.textContent = slackOf(flight);
      drawing.show(flight, [], state.frame, state.unit);
      events.replaceChildren(...eventList(state.flown, (frame) => store.update({ frame })));
    } else if (changed.has("frame") || changed.has("unit")) {
      drawing.choose(state.frame, state.unit);
    }
  });
}
