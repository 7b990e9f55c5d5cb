/** A frame that is opened: what each unit tells of it, its words beside those of the ideal machine, and who said what. */
import { element } from "./elements.js";
import { shown, unitsTable, votesTable, wordsTable } from "./frame-tables.js";
import { readIdeal } from "./ideal.js";
import { conductOf, wordsOf } from "./mission.js";
import { Stopped } from "./program.js";
import { Votes } from "./votes.js";

/** @typedef {import("./document.js").State} State */
/** @typedef {import("./document.js").Flown} Flown */
/** @typedef {import("./report.js").Frame} Frame */

/**
 * What the program tells of a flight beside the report.
 * @typedef {object} More
 * @property {Flown} of
 * @property {Votes} votes
 * @property {string[][]} ideal
 */

/** @param {number} number */
const hexOf = (number) => number.toString(16).padStart(4, "0");

/** Of a flight with more words the tables of words are drawn where a frame stays opened for so many milliseconds. */
const FEW = 12;
const REST = 120;

/**
 * @param {HTMLElement} section
 * @param {import("./main.js").Page} page
 */
export function start(section, { store, program }) {
  /** @type {More | null} */
  let more = null;
  const number = element("input", { type: "number", min: 0, "aria-label": "frame", class: "frame-number" });
  const units = element("div", {});
  const words = element("div", { id: "words" });
  let resting = 0;
  /** @param {number} to */
  const go = (to) => {
    const last = (store.state.flown?.flight.frames.length ?? 1) - 1;
    store.update({ frame: Math.min(last, Math.max(0, to)) });
  };
  number.addEventListener("change", () => go(Number(number.value) || 0));
  const base = element("input", {
    type: "checkbox",
    onchange: () => {
      shown.decimal = base.checked;
      draw(store.state);
    },
  });
  section.append(
    element(
      "div",
      { class: "head" },
      element("h2", {}, "Frame"),
      element(
        "div",
        { class: "tools" },
        element("button", { type: "button", "aria-label": "the frame before", onclick: () => go(store.state.frame - 1) }, "◂"),
        number,
        element("button", { type: "button", "aria-label": "the next frame", onclick: () => go(store.state.frame + 1) }, "▸"),
        element("label", {}, base, " decimal"),
      ),
    ),
    units,
    words,
  );

  /**
   * Asks for the votes and the ideal words of a flight, once.
   * @param {Flown} flown
   */
  async function ask(flown) {
    const [votes, ideal] = await Promise.all([program.latestRaw("votes", ["votes"], flown.text), program.latest("ideal", ["ideal"], flown.text)]);
    if (store.state.flown !== flown) return;
    more = { of: flown, votes: new Votes(votes.bytes), ideal: readIdeal(ideal.text).map((words) => words.map(hexOf)) };
    draw(store.state);
  }

  /** @param {State} state */
  function draw({ flown, frame: place, unit }) {
    const frame = flown?.flight.frames[place];
    if (!flown || !frame) return;
    number.value = String(place);
    number.max = String(flown.flight.frames.length - 1);
    units.replaceChildren(element("p", { class: "more" }, tellFrame(frame)), unitsTable(frame, unit, (each) => conductOf(flown.mission, each, place)));
    clearTimeout(resting);
    const many = wordsOf(flown.mission).length > FEW;
    resting = setTimeout(() => drawWords(flown, frame, place), many ? REST : 0);
  }

  /**
   * The tables of words, which are large where there are many.
   * @param {Flown} flown
   * @param {Frame} frame
   * @param {number} place
   */
  function drawWords(flown, frame, place) {
    const { mission } = flown;
    const known = more?.of === flown ? more : null;
    const told = frame.units.some((account) => account.outputs);
    const votes = known?.votes.of(place);
    const sensors = mission.sensors.map((sensor) => sensor.name);
    words.replaceChildren(
      ...(told && sensors.length > 0 ? [wordsTable("Agreed inputs", "sensor", sensors, frame, "inputs", null)] : []),
      ...(told ? [wordsTable("Outputs", "word", wordsOf(mission), frame, "outputs", known?.ideal[place] ?? null)] : []),
      votes && votes.size > 0 ? votesTable(votes) : element("p", { class: "more" }, known ? "no unit voted" : "…"),
    );
  }

  store.subscribe((state, changed) => {
    if (changed.has("flown") || changed.has("frame") || changed.has("unit")) draw(state);
    if (changed.has("flown") && state.flown) {
      ask(state.flown).catch((why) => {
        if (!(why instanceof Stopped)) words.append(element("p", { class: "alarm" }, `the votes aren't known: ${why.message}`));
      });
    }
  });
}

/** @param {Frame} frame */
function tellFrame(frame) {
  const clocks = frame.skew === null ? "no unit of it works, so there is no skew" : `skew ${frame.skew}, slack ${frame.slack}`;
  return `The configuration is ${frame.configuration.join("")}, the margin is ${frame.margin ? "kept" : "lost"}; ${clocks}.`;
}
