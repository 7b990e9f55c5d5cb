/** Checks the document as it changes, flies it where it is a mission, and says what it is at. */
import { byId } from "./elements.js";
import { readMission } from "./mission.js";
import { readReport } from "./report.js";
import { Stopped } from "./program.js";

/**
 * The first frame in which somebody is faulty, or 0: what a flight is opened at.
 * @param {import("./report.js").Flight} flight
 */
const beginOf = (flight) => Math.max(0, flight.frames.findIndex((frame) => frame.units.some((unit) => unit.state === "faulty")));

/** @param {import("./main.js").Page} page */
export function keepFlying({ store, program }) {
  /**
   * @param {string} text
   * @param {string} name
   */
  async function fly(text, name) {
    performance.clearMarks();
    performance.mark("asked");
    const checked = await program.latest("check", ["check"], text);
    performance.mark("checked");
    if (store.state.text !== text) return;
    if (checked.status !== 0) return store.update({ told: "refused", refusal: checked });
    const flown = await program.latest("run", ["run"], text);
    if (store.state.text !== text) return;
    if (flown.status !== 0) return store.update({ told: "refused", refusal: flown });
    performance.mark("flown");
    const flight = readReport(flown.text);
    performance.mark("read");
    const frame = store.state.flown?.name === name ? Math.min(store.state.frame, flight.frames.length - 1) : beginOf(flight);
    store.update({ told: "flown", refusal: null, frame, flown: { name, text, report: flown.text, flight, mission: readMission(text) } });
    performance.mark("drawn");
  }

  const status = byId("status");
  store.subscribe((state, changed) => {
    if (!changed.has("told")) return;
    status.classList.toggle("refused", state.told === "refused");
    status.textContent = { busy: "flying …", refused: "refused", flown: "flown" }[state.told];
  });

  store.subscribe((state, changed) => {
    if (!changed.has("text")) return;
    program.stop("run");
    fly(state.text, state.name).catch((why) => {
      if (why instanceof Stopped) return;
      store.update({ told: "refused", refusal: { status: -1, text: `the program stopped: ${why.message}\n` } });
    });
  });
}
