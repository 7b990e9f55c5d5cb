/** What came of a run of a campaign, counted in its report. */
import { catchersOf } from "./report.js";

/** @typedef {import("./faults.js").Fault} Fault */
/** @typedef {import("./faults.js").Schedule} Schedule */
/** @typedef {import("./report.js").Flight} Flight */
/** @typedef {import("./report.js").Frame} Frame */

/**
 * What a run shows of one of its faults: whether its unit was due to say the slot in some configuration that it was in; the
 * first frame in which a unit caught it, or null, and those who did; the first frame whose configuration it isn't in, or null.
 * @typedef {{said: boolean, caught: number | null, by: number[], out: number | null}} Trace
 *
 * What came of a run: the traces of its faults; whether the margin held; how many output words of all frames differ from the
 * ideal machine's where they are compared, the first frame in which they do, or null, and the names of those that do; the last
 * line of the report.
 * @typedef {{traces: Trace[], margin: boolean, wrong: number, first: number | null, words: string[], last: string}} Outcome
 */

/** @param {number} place which is -1 where there is none */
const orNull = (place) => (place < 0 ? null : place);

/**
 * What a report shows of a fault.
 * @param {Fault} fault
 * @param {Flight} flight
 * @param {Schedule} schedule
 * @returns {Trace}
 */
function traceOf({ unit, slot, begin }, flight, schedule) {
  const configurations = flight.frames.map((frame) => frame.configuration);
  const inside = new Map(configurations.slice(begin).map((units) => [units.join(""), units]));
  const caught = orNull(flight.frames.findIndex((frame, number) => number >= begin && catchersOf(frame, unit).length > 0));
  return {
    said: [...inside.values()].some((units) => schedule.says(unit, slot, units)),
    caught,
    by: caught === null ? [] : catchersOf(flight.frames[caught], unit),
    out: orNull([...configurations, flight.last].findIndex((units) => !units.includes(unit))),
  };
}

/**
 * Of each frame the tasks whose words may differ from the ideal machine's since a table sheds tasks, in it or in one before it.
 * @param {Flight} flight
 * @param {Map<number, Set<number>>} tables
 */
export function heldIn(flight, tables) {
  /** @type {Set<number>} */
  let held = new Set();
  return flight.frames.map((frame) => {
    for (const size of new Set(frame.units.flatMap(({ configuration }) => (configuration ? [configuration.length] : [])))) {
      const more = [...(tables.get(size) ?? [])].filter((task) => !held.has(task));
      if (more.length) held = new Set([...held, ...more]);
    }
    return held;
  });
}

/**
 * The places of a frame's output words that some unit votes other than the ideal machine has them, where they are compared.
 * @param {Frame} frame
 * @param {number[]} ideal
 * @param {(place: number) => boolean} compared
 */
function wrongIn(frame, ideal, compared) {
  const due = ideal.map((word) => word.toString(16).padStart(4, "0"));
  const votes = frame.units.flatMap(({ outputs }) => (outputs ? [outputs] : []));
  const different = votes.filter((words) => due.some((word, place) => words[place] !== word));
  return different.length === 0 ? [] : [...due.keys()].filter((place) => compared(place) && different.some((words) => words[place] !== due[place]));
}

/**
 * What came of the run with these faults.
 * @param {Fault[]} faults
 * @param {Flight} flight
 * @param {string} last the last line of the report
 * @param {Schedule} schedule
 * @returns {Outcome}
 */
export function outcomeOf(faults, flight, last, schedule) {
  const held = heldIn(flight, schedule.outline.held);
  const wrong = flight.frames.map((frame, number) =>
    wrongIn(frame, schedule.ideal[number], (place) => !held[number].has(schedule.outputs[place].task)),
  );
  const places = [...new Set(wrong.flat())].sort((one, other) => one - other);
  return {
    traces: faults.map((fault) => traceOf(fault, flight, schedule)),
    margin: flight.frames[flight.frames.length - 1].margin,
    wrong: wrong.reduce((sum, some) => sum + some.length, 0),
    first: orNull(wrong.findIndex((some) => some.length > 0)),
    words: places.map((place) => schedule.names[place]),
    last,
  };
}
