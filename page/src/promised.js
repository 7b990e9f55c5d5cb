/**
 * What is promised of a fault, before it flies: the clause `caught` of the program's contract, as docs/faults.md tells it.
 *
 * The clause speaks of frames with margin. A unit that lies there to a working one is caught by it (item `caught`), one that
 * lies to two of them is out of the next configuration (`out`), and one whose items are for reports alone is caught by nobody
 * (`own_words`). Of all else it says nothing: what comes of that only runs show.
 */
import { FEWEST } from "./slots.js";

/** @typedef {import("./faults.js").Fault} Fault */
/** @typedef {import("./faults.js").Schedule} Schedule */
/** @typedef {import("./faults.js").Slot} Slot */
/** @typedef {import("./outcomes.js").Trace} Trace */

/**
 * The item of the clause; the frame by which the unit is out, or in which it is caught; and who catches it for certain.
 * @typedef {{item: "out" | "caught" | "own_words" | null, frame: number, by: number[]}} Promised
 */

const WORDS = 65536; // how many numbers a word may be
/** @type {Promised} */
const NOTHING = { item: null, frame: 0, by: [] };
/** @type {Promised} */
const NEVER = { item: "own_words", frame: 0, by: [] };

/**
 * A promise as a row has it.
 * @param {Promised} promised
 */
export function promiseWords({ item, frame }) {
  if (item === "own_words") return "never";
  return item === null ? "-" : item === "out" ? `out by ${frame}` : `caught in ${frame}`;
}

/**
 * What is promised of each of a run's faults, which are of one unit or of two.
 * @param {Schedule} schedule
 * @param {Fault[]} faults
 */
export const promisesOf = (schedule, faults) => faults.map((fault) => promiseOf(schedule, fault, faults.filter((other) => other !== fault)));

/**
 * What is promised of a fault, beside others, of which at most one is there.
 * @param {Schedule} schedule
 * @param {Fault} fault
 * @param {Fault[]} others
 * @returns {Promised}
 */
function promiseOf(schedule, fault, others) {
  const earlier = others.filter((other) => other.begin <= fault.begin);
  // With another one in the configuration two of it are faulty.
  if (earlier.some((other) => other.begin === fault.begin || promiseOf(schedule, other, []).item !== "out")) return NOTHING;
  const members = schedule.units.filter((unit) => !earlier.some((other) => other.unit === unit));
  if (members.length - 1 < FEWEST) return NOTHING;
  // A later fault may cost the margin, and then nothing is promised any more.
  if (fault.slot.sort.endsWith("report")) return others.length > earlier.length ? NOTHING : NEVER;
  const by = catchers(schedule, fault, members);
  if (by.length === 0) return NOTHING;
  return by.length > 1 ? { item: "out", frame: fault.begin + 1, by } : { item: "caught", frame: fault.begin, by };
}

/**
 * The units of a configuration that catch the fault in its first frame for certain, where all of them work.
 * @param {Schedule} schedule
 * @param {Fault} fault
 * @param {number[]} members
 */
function catchers(schedule, fault, members) {
  return schedule.items(fault).flatMap(({ to, value }) => {
    const hearers = [...to].map(Number).filter((unit) => members.includes(unit));
    return hearers.filter((unit) => isLie(schedule, fault, members, unit, value));
  });
}

/**
 * Whether the hearer knows better for certain, where it hears this value, or nothing.
 * @param {Schedule} schedule
 * @param {Fault} fault
 * @param {number[]} members
 * @param {number} hearer
 * @param {number | undefined} value
 */
function isLie(schedule, { slot, unit, begin }, members, hearer, value) {
  switch (slot.sort) {
    case "clock":
      return value === undefined || isFar(schedule, hearer, value, begin);
    case "relay": {
      const { words } = schedule.outline.sensors[slot.index ?? 0];
      return hearer === members[(slot.index ?? 0) % members.length] && value !== words[begin % words.length];
    }
    case "out":
      return schedule.says(unit, slot, members) && (value === undefined || isOther(schedule, slot, members, value, begin));
    default:
      return false;
  }
}

/**
 * Whether a value is another word than the one that is voted, where that is the ideal machine's for certain.
 * @param {Schedule} schedule
 * @param {Slot} slot
 * @param {number[]} members
 * @param {number} value
 * @param {number} frame
 */
function isOther(schedule, slot, members, value, frame) {
  // The sizes of the configurations till then.
  const sizes = [...schedule.outline.held.keys()].filter((size) => size >= members.length);
  if (sizes.some((size) => schedule.outline.held.get(size)?.has(slot.index ?? 0))) return false;
  const place = schedule.outputs.findIndex(({ task, word }) => task === slot.index && word === slot.word);
  return value !== schedule.ideal[frame][place];
}

/**
 * Whether a clock's word is read farther off than the skew and the error for certain. The hearer's own clock is known in frame 0,
 * and changes by at most the skew, the error and the drift in a frame; its reading is wrong by at most the error.
 * @param {Schedule} schedule
 * @param {number} hearer
 * @param {number} value
 * @param {number} frame
 */
function isFar({ outline: { skew, error, rate, starts } }, hearer, value, frame) {
  const change = frame * (skew + error + rate);
  return nearest(value - starts[hearer] - change, value - starts[hearer] + change) > skew + 2 * error;
}

/**
 * How near to 0 the differences from low to high come, where words come round.
 * @param {number} low
 * @param {number} high
 */
function nearest(low, high) {
  if (Math.floor(high / WORDS) * WORDS >= low) return 0;
  /** @param {number} number */
  const round = (number) => ((number % WORDS) + WORDS) % WORDS;
  return Math.min(round(low), round(-high));
}

// What a run shows.

/**
 * Why a run isn't as promised: a sentence for each of its faults of which the traces show something else.
 * @param {Promised[]} promises
 * @param {Trace[]} traces
 */
export const contradictions = (promises, traces) => promises.flatMap((promised, place) => contradiction(promised, traces[place]));

/**
 * @param {Promised} promised
 * @param {Trace} trace
 */
function contradiction({ item, frame, by }, { caught, by: told, out }) {
  if (item === "own_words") return caught === null ? [] : [`promised is that nobody catches it, and it is caught in frame ${caught}`];
  if (item === null) return [];
  const first = item === "out" ? frame - 1 : frame;
  const missing = by.filter((unit) => caught !== first || !told.includes(unit)).sort();
  const late = item === "out" && (out === null || out > frame);
  return [
    ...(late ? [`promised is that it is out by frame ${frame}, and it ${shown(out, "is out in frame")}`] : []),
    ...(missing.length ? [`promised is that ${missing.join("")} catch it in frame ${first}, and it ${shown(caught, "is first caught in frame")}`] : []),
  ];
}

/**
 * What came of it, in words.
 * @param {number | null} frame
 * @param {string} what
 */
const shown = (frame, what) => (frame === null ? "isn't" : `${what} ${frame}`);

/**
 * What is promised of the faults of rows, in words, or nothing where nothing is.
 * @param {(string | null)[]} told of each fault of each row
 */
export function promisedLine(told) {
  /** @type {[string, string][]} */
  const items = [["out", "to be out in the next frame"], ["caught", "to be caught by one unit"], ["never", "to be caught by nobody"]];
  const parts = items.flatMap(([begin, what]) => {
    const count = told.filter((promise) => promise?.startsWith(begin)).length;
    return count ? [`${count.toLocaleString("en-US")} ${what}`] : [];
  });
  return parts.length ? [`promised: ${parts.join(", ")}; all else was only seen`] : [];
}
