/** The runs of a campaign as a table: slots by units, for each way of lying, and what became of the worst run of each. */
import { KINDS } from "./slots.js";
import { counted } from "./rows.js";

/** @typedef {import("./rows.js").Row} Row */

/**
 * What can become of a fault: its letter, or null where the frames to removal stand for it, and what it is. From the mildest to
 * the worst.
 * @typedef {"inert" | "out" | "outvoted" | "caught by one" | "believed" | "margin lost"} Look
 * @type {Record<Look, [string | null, string]>}
 */
export const LOOKS = {
  inert: [".", "inert: its unit never says the slot while it is in the configuration"],
  out: [null, "out: the number is how many frames that took at most"],
  outvoted: ["n", "never caught, and no output was lost: outvoted, or of no effect"],
  "caught by one": ["c", "caught, and stays: one catcher isn't enough"],
  believed: ["b", "never caught, and an output was lost: believed"],
  "margin lost": ["L", "margin lost"],
};
const WORST = /** @type {Look[]} */ (Object.keys(LOOKS));

/**
 * What became of a fault in a run. Its partner's end isn't its own.
 * @param {Row} row
 * @param {number} place of the fault in the run
 * @returns {Look}
 */
function lookIn(row, place) {
  const { fate } = row.told[place];
  if (row.lost) return "margin lost";
  if (fate === "never caught") return row.wrong > 0 ? "believed" : "outvoted";
  return fate;
}

/**
 * What the worst run has the greatest of: a lost output, what became of it, how long it lasts, and wrong words.
 * @param {Row} row
 * @param {number} place
 */
function badnessOf(row, place) {
  const said = row.told[place].fate !== "inert";
  return [said && row.wrong > 0 ? 1 : 0, WORST.indexOf(lookIn(row, place)), row.told[place].lasting, row.wrong];
}

/**
 * Which of two lists of numbers is the greater, by the first that differ: above 0 where the first list is.
 * @param {number[]} one
 * @param {number[]} other
 */
function compared(one, other) {
  const place = one.findIndex((number, at) => number !== other[at]);
  return place < 0 ? 0 : one[place] > other[place] ? 1 : -1;
}

/** The worst of the runs in which a unit says a slot wrong in one way. */
export class Cell {
  /**
   * @param {Row} row its first run
   * @param {number} place of the fault in it
   */
  constructor(row, place) {
    this.row = row;
    this.badness = badnessOf(row, place);
    this.look = lookIn(row, place);
    this.removal = row.told[place].removal; // the most frames to removal
    this.wrong = this.badness[0] === 1; // whether an output was lost in a run in which the slot was said
    this.promised = /^(out|never)/.test(row.told[place].promised ?? ""); // out in the next frame, or never caught, in each run
  }

  /**
   * The worst of two.
   * @param {Cell} other
   */
  with(other) {
    const worst = compared(other.badness, this.badness) > 0 ? other : this;
    const removals = [this.removal, other.removal].flatMap((removal) => (removal === null ? [] : [removal]));
    const both = { removal: removals.length ? Math.max(...removals) : null, wrong: this.wrong || other.wrong, promised: this.promised && other.promised };
    return Object.assign(Object.create(Cell.prototype), worst, both);
  }

  /** What stands in it: a ! behind it tells that it is promised, and a * that an output was lost. */
  get mark() {
    return (LOOKS[this.look][0] ?? String(this.removal)) + (this.promised ? "!" : "") + (this.wrong ? "*" : "");
  }

  /** What became of it, in words. */
  get words() {
    const after = this.look === "out" ? ` after ${counted(this.removal ?? 0, "frame", "frames")}` : "";
    return `${this.look}${after} (${this.promised ? "promised" : "only seen"}), ${counted(this.row.wrong, "wrong word", "wrong words")} in the run, row ${this.row.number}`;
  }
}

/** The cells of a campaign. Its slots come as they are ordered. */
export class Table {
  /**
   * @param {Row[]} rows
   * @param {string[]} ordered the names of all slots
   */
  constructor(rows, ordered) {
    /** @type {Map<string, Cell>} */
    this.cells = new Map();
    for (const row of rows) {
      for (const [place, { slot, kind, unit }] of row.told.entries()) {
        const key = `${slot}\t${kind}\t${unit}`;
        const before = this.cells.get(key);
        const cell = new Cell(row, place);
        this.cells.set(key, before ? before.with(cell) : cell);
      }
    }
    const told = rows.flatMap((row) => row.told);
    this.slots = ordered.filter((slot) => told.some((each) => each.slot === slot));
    this.kinds = KINDS.filter((kind) => told.some((each) => each.kind === kind));
    this.units = Array.from({ length: Math.max(-1, ...told.map(({ unit }) => unit)) + 1 }, (_, unit) => unit);
  }

  /**
   * The cell of a slot, a way and a unit.
   * @param {string} slot
   * @param {string} kind
   * @param {number} unit
   */
  at(slot, kind, unit) {
    return this.cells.get(`${slot}\t${kind}\t${unit}`);
  }

  /** Which ends stand in it, from the worst on. */
  get looks() {
    const seen = new Set([...this.cells.values()].map(({ look }) => look));
    return [...WORST].reverse().filter((look) => seen.has(look));
  }
}

/**
 * What a change of the mission did to a cell: it is better, worse, the same, or only there before or after.
 * @typedef {"better" | "worse" | "same" | "new" | "gone"} Change
 */

/**
 * @param {Cell | undefined} before
 * @param {Cell | undefined} after
 * @returns {Change | null}
 */
export function changeOf(before, after) {
  if (!before || !after) return before ? "gone" : after ? "new" : null;
  const order = compared([...after.badness], [...before.badness]);
  if (order === 0 && before.mark === after.mark) return "same";
  return order > 0 ? "worse" : "better";
}

/**
 * Two campaigns, cell by cell.
 * @param {Table} before
 * @param {Table} after
 */
export function changesOf(before, after) {
  /** @type {Record<Change, number>} */
  const count = { better: 0, worse: 0, same: 0, new: 0, gone: 0 };
  for (const key of new Set([...before.cells.keys(), ...after.cells.keys()])) {
    const change = changeOf(before.cells.get(key), after.cells.get(key));
    if (change) count[change] += 1;
  }
  return count;
}
