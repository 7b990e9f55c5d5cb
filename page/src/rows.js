/** The rows of runs.tsv: what came of each run, as it is written, and as it is read back. */
import { faultName } from "./faults.js";
import { promiseWords } from "./promised.js";

/** @typedef {import("./faults.js").Fault} Fault */
/** @typedef {import("./outcomes.js").Outcome} Outcome */
/** @typedef {import("./promised.js").Promised} Promised */

export const COLUMNS = ["row", "fault", "said", "caught", "by", "out", "margin", "wrong", "first", "words", "judge", "last", "promised"];
const BEFORE = COLUMNS.slice(0, -1); // those of an earlier tool

/**
 * What can become of a unit that goes wrong, and of a run, from the mildest to the worst.
 * @typedef {"inert" | "out" | "caught by one" | "never caught" | "margin lost"} Fate
 * @type {Fate[]}
 */
export const FATES = ["inert", "out", "caught by one", "never caught", "margin lost"];

const FAULT = /^unit ([0-7]) (.+) (wrong|silence|two-faces) from (\d+)$/;

/** Why a text is no table of runs. */
export class NoRows extends Error {}

/** @param {number | null} value */
const cell = (value) => (value === null ? "-" : String(value));

/**
 * The row of a run. What is told of two faults stands side by side, with a + between.
 * @param {number} number
 * @param {Fault[]} faults
 * @param {Outcome} outcome
 * @param {string} verdict
 * @param {Promised[]} promises
 */
export function rowOf(number, faults, outcome, verdict, promises) {
  const { traces } = outcome;
  return [
    String(number),
    faults.map(faultName).join(" + "),
    traces.map(({ said }) => (said ? "said" : "inert")).join("+"),
    traces.map(({ caught }) => cell(caught)).join("+"),
    traces.map(({ by }) => by.join("") || "-").join("+"),
    traces.map(({ out }) => cell(out)).join("+"),
    outcome.margin ? "ok" : "lost",
    String(outcome.wrong),
    cell(outcome.first),
    outcome.words.join(",") || "-",
    verdict,
    outcome.last,
    promises.map(promiseWords).join("+"),
  ].join("\t");
}

/** What became of one of a run's faults: the removal is how many frames it took until its unit was out, or null. */
export class Told {
  /**
   * @param {string} fault
   * @param {string} said
   * @param {string} caught
   * @param {string} out
   * @param {string} promised
   */
  constructor(fault, said, caught, out, promised) {
    const found = FAULT.exec(fault);
    if (!found) throw new NoRows(fault);
    this.unit = Number(found[1]);
    this.slot = found[2];
    this.kind = found[3];
    this.begin = Number(found[4]);
    this.promised = promised === "-" ? null : promised;
    this.removal = out === "-" ? null : Math.max(0, Number(out) - this.begin);
    /** @type {Fate} */
    this.fate = said === "inert" ? "inert" : out !== "-" ? "out" : caught === "-" ? "never caught" : "caught by one";
    // The frames until the unit is out: 0 where the fault is inert, and without an end where it stays.
    this.lasting = this.fate === "inert" ? 0 : (this.removal ?? Infinity);
  }
}

/** A row that was read back. */
export class Row {
  /** @param {string} line */
  constructor(line) {
    const cells = line.split("\t");
    if (cells.length !== COLUMNS.length && cells.length !== BEFORE.length) throw new NoRows(line);
    const [number, fault, said, caught, , out, margin, wrong, , , judge, , promised] = cells;
    this.line = line;
    this.number = Number(number);
    const parts = [said, caught, out, promised].map((cell) => cell?.split("+") ?? []);
    this.told = fault.split(" + ").map((each, place) => {
      const [one, two, three, four] = parts.map((part) => part[place] ?? "-");
      return new Told(each, one, two, three, four);
    });
    this.lost = margin === "lost";
    this.wrong = Number(wrong);
    this.judge = judge;
  }

  /** What became of the run: of its faults the worst, and where the margin is lost, that. @returns {Fate} */
  get fate() {
    const worst = Math.max(...this.told.map(({ fate }) => FATES.indexOf(fate)));
    return this.lost ? "margin lost" : FATES[worst];
  }
}

/**
 * The table of runs, as a file has it.
 * @param {Row[]} rows
 */
export const tableOf = (rows) => [COLUMNS.join("\t"), ...rows.map((row) => row.line)].map((line) => `${line}\n`).join("");

/**
 * The rows of a table of runs.
 * @param {string} text
 * @returns {Row[]}
 */
export function rowsOf(text) {
  const lines = text.replaceAll("\r\n", "\n").replace(/\n$/, "").split("\n");
  if (![COLUMNS, BEFORE].some((columns) => lines[0] === columns.join("\t"))) throw new NoRows("line 1: the names of the columns are due");
  return lines.slice(1).map((line, place) => {
    try {
      return new Row(line);
    } catch {
      throw new NoRows(`line ${place + 2}: it isn't a run's`);
    }
  });
}

/**
 * A number of things.
 * @param {number} number
 * @param {string} one
 * @param {string} many
 */
export const counted = (number, one, many) => `${number.toLocaleString("en-US")} ${number === 1 ? one : many}`;

/**
 * What rows come to, in a line for single faults and one for pairs.
 * @param {Row[]} rows
 */
export function headlinesOf(rows) {
  const sizes = /** @type {[number, string][]} */ ([[1, "a single fault"], [2, "a pair of faults"]]);
  return sizes.flatMap(([size, name]) => {
    const some = rows.filter((row) => row.told.length === size);
    const outputs = some.filter((row) => row.wrong > 0).length.toLocaleString("en-US");
    const margins = some.filter((row) => row.lost).length.toLocaleString("en-US");
    const lost = `an output was lost in ${outputs}, the margin in ${margins}`;
    return some.length === 0 ? [] : [`${counted(some.length, "run", "runs")} with ${name}: ${lost}`];
  });
}
