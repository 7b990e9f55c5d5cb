/** Where in a document a refusal comes from, and what the pages say of it. */
import { valueOf } from "./data.js";
import { placeOfRule, placeOfScript, placeOfTable, placeOfText } from "./refusal-places.js";
import { NotADocument, readDocument } from "./toml.js";

/**
 * A refusal, and its place in the text where it has one.
 * @typedef {object} Shown
 * @property {string} line what the program wrote
 * @property {{start: number, end: number} | null} place
 * @property {string} why
 * @property {string} mend
 */

const NO_MEMORY = 10;
const LONGEST = 1048576;
const FORM = /^(?:(scenario) rule (\d+) at (\d+)|(task) (\d+) kind (\d+) at (\d+)|(table) (\d+) row (\d+) rule (\d+)|(script) entry (\d+) rule (\d+))$/;
/**
 * The sentence of a rule, and what to do, as the pages have them.
 * @param {string} sort
 * @param {number} rule
 */
function told(sort, rule) {
  const [why, mend] = valueOf("refusals")[sort][rule - 1];
  return { why, mend };
}

/**
 * Where a refused document breaks a rule, and what the pages say of it.
 * @param {string} text
 * @param {string} line
 * @returns {Omit<Shown, "line"> | null} null where the line is of no rule
 */
function broken(text, line) {
  const found = FORM.exec(line);
  if (!found) return null;
  const { root } = readDocument(text);
  const [, scenario, rule, at, task, number, kind, byte, table, size, place, row, , fault, last] = found;
  if (scenario) return { place: spot(placeOfRule(root, Number(rule), Number(at))), ...told("scenario", Number(rule)) };
  if (task) return { place: spot(placeOfText(root, Number(number), Number(kind), Number(byte))), ...told("task", Number(kind)) };
  if (table) return { place: spot(placeOfTable(root, Number(size), Number(place), Number(row))), ...told("table", Number(row)) };
  return { place: spot(placeOfScript(root, Number(fault), Number(last))), ...told("script", Number(last)) };
}

/**
 * Where a text is no document.
 * @param {string} text
 * @returns {Omit<Shown, "line">}
 */
function noDocument(text) {
  try {
    readDocument(text);
  } catch (why) {
    if (why instanceof NotADocument) return { place: { start: why.place, end: why.end }, why: why.why, mend: why.mend };
    throw why;
  }
  return { place: null, why: "it isn't TOML as the program reads it", mend: "" };
}

/**
 * What there is to say of a refusal.
 * @param {string} text the document
 * @param {import("./program.js").Reply} refusal
 * @returns {Shown}
 */
export function shownRefusal(text, { status, text: written }) {
  const line = written.trimEnd();
  if (status === NO_MEMORY) return { line: "no memory", place: null, why: "there wasn't enough memory for this flight", mend: "fewer frames, or another browser window less" };
  if (line === "not a document") return { line, ...noDocument(text) };
  if (line === "too long") {
    return { line, place: { start: Math.min(LONGEST, text.length), end: text.length }, why: `a document has at most ${LONGEST} bytes`, mend: "see that the right file is read; shorten its comments" };
  }
  return { line, ...(broken(text, line) ?? { place: null, why: "", mend: "" }) };
}

/**
 * @param {{start: number, end: number}} place
 */
const spot = ({ start, end }) => ({ start, end });
