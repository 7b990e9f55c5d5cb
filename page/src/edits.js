/** Edits of a document's faults, which leave all else of its text, and its comments, as they are. */
import { get, readDocument } from "./toml.js";

/** @typedef {import("./toml.js").Value} Value */
/** @typedef {import("./faults.js").Item} Item */

/**
 * A fault as a document states it: what a unit says from a frame on, or that it turns stray.
 * @typedef {{unit: number, from: number, say?: Item[], storm?: Storm}} StatedFault
 * @typedef {{number: number, strays: number}} Storm
 *
 * A stretch of the text, from `start` up to `end`, and what comes in its place.
 * @typedef {{start: number, end: number, text: string}} Change
 */

// How faults are written.

/** @param {Item | Storm} table */
const pairs = (table) => Object.entries(table).map(([key, value]) => `${key} = ${typeof value === "string" ? `"${value}"` : value}`);

/** @param {Item} item */
const itemBlock = (item) => ["", "[[fault.say]]", ...pairs(item)];

/** @param {Item | Storm} table */
const inline = (table) => `{${pairs(table).join(", ")}}`;

/** @param {StatedFault} fault */
function faultBlock({ unit, from, say, storm }) {
  const what = storm ? ["", "[fault.storm]", ...pairs(storm)] : (say ?? []).flatMap(itemBlock);
  return ["", "[[fault]]", `unit = ${unit}`, `from = ${from}`, ...what];
}

/** @param {StatedFault} fault */
function inlineFault({ unit, from, say, storm }) {
  const what = storm ? `storm = ${inline(storm)}` : `say = [${(say ?? []).map(inline).join(", ")}]`;
  return `{unit = ${unit}, from = ${from}, ${what}}`;
}

// Where faults stand in a text.

/**
 * Of a table that a header begins the place behind its last value, without the tables of headers below it.
 * @param {Value} table
 * @returns {number}
 */
function contentEnd(table) {
  const own = /** @type {Value[]} */ ([...table.data.values()].map(({ value }) => value)).filter((value) => value.origin !== "header");
  return Math.max(table.end, ...own.map((value) => (value.kind === "table" && value.origin !== "value" ? contentEnd(value) : value.end)));
}

/**
 * Where the line of a place begins.
 * @param {string} text
 * @param {number} place
 */
export const lineStart = (text, place) => text.lastIndexOf("\n", place - 1) + 1;

/**
 * Where the line of a place ends, behind its line feed.
 * @param {string} text
 * @param {number} place
 */
export function lineEnd(text, place) {
  const end = text.indexOf("\n", place);
  return end < 0 ? text.length : end + 1;
}

/**
 * Where the comment begins that stands directly above a line; one at the beginning of the document isn't the line's own.
 * @param {string} text
 * @param {number} start of the line
 */
export function commentStart(text, start) {
  let place = start;
  while (place > 0 && /^[ \t]*#/.test(text.slice(lineStart(text, place - 1), place))) place = lineStart(text, place - 1);
  return place === 0 ? start : place;
}

/**
 * The lines of a table that a header begins, with the comment above it.
 * @param {string} text
 * @param {Value} table
 */
export const linesOf = (text, table) => ({ start: commentStart(text, lineStart(text, table.start)), end: lineEnd(text, contentEnd(table)) });

/**
 * @param {Value} root
 * @returns {Value[]}
 */
const faultsOf = (root) => get(root, "fault")?.data ?? [];

/**
 * The fault of a unit, or undefined.
 * @param {Value} root
 * @param {number} unit
 */
const faultOf = (root, unit) => faultsOf(root).find((fault) => get(fault, "unit")?.data === unit);

/**
 * The tables below a fault that headers begin.
 * @param {Value} fault
 */
function partsOf(fault) {
  const storm = get(fault, "storm");
  return [...(get(fault, "say")?.data ?? []), ...(storm ? [storm] : [])].filter((part) => part.origin === "header");
}

// Small edits.

/**
 * The text with changes, which don't overlap.
 * @param {string} text
 * @param {Change[]} changes
 */
export function changed(text, changes) {
  return [...changes]
    .sort((one, other) => other.start - one.start)
    .reduce((whole, { start, end, text: put }) => whole.slice(0, start) + put + whole.slice(end), text);
}

/**
 * The text without some of its lines; where they stood between blank lines one of these goes too.
 * @param {string} text
 * @param {{start: number, end: number}} lines
 */
export function withoutLines(text, { start, end }) {
  const before = text.slice(0, start);
  const after = text.slice(end);
  if (after.trim() === "") return before.replace(/(\r?\n)(?:[ \t]*\r?\n)+$/, "$1");
  const blankBefore = before === "" || /(^|\n)[ \t]*\r?\n$/.test(before);
  return before + (blankBefore ? after.replace(/^(?:[ \t]*\r?\n)+/, "") : after);
}

/**
 * The text without several stretches of lines.
 * @param {string} text
 * @param {{start: number, end: number}[]} stretches
 */
export const withoutAll = (text, stretches) => [...stretches].sort((one, other) => other.start - one.start).reduce(withoutLines, text);

/**
 * The text with lines put in at the beginning of a line, with the line ends that the text has.
 * @param {string} text
 * @param {number} place
 * @param {string[]} lines
 */
function withLines(text, place, lines) {
  const newLine = text.includes("\r\n") ? "\r\n" : "\n";
  const before = text.slice(0, place);
  const open = before !== "" && !before.endsWith("\n") ? newLine : "";
  return before + open + lines.map((line) => line + newLine).join("") + text.slice(place);
}

/**
 * The text without a value of an array, and without the key of that array where it was the last one.
 * @param {string} text
 * @param {Value} array
 * @param {Value} value
 * @param {number} key where the key begins
 */
function withoutValue(text, array, value, key) {
  const place = array.data.indexOf(value);
  if (array.data.length === 1) return withoutLines(text, { start: lineStart(text, key), end: lineEnd(text, array.end) });
  const [before, after] = [array.data[place - 1], array.data[place + 1]];
  const cut = after ? { start: value.start, end: after.start } : { start: before.end, end: value.end };
  return changed(text, [{ ...cut, text: "" }]);
}

/**
 * The text with a value put before all others of an array that stands in brackets.
 * @param {string} text
 * @param {Value} array
 * @param {string} value
 */
function withFirst(text, array, value) {
  const behind = array.start + 1;
  const indent = /^[ \t]*(\r?\n[ \t]*)/.exec(text.slice(behind))?.[1];
  const put = indent === undefined ? `${value}, ` : `${indent}${value},`;
  return changed(text, [{ start: behind, end: behind, text: put }]);
}

// What is edited.

/**
 * The document without its faults.
 * @param {string} text
 */
export function withoutFaults(text) {
  const root = readDocument(text).root;
  const entry = root.data.get("fault");
  if (!entry) return text;
  if (entry.value.origin !== "header") {
    return withoutLines(text, { start: commentStart(text, lineStart(text, entry.start)), end: lineEnd(text, entry.value.end) });
  }
  const tables = faultsOf(root).flatMap((fault) => [fault, ...partsOf(fault)]);
  return withoutAll(text, tables.map((table) => linesOf(text, table)));
}

/**
 * The document without the fault of a unit.
 * @param {string} text
 * @param {number} unit
 */
export function withoutFault(text, unit) {
  const root = readDocument(text).root;
  const entry = root.data.get("fault");
  const fault = faultOf(root, unit);
  if (!fault) return text;
  if (fault.origin !== "header") return withoutValue(text, entry.value, fault, entry.start);
  return withoutAll(text, [fault, ...partsOf(fault)].map((table) => linesOf(text, table)));
}

/**
 * The document with one fault more, of a unit that has none.
 * @param {string} text
 * @param {StatedFault} fault
 */
export function withFault(text, fault) {
  const faults = get(readDocument(text).root, "fault");
  if (!faults || faults.origin === "header") return withLines(text, text.length, faultBlock(fault));
  const last = faults.data.at(-1);
  const place = last ? last.end : faults.start + 1;
  return changed(text, [{ start: place, end: place, text: (last ? ", " : "") + inlineFault(fault) }]);
}

/**
 * The document with faults behind all that it has, for one that has none.
 * @param {string} text
 * @param {StatedFault[]} faults
 */
export const withFaults = (text, faults) => faults.reduce(withFault, text);

/**
 * The document in which a unit also says an item, before all others that it has: of several that fit a word the first counts.
 * Its fault begins at the given frame, or earlier where it does so already. A unit that turns stray says the item in place of
 * that.
 * @param {string} text
 * @param {number} unit
 * @param {number} from
 * @param {Item} item
 */
export function withItem(text, unit, from, item) {
  const fault = faultOf(readDocument(text).root, unit);
  const say = fault && get(fault, "say");
  if (!fault || !say) return withFault(withoutFault(text, unit), { unit, from, say: [item] });
  const begun = get(fault, "from");
  const put = say.origin === "header" ? withLines(text, lineEnd(text, contentEnd(fault)), itemBlock(item)) : withFirst(text, say, inline(item));
  // The beginning stands before or behind what was put in, so it is looked up anew.
  if (!begun || begun.data <= from) return put;
  const { start, end } = /** @type {Value} */ (get(/** @type {Value} */ (faultOf(readDocument(put).root, unit)), "from"));
  return changed(put, [{ start, end, text: String(from) }]);
}

/**
 * The document in which a unit turns stray, in place of what else is wrong with it.
 * @param {string} text
 * @param {number} unit
 * @param {number} from
 * @param {Storm} storm
 */
export const withStorm = (text, unit, from, storm) => withFault(withoutFault(text, unit), { unit, from, storm });

/**
 * The document without one of the items that a unit says, and without its fault where that was the last.
 * @param {string} text
 * @param {number} unit
 * @param {number} place of the item, from 0
 */
export function withoutItem(text, unit, place) {
  const fault = faultOf(readDocument(text).root, unit);
  const say = fault && get(fault, "say");
  if (!fault || !say || say.data.length < 2) return withoutFault(text, unit);
  const item = say.data[place];
  return say.origin === "header" ? withoutLines(text, linesOf(text, item)) : withoutValue(text, say, item, 0);
}

/**
 * The faults that a document states.
 * @param {string} text
 * @returns {StatedFault[]}
 */
export function statedFaults(text) {
  /** @param {Value} table */
  const plain = (table) => Object.fromEntries([...table.data].map(([key, { value }]) => [key, value.data]));
  return faultsOf(readDocument(text).root).map((fault) => {
    const storm = get(fault, "storm");
    const stated = { unit: get(fault, "unit")?.data, from: get(fault, "from")?.data };
    return storm ? { ...stated, storm: plain(storm) } : { ...stated, say: (get(fault, "say")?.data ?? []).map(plain) };
  });
}
