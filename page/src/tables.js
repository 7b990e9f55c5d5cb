/** The document with other schedules. */
import { changed, commentStart, lineEnd, lineStart, linesOf, withoutAll, withoutLines } from "./edits.js";
import { readDocument } from "./toml.js";

/** @typedef {import("./toml.js").Value} Value */

/**
 * The document without its tables.
 * @param {string} text
 */
function withoutTables(text) {
  const entry = readDocument(text).root.data.get("table");
  if (!entry) return text;
  if (entry.value.origin === "header") return withoutAll(text, entry.value.data.map((/** @type {Value} */ table) => linesOf(text, table)));
  return withoutLines(text, { start: commentStart(text, lineStart(text, entry.start)), end: lineEnd(text, entry.value.end) });
}

/**
 * The document with so many subframes.
 * @param {string} text
 * @param {number} subframes
 */
function withSubframes(text, subframes) {
  const { root } = readDocument(text);
  const entry = root.data.get("subframes");
  if (entry) return changed(text, [{ start: entry.value.start, end: entry.value.end, text: String(subframes) }]);
  const place = lineEnd(text, root.data.get("frames").value.end);
  return changed(text, [{ start: place, end: place, text: `subframes = ${subframes}\n` }]);
}

/**
 * The document with other tables in place of its own, for frames of so many subframes.
 * @param {string} text
 * @param {string} tables as the program writes them
 * @param {number} subframes
 */
export function withTables(text, tables, subframes) {
  const rest = withSubframes(withoutTables(text), subframes);
  return `${rest.trimEnd()}\n\n${tables.trimEnd()}\n`;
}
