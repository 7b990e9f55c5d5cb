/** The table of a campaign: slots by units, for each way of lying, each cell a link to the flight of its worst run. */
import { LOOKS, changeOf } from "./cells.js";
import { element } from "./elements.js";
import { heads, tableRow } from "./parts.js";
import { KINDS } from "./slots.js";

/** @typedef {import("./cells.js").Cell} Cell */
/** @typedef {import("./cells.js").Look} Look */
/** @typedef {import("./cells.js").Table} Table */

/**
 * What a cell's link does: `open` shows the flight of a row, and `point` gives the link its address, where one comes to it. An
 * address has a whole document in it, so that not all cells have theirs at once.
 * @typedef {{open: (row: number, event: MouseEvent) => void, point: (row: number, link: HTMLAnchorElement) => void}} Links
 */

/**
 * The signs of changes, which no colour is needed to tell apart.
 * @type {Record<import("./cells.js").Change, [string, string]>}
 */
export const CHANGES = {
  better: ["▼", "better"],
  worse: ["▲", "worse"],
  same: ["", "as before"],
  new: ["+", "only here"],
  gone: ["−", "only before"],
};

const PROMISED = "promised: out in the next frame, or never caught; all else was only seen";
const LOST = "an output was lost: a unit voted another word than the ideal machine";

/** @param {Look} look */
const classOf = (look) => `end-${look.replaceAll(" ", "-")}`;

/**
 * The mark of a cell, which opens its flight.
 * @param {Cell} cell
 * @param {string} words
 * @param {Links} links
 */
function linkOf({ row: { number }, mark }, words, { open, point }) {
  const onclick = (/** @type {MouseEvent} */ event) => open(number, event);
  const link = element("a", { href: "#campaign", "aria-label": words, title: words, onclick }, mark);
  for (const coming of ["pointerenter", "focus"]) link.addEventListener(coming, () => point(number, link), { once: true });
  return link;
}

/**
 * A cell: its mark, which opens its flight; and before it, where campaigns are compared and it differs, the mark of before.
 * @param {string} where in words
 * @param {Cell | undefined} cell
 * @param {Cell | undefined} before
 * @param {boolean} compares
 * @param {Links} links
 */
function cellOf(where, cell, before, compares, links) {
  const change = compares ? changeOf(before, cell) : null;
  if (!cell && !before) return element("td", {});
  const [sign, told] = change ? CHANGES[change] : ["", ""];
  const earlier = change && change !== "same" && before ? element("span", { class: "before" }, `${before.mark} →`) : null;
  if (!cell) return element("td", { class: "gone" }, earlier, sign);
  const words = `${where}: ${cell.words}${told ? `; ${told}` : ""}`;
  const link = linkOf(cell, words, links);
  const shown = sign ? element("span", { class: "change-sign", "aria-hidden": "true" }, ` ${sign}`) : null;
  return element("td", { class: [classOf(cell.look), cell.wrong && "wrong", change].filter(Boolean).join(" ") }, earlier, link, shown);
}

/**
 * The tables of all ways of lying.
 * @param {Table} table
 * @param {Table | null} before what it is compared with
 * @param {Links} links
 */
export function tablesOf(table, before, links) {
  const slots = [...table.slots, ...(before?.slots.filter((slot) => !table.slots.includes(slot)) ?? [])];
  const kinds = KINDS.filter((kind) => table.kinds.includes(kind) || before?.kinds.includes(kind));
  const units = before && before.units.length > table.units.length ? before.units : table.units;
  /**
   * @param {string} slot
   * @param {string} kind
   * @param {number} unit
   */
  const cell = (slot, kind, unit) =>
    cellOf(`unit ${unit}, ${slot}, ${kind}`, table.at(slot, kind, unit), before?.at(slot, kind, unit), before !== null, links);
  return kinds.map((kind) =>
    element(
      "div",
      { class: "scroll" },
      element(
        "table",
        { class: `campaign${before ? " compared" : ""}` },
        element("caption", {}, kind),
        heads(["unit", ...units]),
        element("tbody", {}, ...slots.map((slot) => tableRow(slot, units.map((unit) => cell(slot, kind, unit))))),
      ),
    ),
  );
}

/**
 * What the marks mean that stand in a table.
 * @param {Table} table
 * @param {boolean} compares
 */
export function keyOf(table, compares) {
  const changes = compares ? [CHANGES.better, CHANGES.worse, CHANGES.new, CHANGES.gone] : [];
  const wrong = [...table.cells.values()].some((cell) => cell.wrong);
  const promised = [...table.cells.values()].some((cell) => cell.promised);
  return element(
    "ul",
    { class: "key campaign-key", "aria-label": "What the marks mean" },
    ...table.looks.map((look) => element("li", {}, element("span", { class: `swatch ${classOf(look)}` }, LOOKS[look][0] ?? "1"), LOOKS[look][1])),
    promised && element("li", {}, element("span", { class: "swatch" }, "!"), PROMISED),
    wrong && element("li", {}, element("span", { class: "swatch wrong" }, "*"), LOST),
    ...changes.map(([sign, words]) => element("li", {}, element("span", { class: "swatch" }, sign), words)),
  );
}
