/** Small parts of panels. */
import { element } from "./elements.js";

/** @typedef {import("./elements.js").Child} Child */

/**
 * A button that does something.
 * @param {string} words
 * @param {() => void} onclick
 * @param {Record<string, unknown>} given
 */
export const button = (words, onclick, given = {}) => element("button", { type: "button", onclick, ...given }, words);

/** @param {...Child} children */
export const label = (...children) => element("label", {}, ...children);

/**
 * Things side by side.
 * @param {...Child} children
 */
export const row = (...children) => element("div", { class: "row" }, ...children);

/**
 * What is said beside.
 * @param {...Child} children
 */
export const note = (...children) => element("p", { class: "more" }, ...children);

/**
 * A choice of a list.
 * @param {string | number} value
 * @param {string | number} words
 * @param {boolean} selected
 */
export const option = (value, words, selected = false) => element("option", { value, selected }, words);

/**
 * The names of a table's columns.
 * @param {(string | number)[]} names
 */
export const heads = (names) => element("thead", {}, element("tr", {}, ...names.map((name) => element("th", { scope: "col" }, name))));

/**
 * A row of a table, with its name before it.
 * @param {string | number} name
 * @param {HTMLTableCellElement[]} cells
 */
export const tableRow = (name, cells) => element("tr", {}, element("th", { scope: "row" }, name), ...cells);
