/** The picture of a flight as a file of its own: SVG with its colours in it, those of light windows. */
import { drawn } from "./elements.js";
import { headlineOf } from "./events.js";
import { drawFlight, labels, patterns, rowsOf } from "./picture.js";

/** @typedef {import("./report.js").Flight} Flight */

const LEFT = 104;
const TOP = 44;
const WIDEST = 40; // of a frame
const NARROWEST = 3;
const ROOM = 1100; // that the frames of a flight get, where they have room in it

/**
 * The rules of the page's own style.
 * @returns {CSSStyleRule[]}
 */
function rules() {
  const all = [...document.styleSheets].flatMap((sheet) => [...sheet.cssRules]);
  return all.flatMap((rule) => (rule instanceof CSSStyleRule ? [rule] : []));
}

/** Those that are of drawings, with the colours of light windows. */
function styles() {
  const colours = rules().find((rule) => rule.selectorText === ":root")?.style;
  const drawings = rules().filter((rule) => rule.selectorText.split(",").every((selector) => selector.trim().startsWith("svg ")));
  const text = drawings.map((rule) => rule.cssText).join("\n");
  return text.replaceAll(/var\((--[a-z-]+)\)/g, (_, name) => colours?.getPropertyValue(name).trim() ?? "");
}

/**
 * A flight as the text of a picture.
 * @param {Flight} flight
 * @param {string} name
 */
export function pictureFile(flight, name) {
  const cell = Math.min(WIDEST, Math.max(NARROWEST, ROOM / flight.frames.length));
  const width = LEFT + cell * flight.frames.length + 16;
  const height = TOP + rowsOf(flight.units).height + 16;
  const picture = drawn(
    "svg",
    { width, height, viewBox: `0 0 ${width} ${height}`, "font-family": "DejaVu Sans, Verdana, sans-serif" },
    drawn("title", {}, `${name}: ${headlineOf(flight)}`),
    drawn("style", {}, styles()),
    drawn("rect", { width, height, fill: "white" }),
    patterns(),
    drawn("text", { x: 12, y: 24 }, `${name}: ${headlineOf(flight)}`),
    drawn("g", { transform: `translate(0 ${TOP})` }, ...labels(flight)),
    drawn("g", { transform: `translate(${LEFT} ${TOP})` }, ...drawFlight(flight, { first: 0, last: flight.frames.length - 1, cell })),
  );
  // Roles and names are of the page's own grid, which the picture isn't.
  for (const each of picture.querySelectorAll("[role]")) {
    const names = each.getAttributeNames().filter((attribute) => /^(role|id|aria-.*)$/.test(attribute));
    for (const attribute of names) each.removeAttribute(attribute);
  }
  return `${new XMLSerializer().serializeToString(picture)}\n`;
}
