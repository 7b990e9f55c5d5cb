/** What a fault says, in words. */

/** @typedef {import("./edits.js").StatedFault} StatedFault */
/** @typedef {import("./faults.js").Item} Item */
/** @typedef {import("./outline.js").Outline} Outline */

/**
 * The name of a slot, as campaigns have it.
 * @param {Item} item
 * @param {Outline | null} outline
 */
export function slotOf({ slot, index, word }, outline) {
  if (index === undefined) return slot;
  const named = slot === "out" ? outline?.tasks[index] : slot === "relay-report" ? undefined : outline?.sensors[index];
  const name = named?.name ?? String(index);
  return slot === "out" ? `out ${name}.${word}` : `${slot} ${name}`;
}

/**
 * The units that a report's word names.
 * @param {number} mask
 */
const accused = (mask) => [0, 1, 2, 3, 4, 5, 6, 7].filter((unit) => (mask >> unit) & 1).join("") || "nobody";

/**
 * What an item says.
 * @param {Item} item
 * @param {Outline | null} outline
 */
export function itemWords(item, outline) {
  const slot = slotOf(item, outline);
  const said = item.value === undefined ? "nothing" : String(item.value);
  const named = item.slot.endsWith("report") && item.value !== undefined ? `, that it caught ${accused(item.value)},` : "";
  const when = item.frame === undefined ? "in every frame" : `in frame ${item.frame}`;
  return `${when} it says ${said}${named} as ${slot} to ${[...item.to].join(" ")}`;
}

/** @param {import("./edits.js").Storm} storm */
export const stormWords = ({ number, strays }) => `It turns stray: ${strays.toLocaleString("en-US")} strays, drawn from the number ${number}.`;

/** @param {StatedFault} fault */
export const beginsWords = ({ unit, from }) => `unit ${unit} is faulty from frame ${from} on`;
