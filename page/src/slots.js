/** Which words are said in a configuration, and by whom: the slots of docs/faults.md. A configuration is its units, ascending. */

/** @typedef {"clock" | "sense" | "relay" | "out" | "report" | "relay-report"} Sort */

export const FEWEST = 4; // units of a configuration
export const KINDS = /** @type {const} */ (["wrong", "silence", "two-faces"]); // ways of saying a word that isn't the right one

/** @typedef {typeof KINDS[number]} Kind */

/**
 * All that may be left of a configuration, itself included.
 * @param {number[]} units
 * @returns {number[][]}
 */
export function configurationsOf(units) {
  const subsets = Array.from({ length: 1 << units.length }, (_, bits) => units.filter((_, place) => (bits >> place) & 1));
  return subsets.filter((left) => left.length >= FEWEST);
}

/**
 * The units of a configuration that say a slot's word.
 * @param {(size: number) => number[][]} executors of a size for each task the positions that run it
 * @param {Sort} sort
 * @param {number | null} index
 * @param {number[]} units
 * @returns {number[]}
 */
export function sayers(executors, sort, index, units) {
  const place = index ?? 0;
  const reader = units[place % units.length];
  switch (sort) {
    case "sense":
      return [reader];
    case "relay":
      return units.filter((unit) => unit !== reader);
    case "out":
      return executors(units.length)[place].map((position) => units[position]);
    case "relay-report":
      return units.includes(place) ? units.filter((unit) => unit !== place) : [];
    default:
      return units;
  }
}
