/** Places in texts, as an editor of lines has them. */

/**
 * The part in which two texts differ: where it begins, and where it ends in each.
 * @param {string} before
 * @param {string} after
 */
export function differing(before, after) {
  let start = 0;
  const most = Math.min(before.length, after.length);
  while (start < most && before[start] === after[start]) start += 1;
  let same = 0;
  while (same < most - start && before[before.length - 1 - same] === after[after.length - 1 - same]) same += 1;
  return { start, end: before.length - same, text: after.slice(start, after.length - same) };
}

/** How a line ends in an editor. */
export const LINE_END = /\r\n?|\n/;

/**
 * Where a place of a text is in an editor of its lines, whichever way these end.
 * @param {string} text
 * @param {number} place
 */
export function positionOf(text, place) {
  const lines = text.slice(0, place).split(LINE_END);
  return { line: lines.length - 1, ch: lines[lines.length - 1].length };
}
