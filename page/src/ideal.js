/** The words of the ideal machine, as `sift ideal` prints them. */

/**
 * Of each frame the output words of the ideal machine.
 * @param {string} text that the program printed
 * @returns {number[][]}
 */
export function readIdeal(text) {
  const lines = text.split("\n").slice(0, -2); // behind the last line of a frame stands the one of the end
  return lines.map((line) => {
    const words = line.slice(line.indexOf("out=") + 4);
    return words === "-" ? [] : words.split(",").map((word) => parseInt(word, 16));
  });
}
