/** What tools/page put into the page beside the code: blocks that no browser runs. */

/**
 * The text of a block.
 * @param {string} name
 */
export function textOf(name) {
  const block = document.getElementById(`data-${name}`);
  if (!block) throw new Error(`the page has no block ${name}`);
  return block.textContent ?? "";
}

/**
 * The value of a block of JSON.
 * @param {string} name
 * @returns {any}
 */
export const valueOf = (name) => JSON.parse(textOf(name));

/**
 * The bytes of a block in base64.
 * @param {string} name
 */
export function bytesOf(name) {
  const letters = atob(textOf(name));
  const bytes = new Uint8Array(letters.length);
  for (let place = 0; place < letters.length; place++) bytes[place] = letters.charCodeAt(place);
  return bytes;
}
