/** Texts that the user takes away. */
import { element } from "./elements.js";

/**
 * Saves a text as a file.
 * @param {string} name
 * @param {string} text
 * @param {string} kind
 */
export function save(name, text, kind) {
  const address = URL.createObjectURL(new Blob([text], { type: `${kind};charset=utf-8` }));
  const link = element("a", { href: address, download: name });
  document.body.append(link);
  link.click();
  link.remove();
  // The browser has taken the text by then.
  setTimeout(() => URL.revokeObjectURL(address), 60_000);
}

/**
 * Copies a text, and tells whether it could.
 * @param {string} text
 */
export async function copy(text) {
  try {
    await navigator.clipboard.writeText(text);
    return true;
  } catch {
    return false;
  }
}
