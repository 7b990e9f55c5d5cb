/** The address of the page: a link that holds a document opens it. */
import { valueOf } from "./data.js";
import { notice } from "./elements.js";
import { NoDocument, documentOf, holdsDocument } from "./links.js";

const FIRST = "first_5_liar";

/** The document that the address holds, or null; it is said where it can't be read. */
async function linked() {
  notice("");
  if (!holdsDocument(location.hash)) return null;
  try {
    return await documentOf(location.hash);
  } catch (why) {
    if (!(why instanceof NoDocument)) throw why;
    notice(`This link opens no mission: ${why.message}.`);
    return null;
  }
}

/**
 * Opens the document of the address, or the first example; and each document of an address to come.
 * @param {import("./main.js").Page} page
 */
export async function openFirst({ store, show }) {
  /** @param {string} text */
  const open = (text) => store.write(text, "linked");
  window.addEventListener("hashchange", async () => {
    const text = await linked();
    if (text === null) return;
    store.update({ frame: 0, unit: null });
    show("flight-view");
    open(text);
  });
  const text = await linked();
  if (text === null) store.write(valueOf("missions")[FIRST], FIRST);
  else open(text);
}
