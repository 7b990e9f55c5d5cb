/**
 * Links that hold a document: how many bytes it has, in four bytes, and these compressed, in letters that may stand behind the #
 * of an address. The count and the checksum of the compressed bytes tell where a link was cut off or changed.
 */

const MOST = 1_048_576; // bytes of a document
const MARK = "#document=";
const FORMAT = "deflate"; // it has a checksum

/** Why a link holds no document. */
export class NoDocument extends Error {}

/**
 * What a stream of bytes has, up to a bound.
 * @param {ReadableStream<Uint8Array>} stream
 * @returns {Promise<Uint8Array>}
 */
async function bytesOf(stream) {
  const parts = [];
  let count = 0;
  const reader = stream.getReader();
  for (let part = await reader.read(); !part.done; part = await reader.read()) {
    count += part.value.length;
    if (count > MOST) {
      await reader.cancel();
      throw new NoDocument("the document in the link is longer than any mission");
    }
    parts.push(part.value);
  }
  const bytes = new Uint8Array(count);
  let place = 0;
  for (const part of parts) {
    bytes.set(part, place);
    place += part.length;
  }
  return bytes;
}

/**
 * Bytes that went through a stream.
 * @param {Uint8Array} bytes
 * @param {ReadableWritablePair} through
 */
const passed = (bytes, through) => bytesOf(new Blob([bytes]).stream().pipeThrough(through));

/**
 * The part of an address behind which the page opens with a document: from the # on.
 * @param {string} text
 * @returns {Promise<string>}
 */
export async function linkOf(text) {
  const bytes = new TextEncoder().encode(text);
  const count = new Uint8Array(4);
  new DataView(count.buffer).setUint32(0, bytes.length);
  const letters = [...count, ...(await passed(bytes, new CompressionStream(FORMAT)))].map((byte) => String.fromCharCode(byte)).join("");
  return MARK + btoa(letters).replaceAll("+", "-").replaceAll("/", "_").replace(/=+$/, "");
}

/** @param {string} hash of an address, from the # on */
export const holdsDocument = (hash) => hash.startsWith(MARK);

/**
 * The text of a link's bytes, which throws where they aren't those of a link.
 * @param {Uint8Array} bytes
 */
async function textOf(bytes) {
  const count = new DataView(bytes.buffer).getUint32(0);
  const text = await passed(bytes.subarray(4), new DecompressionStream(FORMAT));
  if (text.length !== count) throw new RangeError("it was cut off");
  return new TextDecoder("utf-8", { fatal: true, ignoreBOM: true }).decode(text);
}

/**
 * The document that a link holds.
 * @param {string} hash of an address, from the # on
 * @returns {Promise<string>}
 */
export async function documentOf(hash) {
  try {
    const letters = atob(hash.slice(MARK.length).replaceAll("-", "+").replaceAll("_", "/"));
    return await textOf(Uint8Array.from(letters, (letter) => letter.charCodeAt(0)));
  } catch (fault) {
    if (fault instanceof NoDocument) throw fault;
    throw new NoDocument("the link was cut off or changed: what it holds can't be read");
  }
}
