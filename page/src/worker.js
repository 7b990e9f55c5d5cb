/**
 * The code of a worker: one instance of the program's module, and one call after the other.
 *
 * The first message is the module; each further one has words and an input, and is answered with a status and the bytes of a
 * text, or with the reason why the instance trapped. Then the instance is spent, and the next call has a new one.
 */

/**
 * What the module exports. Its memory has 64 bits, so that places are BigInt.
 * @typedef {object} Sift
 * @property {WebAssembly.Memory} memory
 * @property {(length: bigint) => bigint} take
 * @property {(place: bigint) => void} give_back
 * @property {(words: bigint, wordsLength: bigint, input: bigint, inputLength: bigint, room: bigint, roomLength: bigint, count: bigint) => number} sift_call
 */

const NO_MEMORY = 10;
const NO_ROOM = 100;
const ROOM = 1 << 20;

const host = /** @type {{onmessage: ((event: MessageEvent) => void) | null, postMessage: (message: unknown, moved?: Transferable[]) => void}} */ (
  /** @type {unknown} */ (self)
);
/** @type {WebAssembly.Module | undefined} */
let module;
/** @type {Sift | undefined} */
let sift;

/**
 * A call of the program.
 * @param {Sift} it
 * @param {Uint8Array} words
 * @param {Uint8Array} input
 * @param {number} size of the room for the text
 * @returns {{status: number, bytes: Uint8Array}}
 */
function call(it, words, input, size) {
  const places = [words.length, input.length, size, 8].map((length) => it.take(BigInt(Math.max(length, 1))));
  const [wordsAt, inputAt, roomAt, countAt] = places;
  let status = NO_MEMORY;
  let count = 0;
  let bytes = new Uint8Array();
  if (!places.includes(0n)) {
    new Uint8Array(it.memory.buffer, Number(wordsAt), words.length).set(words);
    new Uint8Array(it.memory.buffer, Number(inputAt), input.length).set(input);
    const told = it.sift_call(wordsAt, BigInt(words.length), inputAt, BigInt(input.length), roomAt, BigInt(size), countAt);
    // The memory may have grown, and its buffer is another one then.
    status = told & 255;
    count = Number(new DataView(it.memory.buffer).getBigUint64(Number(countAt), true));
    if (status !== NO_ROOM) bytes = new Uint8Array(it.memory.buffer, Number(roomAt), count).slice();
  }
  for (const place of places) if (place) it.give_back(place);
  return status === NO_ROOM ? call(it, words, input, count) : { status, bytes };
}

host.onmessage = (/** @type {MessageEvent} */ { data }) => {
  if (data instanceof WebAssembly.Module) {
    module = data;
    return;
  }
  const encoder = new TextEncoder();
  try {
    sift ??= /** @type {Sift} */ (/** @type {unknown} */ (new WebAssembly.Instance(/** @type {WebAssembly.Module} */ (module)).exports));
    const reply = call(sift, encoder.encode(data.words.join("\n")), encoder.encode(data.input), ROOM);
    host.postMessage(reply, [reply.bytes.buffer]);
  } catch (trap) {
    sift = undefined;
    host.postMessage({ trap: String(trap) });
  }
};
