// A Web Worker that calls the library: a message {words, input} of bytes is answered by {status, text}, also bytes.
const module = fetch("sift.wasm").then((reply) => reply.arrayBuffer()).then((code) => WebAssembly.compile(code));
let sift; // an instance serves until it traps

function call(words, input, size) {
  const at = [words.length, input.length, size, 8].map((length) => sift.take(BigInt(length)));
  let status = 10, count = 0, text = new Uint8Array();
  if (!at.includes(0n)) {
    new Uint8Array(sift.memory.buffer, Number(at[0]), words.length).set(words);
    new Uint8Array(sift.memory.buffer, Number(at[1]), input.length).set(input);
    status = sift.sift_call(at[0], BigInt(words.length), at[1], BigInt(input.length), at[2], BigInt(size), at[3]) & 255;
    count = Number(new DataView(sift.memory.buffer).getBigUint64(Number(at[3]), true));
    text = new Uint8Array(sift.memory.buffer, Number(at[2]), Math.min(count, size)).slice();
  }
  at.filter((place) => place).forEach((place) => sift.give_back(place));
  return status === 100 ? call(words, input, count) : { status, text };
}

onmessage = async ({ data: { words, input } }) => {
  try {
    sift ??= (await WebAssembly.instantiate(await module)).exports;
    postMessage(call(words, input, 65536));
  } catch (trap) {
    sift = undefined; // it is spent: the next call makes a new one
    postMessage({ trap: String(trap) });
  }
};
