/** The proved program, called in Web Workers, so that the page stays alive while it flies. */
import { valueOf } from "./data.js";

/**
 * The exit status of the program, and what it wrote.
 * @typedef {object} Reply
 * @property {number} status
 * @property {string} text
 */

/**
 * The same with the bytes of what it wrote, for texts that are read in part.
 * @typedef {object} RawReply
 * @property {number} status
 * @property {Uint8Array} bytes
 */

/** Why a call has no reply: it was stopped, or a later one of its topic took its place. */
export class Stopped extends Error {}

/**
 * A call that waits or runs.
 * @typedef {object} Call
 * @property {string[]} words
 * @property {string} input
 * @property {(reply: RawReply) => void} resolve
 * @property {(why: Error) => void} reject
 * @property {Seat | null} seat where it runs
 */

const decoder = new TextDecoder();

/**
 * @param {RawReply} raw
 * @returns {Reply}
 */
const read = ({ status, bytes }) => ({ status, text: decoder.decode(bytes) });

/** How long a call that nobody wants any more may go on before its worker is ended, in milliseconds. */
const PATIENCE = 100;

/**
 * What makes the address of the worker's code one that the page's policy takes; no other text becomes code or markup.
 * @type {{createScriptURL: (address: string) => string}}
 */
const policy = /** @type {any} */ (globalThis).trustedTypes?.createPolicy("worker", { createScriptURL: (/** @type {string} */ address) => address }) ?? {
  createScriptURL: (address) => address,
};

/** A worker, and the call that it is at. */
class Seat {
  /** @param {WebAssembly.Module | null} module null where it comes later */
  constructor(module) {
    const address = URL.createObjectURL(new Blob([valueOf("worker")], { type: "text/javascript" }));
    this.worker = new Worker(policy.createScriptURL(address));
    URL.revokeObjectURL(address);
    if (module) this.worker.postMessage(module);
    /** @type {Call | null} */
    this.call = null;
    this.begun = 0;
  }
}

/** The program, in so many workers. Calls that find none free wait in their order. */
export class Program {
  /** @param {number} count of the workers */
  constructor(count) {
    /** @type {WebAssembly.Module | null} */
    this.module = null;
    this.count = count;
    /** @type {Seat[]} */
    this.seats = [];
    /** @type {Call[]} */
    this.waiting = [];
    /** @type {Map<string, Call>} */
    this.topics = new Map();
  }

  /**
   * Hands over the module; before that nothing is called.
   * @param {WebAssembly.Module} module
   */
  open(module) {
    this.module = module;
    for (const { worker } of this.seats) worker.postMessage(module);
  }

  /**
   * Starts workers before they are needed.
   * @param {number} count
   */
  warm(count) {
    while (this.seats.length < Math.min(count, this.count)) this.seats.push(this.seat());
  }

  /**
   * Calls the program: the words are those of its command line, the input is what it reads.
   * @param {string[]} words
   * @param {string} [input]
   * @returns {Promise<Reply>} which is rejected with Stopped, or with what the worker trapped on
   */
  call(words, input = "") {
    return this.begin(words, input).promise.then(read);
  }

  /**
   * The same, where only the newest answer of a topic is wanted: an earlier call of it is rejected with Stopped.
   * @param {string} topic
   * @param {string[]} words
   * @param {string} [input]
   * @returns {Promise<Reply>}
   */
  latest(topic, words, input = "") {
    return this.latestRaw(topic, words, input).then(read);
  }

  /**
   * The same, with the bytes of the text.
   * @param {string} topic
   * @param {string[]} words
   * @param {string} [input]
   * @returns {Promise<RawReply>}
   */
  latestRaw(topic, words, input = "") {
    this.stop(topic);
    const { call, promise } = this.begin(words, input);
    this.topics.set(topic, call);
    return promise;
  }

  /**
   * Stops the call of a topic, or all calls.
   * @param {string} [topic]
   */
  stop(topic) {
    if (topic === undefined) {
      for (const call of this.waiting.splice(0)) call.reject(new Stopped());
      for (const seat of [...this.seats]) if (seat.call) this.end(seat, new Stopped());
      return;
    }
    const call = this.topics.get(topic);
    this.topics.delete(topic);
    if (!call) return;
    this.waiting = this.waiting.filter((each) => each !== call);
    const { seat } = call;
    if (seat && seat.call === call && performance.now() - seat.begun > PATIENCE) this.end(seat, new Stopped());
    call.reject(new Stopped());
  }

  /**
   * @param {string[]} words
   * @param {string} input
   */
  begin(words, input) {
    /** @type {Call} */
    const call = { words, input, resolve: () => {}, reject: () => {}, seat: null };
    /** @type {Promise<RawReply>} */
    const promise = new Promise((resolve, reject) => Object.assign(call, { resolve, reject }));
    this.waiting.push(call);
    this.deal();
    return { call, promise };
  }

  /** Hands waiting calls to workers that are free, and starts workers while there may be more. */
  deal() {
    while (this.waiting.length > 0) {
      let seat = this.seats.find((each) => !each.call);
      if (!seat && this.seats.length < this.count) this.seats.push((seat = this.seat()));
      const call = seat && this.waiting.shift();
      if (!seat || !call) return;
      Object.assign(seat, { call, begun: performance.now() });
      call.seat = seat;
      seat.worker.postMessage({ words: call.words, input: call.input });
    }
  }

  /** A new worker. */
  seat() {
    const seat = new Seat(this.module);
    seat.worker.onmessage = ({ data }) => this.answered(seat, data);
    seat.worker.onerror = (event) => this.end(seat, new Error(event.message || "the worker failed"));
    return seat;
  }

  /**
   * @param {Seat} seat
   * @param {RawReply & {trap?: string}} told
   */
  answered(seat, told) {
    const { call } = seat;
    seat.call = null;
    if (told.trap) call?.reject(new Error(told.trap));
    else call?.resolve(told);
    this.deal();
  }

  /**
   * Ends a worker with the call that it is at; a new one takes its place when it is needed.
   * @param {Seat} seat
   * @param {Error} why
   */
  end(seat, why) {
    seat.worker.terminate();
    this.seats = this.seats.filter((each) => each !== seat);
    seat.call?.reject(why);
    this.deal();
  }
}
