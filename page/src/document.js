/** The one store of the page: the document, what the program said of it, and what the user looks at. */

/** @typedef {import("./mission.js").Mission} Mission */
/** @typedef {import("./report.js").Flight} Flight */

/**
 * A flight that was flown, with the document that it is of.
 * @typedef {object} Flown
 * @property {string} name what it is called
 * @property {string} text the document
 * @property {string} report
 * @property {Flight} flight the report as it was read
 * @property {Mission} mission the document as it was read
 */

/**
 * @typedef {object} State
 * @property {string} name what the document is called, without an ending
 * @property {string} text the document
 * @property {"busy" | "refused" | "flown"} told what is known of `text` by now
 * @property {import("./program.js").Reply | null} refusal the program's line and status where `text` is refused
 * @property {Flown | null} flown the last flight. While `told` isn't "flown" it is that of an earlier text.
 * @property {number} frame the frame that is opened
 * @property {number | null} unit the unit that is chosen in it
 */

/** @typedef {(state: State, changed: Set<keyof State>) => void} Listener */

/** Whoever subscribes is told of each change, and which parts of the state it changed. */
export class Store {
  /** @param {Partial<State>} [given] */
  constructor(given = {}) {
    /** @type {State} */
    this.state = { name: "mission", text: "", told: "busy", refusal: null, flown: null, frame: 0, unit: null, ...given };
    /** @type {Set<Listener>} */
    this.listeners = new Set();
  }

  /**
   * @param {Listener} listener
   * @returns {() => void} which ends it
   */
  subscribe(listener) {
    this.listeners.add(listener);
    return () => this.listeners.delete(listener);
  }

  /** @param {Partial<State>} change */
  update(change) {
    const keys = /** @type {(keyof State)[]} */ (Object.keys(change));
    const changed = new Set(keys.filter((key) => change[key] !== this.state[key]));
    if (changed.size === 0) return;
    this.state = { ...this.state, ...change };
    for (const listener of [...this.listeners]) listener(this.state, changed);
  }

  /**
   * Puts a text in place of the document, which is then checked and flown.
   * @param {string} text
   * @param {string} [name] where it is another document, and not a change of this one
   */
  write(text, name = this.state.name) {
    if (text === this.state.text) this.update({ name });
    else this.update({ text, name, told: "busy", refusal: null });
  }
}
