/** The faults that a schedule is tried with: each unit, each slot that it says, each way of lying, each moment. */
import { configurationsOf, sayers } from "./slots.js";

/** @typedef {import("./outline.js").Outline} Outline */
/** @typedef {import("./slots.js").Sort} Sort */
/** @typedef {import("./slots.js").Kind} Kind */

/**
 * A word that a unit says, with the name that documents and votes have for its sensor, task or unit.
 * @typedef {{sort: Sort, index: number | null, word: number | null, name: string}} Slot
 *
 * A unit that goes wrong in one slot, in one way, from a frame on.
 * @typedef {{unit: number, slot: Slot, kind: Kind, begin: number}} Fault
 *
 * What is said in place of a word, as the item of a document has it. Without a value nothing is said.
 * @typedef {{slot: Sort, index?: number, word?: number, to: string, frame?: number, value?: number}} Item
 */

const FAR = -32768; // a clock's offset that is too far from every other one
const FIRST_WORD = 999; // where the search for a word begins that is never the right one

/** @param {Slot} slot */
export const slotName = (slot) => `${slot.sort} ${slot.name}`.trimEnd();

/** @param {Fault} fault */
export const faultName = (fault) => `unit ${fault.unit} ${slotName(fault.slot)} ${fault.kind} from ${fault.begin}`;

/**
 * The word by which a report names units.
 * @param {number[]} units
 */
export const maskOf = (units) => units.reduce((mask, unit) => mask + (1 << unit), 0);

/** The outline of a mission, with the words of the ideal machine: what can be said wrong, by whom, and how. */
export class Schedule {
  /**
   * @param {Outline} outline
   * @param {number[][]} ideal of each frame the output words of the ideal machine
   */
  constructor(outline, ideal) {
    this.outline = outline;
    this.ideal = ideal;
    this.units = Array.from({ length: outline.units }, (_, unit) => unit);
    this.outputs = outline.tasks.flatMap(({ words }, task) => Array.from({ length: words }, (_, word) => ({ task, word })));
    this.names = this.outputs.map(({ task, word }) => `${outline.tasks[task].name}.${word}`);
    /** @type {Map<string, number[]>} who says a slot under a configuration */
    this.memory = new Map();
  }

  /** Whether some table sheds a task. */
  sheds() {
    return [...this.outline.held.values()].some((held) => held.size > 0);
  }

  /**
   * All slots, in the order in which a unit says them.
   * @returns {Slot[]}
   */
  slots() {
    const sensors = this.outline.sensors.map(({ name }, index) => ({ index, word: null, name }));
    return [
      { sort: "clock", index: null, word: null, name: "" },
      ...sensors.map((sensor) => ({ sort: /** @type {const} */ ("sense"), ...sensor })),
      ...sensors.map((sensor) => ({ sort: /** @type {const} */ ("relay"), ...sensor })),
      ...this.outputs.map(({ task, word }, place) => ({ sort: /** @type {const} */ ("out"), index: task, word, name: this.names[place] })),
      { sort: "report", index: null, word: null, name: "" },
      ...this.units.map((unit) => ({ sort: /** @type {const} */ ("relay-report"), index: unit, word: null, name: String(unit) })),
    ];
  }

  /**
   * Whether a unit says a slot under a configuration.
   * @param {number} unit
   * @param {Slot} slot
   * @param {number[]} units
   */
  says(unit, slot, units) {
    const key = `${slot.sort} ${slot.index} ${units.join("")}`;
    let said = this.memory.get(key);
    if (!said) {
      said = sayers((size) => this.outline.executors.get(size) ?? [], slot.sort, slot.index, units);
      this.memory.set(key, said);
    }
    return units.includes(unit) && said.includes(unit);
  }

  /**
   * The slots that a unit says under some configuration.
   * @param {number} unit
   */
  slotsOf(unit) {
    const configurations = configurationsOf(this.units).filter((units) => units.includes(unit));
    return this.slots().filter((slot) => configurations.some((units) => this.says(unit, slot, units)));
  }

  /**
   * The words that a unit that works may say in a slot of sensors or outputs.
   * @param {Slot} slot
   */
  rightWords(slot) {
    if (slot.sort !== "out") return new Set(this.outline.sensors[slot.index ?? 0].words);
    const place = this.outputs.findIndex(({ task, word }) => task === slot.index && word === slot.word);
    return new Set(this.ideal.map((words) => words[place]));
  }

  /**
   * Of a slot the wrong word, and those that the two halves of the receivers hear from a unit with two faces.
   * @param {Slot} slot
   * @param {number[]} low
   * @param {number[]} high
   */
  wrongWords(slot, low, high) {
    if (slot.sort === "clock") {
      const pull = Math.max(1, this.outline.skew);
      return [FAR, pull, -pull];
    }
    if (slot.sort === "report" || slot.sort === "relay-report") return [maskOf([...low, ...high]), maskOf(high), maskOf(low)];
    const right = this.rightWords(slot);
    const tried = Array.from({ length: right.size + 2 }, (_, more) => FIRST_WORD + more);
    const [first, second] = tried.filter((word) => !right.has(word));
    return [first, first, second];
  }

  /**
   * What a fault says to whom, as the items of a document.
   * @param {Fault} fault
   * @returns {Item[]}
   */
  items({ unit, slot, kind }) {
    const whose = slot.sort === "relay-report" ? slot.index : null;
    const hearers = this.units.filter((each) => each !== unit && each !== whose);
    const half = Math.floor(hearers.length / 2);
    const [low, high] = [hearers.slice(0, half), hearers.slice(half)];
    const [wrong, toLow, toHigh] = this.wrongWords(slot, low, high);
    if (kind === "silence") return [itemOf(slot, hearers)];
    return kind === "wrong" ? [itemOf(slot, hearers, wrong)] : [itemOf(slot, low, toLow), itemOf(slot, high, toHigh)];
  }
}

/**
 * @param {Slot} slot
 * @param {number[]} to
 * @param {number} [value]
 * @returns {Item}
 */
function itemOf(slot, to, value) {
  return {
    slot: slot.sort,
    ...(slot.index === null ? {} : { index: slot.index }),
    ...(slot.word === null ? {} : { word: slot.word }),
    to: to.join(""),
    ...(value === undefined ? {} : { value }),
  };
}

/**
 * What a campaign flies: of each unit its faults, and then pairs of faults of two units.
 * @param {Schedule} schedule
 * @param {{kinds: Kind[], moments: number[], single: boolean, pairs: boolean}} chosen
 * @returns {Fault[][]} of each run its faults
 */
export function runsOf(schedule, { kinds, moments, single, pairs }) {
  const ofUnits = schedule.units.map((unit) =>
    schedule.slotsOf(unit).flatMap((slot) => kinds.flatMap((kind) => moments.map((begin) => ({ unit, slot, kind, begin })))),
  );
  const paired = ofUnits.flatMap((some, unit) =>
    ofUnits.slice(unit + 1).flatMap((others) => some.flatMap((first) => others.map((second) => [first, second]))),
  );
  return [...(single ? ofUnits.flat().map((fault) => [fault]) : []), ...(pairs ? paired : [])];
}
