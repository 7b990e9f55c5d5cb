/** What a document states, with the places where it stands. It is read where the program has found that it is a mission. */
import { get, readDocument } from "./toml.js";

/** @typedef {import("./toml.js").Value} Value */

/** @typedef {{name: string, words: number[], at: Value}} Sensor */

/** @typedef {{name: string, start: number[], text: string | null, linear: number[] | null, at: Value}} Task */

/**
 * A schedule for a size of the configuration. Of each task: its run, its poll, and the positions that run it.
 * @typedef {object} Table
 * @property {number} size
 * @property {number[]} run
 * @property {number[]} poll
 * @property {number[][]} at
 * @property {number[]} shed
 */

/**
 * What is said in place of a word.
 * @typedef {object} Item
 * @property {string} slot
 * @property {number | null} index
 * @property {number | null} word
 * @property {number[]} to
 * @property {number | null} frame
 * @property {number | null} value null is silence
 */

/**
 * @typedef {object} Fault
 * @property {number} unit
 * @property {number} from
 * @property {Item[]} say
 * @property {{number: number | bigint, strays: number} | null} storm
 * @property {Value} at
 */

/**
 * @typedef {object} Mission
 * @property {number} version
 * @property {number} units
 * @property {number} frames
 * @property {number} subframes
 * @property {Sensor[]} sensors
 * @property {Task[]} tasks
 * @property {Table[]} tables those that are stated, or the plain ones
 * @property {boolean} plain whether they are the plain ones
 * @property {Fault[]} faults
 * @property {boolean} clocks whether the document has clocks
 * @property {Value} root the document
 */

const FEWEST = 4;

/**
 * @param {Value} table
 * @param {string} name
 * @returns {any} the data of a key, or null
 */
const dataOf = (table, name) => get(table, name)?.data ?? null;

/**
 * @param {Value} table
 * @param {string} name
 * @returns {Value[]} the values of a list, or none
 */
const itemsOf = (table, name) => dataOf(table, name) ?? [];

/**
 * @param {Value} table
 * @param {string} name
 * @returns {any[]} their data
 */
const listOf = (table, name) => itemsOf(table, name).map((item) => item.data);

/** @param {string} digits */
const digitsOf = (digits) => [...digits].map(Number);

/**
 * @param {Value} at
 * @returns {Item}
 */
function itemOf(at) {
  return {
    slot: dataOf(at, "slot"),
    index: dataOf(at, "index"),
    word: dataOf(at, "word"),
    to: digitsOf(dataOf(at, "to")),
    frame: dataOf(at, "frame"),
    value: dataOf(at, "value"),
  };
}

/**
 * @param {Value} at
 * @returns {Fault}
 */
function faultOf(at) {
  const storm = get(at, "storm");
  return {
    unit: dataOf(at, "unit"),
    from: dataOf(at, "from"),
    say: itemsOf(at, "say").map(itemOf),
    storm: storm ? { number: dataOf(storm, "number"), strays: dataOf(storm, "strays") } : null,
    at,
  };
}

/**
 * The table for a size where the document has none: every unit runs every task, one after the other.
 * @param {number} size
 * @param {number} tasks
 * @returns {Table}
 */
function plainTable(size, tasks) {
  const numbers = [...Array(tasks).keys()];
  return {
    size,
    run: numbers.map((task) => 4 + 2 * task),
    poll: numbers.map((task) => 6 + 2 * task),
    at: numbers.map(() => [...Array(size).keys()]),
    shed: [],
  };
}

/**
 * Reads a document that is a mission.
 * @param {string} text
 * @returns {Mission}
 */
export function readMission(text) {
  const { root } = readDocument(text);
  const tasks = itemsOf(root, "task").map((at) => ({
    name: dataOf(at, "name"),
    start: listOf(at, "start"),
    text: dataOf(at, "text"),
    linear: get(at, "linear") ? listOf(at, "linear") : null,
    at,
  }));
  const units = dataOf(root, "units");
  const sizes = [...Array(units - FEWEST + 1).keys()].map((more) => FEWEST + more);
  const stated = itemsOf(root, "table");
  return {
    version: dataOf(root, "version") ?? 1,
    units,
    frames: dataOf(root, "frames"),
    subframes: dataOf(root, "subframes") ?? 10 + 2 * tasks.length,
    sensors: itemsOf(root, "sensor").map((at) => ({ name: dataOf(at, "name"), words: listOf(at, "words"), at })),
    tasks,
    tables:
      stated.length > 0
        ? stated.map((at) => ({
            size: dataOf(at, "size"),
            run: listOf(at, "run"),
            poll: listOf(at, "poll"),
            at: listOf(at, "at").map(digitsOf),
            shed: listOf(at, "shed"),
          }))
        : sizes.map((size) => plainTable(size, tasks.length)),
    plain: stated.length === 0,
    faults: itemsOf(root, "fault").map(faultOf),
    clocks: get(root, "clock") !== undefined,
    root,
  };
}

/**
 * The name of a word of all tasks, from 0, as in `elevator.0`.
 * @param {Mission} mission
 * @returns {string[]}
 */
export function wordsOf(mission) {
  return mission.tasks.flatMap((task) => task.start.map((_, word) => `${task.name}.${word}`));
}

/**
 * What a unit does wrong in a frame, by the faults that a mission states: it turns stray, says wrong words, or keeps some back.
 * @param {Mission} mission
 * @param {number} unit
 * @param {number} frame
 * @returns {"stray" | "lies" | "silent" | ""}
 */
export function conductOf({ faults }, unit, frame) {
  const fault = faults.find((each) => each.unit === unit && each.from <= frame);
  if (!fault) return "";
  if (fault.storm) return "stray";
  const items = fault.say.filter((item) => item.frame === null || item.frame === frame);
  if (items.some((item) => item.value !== null)) return "lies";
  return items.length > 0 ? "silent" : "";
}
