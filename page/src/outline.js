/** What a campaign asks of a mission: who is there, what can be said, and by which tables. Only missions that fly have one. */
import { FEWEST } from "./slots.js";
import { get, readDocument } from "./toml.js";

/** @typedef {import("./toml.js").Value} Value */

/**
 * @typedef {object} Outline
 * @property {number} units
 * @property {number} frames
 * @property {number} skew
 * @property {number} error
 * @property {number} rate
 * @property {number[]} starts the offset of each unit's clock in frame 0
 * @property {{name: string, words: number[]}[]} sensors with the words that they show
 * @property {{name: string, words: number}[]} tasks with how many output words each has
 * @property {Map<number, number[][]>} executors of each size for each task the positions that run it
 * @property {Map<number, Set<number>>} held of each size the tasks whose words may differ from the ideal machine's from a frame
 *   on that flies by its table: those that it sheds, and those that read them, directly or by others
 * @property {number} faults how many the mission itself states
 */

/**
 * The values of a key that has an array, or none.
 * @param {Value | undefined} table
 * @param {string} name
 * @returns {Value[]}
 */
const list = (table, name) => (table && get(table, name)?.data) ?? [];

/**
 * The names of the tasks whose words a text reads.
 * @param {string} text that the program accepts
 */
function readIn(text) {
  const tokens = text.replace(/#[^\n]*/g, " ").match(/[a-z][a-z0-9_]*|[^\s]/g) ?? [];
  return tokens.filter((_, place) => ["now", "last"].includes(tokens[place - 1]));
}

/**
 * Of each task the tasks that it reads. One that is `linear` reads itself.
 * @param {Value[]} tasks
 * @param {string[]} names
 */
function readsOf(tasks, names) {
  return tasks.map((task, own) => {
    const text = get(task, "text");
    return text ? readIn(text.data).map((name) => names.indexOf(name)) : [own];
  });
}

/**
 * The tasks that a table sheds, and those that read them, directly or by others.
 * @param {number[]} shed
 * @param {number[][]} reads of each task the tasks that it reads
 */
function heldBy(shed, reads) {
  const held = new Set(shed);
  for (let before = -1; before !== held.size; ) {
    before = held.size;
    reads.forEach((read, task) => read.some((each) => held.has(each)) && held.add(task));
  }
  return held;
}

/**
 * Of each task the positions that run it.
 * @param {Value | undefined} table for a size, or none where there are no tables
 * @param {number} size
 * @param {number} tasks
 */
function positionsOf(table, size, tasks) {
  const all = Array.from({ length: size }, (_, position) => position);
  return table ? list(table, "at").map((digits) => [...digits.data].map(Number)) : Array.from({ length: tasks }, () => all);
}

/**
 * What a campaign asks of the mission that a document states.
 * @param {string} text
 * @returns {Outline}
 */
export function outlineOf(text) {
  const root = readDocument(text).root;
  const clock = get(root, "clock");
  /** @param {string} name */
  const figure = (name) => (clock && get(clock, name)?.data) ?? 0;
  const units = get(root, "units")?.data;
  const tasks = list(root, "task");
  const names = tasks.map((task) => get(task, "name")?.data);
  const reads = readsOf(tasks, names);
  const sizes = Array.from({ length: units - FEWEST + 1 }, (_, place) => ({ size: FEWEST + place, table: list(root, "table")[place] }));
  return {
    units,
    frames: get(root, "frames")?.data,
    skew: figure("skew"),
    error: figure("error"),
    rate: figure("rate"),
    starts: Array.from({ length: units }, (_, unit) => list(clock, "start")[unit]?.data ?? 0),
    sensors: list(root, "sensor").map((sensor) => ({
      name: get(sensor, "name")?.data,
      words: list(sensor, "words").map((word) => word.data & 0xffff),
    })),
    tasks: tasks.map((task, place) => ({ name: names[place], words: list(task, "start").length })),
    executors: new Map(sizes.map(({ size, table }) => [size, positionsOf(table, size, tasks.length)])),
    held: new Map(sizes.map(({ size, table }) => [size, heldBy(list(table, "shed").map((task) => task.data), reads)])),
    faults: list(root, "fault").length,
  };
}
