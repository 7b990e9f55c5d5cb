/** Reads a report of `sift run`, of either version. No flight is computed: a report says what it says. */

/**
 * What became of a unit in a frame; "out" is faulty, and out of the configuration.
 * @typedef {"works" | "faulty" | "out" | "idle"} Look
 */

/**
 * A unit's line of a frame.
 * @typedef {object} Account
 * @property {"works" | "faulty" | "idle"} state the rest is there where it works
 * @property {number[] | null} configuration the units that it takes into account
 * @property {number | null} clock
 * @property {string[] | null} inputs words of four hexadecimal digits
 * @property {string[] | null} outputs
 * @property {Map<number, string>} catches the units that it caught, each with the letters of the kinds; "" in version 1
 */

/**
 * @typedef {object} Frame
 * @property {Account[]} units
 * @property {number[]} configuration that of the frame
 * @property {number | null} skew
 * @property {number | null} slack
 * @property {boolean} margin whether it is kept
 */

/**
 * @typedef {object} Flight
 * @property {Frame[]} frames
 * @property {number} units
 * @property {number[]} last the configuration after the last frame
 * @property {boolean} margin whether it is kept to the end
 */

/**
 * The kinds of catches, by their letters.
 * @type {Record<string, string>}
 */
export const KINDS = { p: "poll", r: "relay", c: "clock" };

/** Why a text is no report, with the number of the line from 1. */
export class NoReport extends Error {
  /**
   * @param {number} line
   * @param {string} why
   */
  constructor(line, why) {
    super(`line ${line}: ${why}`);
    this.line = line;
  }
}

const ACCOUNT = /^f=(\d+) u=([0-7]) (?:(faulty)|(idle)|cfg=([0-7]+) clk=(-?\d+) in=(\S+) out=(\S+) bad=(\S+))$/;
const FRAME = /^f=(\d+) skew=(-|\d+) slack=(-|-?\d+) margin=(ok|lost)$/;
const END = /^end frames=(\d+) cfg=([0-7]+) margin=(ok|lost)$/;
const WORDS = /^(?:-|[0-9a-f]{4}(?:,[0-9a-f]{4})*)$/;
const CAUGHT = /^(?:-|[0-7]+|[0-7](?:pr?c?|rc?|c)(?:,[0-7](?:pr?c?|rc?|c))*)$/;

/** @param {string} digits */
const unitsOf = (digits) => [...digits].map(Number);

/** @param {string} text */
const wordsOf = (text) => (text === "-" ? [] : text.split(","));

/**
 * The units of a `bad`, with the letters of the kinds.
 * @param {string} text
 * @returns {Map<number, string>}
 */
export function catchesOf(text) {
  if (text === "-") return new Map();
  const parts = /^[0-7]+$/.test(text) ? [...text] : text.split(",");
  return new Map(parts.map((part) => [Number(part[0]), part.slice(1)]));
}

/** @type {Map<number, string>} */
const NOBODY = new Map();

/**
 * What the line of a unit tells, or null where it is none of a unit.
 * @param {string} line
 * @param {number} frame
 * @param {number} unit
 * @returns {Account | null}
 */
function accountOf(line, frame, unit) {
  const found = ACCOUNT.exec(line);
  if (!found || Number(found[1]) !== frame || Number(found[2]) !== unit) return null;
  const [, , , faulty, idle, configuration, clock, inputs, outputs, bad] = found;
  if (faulty || idle) {
    return { state: faulty ? "faulty" : "idle", configuration: null, clock: null, inputs: null, outputs: null, catches: NOBODY };
  }
  if (!WORDS.test(inputs) || !WORDS.test(outputs) || !CAUGHT.test(bad)) return null;
  return {
    state: "works",
    configuration: unitsOf(configuration),
    clock: Number(clock),
    inputs: wordsOf(inputs),
    outputs: wordsOf(outputs),
    catches: catchesOf(bad),
  };
}

/**
 * The configurations of the frames; where no unit tells one, the next that is told.
 * @param {{units: Account[]}[]} frames
 * @param {number[]} last
 */
function configurationsOf(frames, last) {
  let told = last;
  const configurations = [];
  for (const frame of [...frames].reverse()) {
    told = frame.units.find((unit) => unit.configuration)?.configuration ?? told;
    configurations.push(told);
  }
  return configurations.reverse();
}

/**
 * Reads a report.
 * @param {string} text
 * @returns {Flight}
 */
export function readReport(text) {
  const lines = text.replaceAll("\r\n", "\n").split("\n");
  if (lines.pop() !== "") throw new NoReport(lines.length + 1, "the last line has no end");
  /** @type {Omit<Frame, "configuration">[]} */
  const frames = [];
  let units = /** @type {Account[]} */ ([]);
  for (const [place, line] of lines.entries()) {
    const account = accountOf(line, frames.length, units.length);
    if (account) {
      units.push(account);
      continue;
    }
    const told = FRAME.exec(line);
    if (told && Number(told[1]) === frames.length && units.length >= 4 && units.length === (frames[0]?.units ?? units).length) {
      frames.push({ units, skew: numberOf(told[2]), slack: numberOf(told[3]), margin: told[4] === "ok" });
      units = [];
      continue;
    }
    const end = END.exec(line);
    if (!end || units.length > 0 || frames.length === 0 || Number(end[1]) !== frames.length || place + 1 < lines.length) {
      throw new NoReport(place + 1, units.length > 0 ? `unit ${units.length} of frame ${frames.length}, or this frame's last line, is due` : `frame ${frames.length}, or the end, is due`);
    }
    const last = unitsOf(end[2]);
    const configurations = configurationsOf(frames, last);
    return {
      frames: frames.map((frame, number) => ({ ...frame, configuration: configurations[number] })),
      units: frames[0].units.length,
      last,
      margin: end[3] === "ok",
    };
  }
  throw new NoReport(lines.length + 1, "the line of the mission's end is missing");
}

/** @param {string} text */
const numberOf = (text) => (text === "-" ? null : Number(text));

/**
 * The units that caught one in a frame.
 * @param {Frame} frame
 * @param {number} unit
 */
export function catchersOf(frame, unit) {
  return frame.units.flatMap((account, by) => (account.catches.has(unit) ? [by] : []));
}

/**
 * Units in words, each with the letters of its kinds, those with the same ones together: "0 2 (poll), 3 (poll, clock)".
 * @param {[number, string][]} told
 */
export function groupedByKinds(told) {
  /** @type {Map<string, number[]>} */
  const groups = new Map();
  for (const [unit, letters] of told) groups.set(letters, [...(groups.get(letters) ?? []), unit]);
  return [...groups].map(([letters, units]) => `${units.join(" ")}${kindsOf(letters)}`).join(", ");
}

/**
 * Who caught a unit in a frame, in words; nothing where nobody did.
 * @param {Frame} frame
 * @param {number} unit
 */
export const caughtBy = (frame, unit) =>
  groupedByKinds(catchersOf(frame, unit).map((by) => [by, frame.units[by].catches.get(unit) ?? ""]));

/**
 * What a unit looks like in a frame.
 * @param {Frame} frame
 * @param {number} unit
 * @returns {Look}
 */
export function lookOf(frame, unit) {
  const { state } = frame.units[unit];
  return state === "faulty" && !frame.configuration.includes(unit) ? "out" : state;
}

/**
 * The kinds of catches in words, as in " (poll, clock)"; nothing in version 1.
 * @param {string} letters
 */
export const kindsOf = (letters) => (letters ? ` (${[...letters].map((letter) => KINDS[letter]).join(", ")})` : "");

/**
 * The stretches of equal values: first place, last place, value.
 * @template T
 * @param {T[]} values
 * @param {(one: T, other: T) => boolean} [same]
 * @returns {[number, number, T][]}
 */
export function stretchesOf(values, same = Object.is) {
  /** @type {[number, number, T][]} */
  const stretches = [];
  for (const [place, value] of values.entries()) {
    const last = stretches.at(-1);
    if (last && same(last[2], value)) last[1] = place;
    else stretches.push([place, place, value]);
  }
  return stretches;
}

/**
 * A stretch of frames in words.
 * @param {number} first
 * @param {number} last
 */
export const when = (first, last) => (first === last ? `frame ${first}` : `frames ${first} to ${last}`);

/**
 * Units with the verb that fits their number.
 * @param {number[]} units
 * @param {string} verb
 * @param {string} verbs
 */
export const named = (units, verb, verbs) => (units.length === 1 ? `unit ${units[0]} ${verb}` : `units ${units.join(" ")} ${verbs}`);
