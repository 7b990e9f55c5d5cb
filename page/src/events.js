/** What happened in a flight, in words. */
import { catchersOf, kindsOf, named, stretchesOf, when } from "./report.js";

/** @typedef {import("./report.js").Flight} Flight */

/**
 * An event: its first frame, its place among those of the frame, and its words.
 * @typedef {{frame: number, place: number, words: string}} Event
 */

/**
 * Each frame in which units turn faulty, or idle, with them.
 * @param {Flight} flight
 * @param {"faulty" | "idle"} state
 */
function turned(flight, state) {
  return flight.frames.flatMap((frame, number) => {
    const units = [...frame.units.keys()].filter(
      (unit) => frame.units[unit].state === state && flight.frames[number - 1]?.units[unit].state !== state,
    );
    return units.length > 0 ? [{ number, units }] : [];
  });
}

/**
 * When units turn faulty, or idle, and which faulty ones are never caught.
 * @param {Flight} flight
 * @returns {Event[]}
 */
function faultsTold(flight) {
  const faults = turned(flight, "faulty").flatMap(({ number, units }) => {
    const missed = units.filter((unit) => !flight.frames.some((frame) => catchersOf(frame, unit).length > 0));
    const caught = units.filter((unit) => !missed.includes(unit));
    return [
      { group: caught, more: "" },
      { group: missed, more: ", and never caught" },
    ]
      .filter(({ group }) => group.length > 0)
      .map(({ group, more }) => ({ frame: number, place: 0, words: `frame ${number}: ${named(group, "is", "are")} faulty from here on${more}` }));
  });
  const idle = turned(flight, "idle").map(({ number, units }) => ({
    frame: number,
    place: 3,
    words: `frame ${number}: ${named(units, "is", "are")} idle: at work, but out`,
  }));
  return [...faults, ...idle];
}

/**
 * Who caught whom, by which kinds, and in which frames.
 * @param {Flight} flight
 * @returns {Event[]}
 */
function catchesTold(flight) {
  /** @type {Event[]} */
  const events = [];
  for (let unit = 0; unit < flight.units; unit++) {
    const kinds = new Set(flight.frames.flatMap((frame) => catchersOf(frame, unit).map((by) => frame.units[by].catches.get(unit) ?? "")));
    for (const letters of [...kinds].sort()) {
      const catchers = flight.frames.map((frame) => catchersOf(frame, unit).filter((by) => frame.units[by].catches.get(unit) === letters));
      for (const [first, last, by] of stretchesOf(catchers, (one, other) => one.join() === other.join())) {
        if (by.length > 0) {
          events.push({ frame: first, place: 1, words: `${when(first, last)}: ${named(by, "catches", "catch")} unit ${unit}${kindsOf(letters)}` });
        }
      }
    }
  }
  return events;
}

/**
 * How the configuration changes, where margin is lost, and where configurations differ.
 * @param {Flight} flight
 * @returns {Event[]}
 */
function changesTold(flight) {
  /** @type {Event[]} */
  const events = [];
  const told = [...flight.frames.map((frame) => frame.configuration), flight.last];
  for (let number = 1; number < told.length; number++) {
    const out = told[number - 1].filter((unit) => !told[number].includes(unit));
    const come = told[number].filter((unit) => !told[number - 1].includes(unit));
    if (out.length + come.length === 0) continue;
    const words = [
      ...(out.length > 0 ? [`${named(out, "is", "are")} out`] : []),
      ...(come.length > 0 ? [`${named(come, "is", "are")} in, as another unit tells it`] : []),
    ];
    const where = number < flight.frames.length ? `frame ${number}` : "after the last frame";
    events.push({ frame: number, place: 2, words: `${where}: ${words.join("; ")}; the configuration is ${told[number].join("")}` });
  }
  const lost = flight.frames.findIndex((frame) => !frame.margin);
  if (lost >= 0) events.push({ frame: lost, place: 4, words: `frame ${lost}: the margin is lost` });
  const split = flight.frames.map((frame) => new Set(frame.units.flatMap((unit) => (unit.configuration ? [unit.configuration.join("")] : []))).size > 1);
  for (const [first, last, differ] of stretchesOf(split)) {
    if (differ) events.push({ frame: first, place: 5, words: `${when(first, last)}: units have different configurations` });
  }
  return events;
}

/**
 * All that happened, in the order of the frames, with what the mission states.
 * @param {Flight} flight
 * @param {Event[]} [stated]
 * @returns {Event[]}
 */
export function eventsOf(flight, stated = []) {
  const events = [...faultsTold(flight), ...stated, ...catchesTold(flight), ...changesTold(flight)];
  if (events.length === 0) return [{ frame: 0, place: 0, words: "every unit works in every frame, and nobody is caught" }];
  return events.sort((one, other) => one.frame - other.frame || one.place - other.place || (one.words < other.words ? -1 : 1));
}

/**
 * A flight in a line.
 * @param {Flight} flight
 */
export function headlineOf(flight) {
  const margin = flight.margin ? "margin kept" : "margin lost";
  return `${flight.units} units, ${flight.frames.length} ${flight.frames.length === 1 ? "frame" : "frames"}, ${margin}; at the end the configuration is ${flight.last.join("")}`;
}

/**
 * Where the clocks came nearest to a word that is asked for too early, in a line.
 * @param {Flight} flight
 */
export function slackOf(flight) {
  const slacks = flight.frames.flatMap((frame) => (frame.slack === null ? [] : [frame.slack]));
  if (slacks.length === 0) return "no frame tells a slack";
  const least = Math.min(...slacks);
  const number = flight.frames.findIndex((frame) => frame.slack === least);
  return `the least slack is ${least} ${least === 1 ? "tick" : "ticks"}, first in frame ${number}`;
}
