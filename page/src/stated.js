/** What a mission states of its flight, as events: what its faulty units say, and which tasks are shed. */
import { named, stretchesOf, when } from "./report.js";

/** @typedef {import("./events.js").Event} Event */
/** @typedef {import("./mission.js").Mission} Mission */
/** @typedef {import("./mission.js").Fault} Fault */
/** @typedef {import("./mission.js").Item} Item */

/**
 * The slot of an item, as campaigns name it.
 * @param {Mission} mission
 * @param {Item} item
 */
function slotNamed(mission, { slot, index, word }) {
  if (index === null) return slot;
  if (slot === "out") return `out ${mission.tasks[index].name}.${word}`;
  return `${slot} ${slot === "relay-report" ? index : mission.sensors[index].name}`;
}

/**
 * What is said; of a report also whom it names.
 * @param {Item} item
 */
function wordOf({ slot, value }) {
  if (value === null) return "nothing";
  if (slot !== "report" && slot !== "relay-report") return String(value);
  const caught = [0, 1, 2, 3, 4, 5, 6, 7].filter((unit) => (value >> unit) & 1);
  return `${value} (${caught.length > 0 ? named(caught, "was", "were") : "nobody was"} caught)`;
}

/**
 * What a faulty unit says in place of its own words, or that it is stray.
 * @param {Mission} mission
 * @param {Fault} fault
 * @returns {Event[]}
 */
function faultStated(mission, { unit, from, say, storm }) {
  if (storm) {
    const words = `unit ${unit} is stray: ${storm.strays.toLocaleString("en")} strays are drawn from the number ${storm.number}`;
    return [{ frame: from, place: 0.5, words: `frame ${from}: ${words}` }];
  }
  return say.map((item) => {
    const first = item.frame ?? from;
    const hearers = `${item.to.length === 1 ? "unit" : "units"} ${item.to.join(" ")}`;
    const words = `unit ${unit} says ${wordOf(item)} as ${slotNamed(mission, item)} to ${hearers}`;
    return { frame: first, place: 0.5, words: `${when(first, item.frame ?? mission.frames - 1)}: ${words}` };
  });
}

/**
 * In which frames tasks are shed, so that their words stand still.
 * @param {Mission} mission
 * @param {import("./report.js").Flight} flight
 * @returns {Event[]}
 */
function tasksShed(mission, flight) {
  const shed = flight.frames.map((frame) => mission.tables.find((table) => table.size === frame.configuration.length)?.shed ?? []);
  return stretchesOf(shed, (one, other) => one.join() === other.join())
    .filter(([, , tasks]) => tasks.length > 0)
    .map(([first, last, tasks]) => {
      const names = tasks.map((task) => mission.tasks[task].name).join(", ");
      return { frame: first, place: 3, words: `${when(first, last)}: ${names} ${tasks.length === 1 ? "is" : "are"} shed; what stands in \`out\` is held from before` };
    });
}

/**
 * All of it.
 * @param {Mission} mission
 * @param {import("./report.js").Flight} flight
 * @returns {Event[]}
 */
export const statedBy = (mission, flight) => [...mission.faults.flatMap((fault) => faultStated(mission, fault)), ...tasksShed(mission, flight)];
