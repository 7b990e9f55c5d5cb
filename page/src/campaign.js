/** A campaign: a mission that is flown with each single fault, by a fleet of workers, and a row for each run. */
import { withFaults, withoutFaults } from "./edits.js";
import { Schedule, runsOf, slotName } from "./faults.js";
import { readIdeal } from "./ideal.js";
import { outcomeOf } from "./outcomes.js";
import { outlineOf } from "./outline.js";
import { contradictions, promisesOf } from "./promised.js";
import { readReport } from "./report.js";
import { Row, rowOf } from "./rows.js";

/** @typedef {import("./faults.js").Fault} Fault */
/** @typedef {import("./program.js").Program} Program */
/** @typedef {import("./slots.js").Kind} Kind */

export const DIVIDER = "--- report ---\n"; // between a document and its report, where the program's judge reads both

/** Why a campaign can't begin, or go on. */
export class NoCampaign extends Error {}

/**
 * The frames of a list such as 0,10-19, ascending.
 * @param {string} text
 */
export function momentsOf(text) {
  const parts = text.split(",").map((part) => /^\s*([0-9]+)\s*(?:-\s*([0-9]+)\s*)?$/.exec(part));
  const frames = parts.flatMap((found) => {
    const [first, last] = found ? [Number(found[1]), Number(found[2] ?? found[1])] : [1, 0];
    if (first > last || last > 999) throw new NoCampaign(`${text}: frames are listed as in 0,10 or 0-49`);
    return Array.from({ length: last - first + 1 }, (_, more) => first + more);
  });
  return [...new Set(frames)].sort((one, other) => one - other);
}

/** The runs of a campaign, and their rows as far as they were flown. */
export class Campaign {
  /**
   * @param {string} name of the mission
   * @param {string} text its document
   * @param {Schedule} schedule
   * @param {{kinds: Kind[], moments: number[]}} chosen
   */
  constructor(name, text, schedule, chosen) {
    this.name = name;
    this.text = text;
    this.base = withoutFaults(text);
    this.schedule = schedule;
    this.chosen = chosen;
    this.runs = runsOf(schedule, { ...chosen, single: true, pairs: false });
    /** @type {(Row | undefined)[]} */
    this.found = new Array(this.runs.length).fill(undefined);
    /** @type {string[]} what came out other than it is promised */
    this.unpromised = [];
  }

  /**
   * The campaign of a mission, which the program takes as one.
   * @param {string} name
   * @param {string} text
   * @param {{kinds: Kind[], moments: number[]}} chosen
   * @param {Program} program
   */
  static async of(name, text, chosen, program) {
    const ideal = await program.call(["ideal"], text);
    if (ideal.status !== 0) throw new NoCampaign(`the mission is refused: ${ideal.text.trim()}`);
    const outline = outlineOf(text);
    const late = chosen.moments.find((moment) => moment >= outline.frames);
    if (late !== undefined) throw new NoCampaign(`there is no frame ${late}: the mission has ${outline.frames}, from 0 on`);
    return new Campaign(name, text, new Schedule(outline, readIdeal(ideal.text)), chosen);
  }

  /** The rows of the runs that were flown, in their order. @returns {Row[]} */
  get rows() {
    return this.found.flatMap((row) => row ?? []);
  }

  get isWhole() {
    return this.found.every(Boolean);
  }

  /** The names of all slots, in the order of a frame. */
  get slots() {
    return this.schedule.slots().map(slotName);
  }

  /**
   * The document of a run, which is numbered from 1.
   * @param {number} number
   */
  documentOf(number) {
    const faults = this.runs[number - 1].map((fault) => ({ unit: fault.unit, from: fault.begin, say: this.schedule.items(fault) }));
    return withFaults(this.base, faults);
  }

  /**
   * Flies a run, has its report judged, and keeps its row.
   * @param {number} number
   * @param {Program} fleet
   */
  async flyOne(number, fleet) {
    const document = this.documentOf(number);
    const flown = await fleet.call(["run"], document);
    if (flown.status !== 0) throw new NoCampaign(`row ${number}: the program ends with status ${flown.status}: ${flown.text.trim()}`);
    const judged = await fleet.call(["judge"], document + DIVIDER + flown.text);
    const last = flown.text.slice(flown.text.lastIndexOf("\n", flown.text.length - 2) + 1, -1);
    const faults = this.runs[number - 1];
    const outcome = outcomeOf(faults, readReport(flown.text), last, this.schedule);
    const promises = promisesOf(this.schedule, faults);
    const row = new Row(rowOf(number, faults, outcome, judged.text.trim(), promises));
    this.unpromised.push(...contradictions(promises, outcome.traces).map((why) => `Row ${number}: ${why}`));
    this.found[number - 1] = row;
  }

  /**
   * Flies all runs that aren't flown yet; each worker of the fleet has a run at hand while it flies another one.
   * @param {Program} fleet
   * @param {() => void} tell is called behind each run
   */
  async fly(fleet, tell) {
    const left = this.found.flatMap((row, place) => (row ? [] : [place + 1]));
    const lane = async () => {
      for (let number = left.shift(); number !== undefined; number = left.shift()) {
        await this.flyOne(number, fleet);
        tell();
      }
    };
    const lanes = Array.from({ length: 2 * fleet.count }, lane);
    try {
      await Promise.all(lanes);
    } finally {
      left.length = 0;
      await Promise.allSettled(lanes);
    }
  }
}
