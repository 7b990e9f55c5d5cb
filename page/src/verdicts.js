/**
 * Why a mission can't have a report: which units, which words, and what was due. The judge decides; here the places of the frame
 * are found that break its rule. What the tasks are due to compute the program tells.
 */
import { readIdeal } from "./ideal.js";
import { readMission } from "./mission.js";
import { NoReport, catchersOf, readReport } from "./report.js";
import { get } from "./toml.js";

/** @typedef {import("./mission.js").Mission} Mission */
/** @typedef {import("./picture.js").Mark} Mark */
/** @typedef {import("./program.js").Program} Program */
/** @typedef {import("./report.js").Flight} Flight */
/** @typedef {import("./report.js").Frame} Frame */

/** @param {number[]} units */
const setOf = (units) => units.join("") || "-";

/** @param {number} word */
function shown(word) {
  const digits = word.toString(16).padStart(4, "0");
  return word < 10 ? digits : `${digits} (${word > 32767 ? word - 65536 : word})`;
}

/** A frame of a report, and what its mission states of it. */
class Case {
  /**
   * @param {Mission} mission
   * @param {Flight} flight
   * @param {number} number
   */
  constructor(mission, flight, number) {
    this.mission = mission;
    this.flight = flight;
    this.number = number;
    this.frame = flight.frames[number];
    this.units = this.frame.units.map((_, unit) => unit);
    this.faulty = this.faultyIn(number);
    this.working = this.units.filter((unit) => !this.faulty.includes(unit));
    this.telling = this.working.filter((unit) => this.frame.units[unit].state === "works");
    this.lead = this.working[0];
    this.configuration = this.frame.units[this.lead]?.configuration ?? null;
  }

  /** @param {number} number */
  faultyIn(number) {
    return this.mission.faults.filter((fault) => fault.from <= number).map((fault) => fault.unit);
  }

  /**
   * A place of the frame, of a unit or of the whole.
   * @param {number | null} unit
   * @param {string} words
   * @returns {Mark}
   */
  mark(unit, words) {
    return { frame: this.number, unit, words: `frame ${this.number}${unit === null ? "" : `, unit ${unit}`}: ${words}` };
  }
}

/** @param {Case} it */
function breaksForm(it) {
  const { mission } = it;
  const sensors = mission.sensors.length;
  const outputs = mission.tasks.reduce((sum, task) => sum + task.start.length, 0);
  return it.units.flatMap((unit) => {
    const { state, configuration, inputs, outputs: votes, catches } = it.frame.units[unit];
    const strangers = [...(configuration ?? []), ...catches.keys()].filter((named) => named >= mission.units);
    const faulty = it.faulty.includes(unit);
    const words = [
      ...strangers.map((named) => `it names unit ${named}, which isn't there`),
      ...((state === "faulty") !== faulty ? [`by the document it ${faulty ? "is faulty" : "works"} in this frame`] : []),
      ...(inputs && inputs.length !== sensors ? [`in has ${inputs.length} words, and the mission has ${sensors} sensors`] : []),
      ...(votes && votes.length !== outputs ? [`out has ${votes.length} words, and the mission has ${outputs} output words`] : []),
    ];
    return words.map((each) => it.mark(unit, each));
  });
}

/** @param {Case} it */
function breaksConfiguration(it) {
  const { configuration, lead, number } = it;
  if (!configuration) return [it.mark(lead ?? null, "it is the lowest that works, and is to tell a configuration")];
  const due = number === 0 ? it.units : configuration;
  const whose = number === 0 ? "all units, in frame 0" : `that of unit ${lead}, the lowest that works`;
  return it.working.flatMap((unit) => {
    const told = it.frame.units[unit].configuration;
    const differs = setOf(told ?? []) !== setOf(due) && (number === 0 || due.includes(unit) || told !== null);
    return differs ? [it.mark(unit, `the configuration is ${told ? setOf(told) : "idle"}, and ${setOf(due)} is due, ${whose}`)] : [];
  });
}

/** @param {Case} it */
function breaksSensors(it) {
  const members = it.configuration ?? [];
  return it.mission.sensors.flatMap(({ name, words }, place) => {
    const reader = members[place % members.length];
    const own = words[it.number % words.length] & 0xffff;
    const agreed = parseInt(it.frame.units[it.lead].inputs?.[place] ?? "0", 16);
    const [due, whose] = it.faulty.includes(reader) ? [agreed, `as unit ${it.lead} has it`] : [own, `which unit ${reader} reads, and it works`];
    return it.telling.flatMap((unit) => {
      const told = parseInt(it.frame.units[unit].inputs?.[place] ?? "0", 16);
      return told === due ? [] : [it.mark(unit, `sense.${name} is ${shown(told)}, and ${shown(due)} is due, ${whose}`)];
    });
  });
}

/**
 * A document whose first frame computes what the frame is due to: from the words of the frame before, and this one's sensors.
 * @param {Case} it
 */
function oneFrame(it) {
  const { mission, number } = it;
  const before = number ? new Case(mission, it.flight, number - 1) : null;
  const words = before && before.frame.units[before.telling[0]].outputs?.map((word) => parseInt(word, 16));
  const shed = mission.tables.find((table) => table.size === it.configuration?.length)?.shed ?? [];
  let at = 0;
  const tasks = mission.tasks.map(({ name, start, text, linear }, task) => {
    const last = start.map((word) => (words ? words[at++] : word));
    const held = start.map((_, word) => `out ${word} = last ${name}.${word};`).join(" ");
    const program = shed.includes(task) ? held : text;
    const computes = program === null ? `linear = [${linear?.join(", ")}]` : `text = ${JSON.stringify(program).replaceAll("\x7f", "\\u007f")}`;
    return `[[task]]\nname = "${name}"\nstart = [${last.join(", ")}]\n${computes}\n`;
  });
  const sensors = mission.sensors.map(({ name }, place) => {
    const agreed = parseInt(it.frame.units[it.lead].inputs?.[place] ?? "0", 16);
    return `[[sensor]]\nname = "${name}"\nwords = [${agreed}]\n`;
  });
  return `units = 4\nframes = 1\n${sensors.join("")}${tasks.join("")}`;
}

/**
 * @param {Case} it
 * @param {Program} program
 */
async function breaksOutputs(it, program) {
  const { status, text } = await program.call(["ideal"], oneFrame(it));
  if (status !== 0) return [];
  const [due] = readIdeal(text);
  const names = it.mission.tasks.flatMap((task) => task.start.map((_, word) => `${task.name}.${word}`));
  return it.telling.flatMap((unit) =>
    names.flatMap((name, place) => {
      const told = parseInt(it.frame.units[unit].outputs?.[place] ?? "0", 16);
      return told === due[place] ? [] : [it.mark(unit, `${name} is ${shown(told)}, and ${shown(due[place])} is due`)];
    }),
  );
}

/** @param {Case} it */
function breaksAccusations(it) {
  return it.telling.flatMap((unit) =>
    [...it.frame.units[unit].catches.keys()]
      .filter((caught) => it.working.includes(caught))
      .map((caught) => it.mark(unit, `it catches ${caught === unit ? "itself" : `unit ${caught}, which works`}`)),
  );
}

/** @param {Case} it */
function breaksRemovals(it) {
  const { flight, number, mission } = it;
  const configuration = it.configuration ?? [];
  const by = configuration.map((unit) => ({ unit, others: catchersOf(it.frame, unit).filter((other) => it.telling.includes(other)) }));
  const due = by.filter(({ others }) => others.length < 2).map(({ unit }) => unit);
  const after = number + 1 < flight.frames.length ? new Case(mission, flight, number + 1) : null;
  const told = after ? after.configuration : flight.last;
  const caught = by.filter(({ others }) => others.length).map(({ unit, others }) => `unit ${unit} is caught by ${others.join(" ")}`);
  const why = `in frame ${number} ${caught.join(", ") || "nobody is caught"}`;
  const words = `the configuration is ${setOf(told ?? [])}, and ${setOf(due)} is due: ${why}`;
  return [after ? after.mark(after.lead ?? null, words) : it.mark(null, words)];
}

/** @param {Case} it */
function breaksClocks(it) {
  const { frame, mission } = it;
  const clocks = it.telling.map((unit) => ({ unit, shows: frame.units[unit].clock ?? 0 })).sort((one, other) => one.shows - other.shows);
  const [low, high] = [clocks[0], clocks[clocks.length - 1]];
  const apart = clocks.length ? high.shows - low.shows : 0;
  const clock = get(mission.root, "clock");
  const skew = (clock && get(clock, "skew")?.data) ?? 0;
  const ends = clocks.length ? `: unit ${high.unit} shows ${high.shows}, and unit ${low.unit} ${low.shows}` : "";
  return [
    ...(frame.skew !== apart ? [it.mark(null, `the skew is ${frame.skew}, and ${apart} is due${ends}`)] : []),
    ...(frame.skew === apart && apart > skew ? [it.mark(null, `the skew is ${apart}, and the mission's is ${skew} at most${ends}`)] : []),
    ...(frame.slack !== null && frame.slack < 1 ? [it.mark(null, `the slack is ${frame.slack}, and at least 1 is due`)] : []),
  ];
}

/** @param {Case} it */
function breaksMargin(it) {
  for (let number = 0; number <= it.number; number += 1) {
    const each = new Case(it.mission, it.flight, number);
    const members = each.configuration ?? [];
    const faulty = members.filter((unit) => each.faulty.includes(unit));
    const working = members.filter((unit) => each.working.includes(unit));
    if (faulty.length > 1 || working.length < 4) {
      const counts = `${faulty.length} of ${setOf(members)} are faulty, and ${working.length} work`;
      const since = `, since in frame ${number} ${counts}`;
      return [it.mark(null, `the margin that is due is lost${since}`)];
    }
  }
  return [it.mark(null, "the margin that is due is ok: no configuration so far has more than one faulty unit or fewer than four that work")];
}

const RULES = [breaksForm, breaksConfiguration, breaksSensors, breaksOutputs, breaksAccusations, breaksRemovals, breaksClocks, breaksMargin];

/**
 * The places of a report that break the rule that the judge tells; a frame as a whole where none is found.
 * @param {string} text the document
 * @param {string} report
 * @param {number} number of the frame
 * @param {number} rule
 * @param {Program} program
 * @returns {Promise<Mark[]>}
 */
export async function placesOf(text, report, number, rule, program) {
  const whole = [{ frame: number, unit: null, words: `frame ${number} breaks rule ${rule}` }];
  try {
    const mission = readMission(text);
    const flight = readReport(report);
    if (flight.units !== mission.units || flight.frames.length !== mission.frames) {
      const has = `the report has ${flight.units} units and ${flight.frames.length} frames`;
      const told = `${has}, and the mission has ${mission.units} and ${mission.frames}`;
      return [{ frame: number, unit: null, words: told }];
    }
    const it = new Case(mission, flight, Math.min(number, flight.frames.length - 1));
    const found = await RULES[rule - 1](it, program);
    return found.length ? found : whole;
  } catch (why) {
    if (!(why instanceof NoReport)) throw why;
    return whole;
  }
}
