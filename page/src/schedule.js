/** The schedule of each size: which position runs which task when, and what is free. And the planner, as a button. */
import { element } from "./elements.js";
import { Stopped } from "./program.js";
import { withTables } from "./tables.js";

/** @typedef {import("./mission.js").Mission} Mission */
/** @typedef {import("./mission.js").Table} Table */

const FIRST_RUN = 4;
const LAST_RUN = -8;
/**
 * What every unit does in the fixed subframes, counted from the frame's begin or end.
 * @type {[number, string, string][]}
 */
const FIXED = [
  [0, "say", "says its clock, and the sensors that it reads"],
  [2, "relay", "hears clocks and sensors, and relays the sensors"],
  [4, "agree", "hears the relays, and agrees on the sensors' words"],
  [-6, "report", "says whom it caught"],
  [-4, "relay", "hears the reports, and relays them"],
  [-2, "end", "hears the relays, removes whom two caught, and sets its clock"],
];

/**
 * What a task reads, as its text names it.
 * @param {Mission} mission
 * @param {number} task
 */
function readsOf(mission, task) {
  const { text, name } = mission.tasks[task];
  if (text === null) return [`last ${name}.0`];
  const plain = text.replaceAll(/#[^\n]*/g, " ");
  return [...new Set([...plain.matchAll(/\b(now|last)\s+(\w+)\s*\.\s*(\d+)|\bsense\s+(\w+)/g)].map((read) => (read[4] ? `sense ${read[4]}` : `${read[1]} ${read[2]}.${read[3]}`)))];
}

/**
 * A colour for a task, far from those of its neighbours.
 * @param {HTMLElement} cell
 * @param {number} task
 */
function coloured(cell, task) {
  cell.style.setProperty("--hue", String(Math.round((200 + 137.5 * task) % 360)));
  return cell;
}

/** The schedule for one size of a configuration. */
class Grid {
  /**
   * @param {Mission} mission
   * @param {Table} table
   */
  constructor(mission, table) {
    this.mission = mission;
    this.table = table;
    this.subframes = [...Array(mission.subframes).keys()];
    this.tasks = mission.tasks.map((_, task) => task).filter((task) => !table.shed.includes(task));
    this.lastRun = mission.subframes + LAST_RUN;
  }

  /** @param {number} subframe */
  mayRun(subframe) {
    return subframe >= FIRST_RUN && subframe <= this.lastRun;
  }

  fixedRow() {
    const fixed = new Map(FIXED.map(([at, word, told]) => [(at + this.subframes.length) % this.subframes.length, { word, told }]));
    return element(
      "tr",
      {},
      element("th", { scope: "row" }, "all units"),
      ...this.subframes.map((subframe) => {
        const found = fixed.get(subframe);
        return element("td", { class: found ? "fixed" : "none", title: found && `subframe ${subframe}: every unit ${found.told}` }, found?.word);
      }),
    );
  }

  /** @param {number} position */
  positionRow(position) {
    return element(
      "tr",
      {},
      element("th", { scope: "row" }, `position ${position}`),
      ...this.subframes.map((subframe) => {
        const task = this.tasks.find((each) => this.table.run[each] === subframe && this.table.at[each].includes(position));
        if (task === undefined) return element("td", { class: this.mayRun(subframe) ? "free" : "none", title: this.mayRun(subframe) && `position ${position} is free in subframe ${subframe}` });
        const { name } = this.mission.tasks[task];
        const reads = readsOf(this.mission, task).join(", ") || "nothing";
        return coloured(element("td", { class: "runs", title: `position ${position} runs ${name} in subframe ${subframe}; it reads ${reads}` }, name), task);
      }),
    );
  }

  pollsRow() {
    return element(
      "tr",
      {},
      element("th", { scope: "row" }, "polls"),
      ...this.subframes.map((subframe) => {
        const polled = this.tasks.filter((task) => this.table.poll[task] === subframe);
        const names = polled.map((task) => coloured(element("span", { class: "polled" }, this.mission.tasks[task].name), task));
        return element("td", { class: polled.length > 0 ? "polls" : "none" }, ...names);
      }),
    );
  }

  /** What is free, what is shed, and who reads the sensors. */
  notes() {
    const { size, at, shed } = this.table;
    const places = Math.max(0, this.lastRun - FIRST_RUN + 1) * size;
    const free = places - this.tasks.reduce((taken, task) => taken + at[task].length, 0);
    const readers = this.mission.sensors.map(({ name }, sensor) => {
      const reader = sensor % size;
      const users = this.tasks.filter((task) => at[task].includes(reader) && readsOf(this.mission, task).includes(`sense ${name}`));
      const uses = users.length > 0 ? `runs ${users.map((task) => this.mission.tasks[task].name).join(", ")}, which read${users.length === 1 ? "s" : ""} it` : "runs no task that reads it";
      return `Sensor ${name}: position ${reader} reads it, and ${uses}.`;
    });
    return [
      `Free: ${free} of ${places} places, in the subframes ${FIRST_RUN} to ${this.lastRun}.`,
      ...(shed.length > 0 ? [`Shed: ${shed.map((task) => this.mission.tasks[task].name).join(", ")}.`] : []),
      ...readers,
    ];
  }

  draw() {
    return element(
      "section",
      { class: "size", "aria-label": `a configuration of ${this.table.size} units` },
      element("h3", {}, `A configuration of ${this.table.size} units`),
      element(
        "div",
        { class: "scroll", tabindex: 0, role: "group", "aria-label": `the table for ${this.table.size} units` },
        element(
          "table",
          { class: "schedule" },
          element("thead", {}, element("tr", {}, element("th", { scope: "col" }, "subframe"), ...this.subframes.map((subframe) => element("th", { scope: "col" }, subframe)))),
          element("tbody", {}, this.fixedRow(), ...[...Array(this.table.size).keys()].map((position) => this.positionRow(position)), this.pollsRow()),
        ),
      ),
      ...this.notes().map((note) => element("p", { class: "more" }, note)),
    );
  }
}

/**
 * What the planner's answer says, where it is no plan.
 * @param {Mission | undefined} mission
 * @param {string} line
 */
function whyNot(mission, line) {
  const found = /^no room (\d) task (\d+)$/.exec(line);
  if (!found) return `the planner answers: ${line}`;
  const name = mission?.tasks[Number(found[2])]?.name ?? `task ${found[2]}`;
  return `${line}: with ${found[1]} units ${name} has no place in so short a frame. Give it more subframes, or ask for fewer copies.`;
}

/**
 * @param {HTMLElement} section
 * @param {import("./main.js").Page} page
 */
export function start(section, { store, program }) {
  const copies = element("input", { type: "number", min: 3, max: 8, value: 3, id: "plan-copies" });
  const subframes = element("input", { type: "number", min: 12, max: 64, value: 16, id: "plan-subframes" });
  const told = element("p", { role: "status", class: "more" });
  const grids = element("div", {});

  async function plan() {
    const { text, flown } = store.state;
    const reply = await program.latest("plan", ["plan", "--copies", copies.value, "--subframes", subframes.value], text);
    if (reply.status !== 0) {
      told.textContent = reply.status === 2 ? "copies are 3 to 8, and subframes 12 to 64" : whyNot(flown?.mission, reply.text.trimEnd());
      return;
    }
    store.write(withTables(text, reply.text, Number(subframes.value)));
    told.textContent = "The tables of the plan stand in the document; undo in the editor takes them back.";
  }

  section.append(
    element(
      "form",
      {
        class: "plan",
        onsubmit: (/** @type {Event} */ event) => {
          event.preventDefault();
          plan().catch((why) => {
            if (!(why instanceof Stopped)) told.textContent = String(why.message);
          });
        },
      },
      element("label", {}, "Copies of each task ", copies),
      element("label", {}, "Subframes ", subframes),
      element("button", { class: "main" }, "Plan, and write the tables"),
    ),
    told,
    grids,
  );

  store.subscribe((state, changed) => {
    grids.classList.toggle("stale", state.told !== "flown");
    if (!changed.has("flown") || !state.flown) return;
    const { mission } = state.flown;
    if (changed.has("name")) told.textContent = "";
    subframes.value = String(mission.subframes);
    const plain = mission.plain ? [element("p", {}, "The document has no tables, so each task runs on all units, one after the other: the plain tables.")] : [];
    grids.replaceChildren(...plain, ...[...mission.tables].reverse().map((table) => new Grid(mission, table).draw()));
  });
}
