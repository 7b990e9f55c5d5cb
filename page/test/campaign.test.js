// The runs and the rows of campaigns, against the stored ones of cases/sweeps, which another simulator flew.
import assert from "node:assert/strict";
import { execFileSync } from "node:child_process";
import { existsSync, readFileSync } from "node:fs";
import { test } from "node:test";
import { fileURLToPath } from "node:url";
import { Table, changeOf, changesOf } from "../src/cells.js";
import { Campaign, NoCampaign, momentsOf } from "../src/campaign.js";
import { withFaults, withoutFaults } from "../src/edits.js";
import { Schedule, faultName, runsOf } from "../src/faults.js";
import { readIdeal } from "../src/ideal.js";
import { outcomeOf } from "../src/outcomes.js";
import { outlineOf } from "../src/outline.js";
import { contradictions, promiseWords, promisesOf } from "../src/promised.js";
import { readReport } from "../src/report.js";
import { COLUMNS, NoRows, Row, headlinesOf, rowOf, rowsOf, tableOf } from "../src/rows.js";
import { KINDS } from "../src/slots.js";

const TOP = new URL("../../", import.meta.url);
const PROGRAM = process.env.SIFT ?? fileURLToPath(new URL("out/sift", TOP));
const CAMPAIGNS = {
  first_5_liar: { kinds: [...KINDS], moments: [0], single: true, pairs: false },
  placed_reader: { kinds: [...KINDS], moments: [0], single: true, pairs: false },
  two_faults_in_turn: { kinds: [...KINDS], moments: [0, 3], single: false, pairs: true },
};

/** @param {string} place */
const read = (place) => readFileSync(new URL(place, TOP), "utf8");

/** A stored campaign: its document without faults, its schedule, its runs, and the stored lines. */
function stored(name) {
  const text = read(`missions/${name}.toml`);
  const schedule = new Schedule(outlineOf(text), readIdeal(read(`cases/sweeps/${name}.ideal`)));
  const lines = read(`cases/sweeps/${name}.tsv`).trimEnd().split("\n");
  return { base: withoutFaults(text), schedule, runs: runsOf(schedule, CAMPAIGNS[name]), lines };
}

/** The document of a run. */
const documentOf = (base, schedule, faults) =>
  withFaults(base, faults.map((fault) => ({ unit: fault.unit, from: fault.begin, say: schedule.items(fault) })));

test("the runs are the stored ones, by number", () => {
  for (const name of Object.keys(CAMPAIGNS)) {
    const { runs, lines } = stored(name);
    assert.equal(lines[0], COLUMNS.join("\t"));
    for (const line of lines.slice(1)) {
      const [number, fault] = line.split("\t");
      assert.equal(runs[Number(number) - 1].map(faultName).join(" + "), fault, `${name} ${number}`);
    }
    if (CAMPAIGNS[name].single) assert.equal(runs.length, lines.length - 1, name);
  }
});

test("a run's document is the one that docs/campaigns.md tells", () => {
  const { base, schedule, runs } = stored("first_5_liar");
  const fourth = documentOf(base, schedule, runs[3]);
  assert.equal(faultName(runs[3][0]), "unit 0 sense pitch wrong from 0");
  assert.equal(fourth, `${base}\n[[fault]]\nunit = 0\nfrom = 0\n\n[[fault.say]]\nslot = "sense"\nindex = 0\nto = "1234"\nvalue = 999\n`);
  const faces = runs.find((faults) => faultName(faults[0]) === "unit 1 relay-report 3 two-faces from 0");
  assert.deepEqual(schedule.items(faces[0]), [
    { slot: "relay-report", index: 3, to: "0", value: 20 },
    { slot: "relay-report", index: 3, to: "24", value: 1 },
  ]);
});

test("the rows are the stored ones, to the byte", { skip: existsSync(PROGRAM) ? false : `there is no program ${PROGRAM}` }, () => {
  for (const name of Object.keys(CAMPAIGNS)) {
    const { base, schedule, runs, lines } = stored(name);
    for (const line of lines.slice(1)) {
      const number = Number(line.split("\t")[0]);
      const faults = runs[number - 1];
      const report = execFileSync(PROGRAM, ["run", "--workers", "1"], { input: documentOf(base, schedule, faults), encoding: "utf8" });
      const outcome = outcomeOf(faults, readReport(report), report.trimEnd().split("\n").at(-1), schedule);
      assert.equal(rowOf(number, faults, outcome, "-", promisesOf(schedule, faults)), line, name);
    }
  }
});

test("words that a table's shedding holds aren't compared from then on", { skip: existsSync(PROGRAM) ? false : `there is no program ${PROGRAM}` }, () => {
  const text = withoutFaults(read("missions/shed_display.toml"));
  const outline = outlineOf(text);
  assert.deepEqual([...outline.held].map(([size, held]) => [size, [...held]]), [[4, [1]], [5, []]]);
  const ideal = execFileSync(PROGRAM, ["ideal"], { input: text, encoding: "utf8" });
  const schedule = new Schedule(outline, readIdeal(ideal));
  assert.ok(schedule.sheds());
  const faults = runsOf(schedule, CAMPAIGNS.first_5_liar).find((run) => faultName(run[0]) === "unit 4 out pitch.0 wrong from 0");
  const report = execFileSync(PROGRAM, ["run"], { input: documentOf(text, schedule, faults), encoding: "utf8" });
  assert.equal(outcomeOf(faults, readReport(report), "", schedule).wrong, 0);
});

test("what is promised of each run is the stored one, and no stored run contradicts it", () => {
  for (const name of Object.keys(CAMPAIGNS)) {
    const { schedule, runs, lines } = stored(name);
    for (const line of lines.slice(1)) {
      const cells = line.split("\t");
      const promises = promisesOf(schedule, runs[Number(cells[0]) - 1]);
      assert.equal(promises.map(promiseWords).join("+"), cells[12], line);
      const [caught, by, out] = [cells[3], cells[4], cells[5]].map((cell) => cell.split("+"));
      const number = (text) => (text === "-" ? null : Number(text));
      const traces = promises.map((_, place) => ({ said: true, caught: number(caught[place]), by: [...by[place]].filter((digit) => digit !== "-").map(Number), out: number(out[place]) }));
      assert.deepEqual(contradictions(promises, traces), [], line);
    }
  }
});

test("a run that isn't as promised is told", () => {
  const { schedule, runs } = stored("first_5_liar");
  const [promised] = promisesOf(schedule, runs[0]);
  assert.deepEqual(contradictions([promised], [{ said: true, caught: 0, by: [1, 2], out: 2 }]), [
    "promised is that it is out by frame 1, and it is out in frame 2",
    "promised is that 34 catch it in frame 0, and it is first caught in frame 0",
  ]);
  assert.deepEqual(contradictions([{ item: "own_words", frame: 0, by: [] }], [{ said: true, caught: 3, by: [1], out: null }]), ["promised is that nobody catches it, and it is caught in frame 3"]);
});

test("a table of rows is read back, and written as it was", () => {
  for (const name of Object.keys(CAMPAIGNS)) {
    const text = read(`cases/sweeps/${name}.tsv`);
    const rows = rowsOf(text);
    assert.equal(tableOf(rows), text);
    assert.equal(rows.length, text.trimEnd().split("\n").length - 1);
  }
  assert.deepEqual(headlinesOf(rowsOf(read("cases/sweeps/first_5_liar.tsv"))), ["132 runs with a single fault: an output was lost in 3, the margin in 0"]);
  assert.throws(() => rowsOf("row\tfault\n"), NoRows);
  assert.throws(() => rowsOf(`${COLUMNS.join("\t")}\n1\tunit 9 clock wrong from 0\n`), /line 2: it isn't a run's/);
});

test("a row tells what became of each fault, and of the run", () => {
  const row = new Row("7\tunit 0 clock wrong from 2 + unit 1 report silence from 0\tsaid+said\t2+-\t134+-\t4+-\tok\t0\t-\t-\tyes\tend frames=6 cfg=1234 margin=ok\tout by 3+-");
  assert.deepEqual(row.told.map(({ fate, removal, lasting }) => [fate, removal, lasting]), [["out", 2, 2], ["never caught", null, Infinity]]);
  assert.equal(row.fate, "never caught");
});

/** The lines of a campaign's table, as docs/campaigns.md shows them. */
function linesOf(table) {
  return table.slots.map((slot) => {
    const ways = table.kinds.map((kind) => table.units.map((unit) => (table.at(slot, kind, unit)?.mark ?? "").padEnd(4)).join("") + "  ");
    return `${slot.padEnd(16)}${ways.join("")}`.trimEnd();
  });
}

test("the table has the marks that docs/campaigns.md shows", () => {
  const { schedule } = stored("first_5_liar");
  const table = new Table(rowsOf(read("cases/sweeps/first_5_liar.tsv")), new Campaign("", "", schedule, CAMPAIGNS.first_5_liar).slots);
  const page = read("docs/campaigns.md").split("\n");
  const shown = linesOf(table).filter((line) => !line.includes("report"));
  assert.equal(shown.length, 5);
  for (const line of shown) assert.ok(page.includes(line), `docs/campaigns.md hasn't: ${line}`);
  assert.deepEqual(table.looks, ["believed", "caught by one", "outvoted", "out", "inert"]);
});

test("two campaigns are compared cell by cell", () => {
  const [before, after] = ["first_5_liar", "placed_reader"].map((name) => {
    const { schedule } = stored(name);
    return new Table(rowsOf(read(`cases/sweeps/${name}.tsv`)), new Campaign("", "", schedule, CAMPAIGNS[name]).slots);
  });
  const change = (slot, kind, unit) => changeOf(before.at(slot, kind, unit), after.at(slot, kind, unit));
  assert.equal(change("sense pitch", "wrong", 0), "better");
  assert.equal(change("clock", "wrong", 0), "same");
  assert.equal(change("out elevator.0", "wrong", 0), "new");
  assert.equal(changeOf(after.at("sense pitch", "wrong", 0), before.at("sense pitch", "wrong", 0)), "worse");
  assert.equal(change("no slot", "wrong", 0), null);
  const counts = changesOf(before, after);
  assert.equal(counts.better + counts.worse + counts.same + counts.gone, before.cells.size);
  assert.equal(counts.better + counts.worse + counts.same + counts.new, after.cells.size);
});

test("of a slot with several moments the worst run stands in the cell", () => {
  const line = (number, begin, caught, out, wrong) =>
    `${number}\tunit 0 clock wrong from ${begin}\tsaid\t${caught}\t1\t${out}\tok\t${wrong}\t-\t-\tyes\tend frames=6 cfg=1234 margin=ok`;
  const rows = [line(1, 0, 0, 1, 0), line(2, 1, 1, 4, 2), line(3, 2, 2, 3, 0)].map((each) => new Row(each));
  const cell = new Table(rows, ["clock"]).at("clock", "wrong", 0);
  assert.deepEqual([cell?.mark, cell?.row.number, cell?.words], ["3*", 2, "out after 3 frames (only seen), 2 wrong words in the run, row 2"]);
});

test("moments are listed as in 0,10 or 0-49", () => {
  assert.deepEqual(momentsOf("3, 0-2,1"), [0, 1, 2, 3]);
  for (const text of ["", "3-", "3-1", "a", "1000", "0;1"]) assert.throws(() => momentsOf(text), NoCampaign, text);
});

/** A program that stands in for the workers, and keeps count of how many calls are open at once. */
class Hand {
  count = 2;
  open = 0;
  most = 0;
  stopped = false;

  async call(words, input) {
    if (this.stopped) throw new Error("stopped");
    this.most = Math.max(this.most, ++this.open);
    await new Promise((resolve) => setTimeout(resolve));
    this.open -= 1;
    const text = { ideal: read("cases/sweeps/first_5_liar.ideal"), run: read("missions/first_5_liar.report"), judge: "yes\n" }[words[0]];
    return { status: input.includes("# fails") ? 7 : 0, text };
  }
}

test("a campaign is flown by all workers, and can be stopped and go on", async () => {
  const hand = new Hand();
  const chosen = { kinds: ["wrong"], moments: [0] };
  const campaign = await Campaign.of("first_5_liar", read("missions/first_5_liar.toml"), chosen, hand);
  assert.equal(campaign.runs.length, 44);
  await assert.rejects(campaign.fly(hand, () => (hand.stopped = campaign.rows.length >= 10)), /stopped/);
  assert.ok(campaign.rows.length >= 10 && campaign.rows.length < 20);
  assert.equal(campaign.isWhole, false);
  hand.stopped = false;
  await campaign.fly(hand, () => {});
  assert.equal(campaign.isWhole, true);
  assert.deepEqual(campaign.rows.map(({ number }) => number), Array.from({ length: 44 }, (_, place) => place + 1));
  assert.equal(hand.most, 4);
  await assert.rejects(Campaign.of("", `${read("missions/first_5_liar.toml")}# fails`, chosen, hand), /the mission is refused/);
  await assert.rejects(Campaign.of("", read("missions/first_5_liar.toml"), { ...chosen, moments: [6] }, hand), /there is no frame 6: the mission has 6/);
});
