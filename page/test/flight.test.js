/** What the page reads of a flight: reports, votes and events, on the missions and reports of the repository. */
import assert from "node:assert/strict";
import { readFileSync, readdirSync } from "node:fs";
import { test } from "node:test";
import { eventsOf, headlineOf, slackOf } from "../src/events.js";
import { conductOf, readMission } from "../src/mission.js";
import { NoReport, lookOf, readReport } from "../src/report.js";
import { statedBy } from "../src/stated.js";
import { withTables } from "../src/tables.js";
import { Votes } from "../src/votes.js";

const folder = new URL("../../missions/", import.meta.url);
const names = readdirSync(folder).filter((name) => name.endsWith(".toml")).map((name) => name.slice(0, -5));
/** @param {string} name */
const fileOf = (name) => readFileSync(new URL(name, folder), "utf8");

test("each report is read, and has the units and frames of its mission", () => {
  for (const name of names) {
    const mission = readMission(fileOf(`${name}.toml`));
    const flight = readReport(fileOf(`${name}.report`));
    assert.equal(flight.units, mission.units, name);
    assert.equal(flight.frames.length, mission.frames, name);
    assert.equal(mission.tables.length, mission.units - 3, name);
    for (const frame of flight.frames) {
      for (const { outputs, inputs } of frame.units) {
        if (!outputs) continue;
        assert.equal(outputs.length, mission.tasks.reduce((sum, task) => sum + task.start.length, 0), name);
        assert.equal(inputs?.length, mission.sensors.length, name);
      }
    }
  }
});

test("what happened is told in the words of tools/picture", () => {
  for (const name of ["eight_units", "first_5_liar", "past_the_margin"]) {
    const picture = readFileSync(new URL(`../docs/pictures/${name}.txt`, folder), "utf8");
    const flight = readReport(fileOf(`${name}.report`));
    const events = eventsOf(flight, statedBy(readMission(fileOf(`${name}.toml`)), flight));
    assert.ok(picture.includes(headlineOf(flight)), name);
    assert.ok(picture.endsWith(`\n\n${events.map(({ words }) => `${words}\n`).join("")}`), name);
  }
  assert.equal(slackOf(readReport(fileOf("first_5_liar.report"))), "the least slack is 34 ticks, first in frame 0");
});

test("stray units, false reports and tasks that are shed are told", () => {
  /** @param {string} name */
  const told = (name) => statedBy(readMission(fileOf(`${name}.toml`)), readReport(fileOf(`${name}.report`))).map(({ words }) => words);
  assert.deepEqual(told("stray_writer"), ["frame 10: unit 5 is stray: 100,000 strays are drawn from the number 1"]);
  assert.ok(told("shed_display").includes("frames 3 to 5: display is shed; what stands in `out` is held from before"));
  assert.ok(told("false_accuser").some((words) => /says \d+ \(.* caught\) as report to/.test(words)));
});

test("what a faulty unit does is told by the faults of the mission", () => {
  /** @param {string} name */
  const mission = (name) => readMission(fileOf(`${name}.toml`));
  assert.equal(conductOf(mission("first_5_liar"), 1, 1), "");
  assert.equal(conductOf(mission("first_5_liar"), 1, 2), "lies");
  assert.equal(conductOf(mission("stray_writer"), 5, 10), "stray");
  assert.equal(conductOf(mission("silent_unit"), 3, 1), "silent");
  assert.equal(conductOf(mission("eight_units"), 5, 145), "");
  assert.equal(conductOf(mission("eight_units"), 5, 150), "lies");
});

test("a unit that is faulty and out looks otherwise than one that is in", () => {
  const flight = readReport(fileOf("first_5_liar.report"));
  assert.deepEqual(flight.frames.map((frame) => lookOf(frame, 1)), ["works", "works", "faulty", "out", "out", "out"]);
});

test("what is no report is refused at its line", () => {
  const report = fileOf("first_5_liar.report");
  /** @type {[string, number][]} */
  const wrong = [
    ["", 1],
    ["f=0 u=0 faulty", 1],
    [report.replace("f=1 u=1", "f=1 u=2"), 8],
    [report.replace("margin=ok\nf=1", "margin=fine\nf=1"), 6],
    [report.slice(0, report.lastIndexOf("end ")), 37],
    [`${report}\n`, 37],
  ];
  for (const [text, line] of wrong) assert.throws(() => readReport(text), (why) => why instanceof NoReport && why.line === line, String(line));
});

test("votes are read frame by frame, wherever these lie", () => {
  const lines = [...Array(300).keys()].flatMap((frame) =>
    frame % 7 === 3 ? [] : [0, 1].map((unit) => `f=${frame} u=${unit} t=a.0 words=0:${String(frame).padStart(4, "0")},1:- vote=${unit ? "-" : "0001"}`),
  );
  const votes = new Votes(new TextEncoder().encode(`${lines.join("\n")}\nend frames=300 cfg=01 margin=ok\n`));
  for (let frame = 0; frame < 300; frame++) {
    const told = votes.of(frame).get("a.0");
    if (frame % 7 === 3) assert.equal(told, undefined);
    else {
      assert.deepEqual(told, [
        { unit: 0, heard: [[0, String(frame).padStart(4, "0")], [1, null]], vote: "0001" },
        { unit: 1, heard: [[0, String(frame).padStart(4, "0")], [1, null]], vote: null },
      ]);
    }
  }
  assert.equal(votes.of(300).size, 0);
});

test("planned tables take the place of all tables, and nothing else changes", () => {
  const tables = "[[table]]\nsize = 4\nrun = [4]\n";
  assert.equal(
    withTables("units = 4 # four\nframes = 2\n[[task]]\nname = \"a\"\n[[table]]\nsize = 4\n[[fault]]\nunit = 1\n", tables, 20),
    `units = 4 # four\nframes = 2\nsubframes = 20\n[[task]]\nname = "a"\n[[fault]]\nunit = 1\n\n${tables}`,
  );
  assert.equal(withTables("subframes = 14 # few\nframes = 2\ntable = [{size = 4}]\n", tables, 20), `subframes = 20 # few\nframes = 2\n\n${tables}`);
});
