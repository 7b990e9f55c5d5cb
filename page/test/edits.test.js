// Edits of a document's faults: what changes, and that all else stays.
import assert from "node:assert/strict";
import { spawnSync } from "node:child_process";
import { existsSync, readFileSync, readdirSync } from "node:fs";
import { test } from "node:test";
import { fileURLToPath } from "node:url";
import { statedFaults, withFault, withFaults, withItem, withStorm, withoutFault, withoutFaults, withoutItem } from "../src/edits.js";
import { Schedule } from "../src/faults.js";
import { outlineOf } from "../src/outline.js";
import { get, readDocument } from "../src/toml.js";

const MISSIONS = new URL("../../missions/", import.meta.url);
const PROGRAM = process.env.SIFT ?? fileURLToPath(new URL("../../out/sift", import.meta.url));
const ITEM = /** @type {const} */ ({ slot: "out", index: 0, word: 0, to: "012", value: 7 });
const HEAD = "# A mission.\nunits = 4\nframes = 2 # two\n\n[[task]]\nname = \"count\"\nstart = [5]\nlinear = [3, 1]\n";
const FAULT = "\n[[fault]]\nunit = 3\nfrom = 1\n\n[[fault.say]]\nslot = \"out\"\nindex = 0\nword = 0\nto = \"012\"\nvalue = 7\n";

/** @param {string} name */
const mission = (name) => readFileSync(new URL(name, MISSIONS), "utf8");

/** The values of a document, without places, tables by sorted keys. */
function plain(value) {
  if (value.kind === "array") return value.data.map(plain);
  if (value.kind !== "table") return value.data;
  return Object.fromEntries([...value.data].map(([key, entry]) => [key, plain(entry.value)]).sort());
}

/** @param {string} text */
const valuesOf = (text) => plain(readDocument(text).root);

test("a first fault goes behind all that is there", () => {
  assert.equal(withItem(HEAD, 3, 1, ITEM), HEAD + FAULT);
  assert.equal(withFault(HEAD.trimEnd(), { unit: 3, from: 1, say: [ITEM] }), HEAD + FAULT);
});

test("what was added can be taken out again", () => {
  assert.equal(withoutFaults(HEAD + FAULT), HEAD);
  assert.equal(withoutFault(HEAD + FAULT, 3), HEAD);
  assert.equal(withoutItem(HEAD + FAULT, 3, 0), HEAD);
  assert.equal(withoutFault(HEAD + FAULT, 2), HEAD + FAULT);
});

test("a further item comes before the others, and an earlier frame begins the fault", () => {
  const more = withItem(HEAD + FAULT, 3, 0, { slot: "clock", to: "01", frame: 0 });
  const put = '\n[[fault.say]]\nslot = "clock"\nto = "01"\nframe = 0\n';
  assert.equal(more, (HEAD + FAULT).replace("from = 1\n", `from = 0\n${put}`));
  assert.equal(withoutItem(more, 3, 0), (HEAD + FAULT).replace("from = 1", "from = 0"));
});

test("a storm takes the place of items, and items that of a storm", () => {
  const storm = withStorm(HEAD + FAULT, 3, 0, { number: 1, strays: 9 });
  assert.equal(storm, `${HEAD}\n[[fault]]\nunit = 3\nfrom = 0\n\n[fault.storm]\nnumber = 1\nstrays = 9\n`);
  assert.equal(withItem(storm, 3, 1, ITEM), HEAD + FAULT);
});

test("comments and the order of the rest stay, wherever the faults stand", () => {
  const text = [
    "# first", "", "# the liar", "[[fault]] # it lies", "from = 1 # since then", "unit = 3", "", "# what it says", "[[fault.say]]",
    'slot = "clock"', 'to = "0"', "", "# the rest", "frames = 2", "",
  ].join("\n");
  // The last key is one of the item, as TOML has it: it goes with it. What stands above other headers stays.
  const other = text.replace("frames = 2\n", "[[task]] # one\nstart = [5]\n# last\n");
  assert.equal(withoutFaults(other), "# first\n\n# the rest\n[[task]] # one\nstart = [5]\n# last\n");
  assert.match(withItem(other, 3, 1, ITEM), /unit = 3\n\n\[\[fault\.say\]\]\nslot = "out"[^]*value = 7\n\n# what it says\n/);
  assert.match(withItem(other, 3, 0, ITEM), /\[\[fault\]\] # it lies\nfrom = 0 # since then\nunit = 3\n/);
});

test("the short forms of TOML are kept where they stand", () => {
  const cases = [
    `${HEAD}[[fault]]\nunit = 3\nfrom = 1\nsay = [{slot = "clock", to = "0"}]\n`,
    `${HEAD}[[fault]]\nunit = 3\nfrom = 1\nsay = [\n  # one\n  {slot = "clock", to = "0"},\n]\n`,
    `fault = [{unit = 3, from = 1, say = [{slot = "clock", to = "0"}]}] # so\n${HEAD}`,
    `fault = [\n  {unit = 2, from = 0, storm = {number = 1, strays = 2}}, # stray\n  {unit = 3, from = 1, say = [{slot = "clock", to = "0"}]},\n]\n${HEAD}`,
    `${HEAD}[[fault]]\nunit = 3\nfrom = 1\nstorm.number = 1\nstorm.strays = 5\n`,
    `${HEAD}[['fault']]\n"unit" = 3\nfrom = 0x1\n[[ "fault" . say ]]\nslot = "clock"\nto = "0"\n[[task]]\nname = "other"\n`,
    (HEAD + FAULT).replaceAll("\n", "\r\n"),
    `\ufeff${HEAD}`,
  ];
  for (const text of cases) {
    const rest = valuesOf(text);
    delete rest.fault;
    assert.deepEqual(valuesOf(withoutFaults(text)), rest, text);
    const edits = [withItem(text, 3, 1, ITEM), withItem(text, 3, 0, ITEM), withItem(text, 1, 0, ITEM), withStorm(text, 3, 1, { number: 4, strays: 5 })];
    for (const edited of edits) {
      const values = valuesOf(edited);
      delete values.fault;
      assert.deepEqual(values, rest, edited);
    }
    // A storm takes the whole fault's place, with its comments; an item leaves them.
    const comments = (whole) => whole.split("\n").filter((line) => line.includes("#")).length;
    if (!text.includes("storm.number")) assert.deepEqual(edits.slice(0, 3).map(comments), [1, 1, 1].map(() => comments(text)), text);
    const said = statedFaults(edits[1]).find((fault) => fault.unit === 3);
    assert.equal(said?.from, 0, edits[1]);
    assert.deepEqual(said?.say?.[0], ITEM, edits[1]);
    assert.deepEqual(statedFaults(edits[2]).find((fault) => fault.unit === 1), { unit: 1, from: 0, say: [ITEM] });
    assert.deepEqual(statedFaults(edits[3]).find((fault) => fault.unit === 3)?.storm, { number: 4, strays: 5 });
    assert.deepEqual(statedFaults(withoutFault(edits[1], 3)).filter((fault) => fault.unit === 3), []);
  }
});

test("line ends stay as the document has them", () => {
  const text = (HEAD + FAULT).replaceAll("\n", "\r\n");
  assert.equal(withItem(HEAD.replaceAll("\n", "\r\n"), 3, 1, ITEM), text);
  assert.equal(withoutFaults(text), HEAD.replaceAll("\n", "\r\n"));
});

test("of every mission faults are taken out and put in again, and nothing else changes", () => {
  for (const name of readdirSync(MISSIONS).filter((each) => each.endsWith(".toml"))) {
    const text = mission(name);
    const values = valuesOf(text);
    const base = withoutFaults(text);
    assert.deepEqual(valuesOf(withFaults(base, statedFaults(text))), values, name);
    assert.deepEqual(statedFaults(base), [], name);
    const lines = base.split("\n");
    assert.deepEqual(text.split("\n").filter((line) => /^#/.test(line)).slice(0, 2), lines.filter((line) => /^#/.test(line)).slice(0, 2), name);
    let at = -1;
    const whole = text.split("\n");
    for (const line of lines) {
      at = whole.indexOf(line, at + 1);
      assert.ok(at >= 0, `${name}: ${line} isn't where it was`);
    }
  }
});

test("every slot of every unit can be said wrong by hand, and the program accepts it", { skip: existsSync(PROGRAM) ? false : `there is no program ${PROGRAM}` }, () => {
  const drawn = spawnSync(PROGRAM, ["gen", "--number", "0"], { encoding: "utf8" }).stdout;
  for (const text of [mission("pitch.toml"), mission("shed_display.toml"), mission("stray_writer.toml"), drawn]) {
    const outline = outlineOf(text);
    const schedule = new Schedule(outline, []);
    for (const unit of schedule.units) {
      // All items go into one document: a fault has room for 64.
      const slots = schedule.slotsOf(unit).filter((slot) => slot.sort !== "relay-report" || slot.index !== unit);
      const edited = slots.slice(0, 60).reduce((whole, slot, place) => {
        const to = schedule.units.filter((each) => each !== unit && (slot.sort !== "relay-report" || each !== slot.index)).join("");
        const keys = { slot: slot.sort, ...(slot.index === null ? {} : { index: slot.index }), ...(slot.word === null ? {} : { word: slot.word }) };
        return withItem(whole, unit, 0, { ...keys, to, ...(place % 2 ? { frame: 1, value: place } : {}) });
      }, text);
      const told = spawnSync(PROGRAM, ["check"], { input: edited, encoding: "utf8" }).stdout;
      assert.equal(told, "ok\n", edited);
      assert.equal(withoutFaults(edited), withoutFaults(text));
    }
  }
});
