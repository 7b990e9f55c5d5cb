// The reader of documents: what is read, where it stands, and what is refused, with the sentences that tools/explain has.
import assert from "node:assert/strict";
import { readFileSync, readdirSync } from "node:fs";
import { test } from "node:test";
import { NotADocument, get, readDocument } from "../src/toml.js";

const MISTAKES = new URL("../../cases/mistakes/", import.meta.url);
const MISSIONS = new URL("../../missions/", import.meta.url);

/** @param {string} text */
function refused(text) {
  try {
    readDocument(text).root;
  } catch (fault) {
    assert.ok(fault instanceof NotADocument, String(fault));
    return fault;
  }
  return null;
}

/** The text of a file, or null where it is no UTF-8. */
function textOf(place) {
  try {
    return new TextDecoder("utf-8", { fatal: true, ignoreBOM: true }).decode(readFileSync(place));
  } catch {
    return null;
  }
}

test("what is no document is refused at its place, with its sentence and its mend", () => {
  let tried = 0;
  for (const name of readdirSync(MISTAKES).filter((each) => each.endsWith(".toml"))) {
    const text = textOf(new URL(name, MISTAKES));
    if (text === null) continue;
    const told = readFileSync(new URL(name.replace(".toml", ".txt"), MISTAKES), "utf8").split("\n");
    const fault = refused(text);
    if (told[0] !== "not a document") {
      assert.equal(fault, null, `${name} is a document`);
      continue;
    }
    assert.ok(fault, `${name} is none`);
    const before = text.slice(0, fault.place).replace(/^\ufeff/, "").split("\n");
    assert.ok(told[1].endsWith(`.toml:${before.length}:${(before.at(-1) ?? "").length + 1}: ${fault.message}`), `${name}: ${told[1]} isn't ${fault.message}`);
    assert.ok(told.includes(`  mend: ${fault.mend}`), `${name}: ${fault.mend}`);
    tried += 1;
  }
  assert.ok(tried >= 15, `only ${tried} were tried`);
});

test("every mission is a document", () => {
  const names = readdirSync(MISSIONS).filter((each) => each.endsWith(".toml"));
  assert.ok(names.length >= 30);
  for (const name of names) assert.equal(refused(textOf(new URL(name, MISSIONS)) ?? ""), null, name);
});

test("values are read as they are written", () => {
  const cases = [
    ["-1", -1],
    ["+1_000", 1000],
    ["0x1F", 31],
    ["0b101", 5],
    ["9223372036854775807", 9223372036854775807n],
    ["1e3", 1000],
    ["true", true],
    ['"a\\u00e9\\n"', "a\u00e9\n"],
    ["'a\\n'", "a\\n"],
    ['"""\na""b\\\n   c"""', 'a""bc'],
    ["'''it's'''", "it's"],
    ["1979-05-27T07:32:00Z", "1979-05-27T07:32:00Z"],
  ];
  for (const [written, value] of cases) assert.deepEqual(get(readDocument(`a = ${written}`).root, "a")?.data, value, String(written));
});

test("a value tells where it stands, and a string where each of its letters does", () => {
  const text = 'units = 4\n[[task]]\ntext = "a\\u0062c"\n';
  const value = get(get(readDocument(text).root, "task")?.data[0], "text");
  assert.equal(text.slice(value?.start, value?.end), '"a\\u0062c"');
  assert.deepEqual(value?.places, [27, 28, 34, 35]);
});
