/** Where refusals are shown, on the mistakes of cases/, beside the places that tools/explain shows. */
import assert from "node:assert/strict";
import { readFileSync, readdirSync } from "node:fs";
import { test } from "node:test";
import { positionOf } from "../src/positions.js";
import { shownRefusal } from "../src/refusals.js";

// The sentences stand in the page, as a block of data.
const SENTENCES = Object.fromEntries(["scenario", "task", "table", "script"].map((sort) => [sort, Array.from({ length: 31 }, (_, rule) => [`${sort} ${rule + 1}`, "mend"])]));
Object.assign(globalThis, { document: { getElementById: () => ({ textContent: JSON.stringify(SENTENCES) }) } });

const STATUSES = { "not a document": 3, scenario: 4, task: 5, table: 6, script: 7 };
const folder = new URL("../../cases/mistakes/", import.meta.url);

/** Each mistake: its document, the program's line, and the line and column that tools/explain shows. */
function* mistakes() {
  for (const file of readdirSync(folder).filter((each) => each.endsWith(".toml"))) {
    const text = readFileSync(new URL(file, folder));
    const [line, where] = readFileSync(new URL(file.replace(".toml", ".txt"), folder), "utf8").split("\n");
    const [, row, column] = /:(\d+):(\d+): /.exec(where) ?? [];
    const status = Object.entries(STATUSES).find(([begin]) => line.startsWith(begin))?.[1];
    if (status && row && text.equals(Buffer.from(text.toString()))) yield { file, text: text.toString(), line, status, row: Number(row), column: Number(column) };
  }
}

test("a refusal is shown in the line that tools/explain shows, and mostly in its column", () => {
  let all = 0;
  let exact = 0;
  for (const { file, text, line, status, row, column } of mistakes()) {
    const shown = shownRefusal(text, { status, text: `${line}\n` });
    assert.ok(shown.place, file);
    const { line: own, ch } = positionOf(text.replace(/^\ufeff/, ""), shown.place.start - Number(text.startsWith("\ufeff")));
    assert.equal(own + 1, row, file);
    all += 1;
    exact += ch + 1 === column ? 1 : 0;
    if (status > 3) assert.match(shown.why, new RegExp(`^${line.split(" ")[0]} \\d+$`), file);
  }
  assert.ok(all > 130, `${all} mistakes`);
  assert.ok(exact > 0.85 * all, `${exact} of ${all} at their column`);
});

test("want of memory and a line of no rule have no place", () => {
  assert.equal(shownRefusal("units = 5\n", { status: 10, text: "" }).place, null);
  assert.deepEqual(shownRefusal("units = 5\n", { status: -1, text: "the program stopped\n" }), { line: "the program stopped", place: null, why: "", mend: "" });
});
