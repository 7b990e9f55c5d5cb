// Links that hold documents.
import assert from "node:assert/strict";
import { readFileSync, readdirSync } from "node:fs";
import { test } from "node:test";
import { NoDocument, documentOf, holdsDocument, linkOf } from "../src/links.js";

const MISSIONS = new URL("../../missions/", import.meta.url);

test("a link opens to the same document, byte for byte", async () => {
  const texts = readdirSync(MISSIONS).filter((name) => name.endsWith(".toml")).map((name) => readFileSync(new URL(name, MISSIONS), "utf8"));
  for (const text of [...texts, "", "\ufeff# \u00e9 \u{1f680}\r\n", "#".repeat(1_048_576)]) {
    const link = await linkOf(text);
    assert.match(link, /^#document=[A-Za-z0-9_-]+$/);
    assert.ok(holdsDocument(link));
    assert.equal(await documentOf(link), text);
  }
});

test("a link that was cut off or changed says so", async () => {
  const link = await linkOf(readFileSync(new URL("pitch.toml", MISSIONS), "utf8"));
  for (const hash of [link.slice(0, -9), `${link}*`, "#document=", `${link.slice(0, 40)}A${link.slice(40)}`, "#document=AAAA"]) {
    await assert.rejects(documentOf(hash), NoDocument, hash);
  }
  assert.equal(holdsDocument("#other"), false);
});

test("a link that would fill the memory is refused", async () => {
  const zeros = new Blob([new Uint8Array(50_000_000)]).stream().pipeThrough(new CompressionStream("deflate"));
  const bytes = Buffer.concat([Buffer.alloc(4), Buffer.from(await new Response(zeros).arrayBuffer())]);
  await assert.rejects(documentOf(`#document=${bytes.toString("base64url")}`), /longer than any mission/);
});
