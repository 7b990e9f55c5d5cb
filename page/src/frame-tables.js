/** The tables of an opened frame: what units tell, their words beside those that are due, and who said what to whom. */
import { element } from "./elements.js";
import { LOOKS } from "./picture.js";
import { caughtBy, groupedByKinds, lookOf } from "./report.js";

/** @typedef {import("./report.js").Frame} Frame */
/** @typedef {import("./votes.js").FrameVotes} FrameVotes */
/** @typedef {import("./votes.js").Vote} Vote */
/** @typedef {import("./elements.js").Child} Child */

/** How words are shown: as hexadecimal digits, or as signed numbers. */
export const shown = { decimal: false };

/** @param {string} word */
function signed(word) {
  const number = parseInt(word, 16);
  return number > 32767 ? number - 65536 : number;
}

/** @param {string} word */
const shownWord = (word) => (shown.decimal ? String(signed(word)) : word);

/**
 * A cell with a word.
 * @param {string | null | undefined} word
 * @param {boolean} [differs]
 */
function wordCell(word, differs = false) {
  if (word === null || word === undefined) return element("td", { class: `word absent${differs ? " differs" : ""}` }, "–");
  return element("td", { class: `word${differs ? " differs" : ""}`, title: `${word} = ${signed(word)}` }, shownWord(word));
}

/**
 * A table.
 * @param {string} caption
 * @param {Child[]} heads
 * @param {HTMLTableRowElement[]} rows
 */
function table(caption, heads, rows) {
  return element(
    "div",
    { class: "scroll" },
    element(
      "table",
      {},
      element("caption", {}, caption),
      element("thead", {}, element("tr", {}, ...heads.map((head) => element("th", { scope: "col" }, head)))),
      element("tbody", {}, ...rows),
    ),
  );
}

/**
 * What each unit tells.
 * @param {Frame} frame
 * @param {number | null} chosen
 * @param {(unit: number) => string} conduct what a faulty unit does
 */
export function unitsTable(frame, chosen, conduct) {
  const rows = frame.units.map((account, unit) => {
    const look = lookOf(frame, unit);
    return element(
      "tr",
      { class: unit === chosen && "chosen-row" },
      element("th", { scope: "row" }, element("span", { class: `unit-sign swatch ${look}` }), `unit ${unit}`),
      element("td", {}, [LOOKS[look], look === "faulty" ? conduct(unit) : ""].filter(Boolean).join(", ")),
      element("td", { class: "mono" }, account.configuration?.join("") ?? "–"),
      element("td", { class: "mono" }, account.clock ?? "–"),
      element("td", {}, groupedByKinds([...account.catches]) || "–"),
      element("td", {}, caughtBy(frame, unit) || "–"),
    );
  });
  return table("The units", ["unit", "what it does", "configuration", "clock, in ticks", "catches", "is caught by"], rows);
}

/**
 * A table of words: a row for each, with the words of the units that tell them, and where they differ from what is due.
 * @param {string} caption
 * @param {string} head
 * @param {string[]} names
 * @param {Frame} frame
 * @param {"inputs" | "outputs"} kind
 * @param {string[] | null} due
 */
export function wordsTable(caption, head, names, frame, kind, due) {
  const tellers = [...frame.units.keys()].filter((unit) => frame.units[unit][kind]);
  const rows = names.map((name, place) => {
    const words = tellers.map((unit) => frame.units[unit][kind]?.[place] ?? null);
    const wanted = due ? due[place] : words[0];
    return element(
      "tr",
      {},
      element("th", { scope: "row" }, name),
      due && wordCell(due[place]),
      ...words.map((word) => wordCell(word, word !== wanted)),
    );
  });
  return table(caption, [head, ...(due ? ["ideal"] : []), ...tellers.map((unit) => `unit ${unit}`)], rows);
}

/**
 * Of each word who said what to whom: units that heard the same share a row.
 * @param {FrameVotes} votes
 */
export function votesTable(votes) {
  const speakers = [...new Set([...votes.values()].flatMap((each) => each.flatMap((vote) => vote.heard.map(([unit]) => unit))))].sort();
  const rows = [...votes].flatMap(([name, each]) => groupsOf(each).map((group, place, groups) => voteRow(name, group, place, groups.length, speakers)));
  return table("Who said what", ["word", "heard by", ...speakers.map((unit) => `unit ${unit} said`), "won", "who differs"], rows);
}

/**
 * Votes in groups of those that heard the same.
 * @param {Vote[]} votes
 */
function groupsOf(votes) {
  /** @type {Map<string, Vote[]>} */
  const groups = new Map();
  for (const vote of votes) {
    const heard = JSON.stringify([vote.heard, vote.vote]);
    groups.set(heard, [...(groups.get(heard) ?? []), vote]);
  }
  return [...groups.values()];
}

/**
 * @param {string} name
 * @param {Vote[]} group
 * @param {number} place
 * @param {number} count
 * @param {number[]} speakers
 */
function voteRow(name, group, place, count, speakers) {
  const [{ heard, vote }] = group;
  const said = new Map(heard);
  const others = heard.filter(([, word]) => word !== vote).map(([unit]) => unit);
  return element(
    "tr",
    {},
    place === 0 && element("th", { scope: "row", rowspan: count }, name),
    element("td", {}, group.map((each) => each.unit).join(" ")),
    ...speakers.map((unit) => (said.has(unit) ? wordCell(said.get(unit), said.get(unit) !== vote) : element("td", { class: "absent" }, ""))),
    vote === null ? element("td", { class: "differs" }, heard.length > 0 ? "no majority" : "shed") : wordCell(vote),
    element("td", {}, vote !== null && others.length > 0 ? `unit${others.length > 1 ? "s" : ""} ${others.join(" ")}` : "–"),
  );
}
