/** Where in a document a rule is broken that the program names: the key or the entry that does it. */
import { get } from "./toml.js";

/** @typedef {import("./toml.js").Value} Value */
/** @typedef {{start: number, end: number}} Place */

/** The kinds of refused texts whose number is no byte: the length of the code, and the bound of the steps. */
const COUNTED = [6, 7];
const FEWEST = 4;

/**
 * What a rule of keys and values speaks of: a list of the document or nothing, and its keys. The first key that isn't as the
 * rule has it is shown.
 * @type {Record<number, [list: string, ...keys: string[]]>}
 */
const SPEAKS_OF = {
  1: [""], 2: ["", "units"], 3: ["", "frames"], 4: ["", "version"], 5: ["", "subframes"],
  6: ["clock"], 7: ["clock", "skew"], 8: ["clock", "error", "rate"], 9: ["clock", "length"], 10: ["clock", "skew"], 11: ["clock", "length"],
  12: ["clock", "start"], 13: ["clock", "drift"], 14: ["clock", "errors"],
  15: ["sensor"], 16: ["sensor", "name"], 17: ["sensor", "words"],
  18: ["task"], 19: ["task", "name"], 20: ["task", "start"], 21: ["task", "start"], 22: ["task", "start", "text", "linear"],
  23: ["table", "size"], 24: ["table", "run", "poll"], 25: ["table", "at"], 31: ["table", "shed"],
  26: ["fault"], 27: ["fault", "unit", "from"], 28: ["fault", "storm", "say"], 29: ["fault", "say"], 30: ["fault", "storm"],
};

/**
 * The keys that a table may have, for the rules that speak of others; of the items of a fault, and of its storm, those of rule 28.
 * @type {Record<number, string[]>}
 */
const KNOWN = {
  1: ["version", "units", "frames", "subframes", "clock", "sensor", "task", "table", "fault"],
  6: ["skew", "error", "rate", "length", "start", "drift", "errors"],
  15: ["name", "words"],
  18: ["name", "start", "text", "linear"],
  23: ["size", "run", "poll", "at", "shed"],
  26: ["unit", "from", "say", "storm"],
  28: ["slot", "index", "word", "to", "frame", "value", "number", "strays"],
};

/**
 * The keys that a slot asks for beside `slot` and `to`.
 * @type {Record<string, string[]>}
 */
const SLOTS = { clock: [], sense: ["index"], relay: ["index"], out: ["index", "word"], report: [], "relay-report": ["index"] };

/** Of each rule of tables the keys whose entry for the task may break it, and of each rule of scripts the key of the fault. */
const TABLE_KEYS = [[], ["run", "poll", "at"], ["run"], ["poll"], ["poll"], ["at"], ["at"], ["at"], ["run"], ["at"], ["shed"], ["run", "poll", "at"]];
const SCRIPT_KEYS = ["", "unit", "unit", "from", "unit", "say", "say"];

/**
 * Whether a value is an integer within bounds.
 * @param {Value | undefined} value
 * @param {number} low
 * @param {number} high
 */
const isInteger = (value, low, high) => value?.kind === "integer" && value.data >= low && value.data <= high;

/**
 * Whether a value is a string of digits of units.
 * @param {Value | undefined} value
 */
const isDigits = (value) => value?.kind === "string" && /^[0-7]*$/.test(value.data);

/**
 * The values of a list, or none.
 * @param {Value | undefined} value
 * @returns {Value[]}
 */
const itemsOf = (value) => (value?.kind === "array" ? value.data : []);

/**
 * Whether a value of a key is as rules of keys have it, as far as that shows at the value alone.
 * @type {Record<string, (value: Value, rule: number) => boolean>}
 */
const FITS = {
  error: (value) => isInteger(value, 0, 8000),
  rate: (value) => isInteger(value, 0, 8000),
  run: (value) => value.kind === "array" && value.data.every((/** @type {Value} */ each) => isInteger(each, 0, 63)),
  poll: (value) => value.kind === "array" && value.data.every((/** @type {Value} */ each) => isInteger(each, 0, 63)),
  unit: (value) => isInteger(value, 0, 7),
  from: (value) => isInteger(value, 0, 999),
};

/**
 * An entry of a list of the document; the list where it has no such entry, and the root where there is no list.
 * @param {Value} root
 * @param {string} list
 * @param {number} number
 * @returns {Value}
 */
function entryOf(root, list, number) {
  if (!list) return root;
  const value = get(root, list);
  return itemsOf(value)[number] ?? value ?? root;
}

/**
 * The first entry of a list of values that isn't as it should be, or the list.
 * @param {Value} list
 * @param {(entry: Value) => boolean} fits
 * @returns {Value}
 */
const firstOther = (list, fits) => itemsOf(list).find((entry) => !fits(entry)) ?? list;

/**
 * The key that a table has and may not have.
 * @param {Value} table
 * @param {number} rule
 * @param {Value} root
 * @returns {Place | undefined}
 */
function unknownKey(table, rule, root) {
  if (table.kind !== "table" || !KNOWN[rule]) return undefined;
  const first = rule === 23 && get(root, "version")?.data !== 2;
  return [...table.data].find(([name]) => !KNOWN[rule].includes(name) || (first && name === "shed"))?.[1];
}

/**
 * A key of the root that stands below a header, and so belongs to another table.
 * @param {Value} root
 * @param {string} name
 * @returns {Place | undefined}
 */
function below(root, name) {
  const tables = [...root.data.values()].flatMap(({ value }) => (value.kind === "table" ? [value] : itemsOf(value).filter((each) => each.kind === "table")));
  return tables.find((table) => table.data.has(name))?.data.get(name);
}

/**
 * The place of a key of a table that a rule speaks of: the first that is missing or isn't as it should be.
 * @param {Value} table
 * @param {string[]} keys
 * @param {number} rule
 * @returns {Place}
 */
function placeOfKeys(table, keys, rule) {
  const optional = rule === 8 || rule === 22 || rule === 28;
  const values = keys.map((key) => ({ key, value: get(table, key) }));
  const wrong = values.find(({ key, value }) => (value ? FITS[key] && !FITS[key](value, rule) : !optional));
  if (wrong) return wrong.value ?? table;
  return values.find(({ value }) => value)?.value ?? table;
}

/**
 * The place in a task that has both or neither of `text` and `linear`, or other start words than a `linear` makes.
 * @param {Value} task
 * @returns {Place}
 */
function placeOfTexts(task) {
  const [start, text, linear] = ["start", "text", "linear"].map((key) => get(task, key));
  if (text && linear) return task.data.get(text.start > linear.start ? "text" : "linear");
  if (linear && itemsOf(linear).length === 2 && itemsOf(start).length !== 1) return start ?? task;
  return text ?? linear ?? task;
}

/**
 * The place of what is wrong with an item by itself, or undefined.
 * @param {Value} item
 * @returns {Place | undefined}
 */
function wrongInItem(item) {
  const slot = get(item, "slot");
  const asked = slot?.kind === "string" ? SLOTS[slot.data] : undefined;
  if (!slot || !asked) return slot ?? item;
  for (const key of ["index", "word"]) {
    const entry = item.data.get(key);
    if (entry && !asked.includes(key)) return entry;
    if (asked.includes(key) && !isInteger(entry?.value, 0, 63)) return entry?.value ?? item;
  }
  const [to, frame, value] = ["to", "frame", "value"].map((key) => get(item, key));
  if (!isDigits(to)) return to ?? item;
  if (frame && !isInteger(frame, 0, 999)) return frame;
  return value && !isInteger(value, -32768, 65535) ? value : undefined;
}

/**
 * The place in a fault's items or its storm.
 * @param {Value} fault
 * @param {number} rule
 * @returns {Place | undefined}
 */
function placeInFault(fault, rule) {
  const items = itemsOf(get(fault, "say")).filter((item) => item.kind === "table");
  const storm = get(fault, "storm");
  if (rule === 28) {
    if (items.length > 0 && storm) return storm;
    return [...items, ...(storm ? [storm] : [])].map((table) => unknownKey(table, 28, fault)).find(Boolean);
  }
  if (rule === 29) return items.map(wrongInItem).find(Boolean);
  if (rule !== 30 || storm?.kind !== "table") return undefined;
  const [number, strays] = ["number", "strays"].map((key) => get(storm, key));
  if (!isInteger(number, 0, Infinity)) return number ?? storm;
  return strays ?? storm;
}

/**
 * Where a rule of keys and values is broken.
 * @param {Value} root
 * @param {number} rule
 * @param {number} number of the entry
 * @returns {Place}
 */
export function placeOfRule(root, rule, number) {
  const [list, ...keys] = SPEAKS_OF[rule] ?? [""];
  const entry = entryOf(root, list, number);
  if (entry.kind !== "table") return entry;
  if (entry === root && rule > 1) return get(root, keys[0] ?? list) ?? below(root, keys[0] ?? list) ?? root;
  const unknown = rule !== 28 && unknownKey(entry, rule, root);
  if (unknown) return unknown;
  if (rule === 22) return placeOfTexts(entry);
  if (rule === 23 && itemsOf(get(root, "table")).length !== (get(root, "units")?.data ?? 0) - FEWEST + 1) return entry;
  return (list === "fault" && placeInFault(entry, rule)) || placeOfKeys(entry, keys, rule);
}

/**
 * Where the text of a task is refused.
 * @param {Value} root
 * @param {number} task
 * @param {number} kind
 * @param {number} byte of the text
 * @returns {Place}
 */
export function placeOfText(root, task, kind, byte) {
  const entry = entryOf(root, "task", task);
  const text = entry.kind === "table" ? get(entry, "text") : undefined;
  if (!text?.places || COUNTED.includes(kind)) return text ?? entry;
  const before = new TextDecoder().decode(new TextEncoder().encode(text.data).subarray(0, byte)).length;
  const start = text.places[Math.min(before, text.places.length - 1)];
  return { start, end: start + 1 };
}

/**
 * Where a table breaks a rule, or the number of subframes where the tables are the plain ones.
 * @param {Value} root
 * @param {number} size
 * @param {number} task
 * @param {number} rule
 * @returns {Place}
 */
export function placeOfTable(root, size, task, rule) {
  if (!get(root, "table")) return get(root, "subframes") ?? get(root, "units") ?? root;
  const table = entryOf(root, "table", size - FEWEST);
  if (table.kind !== "table") return table;
  const tasks = itemsOf(get(root, "task")).length;
  const lists = TABLE_KEYS[rule].flatMap((key) => get(table, key) ?? []);
  if (rule === 1) return lists.find((list) => itemsOf(list).length !== tasks) ?? table;
  const numbers = itemsOf(lists[0]).map((each) => each.data);
  if (rule === 10) return itemsOf(lists[0]).find((each, place) => each.data >= tasks || numbers[place - 1] >= each.data) ?? table;
  const entries = lists.map((list) => itemsOf(list)[task]);
  return (rule === 11 ? entries.find((entry) => entry.data !== 0 && entry.data !== "") : entries[0]) ?? table;
}

/**
 * The place of what is wrong with an item of a good document, by one of the rules 5 and 6 of scripts, or undefined.
 * @param {Value} root
 * @param {Value} fault
 * @param {Value} item
 * @param {number} rule
 * @returns {Place | undefined}
 */
function wrongInScript(root, fault, item, rule) {
  const units = get(root, "units")?.data;
  const [slot, index, word, to, frame] = ["slot", "index", "word", "to", "frame"].map((key) => get(item, key));
  if (rule === 6) {
    const hearers = [...(to?.data ?? "")].map(Number);
    const good = hearers.every((unit, place) => unit < units && unit !== get(fault, "unit")?.data && !(hearers[place - 1] >= unit));
    return good && hearers.length > 0 ? undefined : to;
  }
  const tasks = itemsOf(get(root, "task"));
  const most = slot?.data === "out" ? tasks.length : slot?.data === "relay-report" ? units : itemsOf(get(root, "sensor")).length;
  if (index && index.data >= most) return index;
  if (word && index && word.data >= itemsOf(get(tasks[index.data], "start")).length) return word;
  const within = !frame || (frame.data >= get(fault, "from")?.data && frame.data < get(root, "frames")?.data);
  return within ? undefined : frame;
}

/**
 * Where a fault breaks a rule of scripts.
 * @param {Value} root
 * @param {number} number
 * @param {number} rule
 * @returns {Place}
 */
export function placeOfScript(root, number, rule) {
  const fault = entryOf(root, "fault", number);
  if (fault.kind !== "table") return fault;
  const value = get(fault, SCRIPT_KEYS[rule]);
  if (SCRIPT_KEYS[rule] !== "say") return value ?? fault;
  return itemsOf(value).map((item) => wrongInScript(root, fault, item, rule)).find(Boolean) ?? value ?? fault;
}
