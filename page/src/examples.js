/** The examples that one begins with, and a file of one's own. */
import { valueOf } from "./data.js";
import { byId, element, notice } from "./elements.js";

/**
 * Which examples come first, and what there is to see in each.
 * @type {[string, string][]}
 */
const FIRST = [
  ["first_5_liar", "a liar, out after a frame"],
  ["eight_units", "eight units, four lost in turn"],
  ["past_the_margin", "three at once: margin lost"],
  ["stray_writer", "a unit that runs wild"],
  ["shed_display", "a task is shed"],
  ["rudder", "a lying reader, never caught"],
];

/**
 * The text of a file, or null where it isn't UTF-8.
 * @param {ArrayBuffer} bytes
 */
function textOf(bytes) {
  try {
    return new TextDecoder("utf-8", { fatal: true, ignoreBOM: true }).decode(bytes);
  } catch {
    return null;
  }
}

/**
 * @param {HTMLElement} section the list of examples
 * @param {import("./main.js").Page} page
 */
export function start(section, { store }) {
  const select = /** @type {HTMLSelectElement} */ (section);
  /** @type {Record<string, string>} */
  const missions = valueOf("missions");
  const told = new Map(FIRST);
  const rest = Object.keys(missions).filter((name) => !told.has(name));
  /** @param {string} name */
  const option = (name) => element("option", { value: name }, told.has(name) ? `${name}: ${told.get(name)}` : name);
  select.append(
    element("option", { value: "", hidden: true }, "your own"),
    element("optgroup", { label: "to begin with" }, ...FIRST.map(([name]) => option(name))),
    element("optgroup", { label: "all others" }, ...rest.map(option)),
  );
  select.addEventListener("change", () => {
    if (missions[select.value] !== undefined) store.write(missions[select.value], select.value);
  });

  const open = /** @type {HTMLInputElement} */ (byId("open"));
  open.addEventListener("change", async () => {
    const file = open.files?.[0];
    if (!file) return;
    const text = textOf(await file.arrayBuffer());
    notice(text === null ? `${file.name} isn't UTF-8, so it is no document.` : "");
    if (text !== null) store.write(text, file.name.replace(/\.[^.]*$/, ""));
    open.value = "";
  });

  store.subscribe((state) => {
    select.value = missions[state.name] === state.text ? state.name : "";
    document.title = `${state.name} – sift`;
  });
}
