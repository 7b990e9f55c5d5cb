/** The laboratories: traitors that lie about what others told them, clocks alone, and three buses. */
import { drawn, element } from "./elements.js";
import { heads, label, note, option, tableRow } from "./parts.js";

/** @typedef {import("./main.js").Page} Page */
/** @typedef {import("./program.js").Program} Program */

const PLAN = `# Seven units, of which 0 and 1 lie. A path reads: what unit 0 told unit 2, and unit 2 told unit 1, unit 1 tells as this.
units = 7
m = 2
values = [1, 2, 3, 4, 5, -1, 7]
lie = [
  {path = '0', to = '1', value = 7}, {path = '0', to = '2', value = 8}, {path = '0', to = '3', value = 9},
  {path = '0', to = '4'},
  {path = '1', to = '5', value = 10},
  {path = '01', to = '2', value = 11}, {path = '01', to = '3', value = 12},
  {path = '021', to = '3', value = 13}, {path = '021', to = '4', value = 14},
  {path = '20', to = '3', value = 15},
  {path = '201', to = '4', value = 16},
]
`;

/**
 * The figures of the clocks: their option, what they are, their first value, and their bounds.
 * @type {[string, string, number, number, number][]}
 */
const FIGURES = [
  ["n", "clocks", 4, 1, 32],
  ["m", "of them faulty", 1, 0, 10],
  ["skew", "skew, in ticks", 8, 0, 8000],
  ["error", "reading error", 1, 0, 8000],
  ["rate", "drift a round", 0, 0, 8000],
  ["rounds", "rounds", 100, 1, 1000],
  ["number", "drawn from the number", 5, 0, Number.MAX_SAFE_INTEGER],
];

/**
 * What statuses say that a laboratory may have.
 * @type {Record<number, string>}
 */
const STATUSES = {
  3: "The plan is no document of TOML.",
  15: "The mission has a storm, and the buses fly none.",
  16: "The plan breaks a rule of plans: the help tells them, in byz.",
  17: "Too few of the clocks work, or the skew has too little room: n is to be 3m + 1 at least, and skew * (n - 3m) at least 2n * (error + rate).",
};

/**
 * A laboratory: a form, and below it what it gave.
 * @param {string} title
 * @param {string} about
 * @param {HTMLElement[]} fields
 * @param {string} verb
 * @param {() => Promise<(Node | null)[]>} run
 */
function laboratory(title, about, fields, verb, run) {
  const result = element("div", { role: "status", class: "laboratory-result" });
  const submit = async (/** @type {Event} */ event) => {
    event.preventDefault();
    result.replaceChildren(...(await run()).flatMap((node) => node ?? []));
  };
  return element(
    "section",
    { class: "laboratory" },
    element("h3", {}, title),
    note(about),
    element("form", { class: "choices", onsubmit: submit }, ...fields, element("button", { type: "submit", class: "main" }, verb)),
    result,
  );
}

/**
 * What the program wrote where it gave no text.
 * @param {import("./program.js").Reply} reply
 */
const refused = ({ status, text }) => [element("p", { class: "alarm" }, element("strong", {}, text.trim()), ` ${STATUSES[status] ?? ""}`)];

/** @param {string} text */
const whole = (text) => element("details", {}, element("summary", {}, "The text"), element("pre", { tabindex: 0 }, text));

/** @param {Program} program */
function traitors(program) {
  const plan = element("textarea", { rows: 14, spellcheck: "false", wrap: "off", class: "plan-text", "aria-label": "The plan" });
  plan.value = PLAN;
  return laboratory(
    "Traitors",
    "Up to two units of at most ten lie, also about what others told them. Each loyal unit ends with the same vector of all values.",
    [plan],
    "Tell and relay",
    async () => {
      const reply = await program.call(["byz"], plan.value);
      return reply.status === 0 ? [vectors(reply.text), whole(reply.text)] : refused(reply);
    },
  );
}

/**
 * The vectors of all units as a table.
 * @param {string} text
 */
function vectors(text) {
  const lines = text.trimEnd().split("\n").map((line) => /^u=(\d) (?:liar|vector=(.*))$/.exec(line));
  const units = lines.map((found) => found?.[1] ?? "");
  return element(
    "div",
    { class: "scroll" },
    element(
      "table",
      {},
      element("caption", {}, "The vector of each unit: of each other one the value on which they agree"),
      heads(["unit", ...units.map((unit) => `of ${unit}`)]),
      element(
        "tbody",
        {},
        ...lines.map((found, place) => {
          const words = found?.[2]?.split(",");
          const cells = words ? words.map((word) => element("td", { class: "word" }, word)) : [element("td", { colspan: units.length }, "lies")];
          return tableRow(units[place], cells);
        }),
      ),
    ),
  );
}

/** @param {Program} program */
function clocks(program) {
  const fields = FIGURES.map(([name, told, value, min, max]) => ({
    name,
    told,
    input: element("input", { type: "number", value, min, max, required: true }),
  }));
  return laboratory(
    "Clocks alone",
    "Clocks of which some are faulty show anything to anyone. The working ones correct one another, and never differ by more than the skew.",
    fields.map(({ told, input }) => label(`${told} `, input)),
    "Run",
    async () => {
      const reply = await program.call(["clocks", ...fields.flatMap(({ name, input }) => [`--${name}`, input.value])]);
      return reply.status === 0 ? [skews(reply.text), whole(reply.text)] : refused(reply);
    },
  );
}

/**
 * The skew of each round as a bar, below the bound that none is over.
 * @param {string} text
 */
function skews(text) {
  const found = [...text.matchAll(/^round=\d+ skew=(\d+)$/gm)].map((each) => Number(each[1]));
  const [, most, bound] = /most=(\d+) bound=(\d+)/.exec(text) ?? ["", "0", "0"];
  const [width, height, left] = [Math.max(300, 6 * found.length), 120, 40];
  const scale = (height - 20) / Math.max(1, Number(bound));
  const step = width / found.length;
  const y = (/** @type {number} */ skew) => height - skew * scale;
  const bars = found.map((skew, round) => {
    const place = { x: left + round * step, y: y(skew), width: Math.max(1, step - 1), height: skew * scale };
    return drawn("rect", { class: "skew-bar", ...place }, drawn("title", {}, `round ${round}: ${skew}`));
  });
  const words = `The skew of ${found.length} rounds, the start included: at most ${most}, under the bound of ${bound}`;
  return element(
    "figure",
    { class: "scroll" },
    element("figcaption", {}, `${words}.`),
    drawn(
      "svg",
      { width: width + left + 8, height: height + 8, role: "img", "aria-label": words },
      ...bars,
      drawn("line", { class: "bound", x1: left, x2: left + width, y1: y(Number(bound)), y2: y(Number(bound)) }),
      drawn("text", { class: "label small", x: left - 6, y: y(Number(bound)) + 4 }, bound),
      drawn("text", { class: "label small", x: left - 6, y: height }, "0"),
    ),
  );
}

/** @param {Page} page */
function buses({ program, store }) {
  const bus = element("select", {}, ...[0, 1, 2].map((each) => option(each, each)));
  const from = element("input", { type: "number", value: 0, min: 0, max: 999, required: true });
  const value = element("input", { type: "number", min: 0, max: 65535, placeholder: "nothing" });
  return laboratory(
    "Three buses",
    "Each word of the mission in the editor goes over three buses, and who hears it takes the majority. One of them is faulty: " +
      "it carries the same word in place of all others, or nothing.",
    [label("bus ", bus), label("faulty from frame ", from), label("carries ", value)],
    "Fly",
    async () => {
      const words = ["buses", "--bus", bus.value, "--from", from.value, ...(value.value === "" ? [] : ["--value", value.value])];
      const { text } = store.state;
      const [reply, plain] = await Promise.all([program.call(words, text), program.call(["run"], text)]);
      return reply.status === 0 ? [carried(reply.text, plain.text), whole(reply.text)] : refused(reply);
    },
  );
}

/**
 * What the bus got wrong, and that the report is the same.
 * @param {string} text
 * @param {string} report of the same mission without buses
 */
function carried(text, report) {
  const found = [...text.matchAll(/^f=(\d+) bus=(\d) words=(\d+)$/gm)].map(([, frame, bus, words]) => ({ frame, bus, words: Number(words) }));
  const sum = found.reduce((all, { words }) => all + words, 0);
  const bad = /^buses bad=([0-2])$/m.exec(text)?.[1];
  const same = text.startsWith(report) ? "the one that the mission has without buses, byte for byte" : "another one than without buses";
  const wrong = `Bus ${bad} is bad: it got ${sum.toLocaleString("en-US")} words wrong, in ${found.length} frames.`;
  const told = `${bad === undefined ? "The bus got nothing wrong." : wrong} The report is ${same}.`;
  /** @param {(string | number)[]} values */
  const cells = (values) => values.map((each) => element("td", {}, each));
  return element(
    "div",
    {},
    element("p", {}, told),
    found.length > 0 &&
      element(
        "div",
        { class: "scroll" },
        element(
          "table",
          {},
          element("caption", {}, "Words that the bus got wrong"),
          element(
            "tbody",
            {},
            tableRow("frame", cells(found.map(({ frame }) => frame))),
            tableRow("words", cells(found.map(({ words }) => words))),
          ),
        ),
      ),
  );
}

/**
 * @param {HTMLElement} section
 * @param {Page} page
 */
export function start(section, page) {
  section.append(element("h2", {}, "Laboratories"), buses(page), clocks(page.program), traitors(page.program));
}
