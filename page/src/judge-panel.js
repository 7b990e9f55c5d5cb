/** A report from elsewhere is judged: whether the mission in the editor may have it, and else which frame breaks which rule. */
import { DIVIDER } from "./campaign.js";
import { valueOf } from "./data.js";
import { element } from "./elements.js";
import { FlightDrawing } from "./flight-drawing.js";
import { button, note } from "./parts.js";
import { NoReport, readReport } from "./report.js";
import { placesOf } from "./verdicts.js";

/** @typedef {import("./main.js").Page} Page */
/** @typedef {import("./picture.js").Mark} Mark */

const NO_FRAME = /^no frame (\d+) rule (\d)$/;
const NO_LINE = /^report line (\d+)$/;
const ACCUSATIONS_WITHOUT_KINDS = / bad=[0-7]+\n/; // as version 1 tells them

const ABOUT =
  "Paste a report that another machine or another simulator wrote. The judge tells whether the mission in the editor may have it, and flies nothing.";

/** The panel. */
class JudgePanel {
  /**
   * @param {HTMLElement} section
   * @param {Page} page
   */
  constructor(section, page) {
    this.page = page;
    const given = { rows: 12, spellcheck: "false", wrap: "off", id: "judged-report", "aria-label": "The report that is judged" };
    this.report = element("textarea", given);
    const file = element("input", { type: "file", accept: ".report,.txt,text/plain" });
    file.addEventListener("change", async () => {
      if (file.files?.[0]) this.report.value = await file.files[0].text();
      file.value = "";
    });
    this.verdict = element("div", { role: "status", class: "verdict" });
    this.host = element("div", { class: "host" });
    section.append(
      element("h2", {}, "A report from elsewhere"),
      note(ABOUT),
      this.report,
      element(
        "div",
        { class: "tools" },
        button("Judge", () => this.judge(), { class: "main" }),
        element("label", { class: "button" }, "Open a file ", file),
        button("Take the flight's own report", () => this.take()),
      ),
      this.verdict,
      this.host,
    );
  }

  /** Takes the report of the flight, to be changed and judged. */
  take() {
    const { flown } = this.page.store.state;
    if (flown) this.report.value = flown.report;
  }

  async judge() {
    const { text } = this.page.store.state;
    const report = this.report.value.replaceAll("\r\n", "\n");
    const words = ACCUSATIONS_WITHOUT_KINDS.test(report) ? ["judge", "--report", "1"] : ["judge"];
    const document = text.endsWith("\n") ? text : `${text}\n`;
    const { status, text: line } = await this.page.program.call(words, document + DIVIDER + report);
    await this.tell(line.trim(), status, text, report);
  }

  /**
   * Tells a verdict, and shows it in the drawing of the report.
   * @param {string} line
   * @param {number} status
   * @param {string} text the document
   * @param {string} report
   */
  async tell(line, status, text, report) {
    const [, frame, rule] = NO_FRAME.exec(line) ?? [];
    const [, number] = NO_LINE.exec(line) ?? [];
    const marks = frame === undefined ? [] : await placesOf(text, report, Number(frame), Number(rule), this.page.program);
    const more = [
      ...(status === 0 ? ["The mission may have this report: it keeps all that its reports promise."] : []),
      ...(frame === undefined ? [] : [toldRule(frame, Number(rule))]),
      ...(number === undefined ? [] : [toldLine(report, Number(number))]),
      ...(frame === undefined && number === undefined && status !== 0 ? [toldStatus(status)] : []),
    ];
    this.verdict.className = `verdict ${status === 0 ? "yes" : "no"}`;
    this.verdict.replaceChildren(
      element("strong", {}, line),
      ...more.map((words) => element("p", {}, words)),
      ...(marks.length ? [element("ul", {}, ...marks.map(({ words }) => element("li", {}, words)))] : []),
    );
    this.draw(report, marks, Number(frame ?? 0));
  }

  /**
   * @param {string} report
   * @param {Mark[]} marks
   * @param {number} frame
   */
  draw(report, marks, frame) {
    this.host.replaceChildren();
    try {
      const flight = readReport(report);
      const drawing = new FlightDrawing(this.host, () => {}, "The judged report: units by frames", "judged");
      const last = flight.frames.length - 1;
      drawing.show(flight, marks.map((mark) => ({ ...mark, frame: Math.min(mark.frame, last) })), Math.min(frame, last), null);
    } catch (why) {
      if (!(why instanceof NoReport)) throw why;
    }
  }
}

/**
 * Which rule a frame breaks.
 * @param {string} frame
 * @param {number} rule
 */
function toldRule(frame, rule) {
  return `Frame ${frame} breaks rule ${rule}, and nothing before it breaks one. A report keeps by it: ${valueOf("judge")[rule - 1]}.`;
}

/**
 * Why nothing is said of the report.
 * @param {number} status
 */
function toldStatus(status) {
  if (status === 11) return "The document and the report have more than 8,388,608 bytes together, and no more are read.";
  return status === 10 ? "There isn't enough memory to judge it." : "The mission in the editor is refused, whatever the report is.";
}

/**
 * A line of a report that is none.
 * @param {string} report
 * @param {number} number from 1
 */
function toldLine(report, number) {
  const line = report.split("\n")[number - 1];
  if (line === undefined || line === "") return `Line ${number} of the report is missing.`;
  const shown = line.length > 200 ? `${line.slice(0, 200)} ..` : line;
  return `Line ${number} is none that a report has, and each line before it is one: ${shown}`;
}

/**
 * @param {HTMLElement} section
 * @param {Page} page
 */
export function start(section, page) {
  new JudgePanel(section, page);
}
