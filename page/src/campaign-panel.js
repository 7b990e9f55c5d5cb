/** All single faults: the mission is flown with each of them, and a table tells what became of each. */
import { Campaign, NoCampaign, momentsOf } from "./campaign.js";
import { keyOf, tablesOf } from "./campaign-table.js";
import { Table, changesOf } from "./cells.js";
import { element } from "./elements.js";
import { save } from "./files.js";
import { button, label, note, option } from "./parts.js";
import { linkOf } from "./links.js";
import { Stopped } from "./program.js";
import { promisedLine } from "./promised.js";
import { counted, headlinesOf, tableOf } from "./rows.js";
import { KINDS } from "./slots.js";

/** @typedef {import("./main.js").Page} Page */

const ABOUT =
  "The mission is flown with each fault that a unit can have, one a run: each word that it says, in each way. Its own faults are left out.";
const SHEDS = "Words of a task that a table sheds, and of those that read it, aren't compared from the first such frame on.";

/** The campaigns that were flown, the newest last. */
export const campaigns = /** @type {Campaign[]} */ ([]);

/** The panel of campaigns. */
class CampaignPanel {
  /**
   * @param {HTMLElement} section
   * @param {Page} page
   */
  constructor(section, page) {
    this.page = page;
    /** @type {Campaign | null} which is flying */
    this.flying = null;
    this.begun = 0;

    this.kinds = KINDS.map((kind) => ({ kind, box: element("input", { type: "checkbox", checked: true }) }));
    this.moments = element("input", { type: "text", value: "0", size: 8, inputmode: "numeric", "aria-describedby": "campaign-moments" });
    this.fly = element("button", { type: "submit", class: "main" }, "Fly all");
    this.stop = button("Stop", () => this.page.fleet.stop(), { hidden: true });
    this.progress = element("progress", { "aria-label": "Runs that were flown", hidden: true });
    this.status = element("p", { role: "status" });
    this.result = element("div", { class: "result" });
    section.append(
      element("h2", {}, "All single faults"),
      note(ABOUT),
      this.form(),
      this.progress,
      this.status,
      this.result,
    );
  }

  form() {
    const ways = element("fieldset", {}, element("legend", {}, "Ways of lying"), ...this.kinds.map(({ kind, box }) => label(box, ` ${kind}`)));
    const from = label("From frames ", this.moments, element("span", { id: "campaign-moments", class: "more" }, " as in 0,10 or 0-49"));
    const submit = (/** @type {Event} */ event) => {
      event.preventDefault();
      this.begin();
    };
    return element("form", { class: "choices", onsubmit: submit }, ways, from, element("div", { class: "tools" }, this.fly, this.stop));
  }

  /** Flies a campaign of the mission that stands in the editor. */
  async begin() {
    if (this.fly.disabled) return;
    this.fly.disabled = true;
    const { name, text } = this.page.store.state;
    try {
      const kinds = this.kinds.filter(({ box }) => box.checked).map(({ kind }) => kind);
      if (kinds.length === 0) throw new NoCampaign("no way of lying is chosen");
      const campaign = await Campaign.of(name, text, { kinds, moments: momentsOf(this.moments.value) }, this.page.program);
      campaigns.push(campaign);
      await this.conduct(campaign);
    } catch (why) {
      if (!(why instanceof NoCampaign)) throw why;
      this.status.textContent = why.message;
    } finally {
      this.fly.disabled = false;
    }
  }

  /**
   * Flies what is missing of a campaign, and shows it.
   * @param {Campaign} campaign
   */
  async conduct(campaign) {
    this.flying = campaign;
    this.begun = performance.now();
    this.busy(true);
    let end = "";
    try {
      await campaign.fly(this.page.fleet, () => this.tell());
      const seconds = ((performance.now() - this.begun) / 1000).toFixed(1);
      end = `${counted(campaign.rows.length, "run", "runs")} in ${seconds} s, on ${counted(this.page.fleet.count, "processor", "processors")}`;
    } catch (why) {
      if (!(why instanceof Stopped || why instanceof Error)) throw why;
      const flown = `${campaign.rows.length.toLocaleString("en-US")} of ${counted(campaign.runs.length, "run", "runs")} were flown`;
      end = why instanceof Stopped ? `stopped: ${flown}` : `${why.message}; ${flown}`;
    } finally {
      this.flying = null;
      this.busy(false);
    }
    this.status.textContent = end;
    this.show(campaign, this.earlier(campaign));
  }

  /** @param {boolean} flies */
  busy(flies) {
    this.fly.disabled = flies;
    this.stop.hidden = !flies;
    this.progress.hidden = !flies;
    if (flies) this.tell();
  }

  /** Tells how far the campaign is. */
  tell() {
    const campaign = this.flying;
    if (!campaign) return;
    const [flown, all] = [campaign.found.filter(Boolean).length, campaign.runs.length];
    const left = flown ? ((performance.now() - this.begun) / flown) * (all - flown) : 0;
    this.progress.max = all;
    this.progress.value = flown;
    // A screen reader isn't told each run: the progress tells it when it is asked.
    const words = `${flown.toLocaleString("en-US")} of ${counted(all, "run", "runs")}`;
    this.progress.textContent = words;
    this.progress.title = left > 2000 ? `${words}; about ${Math.ceil(left / 1000)} s to go` : words;
    if (flown === 0) this.status.textContent = `${counted(all, "run", "runs")}: single faults of ${campaign.name}`;
  }

  /**
   * The campaign before one, with which it is compared first.
   * @param {Campaign} campaign
   */
  earlier(campaign) {
    return campaigns[campaigns.indexOf(campaign) - 1] ?? null;
  }

  /**
   * Shows a campaign, and where another one is given how it differs from that.
   * @param {Campaign} campaign
   * @param {Campaign | null} other
   */
  show(campaign, other) {
    const table = new Table(campaign.rows, campaign.slots);
    /** @type {import("./campaign-table.js").Links} */
    const links = {
      open: (row, event) => this.open(campaign, row, event),
      point: async (row, link) => link.setAttribute("href", await linkOf(campaign.documentOf(row))),
    };
    const before = other && new Table(other.rows, other.slots);
    this.result.replaceChildren(
      ...headlinesOf(campaign.rows).map((line) => element("h3", {}, `${campaign.name}: ${line}`)),
      ...this.notesOf(campaign),
      this.toolsOf(campaign, other),
      ...(before ? [element("p", {}, toldChanges(changesOf(before, table)))] : []),
      element("div", { class: "campaigns" }, ...tablesOf(table, before, links)),
      keyOf(table, before !== null),
      note("Each mark opens the flight of its worst run. With several moments a cell has the worst of them."),
    );
  }

  /** @param {Campaign} campaign */
  notesOf(campaign) {
    const own = campaign.schedule.outline.faults;
    const refused = campaign.rows.filter((row) => row.judge !== "yes");
    const notes = [
      ...(own ? [`The mission's own ${own === 1 ? "fault is" : `${own} faults are`} left out.`] : []),
      ...(campaign.schedule.sheds() ? [SHEDS] : []),
      ...promisedLine(campaign.rows.flatMap((row) => row.told.map(({ promised }) => promised))),
      ...campaign.unpromised.map((why) => `${why}: this contradicts what the contract promises.`),
      ...refused.map((row) => `Row ${row.number}: the judge doesn't take the program's report: ${row.judge}`),
      ...(campaign.isWhole ? [] : ["It isn't whole: some runs weren't flown."]),
    ];
    return notes.map((words) => note(words));
  }

  /**
   * What can be done with a campaign.
   * @param {Campaign} campaign
   * @param {Campaign | null} other
   */
  toolsOf(campaign, other) {
    const others = campaigns.filter((each) => each !== campaign);
    /**
     * @param {Campaign} each
     * @param {Campaign | null} chosen
     */
    const choice = (each, chosen) => option(campaigns.indexOf(each), this.nameOf(each), each === chosen);
    const compared = [option(-1, "nothing"), ...others.map((each) => choice(each, other))];
    const compare = element("select", { onchange: () => this.show(campaign, campaigns[Number(compare.value)] ?? null) }, ...compared);
    const all = element("select", { onchange: () => this.choose(campaigns[Number(all.value)]) }, ...campaigns.map((each) => choice(each, campaign)));
    return element(
      "div",
      { class: "choices" },
      others.length > 0 && label("Campaign ", all),
      others.length > 0 && label("compared with ", compare),
      button("Rows as TSV", () => saveRows(campaign)),
      button("Its mission into the editor", () => this.page.store.write(campaign.text, campaign.name)),
      !campaign.isWhole && button("Go on", () => this.conduct(campaign)),
    );
  }

  /** @param {Campaign} campaign */
  choose(campaign) {
    this.show(campaign, this.earlier(campaign));
  }

  /** @param {Campaign} campaign */
  nameOf(campaign) {
    return `${campaigns.indexOf(campaign) + 1}: ${campaign.name}, ${counted(campaign.rows.length, "run", "runs")}`;
  }

  /**
   * Opens the flight of a row here, unless it is to open elsewhere.
   * @param {Campaign} campaign
   * @param {number} row
   * @param {MouseEvent} event
   */
  open(campaign, row, event) {
    if (event.ctrlKey || event.metaKey || event.shiftKey) return;
    event.preventDefault();
    const [{ unit, begin }] = campaign.runs[row - 1];
    this.page.store.update({ frame: begin, unit });
    this.page.store.write(campaign.documentOf(row), `${campaign.name.replace(/_row_\d+$/, "")}_row_${row}`);
    this.page.show("flight-view");
  }
}

/**
 * Saves the rows of a campaign, as tools/sweep writes them.
 * @param {Campaign} campaign
 */
export const saveRows = (campaign) => save(`${campaign.name}.tsv`, tableOf(campaign.rows), "text/tab-separated-values");

/** @param {Record<import("./cells.js").Change, number>} count */
function toldChanges({ better, worse, same, new: more, gone }) {
  const some = [...(more ? [`${more} only here`] : []), ...(gone ? [`${gone} only before`] : [])];
  return `Of the cells ${[`${better} better`, `${worse} worse`, `${same} as before`, ...some].join(", ")}.`;
}

/**
 * @param {HTMLElement} section
 * @param {Page} page
 */
export function start(section, page) {
  new CampaignPanel(section, page);
}
