/** Starts the page: the program, the store, and each panel in its section. */
import { openFirst } from "./address.js";
import { bytesOf } from "./data.js";
import { Store } from "./document.js";
import { byId } from "./elements.js";
import { keepFlying } from "./flying.js";
import { Program } from "./program.js";
import { startTabs } from "./tabs.js";
import * as about from "./about.js";
import * as campaign from "./campaign-panel.js";
import * as editor from "./editor.js";
import * as examples from "./examples.js";
import * as fault from "./fault-panel.js";
import * as flight from "./flight.js";
import * as frame from "./frame.js";
import * as help from "./help.js";
import * as judge from "./judge-panel.js";
import * as corner from "./laboratories.js";
import * as schedule from "./schedule.js";
import * as take from "./take-away.js";

/**
 * What each panel is given.
 * @typedef {object} Page
 * @property {Store} store
 * @property {Program} program what answers while the user waits
 * @property {Program} fleet as many workers as there are processors, for campaigns
 * @property {(id: string) => void} show opens the view with an id
 */

/** The sections that need nothing but the document, and what fills each. */
const READERS = { about, examples, mission: editor, help };
/** Those that call the program. */
const CALLERS = { flight, frame, fault, schedule, campaign, judge, corner, take };

const UNABLE =
  "This browser can't run the program, whose module has a memory of 64 bits. Chromium, Chrome and Edge can from version 133 on, " +
  "Firefox from 134 on. Here missions and the pages of help can be read, and nothing flies.";

/** Whether this browser runs modules with a memory of 64 bits: the smallest of them is tried. */
const runsSixtyFourBits = () => WebAssembly.validate(new Uint8Array([0, 97, 115, 109, 1, 0, 0, 0, 5, 3, 1, 4, 1]));

/**
 * @param {Record<string, {start: (section: HTMLElement, page: Page) => void}>} panels
 * @param {Page} page
 */
function startAll(panels, page) {
  for (const [id, panel] of Object.entries(panels)) panel.start(byId(id), page);
}

async function start() {
  // The module is compiled beside the page's own thread, which fills the panels meanwhile.
  const compiling = runsSixtyFourBits() ? WebAssembly.compile(bytesOf("module")) : null;
  const program = new Program(3);
  const fleet = new Program(Math.max(1, navigator.hardwareConcurrency || 4));
  if (compiling) program.warm(2);
  /** @type {Page} */
  const page = { store: new Store(), program, fleet, show: startTabs(byId("tabs"), byId("views")) };
  startAll(READERS, page);
  if (compiling) {
    startAll(CALLERS, page);
    keepFlying(page);
    const module = await compiling;
    for (const each of [program, fleet]) each.open(module);
  } else {
    byId("status").textContent = UNABLE;
    byId("status").classList.add("unable");
    page.show("help");
  }
  await openFirst(page);
}

start().catch((why) => {
  byId("status").textContent = `the page failed: ${why.message}`;
  byId("status").classList.add("unable");
});
