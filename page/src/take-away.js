/** What the user takes away: the document, the report, the picture, the campaign, and a link that holds the document. */
import { campaigns, saveRows } from "./campaign-panel.js";
import { element } from "./elements.js";
import { copy, save } from "./files.js";
import { linkOf } from "./links.js";
import { label, row } from "./parts.js";
import { pictureFile } from "./picture-file.js";

/** @typedef {import("./main.js").Page} Page */

const LONG = 30_000; // letters of a link that some programs cut
const OF_THE_LINK = "it holds the document itself, behind the #: whoever has this page opens it to the same flight, and no server sees it";

/**
 * A thing to take away.
 * @param {string} name of the button
 * @param {string} about
 * @param {() => void} take
 */
function offer(name, about, take) {
  const button = element("button", { type: "button", onclick: take }, name);
  return { button, row: row(button, element("span", { class: "more" }, about)) };
}

/** A field for a link that somebody else sent, whose page lies elsewhere. */
function receive() {
  const field = element("input", { type: "text", id: "received", placeholder: "…#document=…" });
  const open = (/** @type {Event} */ event) => {
    event.preventDefault();
    const hash = field.value.trim().replace(/^[^#]*/, "");
    // The address tells that it is another one, but not that the same link is to be opened again.
    if (location.hash === hash) window.dispatchEvent(new HashChangeEvent("hashchange"));
    else location.hash = hash;
  };
  return element("form", { class: "row", onsubmit: open }, label("A link that you were sent ", field), element("button", { type: "submit" }, "Open it"));
}

/**
 * @param {HTMLElement} section
 * @param {Page} page
 */
export function start(section, { store }) {
  const flown = () => /** @type {import("./document.js").Flown} */ (store.state.flown);
  const mission = offer("Document", "as it stands in the editor", () => save(`${store.state.name}.toml`, store.state.text, "application/toml"));
  const report = offer("Report", "of the flight, as sift run prints it", () => save(`${store.state.name}.report`, flown().report, "text/plain"));
  const picture = offer("Picture as SVG", "of the flight", () => {
    const { name } = store.state;
    save(`${name}.svg`, pictureFile(flown().flight, name), "image/svg+xml");
  });
  const rows = "the rows of the last one, as tools/sweep writes them";
  const campaign = offer("Campaign as TSV", rows, () => saveRows(campaigns[campaigns.length - 1]));
  const link = element("input", { type: "text", readonly: true, id: "link", "aria-label": "A link that holds the document" });
  const told = element("p", { role: "status", class: "more" });
  const copied = offer("Copy the link", OF_THE_LINK, async () => {
    const could = await copy(link.value);
    if (!could) link.select();
    told.textContent = could ? "The link is copied." : "The browser doesn't let the page copy: the link is selected, to be copied by hand.";
  });
  section.append(element("h2", {}, "Take away"), mission.row, report.row, picture.row, campaign.row, copied.row, link, told, receive());

  /** Writes the link of the document as it stands. */
  async function refresh() {
    const { text } = store.state;
    const hash = await linkOf(text);
    if (text !== store.state.text) return;
    link.value = location.href.split("#")[0] + hash;
    const letters = link.value.length;
    told.textContent = letters > LONG ? `The link has ${letters.toLocaleString("en-US")} letters, and some programs cut such ones.` : "";
  }

  store.subscribe((state, changed) => {
    if (changed.has("text")) refresh();
    const isFlown = state.told === "flown" && state.flown !== null;
    for (const { button } of [report, picture]) button.disabled = !isFlown;
  });
  // Campaigns end while another view is open.
  const opened = new MutationObserver(() => (campaign.button.disabled = campaigns.length === 0));
  opened.observe(section, { attributes: true, attributeFilter: ["hidden"] });
  campaign.button.disabled = true;
}
