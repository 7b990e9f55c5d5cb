/** What this page is. */
import { valueOf } from "./data.js";
import { element } from "./elements.js";

/**
 * @param {HTMLElement} section
 * @param {import("./main.js").Page} page
 */
export function start(section, { show }) {
  section.append(
    `sift ${valueOf("version")}. The program in it is proved, but for the step to a module for browsers; the page around it isn't, it is tested. `,
    "Nothing is loaded, and nothing leaves this page. ",
    element("button", { type: "button", class: "link", onclick: () => show("help") }, "What there is in it"),
  );
}
