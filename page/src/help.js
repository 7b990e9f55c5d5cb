/** The pages of help, which are those of docs/. */
import { element } from "./elements.js";

/**
 * @param {HTMLElement} section
 */
export function start(section) {
  const templates = /** @type {HTMLTemplateElement[]} */ ([...document.querySelectorAll("template[id^=help-]")]);
  const names = templates.map((template) => template.id.slice("help-".length));
  const article = element("article", { class: "prose", tabindex: -1 });
  const buttons = templates.map((template, place) =>
    element("button", { type: "button", onclick: () => open(names[place]) }, template.content.querySelector("h1")?.textContent ?? names[place]),
  );

  /**
   * @param {string} name
   * @param {string} [anchor]
   */
  function open(name, anchor = "") {
    const place = names.indexOf(name);
    if (place < 0) return;
    article.replaceChildren(templates[place].content.cloneNode(true));
    buttons.forEach((button, other) => button.setAttribute("aria-current", String(other === place)));
    for (const table of article.querySelectorAll("table")) {
      const scroll = element("div", { class: "scroll", tabindex: 0, role: "group", "aria-label": "a table" });
      table.replaceWith(scroll);
      scroll.append(table);
    }
    const heading = anchor ? [...article.querySelectorAll("[id]")].find((each) => each.id === anchor) : null;
    (heading ?? section).scrollIntoView({ block: "start" });
    article.focus({ preventScroll: true });
  }

  article.addEventListener("click", (event) => {
    const link = event.target instanceof Element ? event.target.closest("a") : null;
    if (!link) return;
    event.preventDefault();
    const name = link.dataset.page ?? names[buttons.findIndex((button) => button.getAttribute("aria-current") === "true")];
    open(name, link.dataset.anchor);
  });

  section.append(
    element(
      "div",
      { class: "help" },
      element("nav", { "aria-label": "Pages of help" }, element("ul", {}, ...buttons.map((button) => element("li", {}, button)))),
      article,
    ),
  );
  buttons[0]?.click();
}
