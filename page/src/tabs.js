/** The views of the page as tabs, by pointer and by keys. */
import { element } from "./elements.js";

/**
 * Makes a tab for each panel below an element.
 * @param {HTMLElement} list where the tabs go
 * @param {HTMLElement} views whose panels they show
 * @returns {(id: string) => void} which opens a view
 */
export function startTabs(list, views) {
  const panels = /** @type {HTMLElement[]} */ ([...views.querySelectorAll("[role=tabpanel]")]);
  const tabs = panels.map((panel) =>
    element(
      "button",
      { role: "tab", id: `${panel.id}-tab`, "aria-controls": panel.id, type: "button", onclick: () => open(panel.id) },
      panel.dataset.title,
    ),
  );
  panels.forEach((panel) => panel.setAttribute("aria-labelledby", `${panel.id}-tab`));
  list.append(...tabs);

  /** @param {string} id */
  function open(id) {
    panels.forEach((panel, place) => {
      const chosen = panel.id === id;
      panel.hidden = !chosen;
      tabs[place].setAttribute("aria-selected", String(chosen));
      tabs[place].tabIndex = chosen ? 0 : -1;
    });
  }

  list.addEventListener("keydown", (event) => {
    const at = tabs.findIndex((tab) => tab === document.activeElement);
    const to = { ArrowRight: at + 1, ArrowLeft: at - 1, Home: 0, End: tabs.length - 1 }[event.key];
    if (at < 0 || to === undefined) return;
    const place = (to + tabs.length) % tabs.length;
    tabs[place].focus();
    open(panels[place].id);
    event.preventDefault();
  });

  open(panels[0].id);
  return open;
}
