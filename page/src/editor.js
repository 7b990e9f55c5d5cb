/** The mission in an editor, and its refusal at its place. */
import CodeMirror from "codemirror";
import "codemirror/mode/toml/toml.js";
import "codemirror/addon/dialog/dialog.js";
import "codemirror/addon/search/searchcursor.js";
import "codemirror/addon/search/search.js";
import { byId, element, prose } from "./elements.js";
import { LINE_END, differing, positionOf } from "./positions.js";
import { shownRefusal } from "./refusals.js";

/** @typedef {import("./refusals.js").Shown} Shown */

/** The editor with the marks of a refusal. */
class Editor {
  /** @param {HTMLElement} host */
  constructor(host) {
    this.code = CodeMirror(host, {
      mode: "toml", lineNumbers: true, lineWrapping: true, gutters: ["refusals", "CodeMirror-linenumbers"], inputStyle: "contenteditable", spellcheck: false,
      extraKeys: { Tab: false, "Shift-Tab": false }, screenReaderLabel: "The mission, a document of TOML",
    });
    this.text = "";
    /** @type {CodeMirror.TextMarker | null} */
    this.mark = null;
    this.code.getInputField().setAttribute("aria-label", "The mission, a document of TOML");
  }

  /** @param {string} text */
  show(text) {
    this.text = text;
    const before = this.code.getValue();
    const after = text.split(LINE_END).join("\n");
    if (before === after) return;
    const part = differing(before, after);
    this.code.replaceRange(part.text, this.code.posFromIndex(part.start), this.code.posFromIndex(part.end), "page");
  }

  clear() {
    this.mark?.clear();
    this.mark = null;
    this.code.clearGutter("refusals");
  }

  /** @param {Shown} shown */
  refuse({ place, why }) {
    this.clear();
    if (!place) return;
    const from = positionOf(this.text, place.start);
    const to = positionOf(this.text, Math.max(place.end, place.start + 1));
    this.mark = this.code.markText(from, to, { className: "refused-here", attributes: { title: why } });
    this.code.setGutterMarker(from.line, "refusals", element("span", { class: "refusal-sign", title: why, role: "img", "aria-label": "refused here" }, "!"));
  }

  /** @param {number} start */
  go(start) {
    this.code.setCursor(positionOf(this.text, start));
    this.code.scrollIntoView(null, 80);
    this.code.focus();
  }

  /** @param {number} start */
  lineAndColumn(start) {
    const { line, ch } = positionOf(this.text, start);
    return `line ${line + 1}, column ${ch + 1}`;
  }
}

/**
 * What is said of a refusal below the editor.
 * @param {Editor} editor
 * @param {Shown} shown
 */
function told(editor, { line, place, why, mend }) {
  return [
    element("p", {}, element("strong", {}, line), place && element("span", { class: "where" }, editor.lineAndColumn(place.start))),
    ...(why ? [element("p", {}, ...prose(why))] : []),
    ...(mend ? [element("p", {}, "What to do: ", ...prose(mend))] : []),
    ...(place ? [element("button", { type: "button", onclick: () => editor.go(place.start) }, "Go there")] : []),
  ];
}

/**
 * @param {HTMLElement} _section
 * @param {import("./main.js").Page} page
 */
export function start(_section, { store }) {
  const editor = new Editor(byId("editor"));
  const box = byId("refusal");
  new ResizeObserver(() => editor.code.refresh()).observe(byId("editor"));
  let fromPage = false;

  editor.code.on("change", () => {
    if (fromPage) return;
    editor.text = editor.code.getValue();
    store.write(editor.text);
  });

  store.subscribe((state, changed) => {
    if (changed.has("text")) {
      fromPage = true;
      editor.show(state.text);
      fromPage = false;
      if (changed.has("name")) editor.code.clearHistory();
    }
    if (!changed.has("refusal") && !changed.has("told")) return;
    if (state.told === "flown") editor.clear();
    if (state.told !== "refused" || !state.refusal) {
      if (state.told === "flown") box.replaceChildren();
      return;
    }
    const shown = shownRefusal(state.text, state.refusal);
    editor.refuse(shown);
    box.replaceChildren(...told(editor, shown));
  });
}
