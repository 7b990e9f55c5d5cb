/** Elements of the page. Whatever is handed over as text is shown as text: nothing here reads markup. */

/** @typedef {Node | string | number | null | undefined | false} Child */

/**
 * A new element with attributes, listeners and children. `class`, `role`, `aria-..` and the like are attributes; a function
 * under a name such as `onclick` is a listener; `true` is an attribute without a value, `false` and null are none.
 * @template {keyof HTMLElementTagNameMap} K
 * @param {K} name
 * @param {Record<string, unknown>} [given]
 * @param {...Child} children
 * @returns {HTMLElementTagNameMap[K]}
 */
export function element(name, given = {}, ...children) {
  const made = document.createElement(name);
  for (const [key, value] of Object.entries(given)) set(made, key, value);
  made.append(...nodes(children));
  return made;
}

/**
 * A new element of a drawing.
 * @template {keyof SVGElementTagNameMap} K
 * @param {K} name
 * @param {Record<string, unknown>} [given]
 * @param {...Child} children
 * @returns {SVGElementTagNameMap[K]}
 */
export function drawn(name, given = {}, ...children) {
  const made = document.createElementNS("http://www.w3.org/2000/svg", name);
  for (const [key, value] of Object.entries(given)) set(made, key, value);
  made.append(...nodes(children));
  return made;
}

/**
 * @param {Element} made
 * @param {string} key
 * @param {unknown} value
 */
function set(made, key, value) {
  if (typeof value === "function") made.addEventListener(key.slice(2), /** @type {EventListener} */ (value));
  else if (value !== false && value !== null && value !== undefined) made.setAttribute(key, value === true ? "" : String(value));
}

/** @param {Child[]} children */
function nodes(children) {
  return children
    .filter((child) => child !== null && child !== undefined && child !== false)
    .map((child) => (child instanceof Node ? child : String(child)));
}

/**
 * The element of the page with an id.
 * @param {string} id
 * @returns {HTMLElement}
 */
export function byId(id) {
  const found = document.getElementById(id);
  if (!found) throw new Error(`the page has no element ${id}`);
  return found;
}

/**
 * A sentence in which what stands between backquotes is code.
 * @param {string} words
 * @returns {Child[]}
 */
export const prose = (words) => words.split("`").map((part, place) => (place % 2 === 1 ? element("code", {}, part) : part));

/**
 * Tells the user something above all else, or takes back what was told.
 * @param {string} words
 */
export function notice(words) {
  const place = byId("notice");
  place.textContent = words;
  place.hidden = words === "";
}
