/** A flight as a drawing that one reads, points at, and goes through by keys. */
import { drawn, element } from "./elements.js";
import { ROW, drawFlight, drawOverview, drawShown, labels, rowsOf, tellUnit } from "./picture.js";

/** @typedef {import("./report.js").Flight} Flight */
/** @typedef {import("./picture.js").Mark} Mark */

const NARROWEST = 26;
const WIDEST = 110;
const CLOSEST = 6;
const LABELS = 104;

/** A drawing of a flight in an element. Of a long one only the frames that are seen, and some beside them, are elements. */
export class FlightDrawing {
  /**
   * @param {HTMLElement} host
   * @param {(frame: number, unit: number | null) => void} [onchoose] what is called where a frame is opened
   * @param {string} [label] what the drawing is called
   * @param {string} [id] what the ids of its cells begin with
   */
  constructor(host, onchoose = () => {}, label = "The flight: units by frames", id = "cell") {
    this.onchoose = onchoose;
    this.id = id;
    /** @type {Flight | null} */
    this.flight = null;
    /** @type {Mark[]} */
    this.marks = [];
    /**
     * What faulty units do, where the mission is known.
     * @type {import("./picture.js").Conduct}
     */
    this.conduct = () => "";
    this.frame = 0;
    /** @type {number | null} */
    this.unit = null;
    this.zoom = 1;
    this.drawnFrom = -1;
    this.drawnTo = -1;
    /** @type {Flight | null} */
    this.overviewOf = null;
    this.names = drawn("svg", { class: "labels", width: LABELS, "aria-hidden": "true" });
    this.picture = drawn("svg", { class: "picture", role: "presentation" });
    this.over = drawn("g", { role: "presentation" });
    this.inner = element("div", { class: "inner", role: "presentation" }, this.picture);
    this.grid = element(
      "div",
      {
        class: "grid", role: "grid", tabindex: 0, "aria-label": `${label}. Arrow keys go through frames and units.`, "aria-readonly": "true",
        onscroll: () => this.plan(), onkeydown: (/** @type {KeyboardEvent} */ event) => this.pressed(event),
        onclick: (/** @type {MouseEvent} */ event) => this.clicked(event), onpointermove: (/** @type {PointerEvent} */ event) => this.pointed(event),
      },
      this.inner,
    );
    this.whole = drawn("svg", { class: "overview", preserveAspectRatio: "none", "aria-hidden": "true" });
    this.whole.addEventListener("pointerdown", (event) => this.jump(event));
    this.told = element("p", { class: "pointed", role: "status" });
    host.append(element("div", { class: "drawing" }, this.names, this.grid), this.whole, this.told);
    new ResizeObserver(() => this.draw()).observe(this.grid);
  }

  /**
   * Draws a flight, and keeps what is looked at where the flight has it.
   * @param {Flight} flight
   * @param {Mark[]} [marks]
   * @param {number} [frame]
   * @param {number | null} [unit]
   */
  show(flight, marks = [], frame = this.frame, unit = this.unit) {
    this.flight = flight;
    this.marks = marks;
    this.frame = Math.min(frame, flight.frames.length - 1);
    this.unit = unit !== null && unit < flight.units ? unit : null;
    this.grid.setAttribute("aria-rowcount", String(flight.units));
    this.grid.setAttribute("aria-colcount", String(flight.frames.length));
    this.names.replaceChildren(...labels(flight));
    this.draw();
    this.reveal();
  }

  /**
   * Opens a frame in the drawing, without telling of it.
   * @param {number} frame
   * @param {number | null} unit
   */
  choose(frame, unit) {
    if (!this.flight || (frame === this.frame && unit === this.unit)) return;
    this.frame = frame;
    this.unit = unit;
    this.drawOver();
    this.reveal();
  }

  /**
   * Makes frames wider or narrower, by a factor.
   * @param {number} factor
   */
  scale(factor) {
    this.zoom = Math.min(8, Math.max(0.1, this.zoom * factor));
    this.draw();
    this.reveal();
  }

  /** How wide a frame is. */
  get cell() {
    const frames = this.flight?.frames.length ?? 1;
    const fitting = Math.max(NARROWEST, Math.min(WIDEST, (this.grid.clientWidth - 4) / frames));
    return Math.max(CLOSEST, Math.min(2 * WIDEST, fitting * this.zoom));
  }

  /** Draws in the next picture of the screen, where what is seen isn't drawn yet. */
  plan() {
    const { first, last } = this.seen();
    if (first < this.drawnFrom || last > this.drawnTo) requestAnimationFrame(() => this.draw());
    else this.drawWindow();
  }

  /** The frames that are seen. */
  seen() {
    const frames = this.flight?.frames.length ?? 1;
    const first = Math.max(0, Math.floor(this.grid.scrollLeft / this.cell));
    return { first, last: Math.min(frames - 1, first + Math.ceil(this.grid.clientWidth / this.cell)) };
  }

  draw() {
    if (!this.flight || this.grid.clientWidth === 0) return;
    const { cell, flight } = this;
    const { height } = rowsOf(flight.units);
    this.inner.style.width = `${flight.frames.length * cell + 2}px`;
    this.inner.style.height = `${height}px`;
    this.names.setAttribute("height", String(height));
    const { first, last } = this.seen();
    const more = last - first + 1;
    this.drawnFrom = Math.max(0, first - more);
    this.drawnTo = Math.min(flight.frames.length - 1, last + more);
    const width = (this.drawnTo - this.drawnFrom + 1) * cell + 2;
    this.picture.setAttribute("width", String(width));
    this.picture.setAttribute("height", String(height));
    this.picture.style.left = `${this.drawnFrom * cell}px`;
    const partly = flight.frames.length * cell > this.grid.clientWidth;
    this.picture.replaceChildren(...drawFlight(flight, { first: this.drawnFrom, last: this.drawnTo, cell, partly, id: this.id, conduct: this.conduct }), this.over);
    this.drawOver();
    this.drawOverview();
  }

  /** What lies over the picture: the opened frame, the chosen unit, and the marks. */
  drawOver() {
    if (!this.flight) return;
    const { cell, flight, marks, frame, unit } = this;
    this.over.replaceChildren(...drawShown(flight, { first: this.drawnFrom, last: this.drawnTo, cell, marks, frame, unit }));
    this.grid.setAttribute("aria-activedescendant", `${this.id}-${unit ?? 0}-${frame}`);
  }

  /** The whole flight in little, where not all of it is seen. */
  drawOverview() {
    const { flight } = this;
    if (!flight) return;
    const { first, last } = this.seen();
    const all = first === 0 && last === flight.frames.length - 1;
    this.whole.toggleAttribute("hidden", all);
    if (all) return;
    this.whole.setAttribute("viewBox", `0 0 ${flight.frames.length} ${flight.units}`);
    if (this.overviewOf !== flight) this.whole.replaceChildren(...drawOverview(flight), drawn("rect", { class: "window" }));
    this.overviewOf = flight;
    this.drawWindow();
  }

  /** Which part of the whole flight is seen. */
  drawWindow() {
    const window = this.whole.lastElementChild;
    if (!this.flight || !window) return;
    const place = { x: this.grid.scrollLeft / this.cell, y: 0, width: this.grid.clientWidth / this.cell, height: this.flight.units };
    for (const [name, value] of Object.entries(place)) window.setAttribute(name, String(value));
  }

  /** Scrolls so that the opened frame is seen. */
  reveal() {
    const left = this.frame * this.cell;
    const { scrollLeft, clientWidth } = this.grid;
    const before = scrollLeft - left;
    const behind = left + this.cell - scrollLeft - clientWidth;
    // A step goes on where it is, and what is far off comes to the middle.
    if (Math.max(before, behind) > 2 * this.cell) this.grid.scrollLeft = left - clientWidth / 2;
    else if (before > 0) this.grid.scrollLeft = left - this.cell;
    else if (behind > 0) this.grid.scrollLeft = left + 2 * this.cell - clientWidth;
  }

  /**
   * The frame and the unit below the pointer.
   * @param {MouseEvent} event
   */
  under(event) {
    if (!this.flight) return null;
    const box = this.inner.getBoundingClientRect();
    const frame = Math.floor((event.clientX - box.left) / this.cell);
    const unit = Math.floor((event.clientY - box.top - rowsOf(this.flight.units).units) / ROW);
    if (frame < 0 || frame >= this.flight.frames.length) return null;
    return { frame, unit: unit >= 0 && unit < this.flight.units ? unit : null };
  }

  /** @param {MouseEvent} event */
  clicked(event) {
    const at = this.under(event);
    if (at) this.go(at.frame, at.unit);
  }

  /** @param {PointerEvent} event */
  pointed(event) {
    const at = this.under(event);
    if (!at || !this.flight) return;
    this.told.textContent = this.tell(at.frame, at.unit);
  }

  /**
   * @param {number} number
   * @param {number | null} unit
   */
  tell(number, unit) {
    if (!this.flight) return "";
    const frame = this.flight.frames[number];
    if (unit !== null) return tellUnit(this.flight, number, unit, this.conduct);
    const clocks = frame.skew === null ? "no skew is told" : `skew ${frame.skew}, slack ${frame.slack}`;
    return `frame ${number}: configuration ${frame.configuration.join("")}, margin ${frame.margin ? "kept" : "lost"}, ${clocks}`;
  }

  /** @param {PointerEvent} event */
  jump(event) {
    const box = this.whole.getBoundingClientRect();
    const frames = this.flight?.frames.length ?? 0;
    this.go(Math.min(frames - 1, Math.max(0, Math.floor(((event.clientX - box.left) / box.width) * frames))), this.unit);
  }

  /** @param {KeyboardEvent} event */
  pressed(event) {
    if (!this.flight || event.ctrlKey || event.altKey || event.metaKey) return;
    const last = this.flight.frames.length - 1;
    const unit = this.unit ?? 0;
    /** @type {Record<string, [number, number | null]>} */
    const moves = {
      ArrowRight: [this.frame + 1, this.unit],
      ArrowLeft: [this.frame - 1, this.unit],
      ArrowDown: [this.frame, this.unit === null ? 0 : unit + 1],
      ArrowUp: [this.frame, this.unit === null ? this.flight.units - 1 : unit - 1],
      PageDown: [this.frame + 10, this.unit],
      PageUp: [this.frame - 10, this.unit],
      Home: [0, this.unit],
      End: [last, this.unit],
    };
    if (event.key === "+" || event.key === "-") this.scale(event.key === "+" ? 1.5 : 1 / 1.5);
    const move = moves[event.key];
    if (!move) return;
    event.preventDefault();
    const [frame, to] = move;
    this.go(Math.min(last, Math.max(0, frame)), to === null ? null : Math.min(this.flight.units - 1, Math.max(0, to)));
  }

  /**
   * Opens a frame, and tells of it.
   * @param {number} frame
   * @param {number | null} unit
   */
  go(frame, unit) {
    this.choose(frame, unit);
    this.told.textContent = this.tell(frame, unit);
    this.onchoose(frame, unit);
  }
}
