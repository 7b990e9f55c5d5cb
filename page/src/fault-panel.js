/** A fault by hand: for the chosen unit and frame, what it says in which slot to whom, or a storm. */
import { statedFaults, withItem, withStorm, withoutFault, withoutItem } from "./edits.js";
import { element } from "./elements.js";
import { Schedule, maskOf, slotName } from "./faults.js";
import { outlineOf } from "./outline.js";
import { button, label, option, row } from "./parts.js";
import { beginsWords, itemWords, stormWords } from "./wording.js";

/** @typedef {import("./document.js").State} State */
/** @typedef {import("./edits.js").StatedFault} StatedFault */
/** @typedef {import("./faults.js").Slot} Slot */
/** @typedef {import("./main.js").Page} Page */

const SENTENCES = {
  clock: "its clock's offset in ticks",
  sense: "the sensor's word, which it reads",
  relay: "what it heard of the sensor",
  out: "the word that it computed",
  report: "whom it caught",
  "relay-report": "what that unit reported to it",
};

/**
 * A choice of one of several things.
 * @param {string} group
 * @param {string} value
 * @param {boolean} checked
 */
const radio = (group, value, checked) => element("input", { type: "radio", name: group, value, checked });

/**
 * A number in bounds.
 * @param {number} value
 * @param {number} min
 * @param {number} max
 * @param {string} label
 */
const number = (value, min, max, label) => element("input", { type: "number", value, min, max, required: true, "aria-label": label });

/** A row of boxes with a digit for each unit. */
class Units {
  /** @param {string} legend */
  constructor(legend) {
    this.legend = element("legend", {}, legend);
    this.set = element("fieldset", { class: "units" });
    /** @type {Map<number, HTMLInputElement>} */
    this.boxes = new Map();
  }

  /**
   * Offers these units, and keeps what was chosen of those that stay.
   * @param {number[]} units
   * @param {boolean} checked a new one
   */
  offer(units, checked) {
    const before = new Map([...this.boxes].map(([unit, box]) => [unit, box.checked]));
    this.boxes = new Map(units.map((unit) => [unit, element("input", { type: "checkbox", checked: before.get(unit) ?? checked })]));
    this.set.replaceChildren(this.legend, ...units.map((unit) => element("label", {}, this.boxes.get(unit), ` ${unit}`)));
  }

  /** The units that are chosen. */
  get chosen() {
    return [...this.boxes].flatMap(([unit, box]) => (box.checked ? [unit] : []));
  }
}

/** The panel; its schedule is that of the last flight. */
class FaultPanel {
  unit = element("select", { name: "unit", "aria-label": "the unit", onchange: () => this.store.update({ unit: Number(this.unit.value) }) });
  frame = number(0, 0, 999, "the frame");
  says = radio("what", "says", true);
  strays = radio("what", "storm", false);
  slot = element("select", { name: "slot" });
  meaning = element("span", { class: "more" });
  word = radio("value", "word", true);
  silence = radio("value", "silence", false);
  value = number(999, -32768, 65535, "the word");
  accused = new Units("that it caught");
  to = new Units("to");
  alone = radio("when", "alone", false);
  lasting = radio("when", "lasting", true);
  aloneWords = element("span", {});
  lastingWords = element("span", {});
  stormNumber = number(1, 0, Number.MAX_SAFE_INTEGER, "the number that the strays are drawn from");
  stormStrays = number(100000, 0, 1000000, "how many strays");
  itemRows = [
    row(label("in place of ", this.slot), this.meaning),
    row(label(this.word, " the word"), this.value, this.accused.set, label(this.silence, " nothing: silence")),
    row(this.to.set),
    row(label(this.alone, " ", this.aloneWords), label(this.lasting, " ", this.lastingWords)),
  ];
  stormRows = [row(label("strays drawn from the number ", this.stormNumber), label("how many ", this.stormStrays))];

  /**
   * @param {HTMLElement} section
   * @param {Page} page
   */
  constructor(section, { store }) {
    this.store = store;
    /** @type {Schedule | null} */
    this.schedule = null;
    /** @type {Slot[]} that the chosen unit says */
    this.slots = [];
    this.told = element("div", { class: "stated" });
    this.done = element("p", { role: "status", class: "more" });
    this.write = element("button", { type: "submit", class: "main" }, "Write it into the mission");
    const submit = (/** @type {Event} */ event) => {
      event.preventDefault();
      this.put();
    };
    this.form = element("form", { onsubmit: submit, onchange: () => this.adapt() }, ...this.rows(), row(this.write));
    section.append(element("h2", {}, "A fault by hand"), this.told, this.form, this.done);
    store.subscribe((state, changed) => {
      if (changed.has("flown") && state.flown) this.schedule = new Schedule(outlineOf(state.flown.text), []);
      this.show(state);
    });
  }

  /** The rows of the form: those of an item, and those of a storm. */
  rows() {
    this.frame.addEventListener("change", () => this.frame.checkValidity() && this.store.update({ frame: Number(this.frame.value) }));
    const what = [label(this.says, " says"), label(this.strays, " turns stray, and stores what it likes")];
    return [row(label("Unit ", this.unit), label("frame ", this.frame), ...what), ...this.itemRows, ...this.stormRows];
  }

  /** The chosen unit, or the first one. */
  get chosenUnit() {
    return this.store.state.unit ?? 0;
  }

  /** The slot that is chosen. */
  get chosenSlot() {
    return this.slots[this.slot.selectedIndex];
  }

  /**
   * The fault that the document states of the unit, or none where it can't be read.
   * @returns {StatedFault | undefined}
   */
  get stated() {
    try {
      return statedFaults(this.store.state.text).find((fault) => fault.unit === this.chosenUnit);
    } catch {
      return undefined;
    }
  }

  /** @param {State} state */
  show(state) {
    if (!this.schedule) return;
    const { units } = this.schedule;
    if (this.unit.length !== units.length) this.unit.replaceChildren(...units.map((unit) => option(unit, unit)));
    this.unit.value = String(this.chosenUnit);
    this.frame.max = String(this.schedule.outline.frames - 1);
    this.frame.value = String(state.frame);
    this.offerSlots();
    this.showStated();
    this.adapt();
  }

  /** Offers the slots that the unit says, and marks those that it doesn't say in this frame's configuration. */
  offerSlots() {
    const { schedule, store } = this;
    if (!schedule) return;
    const configuration = store.state.flown?.flight.frames[store.state.frame]?.configuration ?? schedule.units;
    const before = this.chosenSlot && slotName(this.chosenSlot);
    this.slots = schedule.slotsOf(this.chosenUnit).filter((slot) => slot.sort !== "relay-report" || slot.index !== this.chosenUnit);
    const options = this.slots.map((slot) => {
      const said = schedule.says(this.chosenUnit, slot, configuration);
      const name = slotName(slot);
      return option(name, said ? name : `${name} (not said in this configuration)`, name === before);
    });
    this.slot.replaceChildren(...options);
    const first = this.slots.findIndex((slot) => slot.sort === "out" && schedule.says(this.chosenUnit, slot, configuration));
    if (!this.slots.some((slot) => slotName(slot) === before)) this.slot.selectedIndex = Math.max(0, first);
  }

  /** Shows what the choices ask for. */
  adapt() {
    const { schedule, chosenSlot: slot } = this;
    if (!schedule || !slot) return;
    const storm = this.strays.checked;
    this.itemRows.forEach((row) => (row.hidden = storm));
    this.stormRows.forEach((row) => (row.hidden = !storm));
    this.meaning.textContent = SENTENCES[slot.sort];
    const names = slot.sort.endsWith("report");
    this.value.hidden = names;
    this.accused.set.hidden = !names;
    this.value.disabled = names || this.silence.checked || storm;
    for (const field of [this.stormNumber, this.stormStrays]) field.disabled = !storm;
    this.accused.offer(schedule.units.filter((unit) => unit !== this.chosenUnit), true);
    this.to.offer(schedule.units.filter((unit) => unit !== this.chosenUnit && !(slot.sort === "relay-report" && unit === slot.index)), true);
    const { frame } = this.store.state;
    const from = Math.min(frame, this.stated?.from ?? frame);
    this.aloneWords.textContent = `in frame ${frame} alone`;
    this.lastingWords.textContent = `in every frame from ${from} on${from < frame ? ", where its fault begins" : ""}`;
    this.write.disabled = this.store.state.told === "refused";
  }

  /** Shows what the document states of the unit, and what can be taken out. */
  showStated() {
    const { stated } = this;
    this.told.hidden = !stated;
    if (!stated) return;
    const { unit, say, storm } = stated;
    const outline = this.schedule?.outline ?? null;
    const write = (/** @type {string} */ text) => {
      this.put(text, "Taken out");
      this.unit.focus(); // the button is gone
    };
    const items = (say ?? []).map((item, place) => {
      const words = itemWords(item, outline);
      const out = button("Take out", () => write(withoutItem(this.store.state.text, unit, place)), { "aria-label": `take out: ${words}` });
      return element("li", {}, words, " ", out);
    });
    const out = button("Take its fault out", () => write(withoutFault(this.store.state.text, unit)));
    this.told.replaceChildren(
      element("p", {}, `As the mission states it, ${beginsWords(stated)}. `, out),
      ...(storm ? [element("p", {}, stormWords(storm))] : []),
      ...(items.length ? [element("ul", {}, ...items)] : []),
    );
  }

  /**
   * The document with what the form says.
   * @param {string} text
   */
  edited(text) {
    const { frame } = this.store.state;
    const unit = this.chosenUnit;
    if (this.strays.checked) {
      return withStorm(text, unit, frame, { number: Number(this.stormNumber.value), strays: Number(this.stormStrays.value) });
    }
    const slot = this.chosenSlot;
    const named = slot.sort.endsWith("report");
    const value = this.silence.checked ? undefined : named ? maskOf(this.accused.chosen) : Number(this.value.value);
    return withItem(text, unit, frame, {
      slot: slot.sort,
      ...(slot.index === null ? {} : { index: slot.index }),
      ...(slot.word === null ? {} : { word: slot.word }),
      to: this.to.chosen.join(""),
      ...(this.alone.checked ? { frame } : {}),
      ...(value === undefined ? {} : { value }),
    });
  }

  /**
   * Writes a text into the document, or what the form says.
   * @param {string} [text]
   * @param {string} done
   */
  put(text, done = "Written into the mission") {
    if (text === undefined && !this.strays.checked && this.to.chosen.length === 0) {
      this.done.textContent = "Nobody hears it: choose at least one unit.";
      return;
    }
    const { frame } = this.store.state;
    const earlier = text === undefined && (this.stated?.from ?? 0) > frame;
    const words = earlier ? `; its fault begins in frame ${frame} now, and so do its items without a frame` : "";
    this.store.update({ unit: this.chosenUnit });
    this.store.write(text ?? this.edited(this.store.state.text));
    this.done.textContent = `${done}${words}. It is flown again.`;
  }
}

/**
 * @param {HTMLElement} section
 * @param {Page} page
 */
export function start(section, page) {
  new FaultPanel(section, page);
}
