/** The picture of a flight: units by frames, in the marks of docs/pictures.md. */
import { drawn } from "./elements.js";
import { catchersOf, caughtBy, groupedByKinds, lookOf, stretchesOf, when } from "./report.js";

/** @typedef {import("./report.js").Flight} Flight */
/** @typedef {import("./report.js").Frame} Frame */

/**
 * A place that is shown to be looked at, with why. A mark without a unit is of the whole frame.
 * @typedef {{frame: number, unit?: number | null, words: string}} Mark
 */

/**
 * What a faulty unit does in a frame, in a word, or "".
 * @typedef {(unit: number, frame: number) => string} Conduct
 */

/**
 * What is drawn: some frames, each so wide.
 * @typedef {object} View
 * @property {number} first
 * @property {number} last
 * @property {number} cell
 * @property {boolean} [partly] whether one sees a part of it at a time, so that words stand again and again
 * @property {Conduct} [conduct] what faulty units do, where their mission is known
 * @property {string} [id] what the ids of cells begin with
 * @property {Mark[]} [marks]
 * @property {number} [frame] the frame that is opened
 * @property {number | null} [unit] the unit that is chosen in it
 */

export const ROW = 27;
const BAR = 21;
const TOP = 26;
const BAND = 20;
const PLOT = 34;
const AGAIN = 420; // after so many pixels the words of a long stretch stand again

/** @type {Record<import("./report.js").Look, string>} */
export const LOOKS = {
  works: "works",
  faulty: "faulty",
  out: "faulty, and out of the configuration",
  idle: "idle: works, and out of the configuration",
};

/**
 * Where the rows of a picture are, from the top.
 * @param {number} units
 */
export function rowsOf(units) {
  const below = TOP + ROW * units;
  const configuration = below + 4;
  const margin = configuration + BAND + 4;
  const skew = margin + BAND + 10;
  const slack = skew + PLOT + 10;
  return { units: TOP, configuration, margin, skew, slack, height: slack + PLOT + 6 };
}

/**
 * The greatest of what frames tell, and at least 1.
 * @param {Flight} flight
 * @param {"skew" | "slack"} name
 */
export const greatestOf = (flight, name) => flight.frames.reduce((most, frame) => Math.max(most, frame[name] ?? 0), 1);

/**
 * What there is to say of a unit in a frame.
 * @param {Flight} flight
 * @param {number} number
 * @param {number} unit
 * @param {Conduct} [conduct]
 */
export function tellUnit(flight, number, unit, conduct = () => "") {
  const frame = flight.frames[number];
  const by = caughtBy(frame, unit);
  const catches = groupedByKinds([...frame.units[unit].catches]);
  const does = conduct(unit, number);
  const words = [`frame ${number}, unit ${unit}: ${LOOKS[lookOf(frame, unit)]}${does ? `, ${does}` : ""}`, ...(by ? [`it is caught by ${by}`] : []), ...(catches ? [`it catches ${catches}`] : [])];
  return words.join("; ");
}

/**
 * The names of the rows, at their heights.
 * @param {Flight} flight
 */
export function labels(flight) {
  const rows = rowsOf(flight.units);
  /**
   * @param {number} y
   * @param {string} words
   * @param {string} [kind]
   */
  const label = (y, words, kind = "label") => drawn("text", { x: 96, y, class: kind }, words);
  return [
    label(TOP - 9, "frame"),
    ...Array.from({ length: flight.units }, (_, unit) => label(TOP + ROW * unit + 15, `unit ${unit}`)),
    label(rows.configuration + 14, "configuration"),
    label(rows.margin + 14, "margin"),
    label(rows.skew + 12, "skew"),
    label(rows.skew + 25, `to ${greatestOf(flight, "skew")} ${greatestOf(flight, "skew") === 1 ? "tick" : "ticks"}`, "label small"),
    label(rows.slack + 12, "slack"),
    label(rows.slack + 25, `to ${greatestOf(flight, "slack")} ${greatestOf(flight, "slack") === 1 ? "tick" : "ticks"}`, "label small"),
  ];
}

/** The pattern of a unit that is out, for a picture. */
export const patterns = () =>
  drawn(
    "defs",
    {},
    drawn(
      "pattern",
      { id: "out-pattern", width: 6, height: 6, patternUnits: "userSpaceOnUse", patternTransform: "rotate(45)" },
      drawn("rect", { width: 6, height: 6, class: "out-ground" }),
      drawn("rect", { width: 2, height: 6, class: "out-line" }),
    ),
  );

/** A picture as it grows. */
class Picture {
  /**
   * @param {Flight} flight
   * @param {View} view
   */
  constructor(flight, view) {
    this.flight = flight;
    this.view = view;
    this.rows = rowsOf(flight.units);
    this.numbers = Array.from({ length: view.last - view.first + 1 }, (_, place) => view.first + place);
  }

  /** @param {number} frame */
  x(frame) {
    return (frame - this.view.first) * this.view.cell;
  }

  /** @param {number} frame */
  middle(frame) {
    return this.x(frame) + this.view.cell / 2;
  }

  /** @param {number} unit */
  y(unit) {
    return TOP + ROW * unit;
  }

  /**
   * The stretches of equal values in what is drawn.
   * @template T
   * @param {(frame: Frame) => T} of
   * @returns {[number, number, T][]}
   */
  stretches(of) {
    const { first, last } = this.view;
    return stretchesOf(this.flight.frames.slice(first, last + 1).map(of)).map(([begin, end, value]) => [first + begin, first + end, value]);
  }

  axis() {
    const step = [1, 2, 5, 10, 20, 50, 100, 200].find((each) => each * this.view.cell >= 34) ?? 500;
    return this.numbers
      .filter((number) => number % step === 0)
      .map((number) => drawn("text", { x: this.middle(number), y: TOP - 9, class: "tick" }, number));
  }

  /** A row for each unit, with a cell for each frame. */
  units() {
    return Array.from({ length: this.flight.units }, (_, unit) =>
      drawn(
        "g",
        { role: "row", "aria-rowindex": unit + 1 },
        ...this.numbers.map((number) =>
          drawn("rect", {
            role: "gridcell",
            id: `${this.view.id ?? "cell"}-${unit}-${number}`,
            "aria-colindex": number + 1,
            "aria-label": tellUnit(this.flight, number, unit, this.view.conduct),
            class: lookOf(this.flight.frames[number], unit),
            x: this.x(number),
            y: this.y(unit),
            width: Math.max(this.view.cell - 1, 0.5),
            height: BAR,
          }),
        ),
      ),
    );
  }

  /** What faulty units do, at the beginning of the frames in which they do so, where there is room beside the box of one that is caught. */
  conducts() {
    const { conduct, cell } = this.view;
    if (!conduct) return [];
    return Array.from({ length: this.flight.units }, (_, unit) => unit).flatMap((unit) =>
      stretchesOf(this.numbers.map((number) => (lookOf(this.flight.frames[number], unit) === "faulty" ? conduct(unit, number) : ""))).flatMap(([begin, end, words]) => {
        const first = this.numbers[begin];
        const caught = catchersOf(this.flight.frames[first], unit).length > 0;
        const room = caught ? cell / 2 - 12 : (end - begin + 1) * cell;
        if (!words || 6 * words.length + 4 > room) return [];
        return [drawn("text", { class: "conduct", x: this.x(first) + 4, y: this.y(unit) + 14.5 }, words)];
      }),
    );
  }

  /** The units that caught, a line from them to those whom they caught, and a box there. */
  catches() {
    return this.numbers.flatMap((number) => {
      const frame = this.flight.frames[number];
      const caught = [...frame.units.keys()].filter((unit) => catchersOf(frame, unit).length > 0);
      return [
        ...caught.map((unit) => this.line(frame, number, unit)),
        ...caught.map((unit) => this.box(number, unit)),
        ...frame.units.flatMap((account, unit) => (account.catches.size > 0 ? this.catcher(number, unit, account.catches) : [])),
      ];
    });
  }

  /**
   * @param {Frame} frame
   * @param {number} number
   * @param {number} unit
   */
  line(frame, number, unit) {
    const rows = [...catchersOf(frame, unit), unit];
    const x = this.middle(number);
    return drawn("line", { class: "catch-line", x1: x, x2: x, y1: this.y(Math.min(...rows)) + BAR / 2, y2: this.y(Math.max(...rows)) + BAR / 2 });
  }

  /**
   * @param {number} number
   * @param {number} unit
   */
  box(number, unit) {
    const width = Math.min(18, this.view.cell * 0.7);
    return drawn("rect", { class: "caught", x: this.middle(number) - width / 2, y: this.y(unit) + 3, width, height: BAR - 6 });
  }

  /**
   * A unit that caught others: their digits, with the kinds where there is room for them, else a dot.
   * @param {number} number
   * @param {number} unit
   * @param {Map<number, string>} catches
   * @returns {Element[]}
   */
  catcher(number, unit, catches) {
    const x = this.middle(number);
    const y = this.y(unit) + BAR / 2;
    const told = [[...catches].map(([whom, letters]) => `${whom}${letters}`).join(","), [...catches.keys()].join("")];
    const words = told.find((each) => 8 * each.length + 8 <= this.view.cell);
    if (!words) return [drawn("circle", { class: "catch", cx: x, cy: y, r: Math.max(1, Math.min(4.5, this.view.cell * 0.45)) })];
    const width = 8 * words.length + 6;
    return [
      drawn("rect", { class: "catch", x: x - width / 2, y: y - 8.5, width, height: 17, rx: 5 }),
      drawn("text", { class: "catch-words", x, y: y + 4 }, words),
    ];
  }

  /**
   * The words of a stretch, at its beginning, and where one sees a part at a time again and again.
   * @param {[number, number, unknown]} stretch
   * @param {number} y
   * @param {string} kind
   * @param {number} wide of a letter
   */
  words([first, last, value], y, kind, wide) {
    const words = String(value);
    const step = Math.ceil(AGAIN / this.view.cell);
    const places = Array.from({ length: last - first + 1 }, (_, place) => first + place).filter((number) => number === first || (this.view.partly && number % step === 0));
    const room = wide * words.length + 4;
    return places
      .filter((number, place) => ((places[place + 1] ?? last + 1) - number) * this.view.cell >= room)
      .map((number) => drawn("text", { class: kind, x: this.x(number) + 3, y }, words));
  }

  /**
   * A band of pieces with their words.
   * @param {number} y
   * @param {[number, number, string][]} stretches
   * @param {(value: string) => string} kind
   */
  band(y, stretches, kind) {
    return stretches.flatMap((stretch) => {
      const [first, last, value] = stretch;
      const width = Math.max((last - first + 1) * this.view.cell - 1, 0.5);
      return [
        drawn("rect", { class: kind(value), x: this.x(first), y, width, height: BAND }, drawn("title", {}, `${when(first, last)}: ${value}`)),
        ...this.words(stretch, y + 14.5, "band-words", 8),
      ];
    });
  }

  /** The configuration and the margin, and a line through the units where the configuration is a new one. */
  changes() {
    const { frames } = this.flight;
    /** @param {number} number */
    const isNew = (number) => number > 0 && frames[number].configuration.join() !== frames[number - 1].configuration.join();
    return [
      ...this.band(this.rows.configuration, this.stretches((frame) => frame.configuration.join("")), () => "configuration"),
      ...this.band(this.rows.margin, this.stretches((frame) => (frame.margin ? "ok" : "lost")), (value) => `margin-${value}`),
      ...this.numbers
        .filter(isNew)
        .map((number) => drawn("line", { class: "change", x1: this.x(number), x2: this.x(number), y1: TOP - 4, y2: this.rows.margin - 2 })),
    ];
  }

  /**
   * What the frames tell as steps over them.
   * @param {"skew" | "slack"} name
   */
  steps(name) {
    const base = this.rows[name] + PLOT;
    const scale = (PLOT - 12) / greatestOf(this.flight, name);
    const whole = this.stretches((frame) => frame[name]).flatMap((stretch) => {
      const [first, last, value] = stretch;
      if (value === null) return [];
      const height = Math.max(0, value) * scale;
      const width = (last - first + 1) * this.view.cell;
      return [
        drawn("rect", { class: `${name}-fill`, x: this.x(first), y: base - height, width, height }, drawn("title", {}, `${when(first, last)}: ${name} ${value}`)),
        drawn("line", { class: `${name}-line`, x1: this.x(first), x2: this.x(first) + width, y1: base - height, y2: base - height }),
        ...this.words(stretch, base - height - 3, "plot-words", 7),
      ];
    });
    return [drawn("line", { class: "ground", x1: 0, x2: this.x(this.view.last + 1), y1: base + 0.5, y2: base + 0.5 }), ...whole];
  }

  /** The frame that is opened, the unit that is chosen in it, and the marks. */
  shown() {
    const { frame, unit, first, last, cell, marks = [] } = this.view;
    const inside = marks.filter((mark) => mark.frame >= first && mark.frame <= last);
    return [
      ...inside.map((mark) =>
        drawn(
          "rect",
          mark.unit === undefined || mark.unit === null
            ? { class: "mark", x: this.x(mark.frame), y: TOP - 3, width: cell - 1, height: this.rows.margin - TOP + BAND + 4 }
            : { class: "mark", x: this.x(mark.frame), y: this.y(mark.unit) - 3, width: cell - 1, height: BAR + 6 },
          drawn("title", {}, mark.words),
        ),
      ),
      ...(frame !== undefined && frame >= first && frame <= last
        ? [
            drawn("rect", { class: "opened", x: this.x(frame) + 1, y: 2, width: cell - 2, height: this.rows.height - 4 }),
            ...(unit !== undefined && unit !== null
              ? [drawn("rect", { class: "chosen", x: this.x(frame) + 2, y: this.y(unit) - 2, width: cell - 4, height: BAR + 4 })]
              : []),
          ]
        : []),
    ];
  }

  all() {
    return [...this.axis(), ...this.units(), ...this.conducts(), ...this.catches(), ...this.changes(), ...this.steps("skew"), ...this.steps("slack")];
  }
}

/**
 * The elements of a picture.
 * @param {Flight} flight
 * @param {View} view
 * @returns {Element[]}
 */
export const drawFlight = (flight, view) => new Picture(flight, view).all();

/**
 * The elements that lie over a picture: the frame that is opened, the unit that is chosen in it, and the marks.
 * @param {Flight} flight
 * @param {View} view
 * @returns {Element[]}
 */
export const drawShown = (flight, view) => new Picture(flight, view).shown();

/**
 * The whole flight in little: of each unit the stretches in which it looks alike, in a box as wide as the frames and as high as
 * the units.
 * @param {Flight} flight
 */
export function drawOverview(flight) {
  const stretches = Array.from({ length: flight.units }, (_, unit) =>
    stretchesOf(flight.frames.map((frame) => lookOf(frame, unit))).map(([first, last, look]) =>
      drawn("rect", { class: look === "out" ? "out-line" : look, x: first, y: unit + 0.1, width: last - first + 1, height: 0.8 }),
    ),
  );
  const caught = flight.frames.flatMap((frame, number) =>
    [...frame.units.keys()]
      .filter((unit) => catchersOf(frame, unit).length > 0)
      .map((unit) => drawn("rect", { class: "catch", x: number, y: unit + 0.1, width: 1, height: 0.8 })),
  );
  return [...stretches.flat(), ...caught];
}
