/**
 * Reads a TOML document, and keeps where in the text each key and each value stands.
 *
 * It reads TOML 1.1 as the program does: integers have 64 bits, and arrays, inline tables and the parts of a key go 80 deep
 * at most. What is no document is refused at the first character that no document goes on with. Places count the text's
 * UTF-16 units, as strings here do.
 */
import { scalarOf } from "./toml-words.js";

const DEEPEST = 80;
const BARE = /[A-Za-z0-9_-]+/y;
const BLANKS = /[ \t]*/y;
const WORD = /[A-Za-z0-9_.:+-]+(?: (?=[0-9])[A-Za-z0-9_.:+-]+)?/y;
const COMMENT = /#[^\x00-\x08\x0a-\x1f\x7f]*/y; // eslint-disable-line no-control-regex
const NEW_LINE = /\r?\n/y;
const BLANK_LINE_ENDS = /[ \t]*\r?\n[ \t\r\n]*/y;
/** @type {Record<string, string>} */
const ESCAPES = { b: "\b", e: "\x1b", f: "\f", n: "\n", r: "\r", t: "\t", '"': '"', "\\": "\\" };
/** @type {Record<string, RegExp>} */
const HEX_ESCAPES = { x: /[0-9A-Fa-f]{2}/y, u: /[0-9A-Fa-f]{4}/y, U: /[0-9A-Fa-f]{8}/y };
const CURLY = "\u201c\u201d\u201e\u2018\u2019";

/** Why a text is no document, where it shows, from a place up to an end, and what to do. */
export class NotADocument extends Error {
  /**
   * @param {number} place
   * @param {number} end
   * @param {string} why
   * @param {string} mend
   */
  constructor(place, end, why, mend) {
    super(why);
    this.place = place;
    this.end = end;
    this.why = why;
    this.mend = mend;
  }
}

/**
 * A value, and where it stands in the text: from the place `start` up to `end`. `data` is a number, a bigint where it is a
 * large one, a boolean or a string, the text of a date, the list of an array's values, or the map of a table's entries. The
 * place of a table that a header begins is that of the header. `origin` is of a table "value", "header", "dotted" or
 * "implicit", and of an array of tables "header". `places` has of a string the place of each of its units, and of its end.
 * @typedef {object} Value
 * @property {"integer" | "float" | "boolean" | "date" | "string" | "array" | "table"} kind
 * @property {any} data
 * @property {number} start
 * @property {number} end
 * @property {string} origin
 * @property {number[] | null} places
 *
 * A key of a table, where it stands, and its value.
 * @typedef {{start: number, end: number, value: Value}} Entry
 *
 * A header: where it stands, and the names in it.
 * @typedef {{start: number, end: number, names: string[], double: boolean}} Header
 *
 * A part of a key: its name and where it stands.
 * @typedef {{name: string, start: number, end: number}} Part
 */

/**
 * @param {Value["kind"]} kind
 * @param {any} data
 * @param {number} start
 * @param {number} end
 * @param {string} origin
 * @returns {Value}
 */
function valueOf(kind, data, start, end, origin = "value") {
  return { kind, data, start, end, origin, places: null };
}

/**
 * The value of a key of a table, or undefined.
 * @param {Value} table
 * @param {string} name
 * @returns {Value | undefined}
 */
export function get(table, name) {
  return table.data.get(name)?.value;
}

/**
 * The value without its places. A table is a map.
 * @param {Value} value
 * @returns {any}
 */
export function plain(value) {
  if (value.kind === "array") {
    return value.data.map(plain);
  }
  if (value.kind === "table") {
    return new Map([...value.data].map(([name, entry]) => [name, plain(entry.value)]));
  }
  return value.data;
}

/**
 * The line of a place, from 1.
 * @param {string} text
 * @param {number} place
 */
export function lineOf(text, place) {
  return text.slice(0, place).split("\n").length;
}

/**
 * The root table of a document's text, and its headers in their order.
 * @param {string} text
 * @returns {{root: Value, headers: Header[]}}
 */
export function readDocument(text) {
  const reader = new Reader(text);
  return { root: reader.document(), headers: reader.headers };
}

/** A text, and the place up to which it is read. */
class Reader {
  /** @param {string} text */
  constructor(text) {
    this.text = text;
    this.at = 0;
    /** @type {Header[]} */
    this.headers = [];
  }

  // Small steps.

  /** The character that comes next, or nothing at the end. */
  next() {
    return this.text[this.at] ?? "";
  }

  /**
   * Whether a character comes next that is one of these.
   * @param {string} characters
   */
  isAt(characters) {
    return this.next() !== "" && characters.includes(this.next());
  }

  /**
   * What a form fits here, and goes behind it.
   * @param {RegExp} form
   */
  take(form) {
    form.lastIndex = this.at;
    const found = form.exec(this.text);
    this.at += found ? found[0].length : 0;
    return found ? found[0] : "";
  }

  /**
   * @param {string} why
   * @param {string} mend
   * @param {number} place
   * @param {number} end
   * @returns {never}
   */
  refuse(why, mend, place = this.at, end = place + 1) {
    throw new NotADocument(place, end, why, mend);
  }

  /** What stands here, in words. */
  foundHere() {
    const here = this.next();
    if (!here) {
      return "the document ends";
    }
    if ("\r\n".includes(here)) {
      return "the line ends";
    }
    const shown = here === " " || !/[\p{C}\p{Z}]/u.test(here);
    return shown ? `\`${here}\` stands` : `the character 0x${here.charCodeAt(0).toString(16).padStart(2, "0")} stands`;
  }

  blanks() {
    this.take(BLANKS);
  }

  /** Goes past blanks, comments and new lines. */
  blankLines() {
    this.blanks();
    while (this.isAt("#\r\n")) {
      this.take(COMMENT);
      if (this.next() && !this.take(NEW_LINE)) {
        this.refuse(`${this.foundHere()}, which can't stand in a comment or between lines`, "take it out; a line ends with LF, or with CR LF");
      }
      this.blanks();
    }
  }

  /**
   * The line of a place, for a message about another one.
   * @param {number} place
   */
  firstPlace(place) {
    return `line ${lineOf(this.text, place)}`;
  }

  // The document.

  /** The root table. */
  document() {
    this.at = this.text.startsWith("\ufeff") ? 1 : 0;
    this.blankLines();
    const root = valueOf("table", new Map(), this.at, this.at, "header");
    let table = root;
    while (this.next()) {
      if (this.next() === "[") {
        table = this.header(root);
      } else {
        this.pair(table);
      }
      this.lineEnd();
      this.blankLines();
    }
    return root;
  }

  lineEnd() {
    this.blanks();
    if (!this.next() || this.isAt("#\n") || this.text.startsWith("\r\n", this.at)) {
      return;
    }
    if (this.next() === ",") {
      this.refuse("a comma stands behind the value", "a new line: each key has a line of its own");
    }
    if (this.text.startsWith("//", this.at)) {
      this.refuse("no comment begins so", "`#`", this.at, this.at + 2);
    }
    if ("'\"".includes(this.text[this.at - 1])) {
      this.refuse("the string has ended before here", 'a quote within a string is written `\\"`; or put the string into other quotes');
    }
    this.refuse(`the line should end here, and ${this.foundHere()}`, "a new line: each key has a line of its own");
  }

  // Tables.

  /**
   * The table that a header begins.
   * @param {Value} root
   */
  header(root) {
    const start = this.at;
    const double = this.text.startsWith("[[", start);
    this.at += double ? 2 : 1;
    this.blanks();
    const parts = this.key();
    const close = double ? "]]" : "]";
    if (!this.text.startsWith(close, this.at)) {
      this.refuse(`\`${close}\` is due here, and ${this.foundHere()}`, `\`${close}\``);
    }
    this.at += close.length;
    this.headers.push({ start, end: this.at, names: parts.map((part) => part.name), double });
    const table = parts.slice(0, -1).reduce((inner, part) => this.throughHeader(inner, part), root);
    return this.atHeader(table, parts[parts.length - 1], double, start);
  }

  /**
   * The table at a part of a header that isn't its last.
   * @param {Value} table
   * @param {Part} part
   * @returns {Value}
   */
  throughHeader(table, { name, start, end }) {
    const entry = table.data.get(name);
    if (!entry) {
      const inner = valueOf("table", new Map(), start, end, "implicit");
      table.data.set(name, { start, end, value: inner });
      return inner;
    }
    if (entry.value.origin === "value") {
      this.refuse(`\`${name}\` is the value of a key already, in ${this.firstPlace(entry.start)}`, "another name", start, end);
    }
    return entry.value.kind === "array" ? entry.value.data.at(-1) : entry.value;
  }

  /**
   * The table that the last part of a header names.
   * @param {Value} table
   * @param {Part} part
   * @param {boolean} double
   * @param {number} start
   * @returns {Value}
   */
  atHeader(table, part, double, start) {
    const entry = table.data.get(part.name);
    const made = valueOf("table", new Map(), start, this.at, "header");
    if (!entry) {
      const holder = double ? valueOf("array", [made], start, this.at, "header") : made;
      table.data.set(part.name, { start: part.start, end: part.end, value: holder });
      return made;
    }
    const old = entry.value;
    if (double && old.kind === "array" && old.origin === "header") {
      old.data.push(made);
      return made;
    }
    if (!double && old.kind === "table" && old.origin === "implicit") {
      Object.assign(old, { origin: "header", start, end: this.at });
      return old;
    }
    const [why, mend] = this.whyTwice(part.name, old, double, entry.start);
    return this.refuse(why, mend, start, this.at);
  }

  /**
   * Why a header can't name what it names, and what to do.
   * @param {string} name
   * @param {Value} old
   * @param {boolean} double
   * @param {number} place
   */
  whyTwice(name, old, double, place) {
    const where = this.firstPlace(place);
    if (double && old.kind === "table") {
      return [`\`[[${name}]]\` makes a list, and \`${name}\` is a table already, in ${where}`, `\`[[${name}]]\` there too`];
    }
    if (old.kind === "array" && old.origin === "header") {
      return [`\`${name}\` is a list already, in ${where}`, `\`[[${name}]]\`, with double brackets`];
    }
    return [`\`${name}\` stands twice: it is there already, in ${where}`, "put both into one"];
  }

  /**
   * A key and its value, into a table.
   * @param {Value} table
   */
  pair(table) {
    const { parts, value } = this.keyAndValue(DEEPEST);
    this.put(table, parts, value, (name, entry) => `the key \`${name}\` stands twice: it is there already, in ${this.firstPlace(entry.start)}`);
  }

  /**
   * The parts of a key, and the value behind it.
   * @param {number} depth
   */
  keyAndValue(depth) {
    const parts = this.key();
    if (this.next() === ":") {
      this.refuse("a colon stands behind the key", "`=`");
    }
    if (this.next() !== "=") {
      this.refuse(`\`=\` is due behind the key, and ${this.foundHere()}`, "`=` and a value");
    }
    this.at += 1;
    this.blanks();
    return { parts, value: this.value(depth) };
  }

  /**
   * Puts a value into a table, through the dots of its key.
   * @param {Value} table
   * @param {Part[]} parts
   * @param {Value} value
   * @param {(name: string, entry: Entry) => string} whyTwice
   */
  put(table, parts, value, whyTwice) {
    const { name, start, end } = parts[parts.length - 1];
    const inner = parts.slice(0, -1).reduce((each, part) => this.throughDot(each, part), table);
    const entry = inner.data.get(name);
    if (entry) {
      this.refuse(whyTwice(name, entry), "keep one of the two", start, end);
    }
    inner.data.set(name, { start, end, value });
  }

  /**
   * The table at a part of a dotted key that isn't its last.
   * @param {Value} table
   * @param {Part} part
   * @returns {Value}
   */
  throughDot(table, { name, start, end }) {
    const entry = table.data.get(name);
    if (!entry) {
      const inner = valueOf("table", new Map(), start, end, "dotted");
      table.data.set(name, { start, end, value: inner });
      return inner;
    }
    const inner = entry.value;
    if (inner.kind !== "table" || !["implicit", "dotted"].includes(inner.origin)) {
      this.refuse(`\`${name}\` can't get a key by a dot: it is there already, in ${this.firstPlace(entry.start)}`, "put both into one", start, end);
    }
    inner.origin = "dotted";
    return inner;
  }

  /** The parts of a key; goes behind the blanks that follow it. */
  key() {
    /** @type {Part[]} */
    const parts = [];
    do {
      this.at += parts.length ? 1 : 0;
      this.blanks();
      if (parts.length === DEEPEST) {
        this.refuse(`a key has at most ${DEEPEST} parts`, "keys of a mission have one");
      }
      const start = this.at;
      const name = this.isAt("'\"") ? this.string(false).data : this.bareKey();
      parts.push({ name, start, end: this.at });
      this.blanks();
    } while (this.next() === ".");
    return parts;
  }

  bareKey() {
    return this.take(BARE) || this.refuse(`a key is due here, and ${this.foundHere()}`, "`key = value`, or a comment behind `#`");
  }

  // Values.

  /**
   * A value, which may have arrays and inline tables so deep.
   * @param {number} depth
   * @returns {Value}
   */
  value(depth) {
    const start = this.at;
    const here = this.next();
    if (this.isAt("'\"")) {
      return this.string(true);
    }
    if (this.isAt("[{")) {
      if (depth === 0) {
        this.refuse(`arrays and inline tables are nested deeper than ${DEEPEST}`, "those of a mission go three deep");
      }
      return here === "[" ? this.array(depth - 1) : this.inlineTable(depth - 1);
    }
    const scalar = scalarOf(this.take(WORD) || this.noValue(here));
    if (scalar.kind === null) {
      return this.refuse(scalar.why, scalar.mend, start, this.at);
    }
    return valueOf(scalar.kind, scalar.data, start, this.at);
  }

  /**
   * @param {string} here
   * @returns {never}
   */
  noValue(here) {
    if (here && CURLY.includes(here)) {
      this.refuse(`\`${here}\` is no quote of TOML`, 'straight ones, as in "pitch"');
    }
    return this.refuse(`a value is due here, and ${this.foundHere()}`, "a number, a string in quotes, or `[` and `]` round a list");
  }

  /** @param {number} depth */
  array(depth) {
    const start = this.at;
    this.at += 1;
    /** @type {Value[]} */
    const items = [];
    for (this.blankLines(); this.next() !== "]"; this.blankLines()) {
      items.push(this.value(depth));
      if (!this.goesOn("]", "array", start)) {
        break;
      }
    }
    this.at += 1;
    return valueOf("array", items, start, this.at);
  }

  /** @param {number} depth */
  inlineTable(depth) {
    const start = this.at;
    this.at += 1;
    const table = valueOf("table", new Map(), start, start);
    for (this.blankLines(); this.next() !== "}"; this.blankLines()) {
      const { parts, value } = this.keyAndValue(depth);
      this.put(table, parts, value, (name) => `the key \`${name}\` stands twice in its table`);
      if (!this.goesOn("}", "inline table", start)) {
        break;
      }
    }
    this.at += 1;
    close(table);
    table.end = this.at;
    return table;
  }

  /**
   * Whether a comma follows, and goes behind it; else the closing bracket does.
   * @param {string} bracket
   * @param {string} what
   * @param {number} start
   */
  goesOn(bracket, what, start) {
    this.blankLines();
    if (this.next() === ",") {
      this.at += 1;
      return true;
    }
    if (this.next() !== bracket) {
      const begun = this.text.slice(start, this.at).includes("\n") ? ` that begins in ${this.firstPlace(start)}` : "";
      const why = `a comma or \`${bracket}\` is due in the ${what}${begun}, and ${this.foundHere()}`;
      this.refuse(why, `\`${bracket}\` at its end, or a comma between two values`);
    }
    return false;
  }

  // Strings.

  /**
   * A string; with `lines` also one in triple quotes.
   * @param {boolean} lines
   */
  string(lines) {
    const start = this.at;
    const quote = this.next();
    const many = lines && this.text.startsWith(quote.repeat(3), start);
    this.at += many ? 3 : 1;
    if (many) {
      this.take(NEW_LINE);
    }
    let data = "";
    /** @type {number[]} */
    const places = [];
    for (;;) {
      const here = this.at;
      const piece = this.piece(quote, many, start);
      if (piece === null) {
        places.push(here);
        break;
      }
      data += piece;
      for (let unit = 0; unit < piece.length; unit += 1) {
        places.push(here + unit);
      }
    }
    return { ...valueOf("string", data, start, this.at), places };
  }

  /**
   * The next characters of a string, or null at its end, behind which it goes.
   * @param {string} quote
   * @param {boolean} many
   * @param {number} start
   */
  piece(quote, many, start) {
    const here = this.next();
    if (!here) {
      this.refuse("the string that begins here isn't closed", "close it", start);
    }
    if (here === quote) {
      return this.quotes(quote, many);
    }
    if (here === "\\" && quote === '"') {
      return this.escape(many);
    }
    if (here === "\n" || this.text.startsWith("\r\n", this.at)) {
      if (!many) {
        this.refuse("the string that begins here isn't closed on its line", `close it; one over many lines stands in ${quote.repeat(3)}`, start);
      }
      return this.take(NEW_LINE);
    }
    if (here !== "\t" && (here < " " || here === "\x7f")) {
      const code = here.charCodeAt(0).toString(16);
      this.refuse(`the character 0x${code.padStart(2, "0")} can't stand in a string as it is`, `\`\\u${code.padStart(4, "0")}\` in double quotes`);
    }
    this.at += 1;
    return here;
  }

  /**
   * A quote within a string of many lines, or null for the end of the string.
   * @param {string} quote
   * @param {boolean} many
   */
  quotes(quote, many) {
    let count = 1;
    while (count < 6 && this.text[this.at + count] === quote) {
      count += 1;
    }
    if (!many || count === 3) {
      this.at += many ? 3 : 1;
      return null;
    }
    if (count > 5) {
      this.refuse("six quotes stand in a row", "a string of many lines ends with three");
    }
    this.at += 1;
    return quote;
  }

  /**
   * What a backslash and what follows it stand for.
   * @param {boolean} many
   */
  escape(many) {
    const start = this.at;
    this.at += 1;
    if (many && this.take(BLANK_LINE_ENDS)) {
      return "";
    }
    const letter = this.next();
    this.at += 1;
    if (Object.hasOwn(ESCAPES, letter)) {
      return ESCAPES[letter];
    }
    const code = Object.hasOwn(HEX_ESCAPES, letter) ? parseInt(this.take(HEX_ESCAPES[letter]), 16) : NaN;
    if ((code >= 0 && code < 0xd800) || (code >= 0xe000 && code <= 0x10ffff)) {
      return String.fromCodePoint(code);
    }
    return this.refuse("a backslash and what follows stand for no character", "`\\\\` is a backslash; in single quotes it stands for itself", start);
  }
}

/**
 * Makes the tables of an inline table values: nothing is added to them later.
 * @param {Value} table
 */
function close(table) {
  table.origin = "value";
  for (const { value } of table.data.values()) {
    if (value.kind === "table") {
      close(value);
    }
  }
}
