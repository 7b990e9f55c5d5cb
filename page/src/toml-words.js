/**
 * Words of a TOML document that aren't in quotes: numbers, dates, true and false.
 */

const INTEGER = /^[+-]?(?:0|[1-9](?:_?[0-9])*)$/;
/** @type {Record<string, [number, RegExp]>} */
const PREFIXED = {
  x: [16, /^0x[0-9A-Fa-f](?:_?[0-9A-Fa-f])*$/],
  o: [8, /^0o[0-7](?:_?[0-7])*$/],
  b: [2, /^0b[01](?:_?[01])*$/],
};
const FLOAT = /^[+-]?(?:0|[1-9](?:_?[0-9])*)(?:\.[0-9](?:_?[0-9])*)?(?:[eE][+-]?[0-9](?:_?[0-9])*)?$/;
const SPECIAL_FLOAT = /^[+-]?(?:inf|nan)$/;
const DATE = "(?<year>[0-9]{4})-(?<month>[0-9]{2})-(?<day>[0-9]{2})";
const TIME = "(?<hour>[0-9]{2}):(?<minute>[0-9]{2})(?::(?<second>[0-9]{2})(?:\\.[0-9]+)?)?";
const OFFSET = "(?:[Zz]|[+-](?<offsetHour>[0-9]{2}):(?<offsetMinute>[0-9]{2}))";
const DATES = [`${DATE}(?:[Tt ]${TIME}${OFFSET}?)?`, TIME].map((form) => new RegExp(`^(?:${form})$`));
/** @type {Record<string, [number, number]>} */
const BOUNDS = {
  month: [1, 12],
  hour: [0, 23],
  minute: [0, 59],
  second: [0, 60],
  offsetHour: [0, 23],
  offsetMinute: [0, 59],
};

/**
 * What a word is: its kind and its data; or why it is no value, and what to do.
 * @typedef {{kind: "integer" | "float" | "boolean" | "date", data: number | bigint | boolean | string}} Scalar
 * @typedef {{kind: null, why: string, mend: string}} NoScalar
 */

/**
 * The days of a month.
 * @param {number} year
 * @param {number} month
 */
function daysOf(year, month) {
  const leap = (year % 4 === 0 && year % 100 !== 0) || year % 400 === 0;
  return [31, leap ? 29 : 28, 31, 30, 31, 30, 31, 31, 30, 31, 30, 31][month - 1];
}

/**
 * Whether a word is a date, a time, or both.
 * @param {string} word
 */
function isDate(word) {
  const found = DATES.map((form) => form.exec(word)).find(Boolean);
  if (!found) {
    return false;
  }
  const parts = found.groups ?? {};
  for (const [name, [low, high]] of Object.entries(BOUNDS)) {
    const part = parts[name];
    if (part !== undefined && (Number(part) < low || Number(part) > high)) {
      return false;
    }
  }
  const day = parts.day === undefined ? null : Number(parts.day);
  return day === null || (day >= 1 && day <= daysOf(Number(parts.year), Number(parts.month)));
}

/**
 * An integer of 64 bits, or why it is none.
 * @param {string} word
 * @param {string} digits with a prefix that BigInt reads
 * @param {boolean} negative
 * @returns {Scalar | NoScalar}
 */
function integerOf(word, digits, negative) {
  const number = negative ? -BigInt(digits) : BigInt(digits);
  if (BigInt.asIntN(64, number) !== number) {
    return { kind: null, why: `\`${word}\` doesn't fit an integer of 64 bits`, mend: "a smaller one: words of missions have 16 bits" };
  }
  const small = Number(number);
  return { kind: "integer", data: Number.isSafeInteger(small) ? small : number };
}

/**
 * Why a word is no value, and what to do.
 * @param {string} word
 * @returns {NoScalar}
 */
function noScalar(word) {
  const small = word.toLowerCase();
  if (small === "true" || small === "false") {
    return { kind: null, why: `\`${word}\` is no value: small letters`, mend: `\`${small}\`` };
  }
  if (/^[+-]?0[0-9_]+$/.test(word)) {
    return { kind: null, why: "a number has no leading zeros", mend: `\`${word.replace(/^[+-]*[0_]*/, "") || "0"}\`` };
  }
  if (/^[+-]?(\.[0-9]+|[0-9]+\.)$/.test(word)) {
    return { kind: null, why: `\`${word}\` is no number: a point stands between digits`, mend: "`0.5`, as an example" };
  }
  if (/^[A-Za-z_]/.test(word)) {
    return { kind: null, why: `\`${word}\` has no quotes, and is no number`, mend: `a number; or a string: "${word}"` };
  }
  return { kind: null, why: `\`${word}\` is no number`, mend: "digits, with a sign before them where it is needed" };
}

/**
 * The kind and the data of a word that isn't in quotes, or why it is no value.
 * @param {string} word
 * @returns {Scalar | NoScalar}
 */
export function scalarOf(word) {
  if (word === "true" || word === "false") {
    return { kind: "boolean", data: word === "true" };
  }
  if (/^[0-9]+[-:]/.test(word)) {
    return isDate(word)
      ? { kind: "date", data: word }
      : { kind: null, why: `\`${word}\` is no date and no time`, mend: "a mission has none: a number, or a string in quotes" };
  }
  const prefixed = word[0] === "0" ? PREFIXED[word[1]] : undefined;
  if (prefixed) {
    const [base, form] = prefixed;
    return form.test(word)
      ? integerOf(word, word.replaceAll("_", ""), false)
      : { kind: null, why: `\`${word}\` is no number`, mend: `digits of base ${base} behind the \`${word.slice(0, 2)}\`` };
  }
  if (INTEGER.test(word)) {
    return integerOf(word, word.replace(/[_+-]/g, ""), word[0] === "-");
  }
  if (SPECIAL_FLOAT.test(word)) {
    return { kind: "float", data: Number(word.replace("inf", "Infinity").replace("nan", "NaN")) };
  }
  if (FLOAT.test(word)) {
    const number = Number(word.replaceAll("_", ""));
    return Number.isFinite(number)
      ? { kind: "float", data: number }
      : { kind: null, why: `\`${word}\` is too large for a number`, mend: "a smaller one" };
  }
  return noScalar(word);
}
