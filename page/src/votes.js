/** Reads what `sift votes` writes. */

/**
 * What a unit heard of a word, and what it voted.
 * @typedef {object} Vote
 * @property {number} unit
 * @property {[number, string | null][]} heard of each executor the word, or null where it wasn't heard
 * @property {string | null} vote null where there is no majority
 */

/**
 * The votes of a frame: of each word, as `task.0`, those of the units.
 * @typedef {Map<string, Vote[]>} FrameVotes
 */

const VOTE = /^f=(\d+) u=([0-7]) t=(\S+) words=(\S+) vote=(\S+)$/;

/**
 * @param {string} text
 * @returns {[number, string | null][]}
 */
function heardOf(text) {
  if (text === "-") return [];
  return text.split(",").map((part) => [Number(part[0]), part.slice(2) === "-" ? null : part.slice(2)]);
}

const LINE_FEED = 10;

/** What `sift votes` wrote, of which a frame is read as it is asked for: of the largest mission it is 45 MB. */
export class Votes {
  /** @param {Uint8Array} bytes */
  constructor(bytes) {
    this.bytes = bytes;
  }

  /**
   * Where the first line begins that begins at or behind a place.
   * @param {number} place
   */
  lineFrom(place) {
    return place === 0 ? 0 : this.bytes.indexOf(LINE_FEED, place - 1) + 1;
  }

  /**
   * The frame of the line that begins at a place; past all frames at the end.
   * @param {number} place
   */
  frameAt(place) {
    const line = new TextDecoder().decode(this.bytes.subarray(place, place + 16));
    return Number(/^f=(\d+) /.exec(line)?.[1] ?? Infinity);
  }

  /**
   * Where the lines of a frame begin, or those of the next that has some.
   * @param {number} frame
   */
  beginOf(frame) {
    let low = 0;
    let high = this.bytes.length;
    while (low < high) {
      const middle = (low + high) >> 1;
      const line = this.lineFrom(middle);
      if (line >= high || line === 0 && middle > 0) high = middle;
      else if (this.frameAt(line) < frame) low = line + 1;
      else high = middle;
    }
    return this.lineFrom(low);
  }

  /**
   * The votes of a frame.
   * @param {number} frame
   * @returns {FrameVotes}
   */
  of(frame) {
    const text = new TextDecoder().decode(this.bytes.subarray(this.beginOf(frame), this.beginOf(frame + 1)));
    /** @type {FrameVotes} */
    const votes = new Map();
    for (const line of text.split("\n")) {
      const found = VOTE.exec(line);
      if (!found) continue;
      const [, , unit, word, words, vote] = found;
      votes.set(word, [...(votes.get(word) ?? []), { unit: Number(unit), heard: heardOf(words), vote: vote === "-" ? null : vote }]);
    }
    return votes;
  }
}
