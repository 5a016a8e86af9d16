// What calls for events return: rows of numbers, of which each becomes an object when it is looked at.
import { NAMES } from './names.js';

const NONE = 0xffffffff;
const CONTENTS = [null, 'String', 'Text'];
export const EVENT = 56;
export const SHORT_EVENT = 16;
export const LEAF = 96;

const numberOf = (word) => word === NONE ? null : word;

// A word of 32 bits is the half of a number of the library's rows. `unit` is 1 where the upper half of a place has its offset in UTF-16, and of a column
// the column in UTF-16; it is 0 where these are those in bytes.
class Rows {
  constructor(words, unit, from, to, document) {
    this.words = words;
    this.unit = unit;
    this.from = from;
    this.length = to - from;
    this.document = document;
  }

  /** A row by its number; counted from the end where that is below 0. */
  at(number) {
    const at = number < 0 ? number + this.length : number;
    return at >= 0 && at < this.length ? this.row((this.from + at) * this.size) : undefined;
  }

  *[Symbol.iterator]() {
    for (let at = 0; at < this.length; at++) yield this.row((this.from + at) * this.size);
  }
}

export class Events extends Rows {
  get size() { return EVENT / 4; }

  isEnter(number) { return (this.words[(this.from + number) * this.size] & 255) === 0; }

  /** The number of an event's name in NAMES. */
  nameOf(number) { return this.words[(this.from + number) * this.size] >> 8 & 255; }

  offsetOf(number) { return this.words[(this.from + number) * this.size + 6 + this.unit]; }

  row(at) {
    const { words, unit } = this, head = words[at], content = CONTENTS[head >> 16 & 255];
    return {
      enter: (head & 255) === 0, name: NAMES[head >> 8 & 255], line: words[at + 2], column: words[at + 4 + unit], offset: words[at + 6 + unit], vs: words[at + 8],
      byteColumn: words[at + 4], byte: words[at + 6],
      link: content === null ? null : { content, previous: numberOf(words[at + 10]), next: numberOf(words[at + 12]) },
    };
  }
}

export class ShortEvents extends Rows {
  get size() { return SHORT_EVENT / 4; }

  row(at) {
    const { words, unit } = this, head = words[at], name = NAMES[head >> 8 & 255], told = numberOf(words[at + 1]), isReference = name === 'CharacterReference';
    return {
      enter: (head & 255) === 0, name, offset: words[at + 2 + unit], vs: head >>> 24, byte: words[at + 2], link: CONTENTS[head >> 16 & 255],
      definition: isReference ? null : told, standsFor: isReference && told !== null ? String.fromCodePoint(told) : null,
    };
  }
}

export class Leaves extends Rows {
  get size() { return LEAF / 4; }

  row(at) {
    const { words, unit } = this, startVs = words[at + 8], offset = words[at + 6 + unit], endOffset = words[at + 14 + unit], from = offset + (startVs > 0 ? 1 : 0);
    return {
      name: NAMES[words[at] & 255],
      line: words[at + 2], column: words[at + 4 + unit], offset, vs: startVs, byteColumn: words[at + 4], byte: words[at + 6],
      endLine: words[at + 10], endColumn: words[at + 12 + unit], endOffset, endVs: words[at + 16], endByteColumn: words[at + 12], endByte: words[at + 14],
      before: words[at + 18], content: this.document.slice(from, Math.max(from, endOffset)), after: words[at + 22],
    };
  }
}

/** The rows of many contents: those of each by its number. */
export class Many {
  constructor(kind, words, unit, ends) {
    this.kind = kind;
    this.words = words;
    this.unit = unit;
    this.ends = ends;
    this.length = ends.length;
  }

  at(number) {
    const at = number < 0 ? number + this.length : number;
    return at >= 0 && at < this.length ? new this.kind(this.words, this.unit, at === 0 ? 0 : this.ends[at - 1], this.ends[at]) : undefined;
  }

  *[Symbol.iterator]() {
    for (let at = 0; at < this.length; at++) yield this.at(at);
  }
}
