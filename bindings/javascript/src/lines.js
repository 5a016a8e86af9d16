// The lines of a document.
const decoder = new TextDecoder('utf-8', { ignoreBOM: true });

/** The offsets at which lines begin: 0, and after each line ending, also after one at the end. */
export function lineStarts(document) {
  const starts = [0], codeAt = codesOf(document);
  for (let at = 0; at < document.length; at++) {
    const code = codeAt(at);
    if (code === 10 || (code === 13 && codeAt(at + 1) !== 10)) starts.push(at + 1);
  }
  return starts;
}

/** How many of the numbers are at most this one. */
export function countUpTo(numbers, most) {
  let low = 0, high = numbers.length;
  while (low < high) {
    const middle = (low + high) >> 1;
    if (numbers[middle] <= most) low = middle + 1;
    else high = middle;
  }
  return low;
}

/** A text without NUL (CommonMark 2.3). */
export const plain = (text) => text.replaceAll('\0', '\ufffd');

/** A text with one line ending for all. */
export const withLineEnds = (text, lineEnds = '\n') => text.replace(/\r\n|\n|\r/g, lineEnds);

/** Reads a unit of a document by its offset. */
export const codesOf = (document) => typeof document === 'string' ? (at) => document.charCodeAt(at) : (at) => document[at];

export class Lines {
  constructor(document) {
    this.document = document;
    this.codeAt = codesOf(document);
    this.starts = lineStarts(document);
    // How many units a byte order mark has. No text begins before it.
    this.mark = document[0] === '\ufeff' ? 1 : document[0] === 0xef && document[1] === 0xbb && document[2] === 0xbf ? 3 : 0;
    this.length = this.starts.length > 1 && this.starts.at(-1) === document.length ? this.starts.length - 1 : this.starts.length;
  }

  /** The text between two offsets. */
  slice(start, end) {
    const { document } = this;
    return typeof document === 'string' ? document.slice(start, end) : decoder.decode(document.subarray(start, end));
  }

  /** The line of an offset, from 1. */
  lineOf(offset) { return countUpTo(this.starts, offset); }

  /** Where a line begins. */
  startOf(line) { return this.starts[line - 1] + (line === 1 ? this.mark : 0); }

  /** Where a line ends, before its line ending. */
  endOf(line) {
    let end = line < this.starts.length ? this.starts[line] - 1 : this.document.length;
    if (line < this.starts.length && this.codeAt(end) === 10 && end > this.starts[line - 1] && this.codeAt(end - 1) === 13) end--;
    return end;
  }

  /** The column of an offset, from 1. */
  columnOf(offset) { return offset - this.starts[this.lineOf(offset) - 1] + 1; }

  /** How many columns are before the text of a line. For tab stops a column is a byte, and a byte order mark has three. */
  firstColumn(line) { return line === 1 && this.mark > 0 ? 3 : 0; }

  /** How many of these columns are before an offset on its line. A tab reaches to its tab stop. */
  columnsBefore(offset) {
    const line = this.lineOf(offset);
    let column = this.firstColumn(line);
    for (let at = this.startOf(line); at < offset; at++) column += this.codeAt(at) === 9 ? 4 - column % 4 : 1;
    return column;
  }
}
