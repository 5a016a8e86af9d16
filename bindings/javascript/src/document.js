// The blocks of a document, and what stands in their texts.
import { Lines, countUpTo, plain, withLineEnds } from './lines.js';
import { jsonOf, mdastOf } from './mdast.js';
import { Nodes } from './nodes.js';
import { Events, ShortEvents } from './rows.js';

export const BLOCK = 48;
export const PIECE = 32;
/** What a block is, by the numbers of markdown_inline.h. */
const KINDS = ['BlankLine', 'ThematicBreak', 'Heading', 'Paragraph', 'IndentedCode', 'FencedCode', 'Html', 'Quote', 'Item', 'FrontMatter'];
const [BLANK_LINE, , HEADING, PARAGRAPH, , FENCED_CODE, HTML, , ITEM, FRONT_MATTER] = KINDS.keys();
const ANY_LINK = 2;
const BEGINS_LIST = 1, ENDS_LIST = 2, IS_LOOSE = 4;
const NO_WORDS = new Uint32Array();

const frozen = (list) => Object.freeze(list.map(Object.freeze));

/** A block, whose fields are read of its row. `content` is the number of its text among those of all headings and paragraphs. */
class Block {
  #blocks;
  #first;
  #after;

  constructor(blocks, words, at, content) {
    const what = words[at + 10], kind = what & 255, marker = what >> 8 & 255, list = what >> 16 & 255;
    this.#blocks = blocks;
    this.#first = words[at];
    this.#after = words[at + 2];
    this.kind = KINDS[kind];
    this.depth = words[at + 4];
    this.number = words[at + 6];
    this.line = words[at + 8];
    this.marker = marker === 0 ? null : String.fromCharCode(marker);
    this.beginsList = (list & BEGINS_LIST) !== 0;
    this.endsList = (list & ENDS_LIST) !== 0;
    this.isLoose = (list & IS_LOOSE) !== 0;
    this.content = content;
  }

  get pieces() { return Array.from({ length: this.#after - this.#first }, (_, at) => this.#blocks.piece(this.#first + at)); }

  get lines() {
    const first = this.#first + Number(this.kind === KINDS[FENCED_CODE]);
    const found = Array.from({ length: Math.max(0, this.#after - first) }, (_, at) => this.#blocks.cut(first + at));
    // What has no codes is a line of code, but none of HTML.
    return this.kind === KINDS[HTML] ? found.filter((it) => it !== '') : found;
  }

  get info() { return this.kind === KINDS[FENCED_CODE] ? this.#blocks.resolved(this.#blocks.cut(this.#first)) : null; }

  get events() { return this.content === null ? new Events(NO_WORDS, 0, 0, 0) : this.#blocks.texts.at(this.content); }

  get shortEvents() { return this.content === null ? new ShortEvents(NO_WORDS, 0, 0, 0) : this.#blocks.shortTexts.at(this.content); }

  get html() { return this.content === null ? '' : this.#blocks.htmls[this.content]; }

  get links() { return this.content === null ? [] : this.#blocks.linksIn(this.content); }
}

/** The texts of headings and paragraphs as contents: of each its first piece, the one behind its last, and whether it is the first of an item, where before it in
 *  the item stand only blank lines and definitions; and the numbers of their blocks. */
function contentsIn(words) {
  const rows = [], numbers = [];
  let firstIn = -1;
  for (let at = 0; at < words.length; at += BLOCK / 4) {
    const kind = words[at + 10] & 255, depth = words[at + 4], isParagraph = kind === PARAGRAPH;
    if (kind === ITEM) {
      firstIn = depth + 1;
      continue;
    }
    if (isParagraph || kind === HEADING) {
      rows.push(words[at], words[at + 2], Number(isParagraph && depth === firstIn));
      numbers.push(at / (BLOCK / 4));
    }
    if (depth !== firstIn || !(kind === BLANK_LINE || (isParagraph && words[at] === words[at + 2]))) firstIn = -1;
  }
  return { rows, many: numbers.length, numbers };
}

/** A document: its blocks, each of which is made when it is accessed. The first access to what is in their texts parses all of them by one call. A word of 32 bits is
 *  the half of a number of the library's rows, and `unit` is 1 where the upper half of a place has its offset in UTF-16. */
export class Document {
  #calls;
  #document;
  #asked;
  #words;
  #pieces;
  #unit;
  #contents;
  #lines = null;
  #written = null;
  #definitions = null;
  #texts = null;
  #shortTexts = null;
  #htmls = null;
  #links = null;
  // Of each link the number of its text.
  #linked = null;
  #nodes = null;

  constructor(calls, document, asked, words, pieces, unit) {
    this.#calls = calls;
    this.#document = document;
    this.#asked = asked;
    this.#words = words;
    this.#pieces = pieces;
    this.#unit = unit;
    this.#contents = contentsIn(words);
    Object.freeze(this);
  }

  get raw() { return this.#document.slice(); }

  get length() { return this.#words.length / (BLOCK / 4); }

  /** A block by its number; counted from the end where that is below 0. */
  at(number) {
    const at = number < 0 ? number + this.length : number;
    if (!(at >= 0 && at < this.length)) return undefined;
    const { numbers } = this.#contents, content = countUpTo(numbers, at) - 1;
    return new Block(this, this.#words, at * (BLOCK / 4), numbers[content] === at ? content : null);
  }

  *[Symbol.iterator]() {
    for (let at = 0; at < this.length; at++) yield this.at(at);
  }

  get definitions() {
    return this.#definitions ??= frozen(this.#defined.map(({ label, destination, title }) => ({ label: plain(label), destination: plain(destination), title: title && plain(title) })));
  }

  get texts() { return this.#texts ??= this.#calls.textsOf(this.#given(), this.#contents); }

  get shortTexts() { return this.#shortTexts ??= this.#calls.shortTextsOf(this.#given(), this.#contents); }

  get htmls() { return this.#htmls ??= frozen(this.#calls.htmlsOf(this.#given(), this.#contents, this.#asked.shown, this.#asked.limit)); }

  get links() {
    const resolved = (parts) => this.#calls.strings(this.#document, parts, { bits: this.#asked.bits, offsets: 'bytes', lineFeeds: true, replacedNul: true });
    const found = () => this.#calls.linksOf(this.#document, this.shortTexts, this.definitions, resolved);
    return this.#links ??= frozen(found().map((it) => ({ ...it, destination: plain(it.destination) })));
  }

  /** The links of one text. */
  linksIn(content) {
    const links = this.links, contents = this.#linked ??= links.map((it) => it.content);
    return links.slice(countUpTo(contents, content - 1), countUpTo(contents, content));
  }

  get shown() { return this.#asked.shown; }

  get root() { return (this.#nodes ??= new Nodes(this)).root; }

  get children() { return this.root.children; }

  get frontMatter() {
    const first = this.at(0), { lines } = this;
    return first?.kind === KINDS[FRONT_MATTER] ? Object.freeze({ lang: lines.slice(lines.mark, lines.mark + 1) === '+' ? 'toml' : 'yaml', text: plain(withLineEnds(first.lines.join(''))) }) : null;
  }

  get headings() { return [...this.find('heading')]; }

  walk() { return this.root.walk(); }

  find(...kinds) { return this.root.find(...kinds); }

  get text() { return this.root.text; }

  toText() { return this.text; }

  toMdast() { return mdastOf(this.root, this); }

  toJson() { return jsonOf(this.toMdast()); }

  // The definitions as they are written: labels match with the NUL that they have.
  get #defined() { return this.#written ??= this.#calls.definitionsOf(this.#document, this.#asked.blocks); }

  // The document with all pieces and definitions, as the calls for many contents take it.
  #given() {
    const { bits } = this.#asked, pieces = Array.from({ length: this.#pieces.length / 2 }, (_, at) => this.#pieces[2 * at]);
    return { document: this.#document, pieces, isInBytes: true, bits, labels: this.#defined.map((it) => it.label), targets: this.#defined, footnotes: [] };
  }

  piece(at) {
    const words = this.#pieces, row = at * (PIECE / 4), unit = this.#unit;
    return [words[row + unit], words[row + 4 + unit], words[row + 2], words[row + 6]];
  }

  get lines() { return this.#lines ??= new Lines(this.#document); }

  /** What stands in a piece. Of a tab in which it begins the columns that are left are spaces (CommonMark 2.2). */
  cut(at) {
    const [start, end, columns] = this.piece(at), { lines } = this;
    return columns === 0 ? lines.slice(start, end) : ' '.repeat(4 - lines.columnsBefore(start) % 4 - columns) + lines.slice(start + 1, end);
  }

  referred(reference) { return this.#calls.reference(reference); }

  /** The HTML of contents of another document, by the options of this one. */
  htmlsOf(document, contents, definitions) {
    return this.#calls.htmls(document, contents, { definitions, anyLink: (this.#asked.shown & ANY_LINK) !== 0, limit: Infinity });
  }

  resolved(string) { return this.#calls.strings(string, [[[0, string.length]]], { bits: this.#asked.bits, replacedNul: true })[0]; }
}
