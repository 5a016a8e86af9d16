// The nodes of a document, each of which is made when it is asked for.
import { plain, withLineEnds } from './lines.js';
import { NAMES } from './names.js';
import { KINDS, syntaxOf } from './syntax.js';

// What has blocks inside; whose text is lines of the document; and which blocks are left out of the text of a document.
const OF_BLOCKS = new Set(['root', 'blockquote', 'list', 'listItem']), OF_LINES = new Set(['code', 'math', 'html', 'frontMatter']), NO_TEXT = new Set(['html', 'frontMatter']);
const { LineEnding, CharacterReference, CodeTextData, MathTextData } = Object.fromEntries(NAMES.map((it, at) => [it, at]));
// The leaves of which a text consists as they are written.
const WORDS = new Set([...NAMES.keys()].filter((at) => /^(Data|LineEnding|CharacterEscapeValue|Autolink(Protocol|Email)|GfmAutolinkLiteral.*)$/.test(NAMES[at])));
const NONE = 0xffffffff;

function numberOf(kind) {
  const found = KINDS.indexOf(kind);
  if (found < 0) throw new RangeError(`no node is of the kind ${kind}`);
  return found;
}

/** A node of a document. */
export class Node {
  #nodes;
  #at;

  constructor(nodes, at) {
    this.#nodes = nodes;
    this.#at = at;
  }

  get kind() { return this.#nodes.kindOf(this.#at); }

  get start() { return this.#nodes.syntax.starts[this.#at]; }

  get end() { return this.#nodes.syntax.ends[this.#at]; }

  get line() { return this.#nodes.lines.lineOf(this.start); }

  get column() { return this.#nodes.lines.columnOf(this.start); }

  get endLine() { return this.#nodes.lines.lineOf(this.end); }

  get endColumn() { return this.#nodes.lines.columnOf(this.end); }

  get children() { return this.#nodes.childrenOf(this.#at); }

  get text() { return this.#nodes.textOf(this.#at); }

  /** All nodes inside this one, in the order in which they begin. */
  *walk() {
    for (let at = this.#at + 1, after = this.#nodes.syntax.afters[this.#at]; at < after; at++) yield this.#nodes.node(at);
  }

  /** The nodes inside this one that are of one of these kinds. */
  *find(...kinds) {
    const wanted = new Set(kinds.map(numberOf)), { kinds: numbers, afters } = this.#nodes.syntax;
    for (let at = this.#at + 1; at < afters[this.#at]; at++) if (wanted.has(numbers[at])) yield this.#nodes.node(at);
  }

  // Properties of some kinds.

  get level() { return this.kind === 'heading' ? this.#block.number : undefined; }

  get ordered() { return this.kind === 'list' ? '.)'.includes(this.#block.marker) : undefined; }

  get startNumber() { return this.kind === 'list' ? this.ordered ? this.#block.number : null : undefined; }

  get tight() { return this.kind === 'list' ? !this.#block.isLoose : undefined; }

  get spread() {
    if (this.kind !== 'list' && this.kind !== 'listItem') return undefined;
    const { children } = this;
    return children.some((it, at) => at > 0 && it.line > children[at - 1].endLine + 1);
  }

  get checked() { return this.kind === 'listItem' ? this.#nodes.syntax.checked.get(this.#at) ?? null : undefined; }

  get info() { return this.kind === 'code' || this.kind === 'math' ? this.#block.info : undefined; }

  get lang() {
    if (this.kind === 'frontMatter') return this.#nodes.document.frontMatter.lang;
    return this.kind === 'code' ? /[^ \t\f\r\n]+/.exec(this.info ?? '')?.[0] ?? null : undefined;
  }

  get url() { return this.#target?.destination; }

  get title() { return this.#target?.title; }

  get alt() { return this.kind === 'image' || this.kind === 'imageReference' ? this.text : undefined; }

  get label() { return this.kind === 'definition' ? this.#target.label : this.#nodes.labelOf(this.#at); }

  get reference() { return this.#nodes.syntax.references.get(this.#at)?.reference; }

  /** The text of a node, with these line endings; with null those of the document stay. */
  static textOf(node, lineEnds) { return node.#nodes.textOf(node.#at, lineEnds); }

  static documentOf(node) { return node.#nodes.document; }

  /** Whether the checkbox at the front of a paragraph is checked; undefined where there is none. */
  static checkOf(node) { return node.#nodes.syntax.checked.get(node.#at); }

  /** The number of the text of a paragraph or a heading. */
  static contentOf(node) { return node.#block.content; }

  get #block() { return this.#nodes.document.at(this.#nodes.syntax.told[this.#at]); }

  get #target() {
    const { document, syntax } = this.#nodes, { kind } = this;
    if (kind === 'definition') return document.definitions[syntax.told[this.#at]];
    return /^(link|image)/.test(kind) ? document.links[syntax.told[this.#at]] : undefined;
  }
}

export class Nodes {
  #made = [];
  #listed = [];

  constructor(document) {
    this.document = document;
    this.lines = document.lines;
    this.syntax = syntaxOf(document, document.lines, document.shortTexts);
  }

  get root() { return this.node(0); }

  node(at) { return this.#made[at] ??= new Node(this, at); }

  kindOf(at) { return KINDS[this.syntax.kinds[at]]; }

  childrenOf(at) {
    if (this.#listed[at]) return this.#listed[at];
    const { afters } = this.syntax, found = [];
    for (let child = at + 1; child < afters[at]; child = afters[child]) found.push(this.node(child));
    return this.#listed[at] = Object.freeze(found);
  }

  /** The text of a node: of code, math, raw HTML and front matter the source, of others the text inside without raw HTML. */
  textOf(at, lineEnds = '\n') {
    const { afters } = this.syntax, kind = this.kindOf(at), parts = [];
    if (OF_BLOCKS.has(kind)) return this.#textOfBlocks(at);
    if (afters[at] === at + 1) return this.#own(at, kind, lineEnds);
    for (let inner = at + 1; inner < afters[at]; inner++) {
      const its = this.kindOf(inner);
      if (its !== 'html' && afters[inner] === inner + 1) parts.push(this.#own(inner, its, lineEnds));
    }
    return parts.join('');
  }

  #textOfBlocks(at) {
    const { afters } = this.syntax, parts = [];
    for (let inner = at + 1; inner < afters[at];) {
      const kind = this.kindOf(inner), isOfBlocks = OF_BLOCKS.has(kind);
      if (!isOfBlocks && !NO_TEXT.has(kind)) parts.push(this.textOf(inner).replace(/\n$/, ''));
      inner = isOfBlocks ? inner + 1 : afters[inner];
    }
    return parts.filter((it) => it !== '').join('\n\n');
  }

  #own(at, kind, lineEnds) {
    const { events, ends } = this.syntax;
    if (kind === 'text') return plain(this.#words(events[at], ends[at], lineEnds));
    if (kind === 'inlineCode' || kind === 'inlineMath') return plain(this.#span(events[at]));
    const source = plain(this.#source(at, kind));
    return lineEnds === null ? source : withLineEnds(source, lineEnds);
  }

  #source(at, kind) {
    const { told, events, starts, ends } = this.syntax;
    if (kind === 'break') return /(\r\n|\n|\r)$/.exec(this.lines.slice(starts[at], ends[at]))[0];
    if (kind === 'html' && events[at] >= 0) return this.#covered(events[at], this.#exitOf(events[at]));
    return OF_LINES.has(kind) ? this.#linesOf(this.document.at(told[at])) : '';
  }

  /** The lines of code, math, HTML or front matter. The last line of a document may lack its line feed, which is added. */
  #linesOf({ kind, lines }) {
    const many = kind === 'IndentedCode' ? lines.findLastIndex((it) => /[^ \t\r\n]/.test(it)) + 1 : lines.length;
    return lines.slice(0, many).map((it) => it.endsWith('\n') ? it : it.replace(/\r$/, '') + '\n').join('');
  }

  // Short events.

  #isExit(event) { return (this.syntax.shortTexts.words[4 * event] & 255) === 1; }

  #nameOf(event) { return this.syntax.shortTexts.words[4 * event] >> 8 & 255; }

  #placeOf(event) { return this.syntax.shortTexts.words[4 * event + 2 + this.syntax.shortTexts.unit]; }

  #exitOf(event) {
    let at = event + 1;
    while (!this.#isExit(at) || this.#nameOf(at) !== this.#nameOf(event)) at++;
    return at;
  }

  /** The text from an event to an offset. */
  #words(event, end, lineEnds) {
    const parts = [];
    for (let at = event, depth = 0, begun = 0, referred = 0; ; at++) {
      const name = this.#nameOf(at), place = this.#placeOf(at);
      if (this.#isExit(at)) {
        if (WORDS.has(name)) parts.push(lineEnds !== null && name === LineEnding ? lineEnds : this.lines.slice(begun, place));
        else if (name === CharacterReference) parts.push(this.#referred(referred, place));
        if (--depth === 0 && place >= end) return parts.join('');
      } else {
        depth++;
        begun = place;
        if (name === CharacterReference) referred = at;
      }
    }
  }

  /** What the character reference stands for that begins with an event. */
  #referred(event, end) {
    const code = this.syntax.shortTexts.words[4 * event + 1];
    return code === NONE ? this.document.referred(this.lines.slice(this.#placeOf(event), end)) : String.fromCodePoint(code);
  }

  /** The text of a code or math span (CommonMark 6.1). */
  #span(event) {
    const parts = [];
    for (let at = event + 1, after = this.#exitOf(event); at < after; at++) {
      const name = this.#nameOf(at);
      if (this.#isExit(at)) continue;
      if (name === LineEnding) parts.push(' ');
      else if (name === CodeTextData || name === MathTextData) parts.push(this.lines.slice(this.#placeOf(at), this.#placeOf(at + 1)));
    }
    const text = parts.join('');
    return text.startsWith(' ') && text.endsWith(' ') && /[^ ]/.test(text) ? text.slice(1, -1) : text;
  }

  /** The source from an event to another, without markers of containers between its lines. */
  #covered(from, to) {
    const parts = [];
    for (let at = from; at < to; at++) if (!this.#isExit(at) && this.#isExit(at + 1)) parts.push(this.lines.slice(this.#placeOf(at), this.#placeOf(at + 1)));
    return parts.join('');
  }

  /** The label of a reference, as it is written. */
  labelOf(at) {
    const found = this.syntax.references.get(at);
    return found && plain(withLineEnds(this.#covered(found.from, found.to)));
  }
}
