// Makes the nodes of a document, in the order in which they begin: of the library's rows those of blocks, of its short events those of texts.
import { Front, definitionsOn } from './fronts.js';
import { NAMES } from './names.js';

export const KINDS = [
  'paragraph', 'heading', 'list', 'listItem', 'blockquote', 'code', 'html', 'thematicBreak', 'definition', 'text', 'emphasis', 'strong', 'delete', 'inlineCode', 'inlineMath',
  'break', 'link', 'image', 'linkReference', 'imageReference', 'root', 'math', 'frontMatter',
];
const [
  PARAGRAPH, HEADING, LIST, LIST_ITEM, BLOCKQUOTE, CODE, HTML, THEMATIC_BREAK, DEFINITION, TEXT, EMPHASIS, STRONG, DELETE, INLINE_CODE, INLINE_MATH, BREAK, LINK, IMAGE, LINK_REFERENCE,
  IMAGE_REFERENCE, ROOT, MATH, FRONT_MATTER,
] = KINDS.keys();
// The kinds of leaves without a text, by those of their blocks. Code that is fenced with dollars is math.
const LEAVES = { ThematicBreak: THEMATIC_BREAK, IndentedCode: CODE, FencedCode: CODE, Html: HTML, FrontMatter: FRONT_MATTER };
const NO_DEFINITION = 0xffffffff;
const NONE = -1;

/** The nodes of a document as columns: of each node its kind, its start and end, and the number of the first node after it and all inside. `told` is the number of
 *  its row, its definition or its link, and `events` that of its first event. */
class Syntax {
  kinds = [];
  starts = [];
  ends = [];
  afters = [];
  told = [];
  events = [];
  // Of items with a checkbox and of its paragraph whether it is checked; how references refer, and the events of their labels.
  checked = new Map();
  references = new Map();

  constructor(document, lines, shortTexts) {
    this.document = document;
    this.lines = lines;
    this.shortTexts = shortTexts;
  }

  get length() { return this.kinds.length; }
}

/** Opens and closes nodes. */
class Builder {
  // The numbers of the nodes that are open.
  opened = [];

  constructor(syntax) {
    this.syntax = syntax;
  }

  get innermost() { return this.opened.at(-1); }

  open(kind, start, told = NONE, event = NONE) {
    const { kinds, starts, ends, afters, told: tolds, events } = this.syntax, at = kinds.length;
    this.opened.push(at);
    kinds.push(kind);
    starts.push(start);
    ends.push(start);
    afters.push(at + 1);
    tolds.push(told);
    events.push(event);
    return at;
  }

  close(end) {
    const at = this.opened.pop();
    this.syntax.ends[at] = end;
    this.syntax.afters[at] = this.syntax.length;
  }

  leaf(kind, start, end, told, event) {
    const at = this.open(kind, start, told, event);
    this.close(end);
    return at;
  }
}

/** Makes the nodes of a text, of its short events. */
class Texts {
  // The text that further words join, and where and by which event words begin.
  #text = NONE;
  #begun = 0;
  #begunBy = 0;
  // Whether words are no text, as in a destination.
  #isSilent = false;
  #links = 0;
  // How many links are open.
  #depth = 0;

  constructor(builder) {
    this.builder = builder;
    this.syntax = builder.syntax;
  }

  /** Makes the nodes of a text by its number. Returns whether the checkbox at its front is checked; null where there is none. */
  read(content) {
    const { words, unit, ends } = this.syntax.shortTexts;
    this.check = null;
    this.#text = NONE;
    for (let at = content === 0 ? 0 : ends[content - 1]; at < ends[content]; at++) {
      const head = words[4 * at], place = words[4 * at + 2 + unit];
      ((head & 255) === 0 ? ENTERS : EXITS)[head >> 8 & 255]?.(this, place, at);
    }
    return this.check;
  }

  begin(place, at) {
    this.#begun = place;
    this.#begunBy = at;
  }

  /** Words end: they join those before, if nothing is between. */
  end(place) {
    if (this.#isSilent) return;
    if (this.#text === NONE) this.#text = this.builder.leaf(TEXT, this.#begun, place, NONE, this.#begunBy);
    else this.syntax.ends[this.#text] = place;
  }

  lineEnds(place) {
    if (this.syntax.kinds[this.builder.innermost] === BREAK) this.close(place);
    else this.end(place);
  }

  open(kind, place, at) {
    this.#text = NONE;
    this.builder.open(kind, place, NONE, at);
  }

  close(place) {
    this.#text = NONE;
    this.builder.close(place);
  }

  openSpan(kind, place, at) {
    this.open(kind, place, at);
    this.#isSilent = true;
  }

  closeSpan(place) {
    this.#isSilent = false;
    this.close(place);
  }

  openLink(kind, place, at) {
    const isReference = this.syntax.shortTexts.words[4 * at + 1] !== NO_DEFINITION;
    if (kind === LINK) this.#depth++;
    this.#text = NONE;
    this.builder.open(isReference ? kind + LINK_REFERENCE - LINK : kind, place, this.#links++, at);
  }

  closeLink(place) {
    this.#depth--;
    this.close(place);
  }

  /** A bare URL in a link is its text, as in HTML. */
  openBareUrl(place, at) {
    if (this.#depth === 0) this.openLink(LINK, place, at);
    else this.#links++, this.#depth++;
    this.begin(place, at);
  }

  closeBareUrl(place) {
    this.end(place);
    if (this.#depth === 1) this.closeLink(place);
    else this.#depth--;
  }

  /** The label of a reference begins. That of a shortcut is the text of the link. */
  beginLabel(reference, at) {
    const link = this.builder.innermost, kind = this.syntax.kinds[link];
    if (kind === LINK_REFERENCE || kind === IMAGE_REFERENCE) this.syntax.references.set(link, { reference, from: at, to: at });
  }

  endLabel(at) {
    const found = this.syntax.references.get(this.builder.innermost);
    if (found) found.to = at;
  }

  beginReference() {
    this.#isSilent = true;
    this.syntax.references.get(this.builder.innermost).reference = 'collapsed';
  }

  silence(isSilent) {
    this.#isSilent = isSilent;
  }
}

// What is done with the events by which something begins, and by which it ends, by the numbers of their names.
const ENTERS = [], EXITS = [];
const on = (handlers, does, ...names) => names.forEach((it) => { handlers[NAMES.indexOf(it)] = does; });
const WORDS = ['Data', 'CharacterEscape', 'CharacterReference', 'AutolinkProtocol', 'AutolinkEmail'];
const BARE_URLS = ['GfmAutolinkLiteralEmail', 'GfmAutolinkLiteralMailto', 'GfmAutolinkLiteralProtocol', 'GfmAutolinkLiteralWww', 'GfmAutolinkLiteralXmpp'];
on(ENTERS, (it, place, at) => it.begin(place, at), ...WORDS, 'LineEnding');
on(EXITS, (it, place) => it.end(place), ...WORDS);
on(EXITS, (it, place) => it.lineEnds(place), 'LineEnding');
for (const [name, kind] of [['Emphasis', EMPHASIS], ['Strong', STRONG], ['GfmStrikethrough', DELETE]]) {
  on(ENTERS, (it, place, at) => it.open(kind, place, at), name);
  on(EXITS, (it, place) => it.close(place), name);
}
for (const [name, kind] of [['CodeText', INLINE_CODE], ['MathText', INLINE_MATH], ['HtmlText', HTML]]) {
  on(ENTERS, (it, place, at) => it.openSpan(kind, place, at), name);
  on(EXITS, (it, place) => it.closeSpan(place), name);
}
// The line ending after a hard break closes it.
on(ENTERS, (it, place, at) => it.open(BREAK, place, at), 'HardBreakEscape', 'HardBreakTrailing');
for (const [name, kind] of [['Link', LINK], ['Image', IMAGE], ['Autolink', LINK]]) on(ENTERS, (it, place, at) => it.openLink(kind, place, at), name);
on(EXITS, (it, place) => it.closeLink(place), 'Link', 'Autolink');
on(EXITS, (it, place) => it.close(place), 'Image');
on(ENTERS, (it, place, at) => it.openBareUrl(place, at), ...BARE_URLS);
on(EXITS, (it, place) => it.closeBareUrl(place), ...BARE_URLS);
on(ENTERS, (it, _, at) => it.beginLabel('shortcut', at), 'LabelText');
on(ENTERS, (it, _, at) => it.beginLabel('full', at), 'ReferenceString');
on(EXITS, (it, _, at) => it.endLabel(at), 'LabelText', 'ReferenceString');
on(ENTERS, (it) => it.beginReference(), 'Reference');
on(ENTERS, (it) => it.silence(true), 'Resource');
on(EXITS, (it) => it.silence(false), 'Resource', 'Reference');
on(ENTERS, (it) => { it.check = true; }, 'GfmTaskListItemValueChecked');
on(ENTERS, (it) => { it.check = false; }, 'GfmTaskListItemValueUnchecked');

/** Makes the nodes of blocks, of the rows of a document. */
class Blocks {
  #syntax;
  #builder;
  #texts;
  // The containers that are open, by their depth; and the front of a line, after them.
  #containers = [];
  #front = null;
  #line = 0;
  #definitions = 0;

  constructor(syntax) {
    this.#syntax = syntax;
    this.#builder = new Builder(syntax);
    this.#texts = new Texts(this.#builder);
  }

  read() {
    const { document, lines } = this.#syntax;
    let next = document.at(0);
    this.#builder.open(ROOT, 0);
    for (let row = 0; row < document.length; row++) {
      const block = next;
      next = document.at(row + 1);
      this.#closeTo(block.depth, block.line - 1);
      if (block.kind !== 'BlankLine') this.#block(block, row, (next?.line ?? lines.length + 1) - 1);
    }
    this.#closeTo(0, lines.length);
    this.#builder.close(lines.document.length);
  }

  /** Closes containers down to a depth. An item ends with the last block in it, and a quote with its last line. */
  #closeTo(depth, lastLine) {
    while (this.#containers.length > depth) {
      const { isQuote, end, endsList } = this.#containers.pop(), last = isQuote ? this.#syntax.lines.endOf(lastLine) : end;
      this.#builder.close(last);
      if (endsList) this.#builder.close(last);
      this.#ended(last);
    }
  }

  /** Notes where the last block of the innermost container ends. */
  #ended(end) {
    if (this.#containers.length > 0) this.#containers.at(-1).end = end;
  }

  /** Makes the node of a row. If it is a leaf, its last line is this. */
  #block(block, row, lastLine) {
    const { kind, line } = block;
    if (kind === 'Quote') this.#quote(this.#frontOf(line));
    else if (kind === 'Item') this.#item(block, row, this.#frontOf(line));
    else if (kind === 'Paragraph' || kind === 'Heading') this.#textBlock(block, row, lastLine);
    else this.#leafBlock(block, row, lastLine);
  }

  #frontOf(line) {
    if (line !== this.#line) {
      this.#line = line;
      this.#front = new Front(this.#syntax.lines, line);
      this.#front.passContainers(this.#containers);
    }
    return this.#front;
  }

  #quote(front) {
    const node = this.#builder.open(BLOCKQUOTE, front.at);
    front.passQuote();
    this.#containers.push({ node, isQuote: true, width: 0, end: 0, endsList: false });
  }

  #item(block, row, front) {
    if (block.beginsList) this.#builder.open(LIST, front.at, row);
    const node = this.#builder.open(LIST_ITEM, front.at, row), { end, width } = front.passMarker();
    this.#containers.push({ node, isQuote: false, width, end, endsList: block.endsList });
  }

  #leafBlock({ kind, marker, pieces, line }, row, lastLine) {
    const { lines } = this.#syntax, front = this.#frontOf(line), isIndented = kind === 'IndentedCode', isBlank = ([start, end]) => /^[ \t\r\n]*$/.test(lines.slice(start, end));
    // Spaces and tabs at the front are part of HTML, and make code.
    const start = isIndented || kind === 'Html' ? front.inside : front.at;
    // Blank lines after indented code are not part of it.
    const last = isIndented ? line + pieces.findLastIndex((it) => !isBlank(it)) : lastLine, end = lines.endOf(last);
    this.#builder.leaf(marker === '$' ? MATH : LEAVES[kind], start, end, row);
    this.#ended(end);
  }

  #textBlock({ kind, pieces, line, content }, row, lastLine) {
    const { lines, checked } = this.#syntax, isHeading = kind === 'Heading', [first, last] = [pieces[0]?.[0], pieces.at(-1)?.[1]];
    const textLine = first === undefined ? lastLine + Number(!isHeading) : lines.lineOf(first);
    if (textLine > line) this.#defined(line, textLine);
    if (first === undefined && !isHeading) return;
    // A heading that ends on a later line is underlined.
    const start = isHeading && lastLine === textLine ? this.#frontOf(line).at : first, end = isHeading ? lines.endOf(lastLine) : last;
    const node = this.#builder.open(isHeading ? HEADING : PARAGRAPH, start, row), check = this.#texts.read(content);
    if (check !== null) for (const it of [node, this.#containers.at(-1).node]) checked.set(it, check);
    this.#builder.close(end);
    this.#ended(end);
  }

  #defined(line, textLine) {
    const { document: { definitions }, lines } = this.#syntax, first = this.#definitions;
    const begin = { line, at: this.#frontOf(line).at };
    for (const [start, end] of definitionsOn(lines, this.#containers, begin, textLine - 1, (number) => definitions[first + number].title !== null)) {
      this.#builder.leaf(DEFINITION, start, end, this.#definitions++);
      this.#ended(end);
    }
  }
}

/** The nodes of a document. */
export function syntaxOf(document, lines, shortTexts) {
  const syntax = new Syntax(document, lines, shortTexts);
  new Blocks(syntax).read();
  return syntax;
}
