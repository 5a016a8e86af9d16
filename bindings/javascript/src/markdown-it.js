// A plugin for markdown-it: blocks are read by markdown-it, and what stands in them by this package.
//
//     import MarkdownIt from 'markdown-it';
//     import plugin from 'markdown_inline/markdown-it';
//
//     console.log(MarkdownIt('commonmark').use(plugin).render('a *b*'));
//
// One call reads all contents of a document. The tokens are those of markdown-it's own inline parser, so its renderer and the rules that come behind go on
// as ever. The links of the document are those of its references, and `validateLink`, `normalizeLink` and `normalizeLinkText` are asked as ever. A content
// that the library cannot read as markdown-it would is read by markdown-it's own parser.
import { optionsBy } from './arguments.js';
import { MarkdownInlineError } from './errors.js';
import { NAMES, OPTIONS, shortTexts } from './inline.js';

// What each rule of markdown-it's inline parser reads. The others have no bit: they read what is always read, or join what the rules have read.
const BITS = {
  __proto__: null,
  emphasis: OPTIONS.attention, strikethrough: OPTIONS.gfmStrikethrough, backticks: OPTIONS.codeText, escape: OPTIONS.characterEscape | OPTIONS.hardBreakEscape,
  link: OPTIONS.labelStartLink | OPTIONS.labelEnd, image: OPTIONS.labelStartImage | OPTIONS.labelEnd, autolink: OPTIONS.autolink, html_inline: OPTIONS.htmlText,
  entity: OPTIONS.characterReference, newline: OPTIONS.hardBreakTrailing,
};
// What stands in a content in which a rule of another plugin can find something, by the names of the rules.
const SIGNS = {
  footnote_inline: /\^\[/, footnote_ref: /\[\^/, ins: /\+\+/, mark: /==/, math_inline: /\$|``|\\\(/, math_inline_double: /\$/, sub: /~/, sup: /\^/,
};
// Where the library and markdown-it read blanks in two ways: at the ends of a content, in a blank line, and a tab at the end of a line. And half of a pair of
// surrogates.
const BLANK = /^[ \t\r\n]|[ \t\r\n]$|\n[ \t]*[\r\n]|\r[ \t]*[\r\n]|\t *\n|\p{Surrogate}/u;
const ALL = /(?:)/;

const NUMBERS = Object.fromEntries(NAMES.map((it, at) => [it, at]));
const { Autolink, AutolinkEmail, AutolinkProtocol, CodeText, HtmlText, Reference, ReferenceString, Resource, ResourceDestination, ResourceDestinationString, ResourceTitleString } = NUMBERS;
const WIDTHS = { Emphasis: ['em', 1], Strong: ['strong', 2], GfmStrikethrough: ['s', 2] };

/** markdown-it refuses where a link leads, and reads the content in another way. */
class Refused extends Error {}

/** Makes the tokens of the contents of one document. */
class Builder {
  constructor(state, found, source, hasPlaces) {
    const { md, env, Token } = state;
    this.md = md;
    this.Token = Token;
    this.references = env.references ?? {};
    this.labels = Object.keys(this.references);
    this.source = source;
    this.words = found.words;
    this.unit = 2 + found.unit;
    this.hasPlaces = hasPlaces;
    // How many images may stand inside each other: the renderer calls itself for what stands in an image.
    this.deepest = md.options.maxNesting ?? 20;
    // Where markdown-it joins texts later, escapes and references are tokens of their own until then.
    this.hasSpecials = rulesOf(md.core.ruler).has('text_join');
  }

  /** The tokens of a content, of the events from one number to another. It begins at an offset. */
  build(from, to, first, tokens) {
    const { words, unit, source } = this;
    this.tokens = tokens;
    this.first = first;
    this.level = 0;
    this.isBroken = false;
    this.text = '';
    this.opened = [];
    this.outer = [];
    // The opening tokens of emphasis whose ends are still to come, with their offsets.
    this.marks = [];
    let start = 0;
    for (this.at = 4 * from; this.at < 4 * to; this.at += 4) {
      const head = words[this.at], name = head >> 8 & 255, isExit = head & 255, place = words[this.at + unit];
      if (name === NUMBERS.Data) {
        if (isExit) this.say(source.slice(start, place), start, place);
        else start = place;
      } else {
        (isExit ? EXITS : ENTERS)[name]?.(this, place);
      }
    }
    this.flush();
  }

  /** The name, the offset, and whether it is an end, of the next event within what is read to its end at once. */
  next() {
    this.at += 4;
    const head = this.words[this.at];
    return { name: head >> 8 & 255, isExit: (head & 255) === 1, place: this.words[this.at + this.unit] };
  }

  /** Puts words behind the text that has come. */
  say(words, start, end) {
    if (this.text === '') this.textStart = start;
    this.text += words;
    this.textEnd = end;
  }

  /** Says from where to where a token stands in its content. */
  put(token, start, end) {
    if (this.hasPlaces) token.meta = { ...token.meta, markdown_inline: { start: start - this.first, end: end - this.first } };
  }

  /** Makes a token of the text that has come. */
  flush() {
    if (this.text === '') return;
    const token = new this.Token('text', '', 0);
    token.content = this.text;
    token.level = this.level;
    this.put(token, this.textStart, this.textEnd);
    this.text = '';
    this.tokens.push(token);
  }

  push(type, tag, nesting) {
    this.flush();
    const token = new this.Token(type, tag, nesting);
    if (nesting < 0) this.level--;
    token.level = this.level;
    if (nesting > 0) this.level++;
    this.tokens.push(token);
    return token;
  }

  // What is plain.

  begin(place) {
    this.start = place;
  }

  escaped(place) {
    const value = this.source.slice(this.start, place);
    this.special(value, '\\' + value, 'escape', this.start - 1, place);
  }

  referred(place) {
    const written = this.source.slice(this.start, place), { fromCodePoint, isValidEntityCode, unescapeAll } = this.md.utils;
    const code = written[1] !== '#' ? null : /x/i.test(written[2]) ? parseInt(written.slice(3), 16) : parseInt(written.slice(2), 10);
    this.special(code === null ? unescapeAll(written) : fromCodePoint(isValidEntityCode(code) ? code : 0xfffd), written, 'entity', this.start, place);
  }

  /** What an escape or a reference stands for. */
  special(words, markup, info, start, end) {
    if (!this.hasSpecials) return this.say(words, start, end);
    const token = this.push('text_special', '', 0);
    Object.assign(token, { content: words, markup, info });
    this.put(token, start, end);
  }

  hardBreak(place) {
    this.push('hardbreak', 'br', 0);
    this.isBroken = true;
    this.start = place;
  }

  line(place) {
    if (!this.isBroken) {
      this.push('softbreak', 'br', 0);
      this.start = place;
    }
    this.put(this.tokens.at(-1), this.start, place + 1);
    this.isBroken = false;
  }

  open([tag, width], place) {
    const token = this.push(`${tag}_open`, tag, 1);
    token.markup = this.source[place].repeat(width);
    this.marks.push([token, place]);
  }

  close([tag], place) {
    const token = this.push(`${tag}_close`, tag, -1), [opening, start] = this.marks.pop();
    token.markup = opening.markup;
    this.put(opening, start, place);
    this.put(token, start, place);
  }

  // What is read to its end at once.

  code(place) {
    const token = this.push('code_inline', 'code', 0);
    let begun = place, it;
    do it = this.next(); while (it.name !== CodeText);
    while (this.source[begun] === '`') begun++;
    const content = this.source.slice(begun, it.place - (begun - place)).replaceAll('\n', ' ');
    token.content = content.startsWith(' ') && content.endsWith(' ') && /[^ ]/.test(content) ? content.slice(1, -1) : content;
    token.markup = this.source.slice(place, begun);
    this.put(token, place, it.place);
  }

  raw(place) {
    const token = this.push('html_inline', '', 0);
    let it;
    do it = this.next(); while (it.name !== HtmlText);
    token.content = this.source.slice(place, it.place);
    this.put(token, place, it.place);
  }

  autolink(place) {
    let end = place, scheme = '';
    for (let it = this.next(); it.name !== Autolink; it = this.next()) {
      if (it.isExit && (it.name === AutolinkProtocol || it.name === AutolinkEmail)) {
        end = it.place;
        scheme = it.name === AutolinkEmail ? 'mailto:' : '';
      }
    }
    const address = this.source.slice(place + 1, end), opening = this.push('link_open', 'a', 1);
    opening.attrs = [['href', this.href(scheme + address)]];
    this.say(this.md.normalizeLinkText(address), place + 1, end);
    for (const token of [opening, this.push('link_close', 'a', -1)]) {
      Object.assign(token, { markup: 'autolink', info: 'auto' });
      this.put(token, place, end + 1);
    }
  }

  // Links and images.

  /** An address as markdown-it writes it, if it does not refuse it. */
  href(address) {
    const href = this.md.normalizeLink(address);
    if (!this.md.validateLink(href)) throw new Refused();
    return href;
  }

  link(place) {
    this.opened.push({ token: this.push('link_open', 'a', 1), place, level: 0, definition: this.words[this.at + 1], label: 0, labelEnd: 0, strings: null });
  }

  image(place) {
    if (this.outer.length >= this.deepest) throw new Refused();
    this.opened.push({ token: this.push('image', 'img', 0), place, level: this.level, definition: this.words[this.at + 1], label: 0, labelEnd: 0, strings: null });
    this.outer.push(this.tokens);
    this.tokens = [];
    this.level = 0;
  }

  label(place) {
    if (this.opened.length > 0) this.opened.at(-1).label = place;
  }

  labelEnds(place) {
    if (this.opened.length > 0) this.opened.at(-1).labelEnd = place;
  }

  /** Where the strings of a resource or of a reference stand, by their names. */
  strings(place) {
    const found = { __proto__: null, isResource: this.source[place] === '(' };
    for (let it = this.next(); it.name !== Resource && it.name !== Reference; it = this.next()) {
      if (it.name === ReferenceString || it.name === ResourceDestinationString || it.name === ResourceTitleString || it.name === ResourceDestination) {
        found[it.name] = it.isExit ? [found[it.name][0], it.place] : [it.place, it.place];
      }
    }
    this.opened.at(-1).strings = found;
  }

  /** Where a link leads, and its title. */
  target({ strings, definition, label, labelEnd }) {
    const written = (name) => strings?.[name] ? this.source.slice(...strings[name]) : '', { normalizeReference, unescapeAll } = this.md.utils;
    if (!strings?.isResource) {
      const named = normalizeReference(written(ReferenceString) || this.source.slice(label, labelEnd));
      return this.references[Object.hasOwn(this.references, named) ? named : this.labels[definition]];
    }
    return { href: strings[ResourceDestination] ? this.href(unescapeAll(written(ResourceDestinationString))) : '', title: unescapeAll(written(ResourceTitleString)) };
  }

  linkEnds(place) {
    const opened = this.opened.pop(), { href, title } = this.target(opened);
    opened.token.attrs = [['href', href], ...title ? [['title', title]] : []];
    for (const token of [opened.token, this.push('link_close', 'a', -1)]) this.put(token, opened.place, place);
  }

  imageEnds(place) {
    this.flush();
    const opened = this.opened.pop(), { href, title } = this.target(opened);
    Object.assign(opened.token, { children: this.tokens, content: this.source.slice(opened.label, opened.labelEnd), attrs: [['src', href], ['alt', ''], ...title ? [['title', title]] : []] });
    this.put(opened.token, opened.place, place);
    this.tokens = this.outer.pop();
    this.level = opened.level;
  }
}

// What is done where something begins, and where something ends, by the numbers of names. What is not here needs nothing, or is read by what it stands in.
const ENTERS = [], EXITS = [];
for (const [name, does] of Object.entries({
  CharacterEscapeValue: 'begin', CharacterReference: 'begin', LineEnding: 'line', CodeText: 'code', HtmlText: 'raw', Autolink: 'autolink', HardBreakEscape: 'hardBreak',
  HardBreakTrailing: 'hardBreak', LabelText: 'label', Link: 'link', Image: 'image', Resource: 'strings', Reference: 'strings',
})) ENTERS[NUMBERS[name]] = (on, place) => on[does](place);
for (const [name, does] of Object.entries({
  CharacterEscapeValue: 'escaped', CharacterReference: 'referred', LabelText: 'labelEnds', Link: 'linkEnds', Image: 'imageEnds',
})) EXITS[NUMBERS[name]] = (on, place) => on[does](place);
for (const [name, how] of Object.entries(WIDTHS)) {
  ENTERS[NUMBERS[name]] = (on, place) => on.open(how, place);
  EXITS[NUMBERS[name]] = (on, place) => on.close(how, place);
}

/** The functions of the rules that are active, by their names. */
const rulesOf = (ruler) => new Map(ruler.__rules__.filter(({ enabled }) => enabled).map(({ name, fn }) => [name, fn]));

/** The rules that markdown-it's inline parser has by itself, by those that make one. */
const OWN = new WeakMap();

function ownOf(Parser) {
  if (!OWN.has(Parser)) {
    const { ruler, ruler2 } = new Parser();
    OWN.set(Parser, [rulesOf(ruler), rulesOf(ruler2)]);
  }
  return OWN.get(Parser);
}

/** The bits for the rules that are active, and what stands in the contents that markdown-it's own parser reads. */
function askedOf(md, signs) {
  const rules = rulesOf(md.inline.ruler), behind = rulesOf(md.inline.ruler2), [own, ownBehind] = ownOf(md.inline.constructor);
  const given = [BLANK, ...rules.has('escape') ? [] : [/\\/], ...rules.has('strikethrough') ? [/~~~/] : [], ...rules.has('linkify') && md.options.linkify ? [/:\/\//] : []];
  let bits = OPTIONS.standardRules;
  for (const [known, found] of [[own, rules], [ownBehind, behind]]) {
    for (const [name, rule] of found) {
      if (rule === known.get(name)) bits |= BITS[name] ?? 0;
      else if (Object.hasOwn(signs, name)) given.push(signs[name]);
      else return { bits, given: [ALL] };
    }
  }
  // What the library reads always, or together.
  const isWhole = rules.has('text') && rules.has('newline') && rules.has('link') === rules.has('image')
    && [...ownBehind.keys()].every((it) => behind.has(it) === (rules.has(it) || !own.has(it)));
  return { bits: (md.options.html ? bits : bits & ~OPTIONS.htmlText) >>> 0, given: isWhole ? given : [ALL] };
}

/** The contents as one document, where each begins, and their events; no events where one of them is no text. */
function read(contents, bits, definitions) {
  const pieces = [];
  let at = 0;
  for (const it of contents) {
    pieces.push([at, at + it.length]);
    at += it.length + 2;
  }
  const source = contents.join('\n\n');
  try {
    return { source, pieces, found: shortTexts(source, pieces, { bits, definitions }) };
  } catch (error) {
    if (!(error instanceof MarkdownInlineError) || error.code !== 'BLANK_LINE') throw error;
    return { source, pieces, found: null };
  }
}

/** Reads the contents of all inline tokens. */
function inline(state, signs, hasPlaces) {
  const { md, env } = state, { bits, given } = askedOf(md, signs), tokens = state.tokens.filter(({ type }) => type === 'inline');
  const isOurs = tokens.map(({ content }) => !given.some((sign) => sign.test(content)));
  const { source, pieces, found } = read(tokens.filter((_, at) => isOurs[at]).map(({ content }) => content), bits, Object.keys(env.references ?? {}));
  const builder = found && new Builder(state, found, source, hasPlaces);
  let number = 0;
  tokens.forEach((token, at) => {
    const children = token.children ??= [];
    try {
      if (!isOurs[at] || !found) throw new Refused();
      const first = number === 0 ? 0 : found.ends[number - 1];
      builder.build(first, found.ends[number], pieces[number++][0], children);
    } catch (error) {
      if (!(error instanceof Refused)) throw error;
      children.length = 0;
      md.inline.parse(token.content, md, env, children);
    }
  });
}

const settingsOf = optionsBy('signs', 'places');

/** Puts the library into the place of markdown-it's inline parser: `MarkdownIt().use(plugin)`.
 *
 * A rule of another plugin is known by `signs`: for its name a regular expression, which is found in each content in which the rule can find something. Such
 * contents are read by markdown-it's own parser; and all contents are, where a rule is not known, or where a rule of markdown-it is replaced. `places` says in
 * `token.meta.markdown_inline` from where to where each token stands, as `start` and `end`, in units of the content. */
export default function plugin(md, settings) {
  const { signs, places = false } = settingsOf(settings), all = { ...SIGNS, ...signs };
  md.core.ruler.at('inline', (state) => inline(state, all, places));
}

/** The pieces of a content that begins in a row of the lines, and is a heading between signs where it has some. `cells` has for each line where its last cell
 * ends, if this is a cell. */
function piecesFor(content, row, hasSigns, lines, cells) {
  const found = [], parts = content === '' ? [] : content.split('\n');
  for (const [number, part] of parts.map((it) => it.replace(/^[ \t]+/, '')).entries()) {
    if (row + number >= lines.length) return null;
    const { read, start, end } = lines[row + number], line = hasSigns ? read.replace(/[ \t]#+[ \t]*$/, '') : read;
    const at = cells ? line.indexOf(part, cells.get(row) ?? 0) : line.lastIndexOf(part);
    if (at < 0) return null;
    cells?.set(row, at + part.length);
    found.push([start + at, number + 1 === parts.length ? start + at + part.length : end]);
  }
  return found;
}

/** For each inline token among the tokens of a document, in order, the pieces of the document that it is made of, as a content has them; or null where they
 * cannot be told, as of a cell with an escaped `|`. So `links` and `texts` tell places in the document. */
export function piecesOf(tokens, document) {
  const lines = [], found = [], cells = new Map();
  let row = 0;
  for (let start = 0; start <= document.length;) {
    const ending = /\r\n|\n|\r/g;
    ending.lastIndex = start;
    const it = ending.exec(document), stop = it?.index ?? document.length, end = it ? stop + it[0].length : stop + 1;
    lines.push({ read: document.slice(start, stop).replaceAll('\0', '\ufffd').replace(/[ \t]+$/, ''), start, end: Math.min(end, document.length) });
    start = end;
  }
  for (const [at, token] of tokens.entries()) {
    // A row of a table may not say where it stands, and neither what is in its cells.
    if (token.type === 'tbody_open') row = token.map[0] - 1;
    else if (token.type === 'tr_open') row = token.map?.[0] ?? row + 1;
    if (token.type !== 'inline') continue;
    const before = tokens[at - 1], isCell = before?.tag === 'th' || before?.tag === 'td', first = token.map?.[0] ?? (isCell ? row : lines.length);
    found.push(piecesFor(token.content, first, before?.type === 'heading_open' && before.markup.startsWith('#'), lines, isCell ? cells : null));
  }
  return found;
}
