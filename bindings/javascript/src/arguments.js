// What callers hand over, as plain lists. All of it is read before a call begins, since to read it may run code of the caller, and that may call too.
import { COMMONMARK, CRATE, GFM, MATH, OPTIONS } from './names.js';

// Nothing is inherited here either: a name that is looked up is one of these or none.
const SETS = { __proto__: null, commonmark: COMMONMARK, crate: CRATE };
// What a document may be read with beside CommonMark: the options of its texts, and its blocks, as bits of markdown_inline.h.
export const CONSTRUCTS = {
  __proto__: null, strikethrough: [OPTIONS.gfmStrikethrough, 0], bareUrls: [OPTIONS.gfmAutolinkLiteral, 0], tasks: [OPTIONS.gfmTaskListItem, 0], math: [OPTIONS.mathText, 0x1], frontMatter: [0, 0x2],
};
const SWITCHES = { __proto__: null, gfm: GFM, math: MATH, task: OPTIONS.firstOfItem, ...OPTIONS };
const RULES = ['rules', 'bits', ...Object.keys(SWITCHES)], PIECES = ['pieces', 'offsets'], LABELS = ['definitions', 'footnotes'], WRITING = ['html', 'anyLink', 'lineEnds', 'limit'];
export const encoder = new TextEncoder();

/** Reads options that have one of these names: the caller's own properties. What a prototype has is no option, so whoever writes to `Object.prototype` changes
 *  nothing of what a call does. */
export function optionsBy(...names) {
  const known = new Set(names);
  return (given = {}) => {
    if (given === null || typeof given !== 'object' || Symbol.iterator in given) throw new TypeError('options are an object');
    const options = Object.create(null);
    for (const [name, value] of Object.entries(given)) {
      if (value === undefined) continue;
      if (!known.has(name)) throw new TypeError(`no option of this call has the name ${name}`);
      options[name] = value;
    }
    return options;
  };
}

/** Reads the options of each call. */
export const optionsOf = {
  text: optionsBy(...RULES, ...PIECES, ...LABELS), texts: optionsBy(...RULES, ...LABELS, 'offsets'), string: optionsBy(...RULES, ...PIECES), pieces: optionsBy(...PIECES),
  html: optionsBy(...RULES, ...PIECES, ...LABELS, ...WRITING), htmls: optionsBy(...RULES, ...LABELS, ...WRITING, 'offsets'), links: optionsBy(...RULES, ...PIECES, ...LABELS, 'contents'),
  document: optionsBy(...Object.keys(CONSTRUCTS), ...WRITING), documentLinks: optionsBy(...Object.keys(CONSTRUCTS)), strings: optionsBy(...RULES, 'offsets', 'lineFeeds', 'replacedNul'), lines: optionsBy('offsets'),
  reference: optionsBy(...RULES), instance: optionsBy('maximum'),
};

/** Some properties of an object, if they are its own. */
const fieldsOf = (given, ...names) => names.map((name) => Object.hasOwn(given, name) ? given[name] : undefined);

const flag = (given, what) => {
  if (typeof given !== 'boolean') throw new TypeError(`${what} is true or false`);
  return given;
};

const several = (given, what) => {
  if (typeof given === 'string' || typeof given?.[Symbol.iterator] !== 'function') throw new TypeError(`${what} is a list`);
  return given;
};

export const natural = (given, what) => {
  if (typeof given !== 'number') throw new TypeError(`${what} is a number`);
  if (!Number.isSafeInteger(given) || given < 0) throw new RangeError(`${what} is a whole number from 0 on`);
  return given;
};

/** A text as it is: a string or its UTF-8. */
export function textOf(given, what = 'a document') {
  if (typeof given !== 'string' && !(given instanceof Uint8Array)) throw new TypeError(`${what} is a string or a Uint8Array`);
  return given;
}

/** The bits of options that are given by names. */
export function bitsOf(options) {
  let bits = SETS[options.rules ?? 'commonmark'];
  if (bits === undefined) throw new RangeError("rules is 'commonmark' or 'crate'");
  const switches = Object.keys(options).filter((it) => it in SWITCHES);
  for (const name of switches) bits = flag(options[name], name) ? bits | SWITCHES[name] : bits & ~SWITCHES[name];
  if (options.bits === undefined) return bits >>> 0;
  if (switches.length > 0 || options.rules !== undefined) throw new TypeError('bits says all options, so no other can stand beside it');
  if (natural(options.bits, 'bits') > 0xffffffff) throw new RangeError('bits has more than 32 bits');
  return options.bits;
}

/** Whether the numbers of pieces count bytes. */
export function isInBytes(options) {
  const offsets = options.offsets ?? 'utf-16';
  if (offsets !== 'utf-16' && offsets !== 'bytes') throw new RangeError("offsets is 'utf-16' or 'bytes'");
  return offsets === 'bytes';
}

function pushPiece(into, given, what) {
  if (given === null || typeof given !== 'object') throw new TypeError(`${what} is [start, end] or { start, end }`);
  const [start, end, startVs = 0, endVs = 0] = Array.isArray(given) ? given : fieldsOf(given, 'start', 'end', 'startVs', 'endVs');
  into.push(natural(start, `the start of ${what}`), natural(startVs, `the startVs of ${what}`), natural(end, `the end of ${what}`), natural(endVs, `the endVs of ${what}`));
}

/** The numbers of pieces, in the order of the header: start, startVs, end, endVs. null stands for the whole document. */
export function piecesOf(options) {
  if (options.pieces === undefined || options.pieces === null) return null;
  const found = [];
  for (const it of several(options.pieces, 'pieces')) pushPiece(found, it, 'a piece');
  return found;
}

/** The pieces of many contents, and for each content its first piece, the one behind its last, and whether it begins a list item. */
export function contentsOf(given) {
  const pieces = [], rows = [];
  for (const it of several(given, 'contents')) {
    const first = pieces.length / 4, isPiece = Array.isArray(it), [parts, firstOfItem = false] = isPiece ? [] : fieldsOf(Object(it), 'pieces', 'firstOfItem');
    if (isPiece) pushPiece(pieces, it, 'a content');
    else for (const piece of several(parts, 'the pieces of a content')) pushPiece(pieces, piece, 'a piece');
    rows.push(first, pieces.length / 4, Number(flag(firstOfItem, 'firstOfItem')));
  }
  return { pieces, rows, many: rows.length / 3 };
}

/** Where the lines of paragraphs begin, one behind another, and where the starts of each paragraph end. */
export function linesOf(given) {
  const starts = [], ends = [];
  for (const paragraph of several(given, 'paragraphs')) {
    for (const start of several(paragraph, 'a paragraph')) starts.push(natural(start, 'the start of a line'));
    ends.push(starts.length);
  }
  return { starts, ends };
}

/** Strings, each as the numbers of its first part and the one behind its last, and the starts and ends of all parts. */
export function stringsOf(given) {
  const parts = [], rows = [];
  for (const string of several(given, 'strings')) {
    const first = parts.length / 2;
    for (const [start, end] of several(string, 'a string')) parts.push(natural(start, 'the start of a part'), natural(end, 'the end of a part'));
    rows.push(first, parts.length / 2);
  }
  return { parts, rows, many: rows.length / 2 };
}

/** Labels: those of a list, or the keys of a Map or an object. */
export function labelsOf(given, what) {
  if (given === undefined || given === null) return [];
  if (typeof given !== 'object') throw new TypeError(`${what} are a list of labels`);
  const labels = given instanceof Map ? [...given.keys()] : typeof given[Symbol.iterator] === 'function' ? [...given] : Object.keys(given);
  return labels.map((it) => textOf(it, 'a label'));
}

function targetOf(given) {
  const isText = typeof given === 'string' || given instanceof Uint8Array;
  const [destination, title = null] = isText ? [given] : Array.isArray(given) ? given : fieldsOf(Object(given), 'destination', 'title');
  return { destination: textOf(destination, 'a destination'), title: title === null ? null : textOf(title, 'a title') };
}

/** Where definitions lead, by the labels of a Map or an object. */
export function targetsOf(given) {
  if (given === undefined || given === null) return { labels: [], targets: [] };
  if (typeof given !== 'object' || Array.isArray(given)) throw new TypeError('definitions are a Map or an object, which say where each leads');
  const entries = given instanceof Map ? [...given] : Object.entries(given);
  return { labels: entries.map(([label]) => textOf(label, 'a label')), targets: entries.map(([, target]) => targetOf(target)) };
}

/** The bits of the constructs that a document is read with: those of its texts, and those of its blocks. */
export function constructsOf(options) {
  const added = Object.keys(CONSTRUCTS).filter((name) => name in options && flag(options[name], name)).map((name) => CONSTRUCTS[name]);
  return { bits: added.reduce((all, [bits]) => all | bits, COMMONMARK), blocks: added.reduce((all, [, blocks]) => all | blocks, 0) };
}

const bitsOfFlags = (options, ...names) => names.reduce((bits, name, at) => bits | Number(name in options && flag(options[name], name)) << at, 0);

/** What HTML may contain and how it is written, as bits. */
export function shownOf(options) {
  const { html = 'escape', lineEnds } = options;
  if (html !== 'escape' && html !== 'raw') throw new RangeError("html is 'escape' or 'raw'");
  if (lineEnds !== undefined && lineEnds !== '\n' && lineEnds !== '\r\n') throw new RangeError("lineEnds is '\\n' or '\\r\\n'");
  return Number(html === 'raw') | bitsOfFlags(options, 'anyLink') << 1 | (lineEnds === '\n' ? 0x20 : lineEnds === '\r\n' ? 0x40 : 0);
}

/** How the texts of strings are written, as bits. */
export const writtenOf = (options) => bitsOfFlags(options, 'lineFeeds', 'replacedNul');

/** How many bytes definitions may bring, as the library takes it: 0 is its default, and Infinity is no limit. */
export function limitOf(options) {
  const { limit } = options;
  if (limit === undefined) return 0;
  if (limit !== Infinity && natural(limit, 'limit') === 0) throw new RangeError('limit is from 1 on, or Infinity');
  return limit;
}
