// Reads cases of ../../tests/draw.py from standard input, and prints what the package finds in each, as cases.py there does. Each other document is
// handed over as a string, half of these with pieces in UTF-16, and its offsets and columns in UTF-16 are counted here too.
import { readFileSync } from 'node:fs';
import { MarkdownInlineError, parse, render } from '../../out/javascript/index.js';
import { COMMONMARK, CRATE, GFM, MATH, OPTIONS, html, htmls, leaves, shortTexts, string, text, texts } from '../../out/javascript/inline.js';

const OF_DOCUMENTS = { strikethrough: OPTIONS.gfmStrikethrough, bareUrls: OPTIONS.gfmAutolinkLiteral, tasks: OPTIONS.gfmTaskListItem, math: OPTIONS.mathText };
const FRONT_MATTER = 0x2;
const SWITCHES = { gfm: GFM, math: MATH, task: OPTIONS.firstOfItem };
const decoder = new TextDecoder('utf-8', { fatal: true, ignoreBOM: true });
const KINDS = ['BlankLine', 'ThematicBreak', 'Heading', 'Paragraph', 'IndentedCode', 'FencedCode', 'Html', 'Quote', 'Item', 'FrontMatter'];
const listed = (word) => word === '-' ? [] : word.split(',');
const bytesOf = (word) => Uint8Array.from(Buffer.from(word.replaceAll('-', ''), 'hex'));
const hex = (bytes) => Buffer.from(bytes).toString('hex');
const textOf = (word) => decoder.decode(bytesOf(word));
const or = (number) => number ?? '-';

function piece(word) {
  const [[start, startVs], [end, endVs]] = word.split('-').map((place) => place.split('.').map(Number));
  return [start, end, startVs, endVs];
}

/** How many units stand before each byte that begins a character, and before its line; none where the document is handed over as bytes. */
function placesOf(given) {
  if (typeof given !== 'string') return null;
  const units = new Map([[0, 0]]), lines = new Map([[0, 0]]);
  let byte = 0, unit = 0, more = 0;
  for (const sign of given) {
    byte += Buffer.byteLength(sign);
    unit += sign.length;
    if (sign === '\n' || sign === '\r') more = byte - unit;
    units.set(byte, unit);
    lines.set(byte, more);
  }
  return { units, lines };
}

function check(places, byte, offset, byteColumn, column) {
  const unit = places ? places.units.get(byte) : byte, less = places ? byte - unit - places.lines.get(byte) : 0;
  if (offset !== unit || (column !== undefined && column !== byteColumn - less)) throw new Error(`byte ${byte} is offset ${offset}, column ${column}`);
}

function shown(it, places) {
  check(places, it.byte, it.offset, it.byteColumn, it.column);
  const link = it.link ? `:${it.link.content}:${or(it.link.previous)}:${or(it.link.next)}` : '';
  return ` ${it.enter ? '+' : '-'}${it.name} ${it.line}:${it.byteColumn}:${it.byte}:${it.vs}${link}`;
}

function shownShort(it, places) {
  check(places, it.byte, it.offset);
  const told = it.definition ?? it.standsFor?.codePointAt(0) ?? null;
  return ` ${it.enter ? '+' : '-'}${it.name} ${it.byte}:${it.vs}:${[null, 'String', 'Text'].indexOf(it.link)}${told === null ? '' : ':' + told}`;
}

function shownLeaf(it, places) {
  check(places, it.byte, it.offset, it.byteColumn, it.column);
  check(places, it.endByte, it.endOffset, it.endByteColumn, it.endColumn);
  return ` ${it.name} ${it.line}:${it.byteColumn}:${it.byte}:${it.vs} ${it.endLine}:${it.endByteColumn}:${it.endByte}:${it.endVs} ${it.before}:${hex(it.content)}:${it.after}`;
}

const all = (rows, one, places) => Array.from(rows, (it) => one(it, places)).join('');

/** The words that say these bits, or else the bits. */
function asked(bits, how) {
  const words = Object.entries(SWITCHES).filter(([, its]) => (bits & its) === its), sum = words.reduce((both, [, its]) => both | its, 0);
  for (const [rules, its] of Object.entries({ commonmark: COMMONMARK, crate: CRATE })) {
    if (how !== 'string' && (its | sum) === bits) return { rules, ...Object.fromEntries(words.map(([name]) => [name, true])) };
  }
  return { bits };
}

function shownBlock(block, places) {
  const bytes = places ? new Map(Array.from(places.units, ([byte, unit]) => [unit, byte])) : null, byteOf = (at) => bytes ? bytes.get(at) : at;
  const flags = Number(block.beginsList) | Number(block.endsList) << 1 | Number(block.isLoose) << 2;
  const pieces = block.pieces.map(([start, end, startVs, endVs]) => ` ${byteOf(start)}.${startVs}-${byteOf(end)}.${endVs}`).join('');
  const head = [KINDS.indexOf(block.kind), block.depth, block.number, block.line, block.marker === null ? 0 : block.marker.charCodeAt(0), flags].join(':');
  return ` |${head}${pieces}${block.content === null ? '' : ' =' + hex(block.html)}`;
}

const allBlocks = (found, places) => Array.from(found, (it) => shownBlock(it, places)).join('')
  + found.definitions.map(({ label, destination, title }) => ` ;${hex(label)}=${hex(destination)}${title === null ? '' : ':' + hex(title)}`).join('');

/** The words that say what a document is read with. */
function constructsOf(bits, blocks) {
  return { ...Object.fromEntries(Object.entries(OF_DOCUMENTS).map(([name, bit]) => [name, (bits & bit) !== 0])), frontMatter: (blocks & FRONT_MATTER) !== 0 };
}

function found(how, bits, document, spans, options, places, labels, rest) {
  const content = (word) => {
    const [numbers, first] = word.split(':');
    return { pieces: spans.slice(...numbers.split('-').map(Number)), firstOfItem: first === '1' };
  };
  const targets = (word) => new Map(listed(word).map((it, at) => {
    const [destination, title] = it.slice(1).split(':');
    return [labels[at], { destination: textOf(destination), title: title === undefined ? null : textOf(title) }];
  }));
  const one = { ...options, pieces: spans, definitions: labels }, parted = (its) => its.map((it) => ' |' + it).join('');
  if (how === 'string') return all(string(document, { bits: options.bits, offsets: options.offsets, pieces: spans }), shown, places);
  if (how === 'text') return all(text(document, one), shown, places);
  if (how === 'leaves') return all(leaves(document, one), shownLeaf, places);
  if (how === 'texts') return parted([...texts(document, listed(rest[0]).map(content), { ...options, definitions: labels })].map((it) => all(it, shown, places)));
  if (how === 'shorts') return parted([...shortTexts(document, listed(rest[0]).map(content), { ...options, definitions: labels })].map((it) => all(it, shownShort, places)));
  const held = { html: rest[0] & 1 ? 'raw' : 'escape', anyLink: (rest[0] & 2) !== 0, lineEnds: rest[0] & 0x20 ? '\n' : rest[0] & 0x40 ? '\r\n' : undefined };
  if (how === 'document' || how === 'blocks') {
    const options = { ...constructsOf(bits, Number(rest[2])), ...held, limit: Number(rest[1]) || undefined };
    return how === 'document' ? ' ' + hex(render(document, options)) : allBlocks(parse(document, options), places);
  }
  const written = { ...options, ...held, definitions: targets(rest[1]) };
  if (how === 'html') return ' ' + hex(html(document, { ...written, pieces: spans }));
  return parted(htmls(document, listed(rest[2]).map(content), { ...written, limit: Number(rest[3]) || undefined }).map(hex));
}

function answer(line, number) {
  const [how, bits, pieces, labels, notes, document, ...rest] = line.split(' '), bytes = bytesOf(document), given = number % 2 === 1 ? decoder.decode(bytes) : bytes;
  const places = placesOf(given), spans = listed(pieces).map(piece), isInUnits = number % 4 === 1 && spans.every(([start, end]) => places.units.has(start) && places.units.has(end));
  const inUnits = isInUnits ? spans.map(([start, end, ...vs]) => [places.units.get(start), places.units.get(end), ...vs]) : spans;
  const options = { ...asked(Number(bits), how), offsets: isInUnits ? 'utf-16' : 'bytes', footnotes: listed(notes).map(textOf) };
  try {
    return how + found(how, Number(bits), given, inUnits, options, places, listed(labels).map(textOf), rest);
  } catch (error) {
    if (!(error instanceof MarkdownInlineError)) throw error;
    const blamed = error.at === null ? '' : ' ' + error.at, words = error.message.replace(/ \(number \d+\)$/, '');
    return how + ({ string: ' no content', text: ' no text' }[how] ?? `${blamed}: ${words}`);
  }
}

const lines = readFileSync(0, 'utf8').trimEnd().split('\n');
if (lines.length < 600) throw new Error(`${lines.length} cases are too few`);
process.stdout.write(lines.map((line, number) => answer(line, number) + '\n').join(''));
