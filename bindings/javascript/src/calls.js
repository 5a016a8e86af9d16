// The calls of the library over one instance.
import { bitsOf, constructsOf, contentsOf, isInBytes, labelsOf, limitOf, linesOf, natural, optionsOf, piecesOf, shownOf, stringsOf, targetsOf, textOf, writtenOf } from './arguments.js';
import { BLOCK, Document, PIECE } from './document.js';
import { MarkdownInlineError, NO_MEMORY } from './errors.js';
import { Instance } from './instance.js';
import { linksOf } from './links.js';
import { OPTIONS } from './names.js';
import { EVENT, Events, LEAF, Leaves, Many, SHORT_EVENT, ShortEvents } from './rows.js';
import { treeOf } from './tree.js';

// Where the rows have places, and their columns.
const PLACES = new Map([[Events, [[24, 16]]], [ShortEvents, [[8]]], [Leaves, [[24, 16], [56, 48]]]]);

/** What is asked for: a document, the numbers of its pieces or null, and what the options say. */
const askedOf = (document, options, pieces, { labels, targets }) => ({
  document: textOf(document), pieces, isInBytes: isInBytes(options), bits: bitsOf(options), labels, targets, footnotes: labelsOf(options.footnotes, 'footnotes'),
});

const withoutTargets = (options) => ({ labels: labelsOf(options.definitions, 'definitions'), targets: null });

/** What each string of bytes in memory says, by where they end. */
const parted = (on, at, ends) => Array.from(ends, (end, number) => on.decoded(at + (number === 0 ? 0 : ends[number - 1]), at + end));

/** The pieces of a document in memory. */
function putPieces(on, text, asked) {
  const pieces = asked.pieces ?? [0, 0, text.length, 0], many = pieces.length / 4, at = on.putNumbers(pieces);
  if (asked.pieces && !asked.isInBytes) for (const place of [0, 16]) on.toBytes(text, at + place, many, 32);
  return [at, many];
}

/** The struct of an input in memory, and the targets beside it. */
function putInput(on, asked) {
  const { labels, footnotes, targets } = asked, text = on.put(asked.document), pieces = putPieces(on, text, asked), many = labels.length;
  if (many + footnotes.length === 0) {
    const input = on.putNumbers([text.at, text.length, pieces[0], pieces[1], text.at, 0, text.at, 0, text.at, 0, asked.bits]);
    return { text, input, targets: text.at, count: 0 };
  }
  const joined = on.putJoined([...labels, ...footnotes, ...(targets ?? []).flatMap(({ destination, title }) => [destination, title ?? ''])]);
  const ranges = on.putNumbers(joined.ranges), behind = 2 * (many + footnotes.length);
  const input = on.putNumbers([text.at, text.length, ...pieces, joined.at, joined.length, ranges, many, ranges + 16 * many, footnotes.length, asked.bits]);
  const rows = (targets ?? []).flatMap(({ title }, at) => [...joined.ranges.slice(behind + 4 * at, behind + 4 * at + 4), title === null ? 0 : 1]);
  return { text, input, targets: on.putNumbers(rows), count: targets?.length ?? 0 };
}

/** About how many bytes the contents have, which tells how much room a first call takes. */
function covered(pieces, length) {
  let sum = 0;
  for (let at = 0; at < (pieces?.length ?? 0); at += 4) sum += Math.max(0, pieces[at + 2] - pieces[at]);
  return pieces === null ? length : Math.min(length, sum);
}

/** The calls over an instance of their own. `maximum` is how many bytes its memory may have. */
export function callsOf(module, settings) {
  const { maximum = 0xffff0000 } = optionsOf.instance(settings), on = new Instance(module, natural(maximum, 'maximum'));

  // A call for the rows of one content.
  const rowsOf = (name, kind, size, read, hasLabels) => (document, given) => {
    const options = read(given), asked = askedOf(document, options, piecesOf(options), hasLabels ? withoutTargets(options) : { labels: [], targets: null });
    return on.within(() => {
      const { text, input } = putInput(on, asked);
      const { at, many } = on.filled(name, [input], size, Math.floor(covered(asked.pieces, text.length) / 4) + 64);
      return new kind(on.copied(text, at, many, size, PLACES.get(kind)), Number(text.isWide), 0, many, asked.document);
    });
  };

  // The rows of many contents.
  const manyRows = (name, kind, size, asked, { rows, many }) => on.within(() => {
    const { text, input } = putInput(on, asked), listed = on.putNumbers(rows);
    const found = on.filledMany(name, [input, listed, many], size, Math.floor(covered(asked.pieces, text.length) / 4) + 64, many);
    return new Many(kind, on.copied(text, found.at, found.many, size, PLACES.get(kind)), Number(text.isWide), found.ends);
  });

  // A call for them.
  const rowsOfMany = (name, kind, size) => (document, contents, given) => {
    const options = optionsOf.texts(given), listed = contentsOf(contents);
    return manyRows(name, kind, size, askedOf(document, options, listed.pieces, withoutTargets(options)), listed);
  };

  const text = rowsOf('text', Events, EVENT, optionsOf.text, true);
  const shortTexts = rowsOfMany('short_texts', ShortEvents, SHORT_EVENT);

  const render = (document, given) => {
    const options = optionsOf.document(given), read = textOf(document), { bits, blocks } = constructsOf(options), shown = shownOf(options), limit = limitOf(options);
    return on.within(() => {
      // The struct of options: numbers of 32 bits, of which the fourth is reserved, then a limit and reserved words.
      const text = on.put(read), asked = on.putNumbers([bits + shown * 2 ** 32, blocks, limit, ...Array(13).fill(0)]);
      const { at, many } = on.filled('document_html', [text.at, text.length, asked], 1, 2 * text.length + 64, true);
      return on.decoded(at, at + many);
    });
  };

  const html = (document, given) => {
    const options = optionsOf.html(given), asked = askedOf(document, options, piecesOf(options), targetsOf(options.definitions)), shown = shownOf(options), limit = limitOf(options);
    return on.within(() => {
      const { text, input, targets, count } = putInput(on, asked);
      const { at, many } = on.filled('html', [input, targets, count, shown, limit], 1, 2 * covered(asked.pieces, text.length) + 64);
      return on.decoded(at, at + many);
    });
  };

  const manyHtmls = (asked, { rows, many }, shown, limit) => on.within(() => {
    const { text, input, targets, count } = putInput(on, asked), listed = on.putNumbers(rows);
    const { at, ends } = on.filledMany('htmls', [input, targets, count, listed, many, shown, limit], 1, 2 * covered(asked.pieces, text.length) + 64, many);
    return parted(on, at, ends);
  });

  const htmls = (document, contents, given) => {
    const options = optionsOf.htmls(given), listed = contentsOf(contents), asked = askedOf(document, options, listed.pieces, targetsOf(options.definitions));
    return manyHtmls(asked, listed, shownOf(options), limitOf(options));
  };

  const strings = (document, listedStrings, given) => {
    const options = optionsOf.strings(given), { parts, rows, many } = stringsOf(listedStrings), read = textOf(document), bits = bitsOf(options), written = writtenOf(options), inBytes = isInBytes(options);
    return on.within(() => {
      const text = on.put(read), partsAt = on.putNumbers(parts), listed = on.putNumbers(rows);
      if (!inBytes) on.toBytes(text, partsAt, parts.length, 8);
      const { at, ends } = on.filledMany('strings', [bits, written, text.at, text.length, partsAt, parts.length / 2, listed, many], 1, text.length + 64, many);
      return parted(on, at, ends);
    });
  };

  const definitionsOf = (read, blocks) => on.within(() => {
    const text = on.put(read), many = Math.floor(text.length / 64) + 16;
    const [labels, ranges, targets] = on.filledEach('definitions', [text.at, text.length, blocks], [[1, 1, Math.floor(text.length / 4) + 1024], [16, 0, many], [40, 0, many]]);
    const textAt = (words, place) => on.decoded(labels.at + words[place], labels.at + words[place + 2]), leads = on.copied(text, targets.at, targets.many, 40, []);
    return Array.from({ length: ranges.many }, (_, at) => ({
      label: textAt(on.copied(text, ranges.at + 16 * at, 1, 16, []), 0), destination: textAt(leads, 10 * at), title: leads[10 * at + 8] === 0 ? null : textAt(leads, 10 * at + 4),
    }));
  });

  const decodedBy = (name, bits, given, what) => {
    const read = textOf(given, what);
    return on.within(() => {
      const text = on.put(read), { at, many } = on.filled(name, [...bits, text.at, text.length], 1, 2 * text.length + 16);
      return on.decoded(at, at + many);
    });
  };
  const identifier = (label) => decodedBy('identifier', [], label, 'a label');
  const reference = (given, options) => decodedBy('reference', [bitsOf(optionsOf.reference(options))], given, 'a reference');

  // What a document asks for, of all contents together.
  const onDocument = {
    definitionsOf, strings, linksOf, reference, htmls,
    textsOf: (asked, contents) => manyRows('texts', Events, EVENT, asked, contents), shortTextsOf: (asked, contents) => manyRows('short_texts', ShortEvents, SHORT_EVENT, asked, contents),
    htmlsOf: manyHtmls,
  };

  const parse = (document, given) => {
    // What the caller does with bytes later changes nothing.
    const options = optionsOf.document(given), read = typeof textOf(document) === 'string' ? document : new Uint8Array(document);
    const asked = { ...constructsOf(options), shown: shownOf(options), limit: limitOf(options) };
    return on.within(() => {
      const text = on.put(read), many = Math.floor(text.length / 16) + 64;
      const [rows, pieces] = on.filledEach('blocks', [text.at, text.length, asked.blocks], [[BLOCK, 0, many], [PIECE, 1, many]]);
      return new Document(onDocument, read, asked, on.copied(text, rows.at, rows.many, BLOCK, []), on.copied(text, pieces.at, pieces.many, PIECE, [[0], [16]]), Number(text.isWide));
    });
  };

  const piecesOfLines = (document, paragraphs, given) => {
    const options = optionsOf.lines(given), { starts, ends } = linesOf(paragraphs), read = textOf(document), inBytes = isInBytes(options);
    return on.within(() => {
      const text = on.put(read), startsAt = on.putNumbers(starts), unit = Number(text.isWide && !inBytes);
      if (!inBytes) on.toBytes(text, startsAt, starts.length, 8);
      const rows = on.copied(text, on.piecesOfLines(text, startsAt, ends), starts.length, 32, inBytes ? [] : [[0], [16]]);
      const pieces = starts.map((_, at) => [rows[8 * at + unit], rows[8 * at + 4 + unit]]);
      return ends.map((end, number) => pieces.slice(number === 0 ? 0 : ends[number - 1], end));
    });
  };

  const links = (document, given) => {
    const options = optionsOf.links(given), { labels, targets } = targetsOf(options.definitions), bits = bitsOf(options), read = textOf(document);
    const contents = options.contents ?? [{ pieces: options.pieces ?? [[0, read.length]], firstOfItem: (bits & OPTIONS.firstOfItem) !== 0 }];
    const isWhole = !options.contents && !options.pieces;
    const asked = { bits: (bits & ~OPTIONS.firstOfItem) >>> 0, definitions: labels, footnotes: options.footnotes, offsets: isWhole ? undefined : options.offsets };
    return linksOf(read, shortTexts(read, contents, asked), targets, (parts) => strings(read, parts, { bits, offsets: 'bytes' }));
  };

  const holds = (name) => (document, given) => {
    const options = optionsOf.pieces(given), asked = askedOf(document, options, piecesOf(options), { labels: [], targets: null });
    return on.within(() => {
      const text = on.put(asked.document), status = on.call(name, [text.at, text.length, ...putPieces(on, text, asked)]);
      if (status === NO_MEMORY) throw new MarkdownInlineError(status);
      return status === 0;
    });
  };

  const inline = {
    text, string: rowsOf('string', Events, EVENT, optionsOf.string, false), leaves: rowsOf('leaves', Leaves, LEAF, optionsOf.text, true), tree: (document, options) => treeOf(text(document, options)),
    texts: rowsOfMany('texts', Events, EVENT), shortTexts, html, htmls, strings, piecesOfLines, isText: holds('is_text'), isContent: holds('is_content'),
    identifier, reference, links,
  };
  return { render, parse, links: (document, given) => parse(document, optionsOf.documentLinks(given)).links, inline };
}
