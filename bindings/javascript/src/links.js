// The links, images, autolinks and literals of a document, and where each leads.
import { encoder } from './arguments.js';
import { countUpTo, lineStarts } from './lines.js';

const KINDS = {
  __proto__: null, Link: 'link', Image: 'image', Autolink: 'autolink', GfmAutolinkLiteralEmail: 'literal', GfmAutolinkLiteralMailto: 'literal', GfmAutolinkLiteralProtocol: 'literal',
  GfmAutolinkLiteralWww: 'literal', GfmAutolinkLiteralXmpp: 'literal',
};
// What stands before an address where it is no URL yet.
const SCHEMES = {
  __proto__: null, AutolinkEmail: 'mailto:', AutolinkProtocol: '', GfmAutolinkLiteralEmail: 'mailto:', GfmAutolinkLiteralMailto: '', GfmAutolinkLiteralProtocol: '',
  GfmAutolinkLiteralWww: 'http://', GfmAutolinkLiteralXmpp: '',
};
const STRINGS = { __proto__: null, ResourceDestinationString: 'destination', ResourceTitleString: 'title' };
const decoder = new TextDecoder('utf-8', { ignoreBOM: true });
const asText = (given) => typeof given === 'string' ? given : decoder.decode(given);

/** What begins in a content, where each stands, and the parts of the strings that say where it leads. A string belongs to the field of a link. */
function foundIn(events, content, found, strings) {
  const opened = [];
  let parts = null, begun = 0;
  for (const { enter, name, offset, byte, definition } of events) {
    if (enter && name in KINDS) {
      opened.push({ kind: KINDS[name], content, offset, byte, definition, destination: '', title: null, from: offset, address: null });
      found.push(opened.at(-1));
    }
    const one = opened.at(-1);
    if (name in SCHEMES) {
      if (enter) one.from = offset;
      else one.address = [SCHEMES[name], one.from, offset];
    } else if (name in STRINGS) {
      parts = enter ? [] : null;
      if (enter) strings.push({ one, field: STRINGS[name], parts });
    } else if (name === 'ResourceTitle') {
      one.title = '';
    } else if (parts && (name === 'Data' || name === 'LineEnding')) {
      if (enter) begun = byte;
      else parts.push([begun, byte]);
    }
    if (!enter && name in KINDS) Object.assign(opened.pop(), { endOffset: offset, endByte: byte });
  }
}

/** All that leads somewhere, in the order in which it begins in its content: by the short events of contents, the targets of definitions, and what resolves
 *  strings by their parts. */
export function linksOf(read, contents, targets, resolved) {
  const found = [], wanted = [];
  let number = 0;
  for (const events of contents) foundIn(events, number++, found, wanted);
  resolved(wanted.map(({ parts }) => parts)).forEach((it, at) => { wanted[at].one[wanted[at].field] = it; });
  // The texts of each definition are decoded once, and all that refers to it shares them.
  const led = [], ledBy = (number) => led[number] ??= { destination: asText(targets[number].destination), title: targets[number].title === null ? null : asText(targets[number].title) };
  const starts = lineStarts(read), byteStarts = typeof read === 'string' ? lineStarts(encoder.encode(read)) : starts;
  return found.map(({ kind, content, offset, endOffset, byte, endByte, definition, destination, title, address }) => {
    const line = countUpTo(starts, offset), target = definition === null ? null : ledBy(definition);
    return {
      kind, line, column: offset - starts[line - 1] + 1, offset, endOffset, byteColumn: byte - byteStarts[line - 1] + 1, byte, endByte,
      destination: target ? target.destination : address ? address[0] + asText(read.slice(address[1], address[2])) : destination,
      title: target ? target.title : title, definition, content,
    };
  });
}
