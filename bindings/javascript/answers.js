// What the page asks is answered by the library in it, as play.py answers: with the events as the program mdinline prints them, how many there are, and the HTML;
// or with why there is none.
const UNANSWERED = 'This browser does not run the library: it lacks WebAssembly or DecompressionStream.';

const half = (text) => /\p{Surrogate}/u.exec(text);

function shown({ enter, name, line, byteColumn, byte, vs, link }) {
  const chain = link ? ` link ${link.content} ${link.previous ?? '-'} ${link.next ?? '-'}` : '';
  return `${enter ? 'Enter' : 'Exit'} ${name} ${line} ${byteColumn} ${byte} ${vs}${chain}`;
}

function why(error, text) {
  if (error.code !== 'BLANK_LINE') return `The library says: ${error.message}.`;
  const lines = text.split(/\r\n|\n|\r/), blank = lines.findIndex(it => /^[ \t]*$/.test(it)) + 1;
  if (blank === 0 || lines.at(-1) === '' && blank === lines.length && blank > 1) return 'The text ends with a line ending. A paragraph ends without one.';
  return `Line ${blank} is blank. A paragraph ends before a blank line.`;
}

async function answerTo({text, options, definitions, footnotes, raw, any, most}) {
  const {inline: calls, MarkdownInlineError} = await library, camel = name => name.replace(/_([a-z])/g, (_, sign) => sign.toUpperCase());
  const bits = options.reduce((sum, it) => (sum | calls.OPTIONS[camel(it)]) >>> 0, 0), found = half(text), defined = new Map();
  if (found) {
    const code = found[0].charCodeAt(0).toString(16).toUpperCase(), line = text.slice(0, found.index).split(/\r\n|\n|\r/).length;
    return {why: `Line ${line} has half of a pair of surrogates, U+${code}. UTF-8 has no bytes for it.`};
  }
  if ([...definitions.flat(), ...footnotes].some(half)) return {why: 'A definition or a footnote has half of a pair of surrogates. UTF-8 has no bytes for it.'};
  // Of two definitions of a label that are written alike the first one counts.
  for (const [label, destination, title] of definitions) if (!defined.has(label)) defined.set(label, [destination, title || null]);
  try {
    const asked = {bits, definitions: defined, footnotes}, events = calls.text(text, asked);
    return {
      events: Array.from({length: Math.min(events.length, most)}, (_, at) => shown(events.at(at))), count: events.length,
      html: calls.html(text, {...asked, html: raw ? 'raw' : 'escape', anyLink: any}),
    };
  } catch (error) {
    if (!(error instanceof MarkdownInlineError)) throw error;
    return {why: why(error, text)};
  }
}
