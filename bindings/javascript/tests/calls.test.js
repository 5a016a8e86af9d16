// What the calls return, and what they refuse; the examples of README.md and of CommonMark's specification; hostile texts, little memory, a used-up stack.
import assert from 'node:assert/strict';
import { spawnSync } from 'node:child_process';
import { readFileSync } from 'node:fs';
import test from 'node:test';
import { fileURLToPath } from 'node:url';
import { callsOf } from '../../out/javascript/calls.js';
import * as inside from '../../out/javascript/one.js';
import * as markdownInline from '../../out/javascript/index.js';
import { COMMONMARK, GFM, html, htmls, identifier, isContent, isText, leaves, links, piecesOfLines, reference, shortTexts, string, strings, text, texts, tree } from '../../out/javascript/inline.js';

const { MarkdownInlineError, create, parse, render, toHtml } = markdownInline;
const beside = (name) => fileURLToPath(new URL(name, import.meta.url));
const has = (command) => spawnSync(command, ['--version']).status === 0;
const bytesOf = (given) => new TextEncoder().encode(given);
const WRONG = Uint8Array.of(0xff);

/** Whether a call is refused with a code, and names what is to blame. */
function refuses(code, call, at = null) {
  assert.throws(call, (error) => error instanceof MarkdownInlineError && error.code === code && error.at === at && error.message !== '');
}

test('examples of README.md', async () => {
  // An example is an indented block. A line of it may say behind `// =>` what it returns.
  const page = readFileSync(beside('../README.md'), 'utf8'), blocks = page.split(/\n\n(?! {4})/).map((it) => it.replace(/^(?! {4}).*\n?/gm, '').replace(/^ {4}/gm, ''));
  const shown = blocks.filter((it) => it.includes('// =>'));
  assert.ok(shown.length >= 5);
  for (const block of shown) {
    const names = Object.keys(markdownInline), code = block.replace(/^import .*$/gm, '').replace(/^(.*?);? *\/\/ => (.*)$/gm, (_, one, wanted) => `deepEqual(${one}, ${wanted});`);
    await new Function('deepEqual', ...names, `return (async () => {${code}})()`)(assert.deepEqual, ...names.map((it) => markdownInline[it]));
  }
});

/** The rows that rows.py prints by these words. */
function rowsBy(...words) {
  const said = spawnSync('python3', [beside('rows.py'), ...words], { encoding: 'utf8' });
  assert.equal(said.status, 0, said.stderr);
  return said.stdout.trimEnd().split('\n').map((it) => JSON.parse(it));
}

test('examples of CommonMark', { skip: !has('python3') }, () => {
  const rows = rowsBy();
  assert.ok(rows.length >= 400);
  for (const [words, given, wanted] of rows) {
    const definitions = new Map();
    let target = null;
    for (const [, name, value] of words.map((it) => /^(define|to|title)=(.*)$/s.exec(it)).filter((it) => it)) {
      // Of several definitions of a label the first counts, and a Map keeps the last.
      if (name === 'define') target = { destination: '', title: null };
      if (name === 'define' && !definitions.has(value)) definitions.set(value, target);
      if (name !== 'define') target[name === 'to' ? 'destination' : 'title'] = value;
    }
    assert.equal(html(given, { definitions, html: 'raw', anyLink: true }), wanted, given);
    assert.equal(html(bytesOf(given), { definitions, html: 'raw', anyLink: true }), wanted, given);
  }
});

test('documents of CommonMark', { skip: !has('python3') }, () => {
  const rows = rowsBy('pages');
  assert.ok(rows.length >= 652);
  const read = { strikethrough: 'strikethrough', bare_urls: 'bareUrls', tasks: 'tasks', math: 'math', front_matter: 'frontMatter' };
  for (const [word, least] of [['strikethrough', 4], ['bare_urls', 8], ['tasks', 20], ['math', 20], ['front_matter', 20]]) assert.ok(rows.filter(([words]) => words.includes(word)).length >= least, word);
  for (const [words, document, wanted] of rows) {
    const held = words.includes('safe') ? {} : { html: 'raw', anyLink: true };
    for (const word of words) {
      if (word in read) held[read[word]] = true;
      else if (word !== 'safe') held.lineEnds = { lf: '\n', crlf: '\r\n' }[word];
    }
    for (const given of [document, bytesOf(document)]) assert.equal(render(given, held), wanted, document);
  }
});

test('types', { skip: !has('tsc') }, () => {
  const said = spawnSync('tsc', ['--strict', '--noEmit', '--target', 'es2022', '--module', 'nodenext', '--moduleResolution', 'nodenext', beside('types.mts')], { encoding: 'utf8' });
  assert.equal(said.status, 0, said.stdout);
});

test('each error comes', () => {
  for (const call of [(options) => text('a', options), (options) => string('a', options), (options) => reference('&amp;', options)]) refuses('UNKNOWN_OPTION', () => call({ bits: 2 ** 31 }));
  for (const call of [text, string, leaves, html, render, parse, identifier, links]) refuses('NOT_UTF8', () => call(WRONG), call === links || call === render ? 0 : null);
  refuses('NOT_UTF8', () => render(Uint8Array.of(0x61, 0x0a, 0xe2, 0x82)), 2);
  refuses('NOT_UTF8', () => htmls(Uint8Array.of(0x61, 0xe2, 0x82), []), 1);
  for (const call of [text, leaves, html, links]) for (const given of ['a\n\nb', 'a\n']) refuses('BLANK_LINE', () => call(given), call === links ? 0 : null);
  for (const pieces of [[[0, 9]], [[1, 0]], [[0, 2 ** 40]]]) for (const call of [text, string, leaves, html]) refuses('NO_CONTENT', () => call('a', { pieces }));
  for (const options of [{ definitions: [WRONG] }, { footnotes: [WRONG] }]) refuses('DEFINITION', () => text('a', options));
  refuses('DEFINITION', () => html('a', { definitions: { b: ['c', WRONG] } }));
  refuses('DEFINITION', () => htmls('a', [[0, 1]], { definitions: { a: 'b', c: WRONG } }), 1);
  refuses('NO_CONTENT', () => texts('a', [[0, 1], [0, 2]]), 1);
  refuses('BLANK_LINE', () => shortTexts('a\n', [[0, 0], [0, 1], [0, 2]]), 2);
  refuses('NO_STRING', () => strings('a', [[[0, 1]], [[0, 2]]]), 1);
  for (const given of ['&nothing;', '', ' &amp;', '&amp', WRONG]) refuses('NO_REFERENCE', () => reference(given));
  refuses('REFERENCES', () => htmls('[a]', [[0, 3]], { definitions: { a: 'bc' }, limit: 1 }), 0);
});

test('what is no argument is named', () => {
  for (const [error, call] of [
    [/Uint8Array/, () => text(1)], [/Uint8Array/, () => text()], [/nonsense/, () => text('a', { nonsense: true })], [/gfm is/, () => text('a', { gfm: 1 })],
    [/rules/, () => text('a', { rules: 'gfm' })], [/bits/, () => text('a', { bits: COMMONMARK, gfm: true })], [/bits/, () => text('a', { bits: 2 ** 32 })],
    [/bits/, () => text('a', { bits: -1 })], [/offsets/, () => text('a', { offsets: 'lines' })], [/the start of a piece/, () => text('a', { pieces: [['0', 1]] })],
    [/the end of a piece/, () => text('a', { pieces: [[0]] })], [/whole number/, () => text('a', { pieces: [[0, 0.5]] })], [/pieces is a list/, () => text('a', { pieces: 'a' })],
    [/a piece/, () => text('a', { pieces: [null] })], [/contents is a list/, () => texts('a')], [/of a content/, () => texts('a', [{}])], [/firstOfItem/, () => texts('a', [{ pieces: [], firstOfItem: 1 }])],
    [/definitions/, () => text('a', { definitions: 'b' })], [/a label/, () => text('a', { definitions: [1] })], [/definitions/, () => html('a', { definitions: ['b'] })],
    [/a destination/, () => html('a', { definitions: { b: null } })], [/a title/, () => html('a', { definitions: { b: ['c', 1] } })], ...['no', true, null].map((wrong) => [/html is/, () => html('a', { html: wrong })]),
    [/Uint8Array/, () => render(1)], ...['\r', 10, null, ''].map((lineEnds) => [/lineEnds is/, () => render('a', { lineEnds })]), [/tasks is/, () => render('a', { tasks: 1 })], [/math is/, () => render('a', { math: 3 })], [/frontMatter is/, () => parse('a', { frontMatter: 'yaml' })], [/name front_matter/, () => render('a', { front_matter: true })], [/name gfm/, () => render('a', { gfm: true })], [/anyLink/, () => render('a', { anyLink: 1 })],
    [/limit/, () => render('a', { limit: 0 })], [/Uint8Array/, () => parse(1)], [/name gfm/, () => parse('a', { gfm: true })], [/html is/, () => parse('a', { html: 1 })], [/html is/, () => render('a', { html: 'Raw' })], [/name html/, () => markdownInline.links('a', { html: 'raw' })],
    [/limit/, () => html('a', { limit: 0 })], [/strings is a list/, () => strings('a', 'b')], [/paragraphs is a list/, () => piecesOfLines('a', 1)], [/a paragraph is a list/, () => piecesOfLines('a', [0])], [/the start of a line/, () => piecesOfLines('a', [['0']])], [/a part/, () => strings('a', [[['0', 1]]])],
  ]) assert.throws(call, (it) => (it instanceof TypeError || it instanceof RangeError) && error.test(it.message), String(error));
});

/** What a call returns, or why it throws. */
const outcomeOf = (call) => {
  try {
    return call();
  } catch (error) {
    return [error.name, error.message];
  }
};

test('what a prototype has is no option', () => {
  const rowsOf = (rows) => Array.from(rows, ({ name, offset, vs }) => [name, offset, vs]), limited = '[a] [a]\n\n[a]: /b', definitions = { a: '/b' }, dangerous = '<b> [a](b:c)';
  for (const [name, value, ...calls] of [
    ['html', 'raw', (it) => render(dangerous, it), (it) => html(dangerous, it), (it) => htmls(dangerous, [[0, 12]], it), (it) => parse(dangerous, it).htmls],
    ['anyLink', true, (it) => render(dangerous, it), (it) => html(dangerous, it), (it) => htmls(dangerous, [[0, 12]], it), (it) => parse(dangerous, it).htmls],
    ['lineEnds', '\n', (it) => render('a\rb', it), (it) => html('a\rb', it), (it) => htmls('a\rb', [[0, 3]], it), (it) => parse('a\rb', it).htmls],
    ['strikethrough', true, (it) => render('~a~', it), (it) => parse('~a~', it).htmls], ['bareUrls', true, (it) => render('a@b.c', it), (it) => markdownInline.links('a@b.c', it)],
    ['frontMatter', true, (it) => render('---\n---', it), (it) => parse('---\n---', it).frontMatter, (it) => markdownInline.links('+++\n[a](b)\n+++', it)], ['tasks', true, (it) => render('- [x] a', it)],
    ['limit', 1, (it) => render(limited, it), (it) => html('[a]', { definitions, ...it }), (it) => htmls('[a]', [[0, 3]], { definitions, ...it }), (it) => parse(limited, it).htmls],
    ['rules', 'crate', (it) => html('a*_b_*', it), (it) => rowsOf(string('&check;', it)), (it) => strings('&check;', [[[0, 7]]], it), (it) => reference('&check;', it)],
    ['bits', 0, (it) => html('*a*', it), (it) => rowsOf(text('*a*', it)), (it) => rowsOf(leaves('*a*', it)), (it) => links('[a](b)', it), (it) => tree('*a* b', it).children.length],
    ['gfm', true, (it) => html('~a~', it), (it) => rowsOf(text('~a~', it))],
    ['math', true, (it) => html('$a$', it), (it) => render('$a$', it), (it) => render('$$\na', it), (it) => markdownInline.links('$$\n[a](b)', it)], ['task', true, (it) => html('[x] a', { gfm: true, ...it })], ['codeText', false, (it) => html('`a`', it)],
    ['pieces', [[3, 4]], (it) => html('a\nbc', it), (it) => rowsOf(string('a\nbc', it)), (it) => isText('a\n\nb', it), (it) => isContent('a', it), (it) => links('[a](b) c', it)],
    ['offsets', 'bytes', (it) => html('éa', { pieces: [[0, 2]], ...it }), (it) => rowsOf(texts('éa', [[0, 2]], it).at(0)), (it) => strings('éa', [[[0, 2]]], it), (it) => piecesOfLines('é\na', [[0, 2]], it)],
    ['contents', [[0, 1]], (it) => links('a[b](c)', it)], ['definitions', { a: '/c' }, (it) => html('[a]', it), (it) => links('[a]', it), (it) => shortTexts('[a]', [[0, 3]], it).at(0).length],
    ['footnotes', ['a'], (it) => html('[^a]', { gfm: true, ...it })], ['maximum', 1, (it) => create(it).inline.html('*a*'.repeat(99999))],
    ['lineFeeds', true, (it) => strings('a\r', [[[0, 2]]], it)], ['replacedNul', true, (it) => strings('\0', [[[0, 1]]], it)],
    // The fields of what is no options object.
    ['firstOfItem', true, (it) => texts('[x] a', [{ pieces: [[0, 5]], ...it }], { gfm: true }).at(0).length], ['title', 'c', (it) => html('[a]', { definitions: { a: { destination: '/b', ...it } } })],
    ['1', 'c', (it) => html('[a]', { definitions: { a: Object.assign(['/b'], it) } })], ['startVs', 1, (it) => rowsOf(text('\ta', { pieces: [{ start: 0, end: 2, ...it }] }))],
    ['endVs', 1, (it) => rowsOf(text('a\t', { pieces: [{ start: 0, end: 1, ...it }] }))],
  ]) {
    for (const call of calls) {
      const wanted = outcomeOf(() => call({}));
      assert.notDeepEqual(outcomeOf(() => call({ [name]: value })), wanted, `${name} changes nothing: ${call}`);
      assert.deepEqual(outcomeOf(() => call({ [name]: undefined })), wanted, `${name}: ${call}`);
      assert.deepEqual(outcomeOf(() => call(Object.create({ [name]: value }))), wanted, `${name} is inherited: ${call}`);
      Object.prototype[name] = value;
      try {
        assert.deepEqual([outcomeOf(() => call()), outcomeOf(() => call({}))], [wanted, wanted], `${name} is that of Object.prototype: ${call}`);
      } finally {
        delete Object.prototype[name];
      }
    }
  }
  // What the package keeps of a link, and its tables.
  const given = '[a](b) <c:d>', wanted = links(given);
  for (const [name, value] of [['address', ['javascript:', 0, 0]], ['Data', 'link'], ['crate', 0], ['commonmark', 0], ['__proto__x', true]]) {
    Object.prototype[name] = value;
    try {
      assert.deepEqual([links(given), html('*a*')], [wanted, '<em>a</em>'], name);
    } finally {
      delete Object.prototype[name];
    }
  }
});

test('options are an object', () => {
  const calls = [
    render, parse, markdownInline.links, html, links, text, tree, string, leaves, isText, isContent, ...[texts, shortTexts, htmls, strings, piecesOfLines].map((it) => (document, options) => it(document, [], options)),
    (_, options) => reference('&amp;', options), (_, options) => create(options),
  ];
  for (const call of calls) {
    for (const wrong of [1, 0, 'a', '', true, null, [], ['html'], Symbol('a'), () => {}, new Map([['html', 'raw']]), new Uint8Array()]) assert.throws(() => call('a', wrong), { name: 'TypeError', message: /options/ }, String(call));
    for (const name of ['nonsense', 'constructor', 'toString', '__proto__']) assert.throws(() => call('a', Object.defineProperty({}, name, { value: true, enumerable: true })), { name: 'TypeError', message: new RegExp(name) });
    call('a', { nonsense: undefined });
  }
  // Options of another call.
  for (const call of [() => text('a', { html: 'raw' }), () => render('a', { pieces: null }), () => strings('a', [], { pieces: null }), () => isText('a', { gfm: true }), () => html('a', { lineFeeds: true })]) assert.throws(call, TypeError);
  for (const rules of ['constructor', 'toString', '__proto__']) assert.throws(() => text('a', { rules }), RangeError);
});

test('rows are sequences', () => {
  const events = text('a *b*'), both = texts('a *b*', [[0, 1], [2, 5]]);
  assert.equal(events.length, [...events].length);
  assert.deepEqual(events.at(-1), [...events].at(-1));
  assert.equal(events.at(events.length), undefined);
  assert.equal(events.at(-1 - events.length), undefined);
  assert.deepEqual([...both].map((it) => it.length), [2, 10]);
  assert.deepEqual([...both.at(-1)].slice(0, 2).map(({ name, offset }) => [name, offset]), [['Emphasis', 2], ['EmphasisSequence', 2]]);
  assert.equal(both.at(2), undefined);
  assert.deepEqual([...texts('a', [])], []);
  assert.equal(text('').length, 0);
});

test('offsets count units of UTF-16', () => {
  const given = '> é 😀 *a\n> 漢* b', pieces = [[2, 10], [12, 16]];
  const found = [...text(given, { pieces })].filter(({ name }) => name === 'Emphasis');
  assert.deepEqual(found.map(({ line, column, offset, byteColumn, byte }) => [line, column, offset, byteColumn, byte]), [[1, 8, 7, 11, 10], [2, 5, 14, 7, 19]]);
  assert.equal(given.slice(found[0].offset, found[1].offset), '*a\n> 漢*');
  // Half of a pair is no place, and neither is what stands behind the end.
  for (const wrong of [[[0, 1]], [[1, 2]], [[0, 3]]]) refuses('NO_CONTENT', () => text('😀', { pieces: wrong }));
  assert.equal(text('😀', { pieces: [[0, 2]] }).length, 2);
  assert.equal(text('😀', { pieces: [[0, 4]], offsets: 'bytes' }).length, 2);
  refuses('NO_CONTENT', () => text('é', { pieces: [[0, 2]] }));
  // Half of a pair that stands alone is read as U+FFFD, and is one unit.
  assert.equal(html('\ud800 *a\udc00*'), '\ufffd <em>a\ufffd</em>');
  assert.equal([...text('\ud800 *a*')].find(({ name }) => name === 'Emphasis').offset, 2);
  // A mark of the order of bytes stays.
  assert.equal(html('\ufeffa'), '\ufeffa');
  assert.equal(html(bytesOf('\ufeffa')), '\ufeffa');
});

test('short events tell the characters of references', () => {
  const told = [...shortTexts('&amp; &#x1f600; &ngE; &#0; [a](b)', [[0, 33]]).at(0)].filter(({ enter, name }) => enter && name === 'CharacterReference');
  assert.deepEqual(told.map(({ standsFor, definition }) => [standsFor, definition]), [['&', null], ['😀', null], [null, null], ['\ufffd', null]]);
});

test('definitions are a list, a Map or an object', () => {
  const numberOf = (definitions) => shortTexts('[A  b]', [[0, 6]], { definitions }).at(0).at(0).definition;
  for (const definitions of [['c', 'a b'], new Set(['c', 'a b']), new Map([['c', ''], ['a b', '']]), { c: '', 'a b': '' }]) assert.equal(numberOf(definitions), 1);
  for (const target of ['/c', ['/c'], ['/c', null], { destination: '/c' }, bytesOf('/c')]) {
    for (const definitions of [{ 'a b': target }, new Map([['a b', target]]), new Map([[bytesOf('a b'), target]])]) assert.equal(html('[A  b]', { definitions }), '<a href="/c">A  b</a>');
  }
});

test('an argument that is read may call too', () => {
  const definitions = new Map(), pieces = function* () { yield [0, Number(html('*a*') === '<em>a</em>' && html('a '.repeat(1e5) + 'b').length > 0 && 3)]; };
  assert.equal(html('*b*', { pieces: pieces(), definitions }), '<em>b</em>');
});

test('links', () => {
  const given = 'é [a](</b c> "d") 😀 <ef:g>\n![g][G] <h@i.j> www.k.l m@n.o', found = links(given, { gfm: true, definitions: { G: ['/p', null] } });
  assert.deepEqual(found.map(({ kind, line, column, destination, title, definition }) => [kind, line, column, destination, title, definition]), [
    ['link', 1, 3, '/b c', 'd', null], ['autolink', 1, 22, 'ef:g', null, null], ['image', 2, 1, '/p', null, 0], ['autolink', 2, 9, 'mailto:h@i.j', null, null],
    ['literal', 2, 17, 'http://www.k.l', null, null], ['literal', 2, 25, 'mailto:m@n.o', null, null]]);
  assert.deepEqual(found.map(({ offset, endOffset }) => given.slice(offset, endOffset)), ['[a](</b c> "d")', '<ef:g>', '![g][G]', '<h@i.j>', 'www.k.l', 'm@n.o']);
  const bytes = bytesOf(given), again = links(bytes, { gfm: true, definitions: { G: ['/p', null] } });
  assert.deepEqual(again.map(({ byte, endByte, byteColumn, destination }) => [byte, endByte, byteColumn, destination]), found.map(({ byte, endByte, byteColumn, destination }) => [byte, endByte, byteColumn, destination]));
  assert.deepEqual(again.map(({ offset, column }) => [offset, column]), found.map(({ byte, byteColumn }) => [byte, byteColumn]));
  const parts = links('> [a](b\r\n> "c\n> d") [e](f "") [x] g', { pieces: [[2, 9], [11, 14], [16, 35]], task: true });
  assert.deepEqual(parts.map(({ line, column, destination, title, content }) => [line, column, destination, title, content]), [[1, 3, 'b', 'c\nd', 0], [3, 7, 'f', '', 0]]);
  assert.deepEqual(links('[a](b)\n\n[c](d)', { contents: [[8, 14], [0, 6]] }).map(({ line, destination, content }) => [line, destination, content]), [[3, 'd', 0], [1, 'b', 1]]);
});

test('a tree', () => {
  const found = tree('a *b **c*** é', { gfm: true });
  assert.deepEqual(found.children.map(({ name, text: words }) => [name, words]), [['Data', 'a '], ['Emphasis', '*b **c***'], ['Data', ' é']]);
  const [emphasis] = found.find('Emphasis');
  assert.deepEqual(emphasis.children.map((it) => it.text), ['*', 'b **c**', '*']);
  assert.deepEqual([emphasis.enter, emphasis.exit], [...text('a *b **c*** é')].filter(({ name }) => name === 'Emphasis'));
  assert.deepEqual([...emphasis.find('Data', 'Emphasis')].map((it) => it.text), ['b ', 'c']);
  assert.deepEqual([[...found.children[0].walk()], found.text, tree('').children, tree('').text], [[], 'a *b **c*** é', [], '']);
  // Pieces, and bytes.
  assert.deepEqual([...tree('> é *b\n> c*', { pieces: [[2, 7], [9, 11]] }).find('Emphasis', 'LineEnding')].map((it) => it.text), ['*b\nc*', '\n']);
  assert.deepEqual([...tree(bytesOf('é *漢*')).find('Emphasis')].map((it) => it.text), ['*漢*']);
  assert.deepEqual([...tree('[](a)').find('LabelText')].map((it) => it.text), ['']);
  // Each node has what stands from its first event to its last.
  const given = '*a* **b _c_** [d ![e](f)](g "h\ni") `j` <kk:l> &amp; \\* 😀  \nm', opened = [], spans = [];
  for (const it of text(given)) {
    if (it.enter) spans.push(opened[opened.length] = { name: it.name, depth: opened.length, offset: it.offset });
    else opened.pop().end = it.offset;
  }
  assert.deepEqual([...tree(given).walk()].map((it) => [it.name, it.text]), spans.map(({ name, offset, end }) => [name, given.slice(offset, end)]));
  const depths = [], look = (node, depth) => node.children.forEach((it) => {
    depths.push(depth);
    look(it, depth + 1);
  });
  look(tree(given), 0);
  assert.deepEqual(depths, spans.map(({ depth }) => depth));
  const [deep] = tree('*a **a '.repeat(20000) + 'b' + '***'.repeat(20000)).find('Emphasis');
  assert.equal(deep.text.length, 200001);
  assert.ok([...deep.walk()].length > 100000);
});

test('the package in one file', () => {
  const given = 'é *a* **b _c_** [d ![e](f)](g "h\ni") `j` <kk:l> &amp; \\* 😀 [m][n]  \no', definitions = { n: ['/p', 'q'] };
  assert.deepEqual([inside, inside.inline].map((it) => Object.keys(it).sort()), [markdownInline, markdownInline.inline].map((it) => Object.keys(it)));
  for (const call of [
    (on) => on.render(given), (on) => Array.from(on.parse(given), (it) => [{ ...it }, [...it.events], it.html]), (on) => on.links(given), (on) => on.create({ maximum: 1 << 20 }).render(given),
  ]) assert.deepEqual(call(inside), call(markdownInline), String(call));
  for (const call of [
    (on) => [...on.text(given, { definitions })], (on) => [...on.string(given)], (on) => [...on.leaves(given, { definitions })], (on) => [...on.tree(given).walk()].map((it) => [it.name, it.text]),
    (on) => Array.from(on.texts(given, [[0, 5]]), (it) => [...it]), (on) => Array.from(on.shortTexts(given, [[0, 5], [6, 20]], { definitions }), (it) => [...it]),
    (on) => on.html(given, { definitions }), (on) => on.htmls(given, [[0, 5], [6, 20]]), (on) => on.strings(given, [[[0, 5]]]), (on) => on.piecesOfLines(given, [[0]]), (on) => on.identifier(given), (on) => on.reference('&check;'),
    (on) => on.isText(given), (on) => on.isContent(given), (on) => on.links(given, { definitions }), (on) => [on.NAMES, on.OPTIONS, on.GFM],
  ]) assert.deepEqual(call(inside.inline), call(markdownInline.inline), String(call));
});

test('documents have HTML', () => {
  // Examples of CommonMark 0.31.2 (2.2, 4.6, 4.7, 5.1), and what the options change.
  const div = '<div id="foo"\n  class="bar">\n</div>\n', given = '<b>\n\n[a](b:c)\n';
  for (const [document, options, wanted] of [
    ['- foo\n\n\t\tbar\n', undefined, '<ul>\n<li>\n<p>foo</p>\n<pre><code>  bar\n</code></pre>\n</li>\n</ul>\n'], ['', {}, ''],
    ['[foo]: /url "title"\n\n[foo]\n', undefined, '<p><a href="/url" title="title">foo</a></p>\n'], ['> # Foo\n> bar\n> baz\n', {}, '<blockquote>\n<h1>Foo</h1>\n<p>bar\nbaz</p>\n</blockquote>\n'],
    [div, { html: 'raw', anyLink: undefined }, div], [given, {}, '&lt;b&gt;\n<p><a href="">a</a></p>\n'], [given, { html: 'raw' }, '<b>\n<p><a href="">a</a></p>\n'],
    [given, { anyLink: true }, '&lt;b&gt;\n<p><a href="b:c">a</a></p>\n'], [given, { html: 'raw', anyLink: true }, '<b>\n<p><a href="b:c">a</a></p>\n'],
  ]) for (const it of [document, bytesOf(document)]) assert.equal(render(it, options), wanted);
  // Half of a pair that stands alone is read as U+FFFD.
  assert.equal(render('# \ud800é'), '<h1>\ufffdé</h1>\n');
});

test('constructs of documents are added one by one', () => {
  // Examples of GFM 0.29 (6.5, 6.9, 5.3), math and front matter, each read with one construct and without.
  const rows = [
    ['strikethrough', '~~Hi~~ Hello, ~there~ world!\n', '<p><del>Hi</del> Hello, <del>there</del> world!</p>\n', '<p>~~Hi~~ Hello, ~there~ world!</p>\n'],
    ['strikethrough', 'This will ~~~not~~~ strike.\n', ...Array(2).fill('<p>This will ~~~not~~~ strike.</p>\n')],
    ['bareUrls', 'www.commonmark.org\n\n> foo@bar.baz\n', '<p><a href="http://www.commonmark.org">www.commonmark.org</a></p>\n<blockquote>\n<p><a href="mailto:foo@bar.baz">foo@bar.baz</a></p>\n</blockquote>\n', '<p>www.commonmark.org</p>\n<blockquote>\n<p>foo@bar.baz</p>\n</blockquote>\n'],
    ['tasks', '- [ ] foo\n- [x] bar\n', '<ul>\n<li><input type="checkbox" disabled="" /> foo</li>\n<li><input type="checkbox" disabled="" checked="" /> bar</li>\n</ul>\n', '<ul>\n<li>[ ] foo</li>\n<li>[x] bar</li>\n</ul>\n'],
    ['math', '$a$ $$b$$\n', '<p><code class="language-math math-inline">a</code> <code class="language-math math-inline">b</code></p>\n', '<p>$a$ $$b$$</p>\n'],
    ['math', '$$\na\n$$\n', '<pre><code class="language-math math-display">a\n</code></pre>\n', '<p>$$\na\n$$</p>\n'],
    ['frontMatter', '---\na: b\n---\nc\n', '<p>c</p>\n', '<hr />\n<h2>a: b</h2>\n<p>c</p>\n'], ['frontMatter', '+++\na = 1\n+++\n', '', '<p>+++\na = 1\n+++</p>\n'],
  ];
  for (const [name, document, added, plain] of rows) {
    for (const given of [document, bytesOf(document)]) {
      assert.equal(render(given, { [name]: true }), added);
      for (const other of ['strikethrough', 'bareUrls', 'tasks', 'math', 'frontMatter']) if (other !== name) assert.equal(render(given, { [other]: true }), plain);
      for (const options of [undefined, {}, { [name]: false }, { [name]: undefined }]) assert.equal(render(given, options), plain);
    }
  }
});

test('line endings are written as asked', () => {
  const given = 'a\r\nb\rc\n\n    d\r\n';
  for (const [options, wanted] of [
    [{}, '<p>a\r\nb\rc</p>\n<pre><code>d\r\n</code></pre>\n'], [{ lineEnds: '\n' }, '<p>a\nb\nc</p>\n<pre><code>d\n</code></pre>\n'],
    [{ lineEnds: '\r\n' }, '<p>a\r\nb\r\nc</p>\r\n<pre><code>d\r\n</code></pre>\r\n'],
  ]) {
    assert.equal(render(given, options), wanted);
    const inline = `a${options.lineEnds ?? '\r'}b`;
    assert.deepEqual([html('a\rb', options), htmls('a\rb', [[0, 3]], options), parse('a\rb', options).htmls], [inline, [inline], [inline]]);
  }
});

test('a byte order mark is passed over', () => {
  for (const document of ['# a [b](c)\n', '> a\n', '[a]: /b\n\n[a]\n', '']) {
    for (const [marked, plain, width] of [['\ufeff' + document, document, 1], [bytesOf('\ufeff' + document), bytesOf(document), 3]]) {
      assert.equal(render(marked), render(plain));
      const [found, wanted] = [parse(marked), parse(plain)], told = ({ kind, depth, line, lines, html }) => [kind, depth, line, lines, html];
      assert.deepEqual([Array.from(found, told), found.definitions], [Array.from(wanted, told), wanted.definitions]);
      assert.deepEqual(Array.from(found, ({ pieces }) => pieces.map(([start]) => start)), Array.from(wanted, ({ pieces }) => pieces.map(([start]) => start + width)));
    }
  }
  // Code with tabs on the first line is that of the HTML.
  for (const given of ['\ufeff>\t\ta\n', bytesOf('\ufeff>\t\ta\n')]) {
    assert.equal(render(given), `<blockquote>\n<pre><code>${parse(given).at(1).lines.join('')}</code></pre>\n</blockquote>\n`);
  }
});

test('definitions bring no more than a limit', () => {
  const document = '[a]\n\n'.repeat(101) + '[a]: ' + 'x'.repeat(1000), found = parse(document);
  for (const options of [undefined, { limit: 100999 }]) refuses('REFERENCES', () => render(document, options));
  for (const limit of [101000, Infinity]) assert.equal(render(document, { limit }).length, 101 * 1024);
  assert.equal(render(document + '\n\n' + 'y'.repeat(100000)).length, 101 * 1024 + 100008);
  refuses('REFERENCES', () => found.at(0).html, 100);
  assert.equal(found.texts.length, 102);
  assert.equal(parse(document, { limit: Infinity }).htmls.length, 102);
});

const DOCUMENT = '# é *a*\n\n> 3) [b][B] ![c](/d)\n>    `e`\n>\n> 4) ~~~ f&amp;g\n>    \th\n>    ~~~\n\n***\n- 😀i\n- [x] <jj:k>\n<!-- l\n\nm\n=\n[b]: </n> "o"\n';

test('blocks are told', () => {
  const rows = [
    ['Heading', 0, 1, null, false, false, false, 1, ['é *a*']], ['BlankLine', 0, 0, null, false, false, false, 2, []], ['Quote', 0, 0, null, false, false, false, 3, []],
    ['Item', 1, 3, ')', true, false, true, 3, []], ['Paragraph', 2, 0, null, false, false, false, 3, ['[b][B] ![c](/d)\n', '`e`']], ['BlankLine', 2, 0, null, false, false, false, 5, []],
    ['Item', 1, 4, ')', false, true, true, 6, []], ['FencedCode', 2, 0, '~', false, false, false, 6, ['\th\n']], ['BlankLine', 0, 0, null, false, false, false, 9, []],
    ['ThematicBreak', 0, 0, null, false, false, false, 10, []], ['Item', 0, 0, '-', true, false, false, 11, []], ['Paragraph', 1, 0, null, false, false, false, 11, ['😀i']],
    ['Item', 0, 0, '-', false, true, false, 12, []], ['Paragraph', 1, 0, null, false, false, false, 12, ['[x] <jj:k>']],
    ['Html', 0, 2, null, false, false, false, 13, ['<!-- l\n', '\n', 'm\n', '=\n', '[b]: </n> "o"\n']],
  ];
  for (const given of [DOCUMENT, bytesOf(DOCUMENT)]) {
    const found = parse(given), told = ({ kind, depth, number, marker, beginsList, endsList, isLoose, line, lines }) => [kind, depth, number, marker, beginsList, endsList, isLoose, line, lines];
    assert.deepEqual(Array.from(found, told), rows);
    assert.deepEqual([found.length, told(found.at(-1)), found.at(15), found.at(-16)], [15, rows[14], undefined, undefined]);
    assert.deepEqual(Array.from(found, (it) => it.info).filter((it) => it !== null), ['f&g']);
    // Emphasis in the heading, an image, and an autolink: offsets and columns count what the document is made of.
    const wide = typeof given === 'string', [emphasis] = [...found.at(0).events].filter(({ name }) => name === 'Emphasis');
    assert.deepEqual([emphasis.line, emphasis.column, emphasis.offset, emphasis.byte], wide ? [1, 5, 4, 5] : [1, 6, 5, 5]);
    assert.deepEqual(found.links.map(({ kind, line, column, byte, destination }) => [kind, line, column, byte, destination]), [['image', 3, 13, 22, '/d'], ['autolink', 12, 7, 95, 'jj:k']]);
    assert.deepEqual([found.at(0).pieces, found.at(4).pieces.length], [[[2, wide ? 7 : 8, 0, 0]], 2]);
  }
});

test('front matter and math are blocks', () => {
  const document = '\ufeff+++\n\n[é]: /u\n+++\n> $$$ x&amp;y\n> [a](b)\n\n[é]: /v\n[é]\n';
  for (const given of [document, bytesOf(document)]) {
    const found = parse(given, { math: true, frontMatter: true }), decoded = (start, end) => typeof given === 'string' ? given.slice(start, end) : new TextDecoder().decode(given.slice(start, end));
    assert.deepEqual(Array.from(found, ({ kind, depth, number, marker, line, info, lines }) => [kind, depth, number, marker, line, info, lines]), [
      ['FrontMatter', 0, 0, null, 1, null, ['\n', '[é]: /u\n']], ['Quote', 0, 0, null, 5, null, []], ['FencedCode', 1, 0, '$', 5, 'x&y', ['[a](b)\n']], ['BlankLine', 0, 0, null, 7, null, []], ['Paragraph', 0, 0, null, 8, null, ['[é]']],
    ]);
    assert.deepEqual(found.at(0).pieces.map(([start, end]) => decoded(start, end)), ['\n', '[é]: /u\n']);
    assert.deepEqual([found.at(0).content, found.at(0).html, found.at(0).links], [null, '', []]);
    // A definition in front matter is none.
    assert.deepEqual([found.definitions, found.links.map(({ destination, line }) => [destination, line]), found.htmls], [[{ label: 'é', destination: '/v', title: null }], [['/v', 9]], ['<a href="/v">é</a>']]);
    assert.deepEqual(parse(given).definitions.map(({ destination }) => destination), ['/u', '/v']);
    assert.deepEqual([found.frontMatter, parse(given).frontMatter, parse(given, { math: true }).frontMatter], [{ lang: 'toml', text: '\n[é]: /u\n' }, null, null]);
  }
  for (const [given, wanted] of [
    ['---\na: b\n---', { lang: 'yaml', text: 'a: b\n' }], ['---\n---\n', { lang: 'yaml', text: '' }], ['+++ \t\r\na\rb\r\n+++ ', { lang: 'toml', text: 'a\nb\n' }], ['---\n\0\n---', { lang: 'yaml', text: '\ufffd\n' }], ['---\na\n', null], ['a', null], ['', null], ['\n---\n---', null],
  ]) for (const it of [given, bytesOf(given)]) assert.deepEqual(parse(it, { frontMatter: true }).frontMatter, wanted);
});

test('texts of blocks are those of their pieces', () => {
  const definitions = { b: ['/n', 'o'] }, constructs = { strikethrough: true, bareUrls: true, tasks: true, math: true };
  for (const given of [DOCUMENT.replace('<!--', '!'), bytesOf(DOCUMENT.replace('<!--', '!'))]) {
    const found = parse(given, { ...constructs, html: 'raw' }), having = [...found].filter(({ content }) => content !== null);
    const contents = having.map(({ pieces, lines }) => ({ pieces, firstOfItem: lines[0]?.startsWith('[x]') === true })), asked = { gfm: true, math: true, gfmLabelStartFootnote: false, definitions };
    assert.deepEqual(having.map(({ kind, content }) => [kind, content]), [['Heading', 0], ['Paragraph', 1], ['Paragraph', 2], ['Paragraph', 3], ['Heading', 4], ['Paragraph', 5]]);
    assert.deepEqual(having.map(({ events }) => [...events]), Array.from(texts(given, contents, asked), (it) => [...it]));
    assert.deepEqual(having.map(({ shortEvents }) => [...shortEvents]), Array.from(shortTexts(given, contents, asked), (it) => [...it]));
    assert.deepEqual(having.map((it) => it.html), htmls(given, contents, { ...asked, html: 'raw' }));
    assert.deepEqual([found.htmls, markdownInline.links(given, constructs), having.flatMap((it) => it.links)], [having.map((it) => it.html), links(given, { ...asked, contents }), found.links]);
    const [other] = [...found].filter(({ content }) => content === null);
    assert.deepEqual([[...other.events], [...other.shortEvents], other.html, other.links], [[], [], '', []]);
  }
});

test('blocks have definitions and checks of tasks', () => {
  const found = parse('[A]: /b "c"\n[a]: <d&amp;\\*>\n\n> [é\n> f]:\n> g\n\n[a] [é f]');
  assert.deepEqual(found.definitions, [{ label: 'A', destination: '/b', title: 'c' }, { label: 'a', destination: 'd&*', title: null }, { label: 'é\nf', destination: 'g', title: null }]);
  assert.deepEqual(found.links.map(({ destination, title, definition }) => [destination, title, definition]), [['/b', 'c', 0], ['g', null, 2]]);
  assert.deepEqual([[...parse('')], parse('').definitions, parse('').htmls, parse('').links, parse('').texts.length], [[], [], [], [], 0]);
  for (const [document, many] of [['- [x] a\n- b\n- [ ] c', 2], ['-\n  [x] a', 1], ['- [r]: /s\n\n  [x] a', 1], ['- > [x] a', 0], ['- # a\n\n  [x] b', 0], ['-\n\n[x] a', 0], ['- - [x] a\n\n  [x] b', 1]]) {
    assert.equal(parse(document, { tasks: true }).htmls.join('').split('checkbox').length - 1, many, document);
  }
  // Of a tab that a container cuts the columns that are left are spaces.
  for (const [document, lines] of [['-\t\ta\n', ['  a\n']], ['>\t\ta\n> \tb', ['  a\n']], ['> ~~~\n>\t\té\r\n>', ['  \té\r\n', '']], ['~~~', []]]) {
    for (const given of [document, bytesOf(document)]) assert.deepEqual([...parse(given)].find(({ kind }) => kind.endsWith('Code')).lines, lines);
  }
  assert.deepEqual(parse('> <pre>a\n>').at(1).lines, ['<pre>a\n']);
  // What is written to the bytes later changes nothing.
  const bytes = bytesOf('*a*'), kept = parse(bytes);
  bytes.fill(0x62);
  assert.deepEqual(kept.htmls, ['<em>a</em>']);
  // Half of a pair that stands alone is one unit.
  assert.deepEqual([parse('\ud800\n\n# *a*').at(2).pieces, parse('\ud800\n\n# *a*').at(2).events.at(0).offset], [[[5, 8, 0, 0]], 5]);
});

test('pieces are made of lines', () => {
  assert.deepEqual(piecesOfLines('> a *b\n> c*\n\n- \té\r\n  😀 \n', [[1, 8], [], [14, 19]]), [[[2, 7], [9, 11]], [], [[16, 19], [21, 23]]]);
  const given = 'é\n> 😀a  \n', pieces = [[0, 2], [4, 7]], bytes = [[0, 3], [5, 10]];
  assert.deepEqual([piecesOfLines(given, [[0, 3]]), piecesOfLines(given, [[0, 4]], { offsets: 'bytes' }), piecesOfLines(bytesOf(given), [[0, 4]])], [[pieces], [bytes], [bytes]]);
  assert.ok(isText(given, { pieces }) && isText(given, { pieces: bytes, offsets: 'bytes' }));
  assert.deepEqual([piecesOfLines('', []), piecesOfLines('a', [[]])], [[], [[]]]);
  for (const wrong of [[0, 0], [2, 0], [0, 5], [0, 9], [2 ** 40]]) refuses('NO_CONTENT', () => piecesOfLines('a\nb\nc', [[0], wrong]), 1);
  refuses('NO_CONTENT', () => piecesOfLines('😀', [[1]]), 0);
  refuses('BLANK_LINE', () => piecesOfLines('a\n \t\nb', [[0], [5], [0, 2]]), 2);
});

test('the rest of the calls', () => {
  assert.deepEqual([identifier(' A\n B '), identifier(''), identifier('\u1e9e')], ['a b', '', 'ss']);
  assert.deepEqual(['&amp;', '&#X1f600;', '&#0;', '&check;'].map((it) => reference(it)), ['&', '\u{1f600}', '\ufffd', '✓']);
  refuses('NO_REFERENCE', () => reference('&check;', { rules: 'crate' }));
  assert.deepEqual([isText('a\nb'), isContent('a\n\nb'), isText('a\n\nb'), isContent(WRONG), isContent('a', { pieces: [[0, 2]] })], [true, true, false, false, false]);
  assert.deepEqual(strings('é\\* &amp;', [[[0, 3]], [], [[4, 9]]]), ['é*', '', '&']);
  for (const [options, written] of [[{}, 'a\r\nb\rc\0\r'], [{ lineFeeds: true }, 'a\nb\nc\0\r'], [{ replacedNul: true }, 'a\r\nb\rc\ufffd\r'], [{ lineFeeds: true, replacedNul: true }, 'a\nb\nc\ufffd\r']]) {
    assert.deepEqual(strings('a\r\nb\rc\0&#13;', [[[0, 2], [2, 12]]], options), [written]);
  }
  assert.deepEqual([...leaves(bytesOf('a*é*'))].map(({ content }) => content), ['a', '*', 'é', '*'].map(bytesOf));
  assert.deepEqual(htmls('a[^b]\n\n[^b]', [[0, 5], [7, 11]], { gfm: true, footnotes: ['b'] }).length, 2);
  assert.equal(html('~a~ $b$', { bits: COMMONMARK | GFM }), html('~a~ $b$', { gfm: true }));
  assert.equal(html('*a* `b`', { codeText: false }), '<em>a</em> `b`');
});

const HOSTILE = ['[', '[a](b', '![[]()', '*a_', '**a ', '<a href="', '<!--', '<?', '\\[', '[x]( ', '![', '&', '~', '`a``', 'a@b.c ', 'www.a', '😀*', 'é[', '\n*a', '](b)'];

/** The shortest of three times in milliseconds. */
const timeOf = (run) => Math.min(...[1, 2, 3].map(() => {
  const begin = performance.now();
  run();
  return performance.now() - begin;
}));

/** Whether four times as much takes about four times as long. Other work on the machine may slow one of the times, so it is tried three times. */
function isLinear(run, few, what) {
  const tried = [];
  for (let at = 0; at < 3; at++) {
    const times = [few, 4 * few].map((many) => timeOf(() => run(many)));
    if (times[1] < 9 * times[0] + 50) return;
    tried.push(times.map(Math.round));
  }
  assert.fail(`${what}: milliseconds, and those of four times as much: ${tried.join('; ')}`);
}

test('hostile texts take time in proportion to their length', () => {
  const gfm = { gfm: true };
  for (const it of HOSTILE) {
    const long = (length) => ('a' + it.repeat(length / it.length)).trimEnd();
    for (const call of [html, text, links, (given) => render(given), (given) => parse(given).links, (given) => toHtml(parse(given), { handlers: { text: () => null } }), (given) => parse(given).toMdast()]) isLinear((length) => call(long(length), gfm), 8000, JSON.stringify(it));
  }
});

test('contents cost what they cost by themselves', () => {
  const contents = (many) => Array.from({ length: many }, (_, at) => [7 * at, 7 * at + 5]);
  isLinear((many) => texts('é*a* b\n'.repeat(many), contents(many)), 1000, 'contents');
  isLinear((many) => Array.from(parse('é [a](b)\n\n-\t\tc\n\n'.repeat(many)), (it) => [it.line, it.lines, it.links, it.html]), 1000, 'blocks');
  for (const it of ['[a]: b\n', '> - [a]\n>   c: <d>\n', '- a\n\n', '>', '- ', '[a]\n\n[a]: b\n\n']) isLinear((many) => [toHtml(parse(it.repeat(many), { limit: Infinity }), { handlers: { text: () => null } }), parse(it.repeat(many)).toJson()], 1000, `nodes of ${it}`);
});

/** A number of WebAssembly: seven bits a byte, the lowest first. */
const leb = (number) => number < 128 ? [number] : [number % 128 + 128, ...leb(Math.floor(number / 128))];

/** The module with a memory that the engine does not let grow past so many pages. */
function withMaximum(pages) {
  const bytes = [...readFileSync(beside('../../out/javascript/markdown_inline.wasm'))];
  const numberAt = (at) => bytes[at] < 128 ? [bytes[at], at + 1] : (([number, end]) => [bytes[at] - 128 + 128 * number, end])(numberAt(at + 1));
  for (let at = 8; at < bytes.length;) {
    const [size, from] = numberAt(at + 1);
    if (bytes[at] === 5) {
      const [, end] = numberAt(from + 2), content = [1, 1, ...bytes.slice(from + 2, end), ...leb(pages)];
      return new WebAssembly.Module(Uint8Array.from([...bytes.slice(0, at), 5, ...leb(content.length), ...content, ...bytes.slice(from + size)]));
    }
    at = from + size;
  }
  throw new Error('the module has no memory of its own');
}

test('refused memory is an error', () => {
  for (const { render, parse, inline } of [create({ maximum: 1 << 20 }), callsOf(withMaximum(16))]) {
    const calls = { text: (given) => inline.text(given).length, html: inline.html, render, parse: (given) => parse(given).length, texts: (given) => inline.texts(given, [[0, given.length]]).length, links: (given) => inline.links(given).length };
    for (const [name, call] of Object.entries(calls)) {
      let refused = 0;
      for (let length = 6; length < 3000000; length = Math.ceil(length * 1.2)) {
        try {
          call('*a* é '.repeat(length / 6) + 'b');
        } catch (error) {
          assert.equal(error.code, 'NO_MEMORY', `${name}: ${error}`);
          refused++;
        }
        assert.equal(inline.html('*a*'), '<em>a</em>');
      }
      assert.ok(refused > 5, name);
    }
  }
});

test('a used-up stack spoils no later call', () => {
  // Each frame calls once those below it have ended: the lowest fail, each of them with a little more room on the stack, and the next find the answer.
  const given = '*a* [b](c) **d *e* f** `g` <h>'.repeat(20), wanted = html(given);
  let failed = 0, right = 0;
  const dive = () => {
    try {
      dive();
    } catch (error) {
      if (!(error instanceof RangeError)) throw error;
      failed++;
    }
    if (right < 5) {
      if (html(given) !== wanted) throw new Error('another answer');
      right++;
    }
  };
  for (let round = 0; round < 100; round++) {
    right = 0;
    dive();
  }
  assert.ok(failed > 100, `${failed} calls failed`);
  assert.equal(html(given), wanted);
});
