// The nodes of documents: HTML that is rendered of them, what their positions cut out, the trees of mdast, and what each kind has.
import assert from 'node:assert/strict';
import { spawnSync } from 'node:child_process';
import { readFileSync, readdirSync } from 'node:fs';
import test from 'node:test';
import { fileURLToPath } from 'node:url';
import { MarkdownInlineError, parse, render, slugger, toHtml } from '../../out/javascript/index.js';

const beside = (name) => fileURLToPath(new URL(name, import.meta.url));
const bytesOf = (given) => new TextEncoder().encode(given);
const textOf = (given) => typeof given === 'string' ? given : new TextDecoder('utf-8', { ignoreBOM: true }).decode(given);
const CONSTRUCTS = { strikethrough: true, bareUrls: true, tasks: true, math: true, frontMatter: true };
// Handlers that change nothing, so that the nodes of texts are rendered too.
const EACH = Object.fromEntries(['text', 'emphasis', 'link', 'list', 'code'].map((it) => [it, () => null]));
const ROOT = beside('../../../');
const PAGES = [ROOT, `${ROOT}docs/`, `${ROOT}crates/markdown_inline/`].flatMap((folder) => readdirSync(folder).filter((it) => it.endsWith('.md')).map((it) => readFileSync(folder + it, 'utf8')));

test('the HTML of nodes is that of pages', { skip: spawnSync('python3', ['--version']).status !== 0 }, () => {
  const said = spawnSync('python3', [beside('rows.py'), 'pages'], { encoding: 'utf8' }), rows = said.stdout.trimEnd().split('\n').map((it) => JSON.parse(it));
  const names = { strikethrough: 'strikethrough', bare_urls: 'bareUrls', tasks: 'tasks', math: 'math', front_matter: 'frontMatter' };
  assert.ok(rows.length >= 652);
  for (const [words, document, wanted] of rows) {
    const options = Object.fromEntries(words.filter((it) => it in names).map((it) => [names[it], true]));
    if (!words.includes('safe')) Object.assign(options, { html: 'raw', anyLink: true });
    if (words.includes('lf') || words.includes('crlf')) options.lineEnds = words.includes('lf') ? '\n' : '\r\n';
    for (const given of [document, bytesOf(document)]) for (const handlers of [undefined, EACH]) assert.equal(toHtml(parse(given, options), { handlers }), wanted, document);
  }
});

/** A number below another, and the same each time. */
function random(seed) {
  let state = seed;
  return (below) => {
    state = (Math.imul(state, 1664525) + 1013904223) >>> 0;
    return Math.floor(state / 2 ** 32 * below);
  };
}

const PARTS = [
  'a', 'b c', '> ', '>', '- ', '* ', '1. ', '2) ', '    ', '  ', '\t', '```', '~~~', '===', '---', '# ', '#', '***', '<div>', '</div>', '<!--', '-->', '<a>', '[a]: b', '[a]:', '"t', '"', '`', '\\', '*a*', '[a]',
  '![a](b)', '<c:d>', '&amp;', 'é', '**', '😀', '[a]: <b> "c"', '[e]: f\n"g\nh"', '- [x] ', '\n\n', '~~', '$', 'www.a.b', '(c "d")', '[k\nl]: ', '(t)', "'t'", '\\]', '&ngE;', '&#13;', '&#10;', '\0', '_', '[', '](', ')', '](a)', '$$', '$$$', '+++',
];

/** A random document. */
function documentBy(draw) {
  const line = () => Array.from({ length: [0, 1, 1, 2, 2, 3, 4, 5][draw(8)] }, () => PARTS[draw(PARTS.length)]).join('');
  const fence = ['---', '+++'][draw(2)], matter = draw(6) === 0 ? `${fence}\n${line()}${['\n', '\r\n', '\r'][draw(3)]}${fence} \n` : '';
  return (draw(20) === 0 ? '\ufeff' : '') + matter + Array.from({ length: 1 + draw(11) }, () => line() + ['\n', '\n', '\n', '\r\n', '\r'][draw(5)]).join('') + line();
}

const between = (...pairs) => (_, slice) => pairs.some(([first, last]) => slice.length >= first.length + last.length && slice.startsWith(first) && slice.endsWith(last));
const joined = (text) => text.replace(/[ \t]*(\r\n|\n|\r)[ \t>]*/g, '\n');

/** Whether what a position cuts out looks like a node, by its kind. */
const LOOKS = {
  __proto__: null,
  blockquote: (_, slice) => slice[0] === '>', listItem: (_, slice) => /^([-+*]|\d{1,9}[.)])([ \t\r\n]|$)/.test(slice), thematicBreak: (_, slice) => /^(\*[ \t]*){3,}$|^(-[ \t]*){3,}$|^(_[ \t]*){3,}$/.test(slice),
  list: ({ ordered, startNumber }, slice) => ordered ? Number(/^\d+/.exec(slice)[0]) === startNumber : '-+*'.includes(slice[0]),
  heading: ({ level }, slice) => new RegExp(`^#{${level}}([ \\t]|$)|[\\r\\n][ \\t>]*${'=-'[level - 1]}+[ \\t]*$`).test(slice),
  paragraph: (_, slice) => slice === slice.replace(/^[ \t\r\n]+|[ \t\r\n]+$/g, ''), definition: ({ label }, slice) => joined(slice).startsWith(`[${joined(label)}]:`) && /\S$/.test(slice),
  code: ({ info }, slice) => info === null ? /^( {4}| {0,3}\t)/.test(slice) : /^(```|~~~)/.test(slice), math: (_, slice) => /^\$\$+[^$\r\n]*([\r\n]|$)/.test(slice), frontMatter: ({ lang }, slice) => (lang === 'yaml' ? /^---[ \t]*[\r\n]([^]*[\r\n])?---[ \t]*$/ : /^\+\+\+[ \t]*[\r\n]([^]*[\r\n])?\+\+\+[ \t]*$/).test(slice), html: (_, slice) => slice.trimStart()[0] === '<',
  text: ({ text }, slice) => /[\\&\0]/.test(slice) || joined(slice) === joined(text), break: (_, slice) => /^([ \t]*  |\\)(\r\n|\n|\r)$/.test(slice),
  emphasis: between('**', '__'), strong: between(['**', '**'], ['__', '__']), delete: between('~~'), inlineCode: between('``'), inlineMath: between('$$'),
  link: (node, slice) => between('[)', '<>')(node, slice) || slice.replaceAll('\0', '\ufffd') === node.text, linkReference: between('[]'), image: between(['![', ')']), imageReference: between(['![', ']']),
};

/** Each node looks like what its position cuts out, and stands in the one around it, behind those before. It returns how many there are. */
function checkPositions(given) {
  const units = typeof given === 'string' ? given : Buffer.from(given).toString('latin1'), starts = [0, ...Array.from(units.matchAll(/\r\n|\n|\r/g), (it) => it.index + it[0].length)];
  const read = parse(given, CONSTRUCTS), todo = [read.root];
  let many = 0;
  while (todo.length > 0) {
    const node = todo.pop(), { kind, start, end } = node, slice = textOf(read.raw.slice(start, end));
    assert.ok(kind === 'root' || LOOKS[kind](node, slice), `${kind} ${JSON.stringify(slice)} of ${JSON.stringify(textOf(given).slice(0, 2000))}`);
    for (const [offset, line, column] of [[start, node.line, node.column], [end, node.endLine, node.endColumn]]) {
      assert.ok(starts[line - 1] + column - 1 === offset && !(starts[line] <= offset), `${kind}: ${line}:${column} is ${offset}`);
    }
    let before = start;
    for (const child of node.children) {
      assert.ok(before <= child.start && child.start <= child.end && child.end <= end);
      before = child.end;
      todo.push(child);
    }
    many++;
  }
  return many;
}

test('positions cut out their nodes', () => {
  let many = 0;
  for (const page of PAGES) for (const given of [page, bytesOf(page)]) many += checkPositions(given);
  assert.ok(many > 10000);
  const draw = random(1);
  for (let number = 0; number < 2000; number++) for (const given of [documentBy(draw), bytesOf(documentBy(draw))]) checkPositions(given);
});

test('the HTML of nodes is that of documents', () => {
  const draw = random(2);
  for (const document of [...PAGES, ...Array.from({ length: 3000 }, () => documentBy(draw))]) {
    const options = Object.fromEntries(Object.keys(CONSTRUCTS).map((it) => [it, draw(2) === 0])), given = draw(2) === 0 ? document : bytesOf(document);
    if (draw(2) === 0) Object.assign(options, { html: 'raw', anyLink: true });
    options.lineEnds = [undefined, '\n', '\r\n'][draw(3)];
    for (const handlers of [undefined, EACH]) assert.equal(toHtml(parse(given, options), { handlers }), render(given, options), document);
  }
});

// Documents, and their trees by hand, of mdast and CommonMark: of each node its type, its offsets, what it has, and its children.
const TREES = [
  ['a', 'root 0-1[paragraph 0-1[text 0-1 value="a"]]'],
  ['# a #', 'root 0-5[heading 0-5 depth=1[text 2-3 value="a"]]'],
  ['a\n===\n', 'root 0-6[heading 0-5 depth=1[text 0-1 value="a"]]'],
  ['***', 'root 0-3[thematicBreak 0-3]'],
  ['> a\nb', 'root 0-5[blockquote 0-5[paragraph 2-5[text 2-5 value="a\\nb"]]]'],
  ['* a', 'root 0-3[list 0-3 ordered=false start=null spread=false[listItem 0-3 spread=false checked=null[paragraph 2-3[text 2-3 value="a"]]]]'],
  ['3) a\n4) b', 'root 0-9[list 0-9 ordered=true start=3 spread=false[listItem 0-4 spread=false checked=null[paragraph 3-4[text 3-4 value="a"]]listItem 5-9 spread=false checked=null[paragraph 8-9[text 8-9 value="b"]]]]'],
  ['* a\n\n  b', 'root 0-8[list 0-8 ordered=false start=null spread=false[listItem 0-8 spread=true checked=null[paragraph 2-3[text 2-3 value="a"]paragraph 7-8[text 7-8 value="b"]]]]'],
  ['* a\n\n* b', 'root 0-8[list 0-8 ordered=false start=null spread=true[listItem 0-3 spread=false checked=null[paragraph 2-3[text 2-3 value="a"]]listItem 5-8 spread=false checked=null[paragraph 7-8[text 7-8 value="b"]]]]'],
  ['* a\n\nb', 'root 0-6[list 0-3 ordered=false start=null spread=false[listItem 0-3 spread=false checked=null[paragraph 2-3[text 2-3 value="a"]]]paragraph 5-6[text 5-6 value="b"]]'],
  ['*\n', 'root 0-2[list 0-1 ordered=false start=null spread=false[listItem 0-1 spread=false checked=null[]]]'],
  ['* [x] a\n* [ ] b', 'root 0-15[list 0-15 ordered=false start=null spread=false[listItem 0-7 spread=false checked=true[paragraph 6-7[text 6-7 value="a"]]listItem 8-15 spread=false checked=false[paragraph 14-15[text 14-15 value="b"]]]]'],
  ['* [x] <aa:b>', 'root 0-12[list 0-12 ordered=false start=null spread=false[listItem 0-12 spread=false checked=true[paragraph 2-12[link 6-12 title=null url="aa:b"[text 7-11 value="aa:b"]]]]]'],
  // Line endings are LF, and NUL is U+FFFD.
  ['a\r\nb\rc', 'root 0-6[paragraph 0-6[text 0-6 value="a\\nb\\nc"]]'],
  ['* [ ]\r\n  a\r\nb', 'root 0-13[list 0-13 ordered=false start=null spread=false[listItem 0-13 spread=false checked=false[paragraph 7-13[text 7-13 value="a\\nb"]]]]'],
  ['~~~ a\0 b\0\r\nc\0\r\nd\r\n~~~', 'root 0-21[code 0-21 lang="a\ufffd" meta="b\ufffd" value="c\ufffd\\nd"]'],
  ['+++\r\na\0\r\n+++\r\n$$ b\0\r\nc\0\r\n$$', 'root 0-27[toml 0-12 value="a\ufffd"math 14-27 meta="b\ufffd" value="c\ufffd"]'],
  ['<b>\r\na\0', 'root 0-7[html 0-7 value="<b>\\na\ufffd"]'],
  ['[a\0]: b\0 "c\r\nd\0"', 'root 0-16[definition 0-16 identifier="a\ufffd" label="a\ufffd" title="c\\nd\ufffd" url="b\ufffd"]'],
  ['[a](b\0 "c\r\nd\0")', 'root 0-15[paragraph 0-15[link 0-15 title="c\\nd\ufffd" url="b\ufffd"[text 1-2 value="a"]]]'],
  ['![a\r\nb\0](c)', 'root 0-11[paragraph 0-11[image 0-11 title=null url="c" alt="a\\nb\ufffd"]]'],
  ['[a\r\nb]\n\n[a b]: c', 'root 0-16[paragraph 0-6[linkReference 0-6 identifier="a b" label="a\\nb" referenceType="shortcut"[text 1-5 value="a\\nb"]]definition 8-16 identifier="a b" label="a b" title=null url="c"]'],
  ['www.a.b\0', 'root 0-8[paragraph 0-8[link 0-8 title=null url="http://www.a.b\ufffd"[text 0-8 value="www.a.b\ufffd"]]]'],
  ['```js x y\na\n```\n', 'root 0-16[code 0-15 lang="js" meta="x y" value="a"]'],
  ['    a\n    b\n', 'root 0-12[code 0-11 lang=null meta=null value="a\\nb"]'],
  ['$$\nL = \\frac{1}{2} \\rho v^2 S C_L\n$$\n', 'root 0-37[math 0-36 meta=null value="L = \\\\frac{1}{2} \\\\rho v^2 S C_L"]'],
  ['> $$ x\\* y\n>  a\n> $$', 'root 0-20[blockquote 0-20[math 2-20 meta="x* y" value=" a"]]'],
  ['$$$\n$$\n', 'root 0-7[math 0-6 meta=null value="$$"]'],
  ['+++\ntitle = "New Website"\n+++\n\n# a', 'root 0-34[toml 0-29 value="title = \\"New Website\\""heading 31-34 depth=1[text 33-34 value="a"]]'],
  ['\ufeff---\n\na: b\n\n---  \nc', 'root 0-19[yaml 1-17 value="\\na: b\\n"paragraph 18-19[text 18-19 value="c"]]'],
  ['---\n---', 'root 0-7[yaml 0-7 value=""]'],
  ['<b>\na\n', 'root 0-6[html 0-5 value="<b>\\na"]'],
  ['[a]: b "c"', 'root 0-10[definition 0-10 identifier="a" label="a" title="c" url="b"]'],
  ['[A b]: <c d>\ne', 'root 0-14[definition 0-12 identifier="a b" label="A b" title=null url="c d"paragraph 13-14[text 13-14 value="e"]]'],
  ['*a* __b__', 'root 0-9[paragraph 0-9[emphasis 0-3[text 1-2 value="a"]text 3-4 value=" "strong 4-9[text 6-7 value="b"]]]'],
  ['~~a~~', 'root 0-5[paragraph 0-5[delete 0-5[text 2-3 value="a"]]]'],
  ['`` a` ``', 'root 0-8[paragraph 0-8[inlineCode 0-8 value="a`"]]'],
  ['$a$', 'root 0-3[paragraph 0-3[inlineMath 0-3 value="a"]]'],
  ['a  \nb', 'root 0-5[paragraph 0-5[text 0-1 value="a"break 1-4text 4-5 value="b"]]'],
  ['a\\\nb', 'root 0-4[paragraph 0-4[text 0-1 value="a"break 1-3text 3-4 value="b"]]'],
  ['[a](b "c")', 'root 0-10[paragraph 0-10[link 0-10 title="c" url="b"[text 1-2 value="a"]]]'],
  ['![a *b*](<c>)', 'root 0-13[paragraph 0-13[image 0-13 title=null url="c" alt="a b"]]'],
  ['[a][B]\n\n[b]: c', 'root 0-14[paragraph 0-6[linkReference 0-6 identifier="b" label="B" referenceType="full"[text 1-2 value="a"]]definition 8-14 identifier="b" label="b" title=null url="c"]'],
  ['[a][] ![a]\n\n[a]: c', 'root 0-18[paragraph 0-10[linkReference 0-5 identifier="a" label="a" referenceType="collapsed"[text 1-2 value="a"]text 5-6 value=" "imageReference 6-10 identifier="a" label="a" referenceType="shortcut" alt="a"]definition 12-18 identifier="a" label="a" title=null url="c"]'],
  ['<http://a> <b@c>', 'root 0-16[paragraph 0-16[link 0-10 title=null url="http://a"[text 1-9 value="http://a"]text 10-11 value=" "link 11-16 title=null url="mailto:b@c"[text 12-15 value="b@c"]]]'],
  ['a<i>b', 'root 0-5[paragraph 0-5[text 0-1 value="a"html 1-4 value="<i>"text 4-5 value="b"]]'],
  ['a\\*&amp;b', 'root 0-9[paragraph 0-9[text 0-9 value="a*&b"]]'],
  ['> - a\n>   *b\nc*\n\n1. d', 'root 0-21[blockquote 0-15[list 2-15 ordered=false start=null spread=false[listItem 2-15 spread=false checked=null[paragraph 4-15[text 4-6 value="a\\n"emphasis 10-15[text 11-14 value="b\\nc"]]]]]list 17-21 ordered=true start=1 spread=false[listItem 17-21 spread=false checked=null[paragraph 20-21[text 20-21 value="d"]]]]'],
  ['é *𝄞*', 'root 0-6[paragraph 0-6[text 0-2 value="é "emphasis 2-6[text 3-5 value="𝄞"]]]'],
];

function shown({ type, position, children, ...fields }) {
  const { start, end } = position, told = Object.entries(fields).map(([name, value]) => ` ${name}=${JSON.stringify(value)}`).join('');
  return `${type} ${start.offset}-${end.offset}${told}${children ? `[${children.map(shown).join('')}]` : ''}`;
}

test('trees of mdast', () => {
  for (const [document, wanted] of TREES) {
    const found = parse(document, CONSTRUCTS);
    assert.equal(shown(found.toMdast()), wanted);
    assert.deepEqual(JSON.parse(found.toJson()), found.toMdast());
  }
  // A line, a column, an offset; the identifier and the label of a definition.
  const { children: [, definition], position } = parse('é\n\n> [\\*A\n> &amp;]: b\n').toMdast();
  assert.deepEqual([position.end, definition.children[0].position, definition.children[0].identifier, definition.children[0].label], [
    { line: 5, column: 1, offset: 22 }, { start: { line: 3, column: 3, offset: 5 }, end: { line: 4, column: 12, offset: 21 } }, '\\*a &amp;', '*A\n&',
  ]);
});

test('definitions are found on lazy lines, behind tabs, and beside others', () => {
  for (const [document, ...wanted] of [
    ['> [a]:\n\t>', '[a]:\n\t>'], ['- [a]: b\n  "c"\n[d]', '[a]: b\n  "c"'], ['[a]: b\n[c]: <d> (e)  \nf\n===', '[a]: b', '[c]: <d> (e)'], ['> 1. [a\n> b]:\n> c "\n>    d"', '[a\n> b]:\n> c "\n>    d"'],
    ['[a]: b\n"c" d', '[a]: b'], ["[\\]]: \\) '\\''", "[\\]]: \\) '\\''"], ['\ufeff [a]: \0\n', '[a]: \0'], ['>\t[a]: b', '[a]: b'], ['[a]: <b\\>c>\n\n[a]: d', '[a]: <b\\>c>', '[a]: d'], ['[a]: b "c\r\nd"\r\n[e]: f', '[a]: b "c\r\nd"', '[e]: f'],
  ]) {
    for (const given of [document, bytesOf(document)]) {
      const read = parse(given);
      assert.deepEqual(Array.from(read.find('definition'), ({ start, end }) => textOf(read.raw.slice(start, end))), wanted);
      assert.deepEqual(Array.from(read.find('definition'), ({ label, url, title }) => ({ label, destination: url, title })), read.definitions);
    }
  }
});

test('nodes have what their kind has', () => {
  const read = parse('# *a* `b`\n\n1. [x] c\n2. d\n\n   ~~~ js e\n   f\n   ~~~\n\n[g *h*][i] ![j<k>](/l \'m\') [i][] [i]\n\n[i]: /n\n\n    o\n', { tasks: true });
  const [heading, list, paragraph, definition, code] = read.children, [first, second] = list.children, [full, , image, , collapsed, , shortcut] = paragraph.children;
  assert.deepEqual([heading.kind, heading.level, heading.text, heading.line, heading.column, heading.endLine, heading.endColumn], ['heading', 1, 'a b', 1, 1, 1, 10]);
  assert.deepEqual([list.ordered, list.startNumber, list.tight, list.spread, first.checked, first.spread, second.checked, second.spread], [true, 1, false, false, true, false, null, true]);
  assert.deepEqual([second.children[1].lang, second.children[1].info, second.children[1].text, code.lang, code.info, code.text], ['js', 'js e', 'f\n', null, null, 'o\n']);
  assert.deepEqual([full, collapsed, shortcut].map(({ kind, label, reference, url, title, text }) => [kind, label, reference, url, title, text]), [
    ['linkReference', 'i', 'full', '/n', null, 'g h'], ['linkReference', 'i', 'collapsed', '/n', null, 'i'], ['linkReference', 'i', 'shortcut', '/n', null, 'i'],
  ]);
  assert.deepEqual([image.kind, image.url, image.title, image.alt, image.children.map(({ kind }) => kind)], ['image', '/l', 'm', 'j', ['text', 'html']]);
  assert.deepEqual([definition.label, definition.url, definition.title], ['i', '/n', null]);
  for (const name of ['level', 'ordered', 'startNumber', 'tight', 'spread', 'checked', 'info', 'lang', 'url', 'title', 'alt', 'label', 'reference']) assert.equal(paragraph[name], undefined, name);
  assert.deepEqual([read.headings, [...read.find('heading', 'code')].map(({ line }) => line), read.children[0] === heading], [[heading], [1, 6, 14], true]);
  assert.deepEqual([...list.walk()].map(({ kind }) => kind), ['listItem', 'paragraph', 'text', 'listItem', 'paragraph', 'text', 'code']);
  assert.throws(() => [...read.find('Heading')], RangeError);
  assert.deepEqual([read.text, read.toText()], Array(2).fill('a b\n\n c\n\nd\n\nf\n\ng h j i i\n\no'));
  assert.equal(parse('a&ngE;\0\n\n<p>\n\n> *b<i>c</i>*  \nd').text, 'a\u2267\u0338\ufffd\n\nbc\nd');
  assert.deepEqual([parse('').children, parse('').text, parse('').toMdast().children], [[], '', []]);
  // A bare URL in a link is its text.
  assert.deepEqual([...parse('[www.a.b](c) www.d.e', { bareUrls: true }).find('link')].map(({ url, text }) => [url, text]), [['c', 'www.a.b'], ['http://www.d.e', 'www.d.e']]);
});

test('nodes of front matter and math', () => {
  const read = parse('---\r\na: <b>&amp;\r\n---\r\n$$ c\\* d\ne & f\n$$\n\n$g$\n', { math: true, frontMatter: true }), [matter, math] = read.children;
  assert.deepEqual([matter, math].map(({ kind, lang, info, text, children }) => [kind, lang, info, text, children]), [['frontMatter', 'yaml', undefined, 'a: <b>&amp;\n', []], ['math', undefined, 'c* d', 'e & f\n', []]]);
  assert.deepEqual([matter, math].map((it) => [it.line, it.column, it.endLine, it.endColumn, toHtml(it)]), [[1, 1, 3, 4, ''], [4, 1, 6, 3, '<pre><code class="language-math math-display">e &amp; f\n</code></pre>\n']]);
  assert.deepEqual([[...read.find('frontMatter', 'math')], read.text], [[matter, math], 'e & f\n\ng']);
  const handlers = { frontMatter: ({ lang }, inner) => `<!--${lang} ${inner}-->`, math: ({ info }, inner) => `[${info}]${inner}` };
  assert.equal(toHtml(read, { handlers }), '<!--yaml a: &lt;b&gt;&amp;amp;\r\n-->[c* d]e &amp; f\n<p><code class="language-math math-inline">g</code></p>\n');
  assert.equal(toHtml(read, { handlers: { math: () => null, frontMatter: () => null } }), render(read.raw, { math: true, frontMatter: true }));
});

test('documents never change', () => {
  const read = parse('# [a](b)\n\n[c]: d');
  for (const change of [
    () => { read.length = 0; }, () => { read.extra = 1; }, () => { read.children[0].start = 1; }, () => read.links.pop(), () => { read.links[0].destination = 'c'; }, () => read.definitions.pop(), () => { parse('---\n---', CONSTRUCTS).frontMatter.text = 'a'; }, () => { read.definitions[0].title = 'c'; }, () => read.htmls.pop(), () => read.children.pop(), () => read.headings[0].children.pop(),
  ]) assert.throws(change, TypeError);
  const bytes = bytesOf('*a*'), kept = parse(bytes);
  bytes.fill(0x62);
  kept.raw.fill(0x62);
  assert.deepEqual([toHtml(kept), kept.text, kept.raw], ['<p><em>a</em></p>\n', 'a', bytesOf('*a*')]);
});

test('handlers write some kinds', () => {
  const read = parse('# A *b*\n\n- [x] c\n\n~~~ d\n<e>\n~~~\n\n[f](/g) ![*h*](i) <j> k\n', { tasks: true }), slug = slugger();
  const wanted = '<h1>A <em>b</em></h1>\n<ul>\n<li><input type="checkbox" disabled="" checked="" /> c</li>\n</ul>\n<pre><code class="language-d">&lt;e&gt;\n</code></pre>\n<p><a href="/g">f</a> <img src="i" alt="h" /> &lt;j&gt; k</p>\n';
  for (const [handlers, from, to] of [
    [{ heading: (node, inner) => `<h${node.level} id="${slug(node.text)}">${inner}</h${node.level}>\n` }, '<h1>', '<h1 id="a-b">'], [{ code: (node, inner) => `<${node.lang}>${inner}` }, /<pre>.*?<\/pre>\n/s, '<d>&lt;e&gt;\n'],
    [{ link: ({ url }, inner) => `[${url}]${inner}` }, '<a href="/g">f</a>', '[/g]f'], [{ image: (_, inner) => inner }, /<img.*?>/, 'h'], [{ emphasis: () => '' }, '<em>b</em>', ''],
    [{ html: (node) => node.text }, '&lt;j&gt;', '<j>'], [{ paragraph: (_, inner) => `{${inner}}` }, /<input.*c|<p>.*<\/p>\n/g, (it) => `{${it.replace(/^<p>|<\/p>\n$/g, '')}}`],
    [{ text: (node) => node.text === ' k' ? 'l' : null, strong: () => 'no', root: (_, inner) => inner }, ' k', 'l'], [{ emphasis: () => undefined }, '', ''],
  ]) assert.equal(toHtml(read, { handlers }), wanted.replace(from, to));
  assert.deepEqual([read.headings[0], ...read.find('emphasis', 'link', 'image', 'text')].map((it) => toHtml(it)), [
    '<h1>A <em>b</em></h1>\n', 'A ', '<em>b</em>', 'b', ' c', '<a href="/g">f</a>', 'f', ' ', '<img src="i" alt="h" />', '<em>h</em>', 'h', ' ', ' k',
  ]);
  assert.equal(toHtml(read), wanted);
  for (const handlers of [{}, EACH]) assert.equal(toHtml([...read.find('paragraph')][0], { handlers }), '<p><input type="checkbox" disabled="" checked="" /> c</p>\n');
  // Destinations are those of the library: safe, unless any link may lead anywhere.
  const dangerous = '[a](javascript:b \'"c\') [d]\n\n[d]: javascript:e';
  for (const handlers of [{}, EACH]) {
    assert.equal(toHtml(parse(dangerous), { handlers }), '<p><a href="" title="&quot;c">a</a> <a href="">d</a></p>\n');
    assert.equal(toHtml(parse(dangerous, { anyLink: true }), { handlers }), '<p><a href="javascript:b" title="&quot;c">a</a> <a href="javascript:e">d</a></p>\n');
  }
  // Titles and descriptions have line feeds, whatever line endings the page has.
  for (const lineEnds of [undefined, '\n', '\r\n']) {
    const document = '[a](b "c\r\nd\0") ![e\r\nf](g)\r\nh', html = `<p><a href="b" title="c\nd\ufffd">a</a> <img src="g" alt="e\nf" />${lineEnds ?? '\r\n'}h</p>${lineEnds ?? '\n'}`;
    assert.deepEqual([render(document, { lineEnds }), toHtml(parse(document, { lineEnds }), { handlers: EACH })], [html, html]);
  }
});

test('what toHtml refuses', () => {
  const document = '[a]\n\n'.repeat(101) + '[a]: ' + 'x'.repeat(1000), read = parse(document, { limit: 101000 });
  for (const handlers of [{}, EACH]) {
    for (const limit of [undefined, 100999]) assert.throws(() => toHtml(parse(document, { limit }), { handlers }), (it) => it instanceof MarkdownInlineError && it.code === 'REFERENCES');
    assert.equal(toHtml(read, { handlers }), render(document, { limit: Infinity }));
  }
  for (const wrong of [{ handlers: null }, { handlers: 1 }, { handlers: { Heading: () => '' } }, { handlers: { heading: '' } }, { handlers: { paragraph: () => 1 } }, { html: 'raw' }, 1, null]) assert.throws(() => toHtml(read, wrong), TypeError);
  for (const wrong of [undefined, null, 'a', {}, read.toMdast()]) assert.throws(() => toHtml(wrong), { name: 'TypeError', message: /tree/ });
  // What a prototype has is no option and no handler.
  for (const [name, value] of [['handlers', { text: () => 'b' }], ['html', 'raw'], ['text', () => 'b'], ['limit', 1], ['shown', 1]]) {
    Object.prototype[name] = value;
    try {
      for (const options of [{}, { handlers: {} }, { handlers: { emphasis: () => null } }]) assert.equal(toHtml(parse('*a* <i>'), options), '<p><em>a</em> &lt;i&gt;</p>\n', name);
    } finally {
      delete Object.prototype[name];
    }
  }
});

test('ids of headings', () => {
  // As GitHub makes them: what is no letter, mark, digit, connector, space or hyphen goes.
  const slug = slugger();
  for (const [text, wanted] of [
    ['A b', 'a-b'], ['A b!', 'a-b-1'], ['a-b-1', 'a-b-1-1'], ['a b', 'a-b-2'], ['1. É & ü_ß', '1-é--ü_ß'], ['ΣΊΣΥΦΟΣ', 'σίσυφος'], ['日本 語', '日本-語'], ['<script>"\'', 'script'], ['', ''], ['?', '-1'], ['e\u0301', 'e\u0301'], ['😀', '-2'],
  ]) assert.equal(slug(text), wanted);
  assert.equal(slugger()('A b'), 'a-b');
});

test('deep nesting and long documents', () => {
  for (const [document, kind] of [['> '.repeat(20000) + 'a', 'blockquote'], ['*a **a '.repeat(10000) + 'b' + '***'.repeat(10000), 'strong'], ['- '.repeat(20000) + 'a', 'listItem']]) {
    const read = parse(document);
    assert.ok([...read.find(kind)].length >= 10000);
    assert.equal(toHtml(read), render(document));
    assert.ok(read.toJson().length > 1000000 && read.text.length > 0);
  }
});
