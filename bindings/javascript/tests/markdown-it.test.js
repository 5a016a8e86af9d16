// The plugin for markdown-it makes the tokens that markdown-it's own inline parser makes. Without markdown-it nothing of it can be tried.
//
// MARKDOWN_IT names the folder of markdown-it, where it stands elsewhere than Debian's package node-markdown-it has it. MARKDOWN_IT_SOURCE names its sources, as
// `apt-get source node-markdown-it` leaves them: then its own tests are run too.
import assert from 'node:assert/strict';
import { spawnSync } from 'node:child_process';
import { existsSync, readFileSync, readdirSync } from 'node:fs';
import { createRequire } from 'node:module';
import test from 'node:test';
import { fileURLToPath } from 'node:url';
import plugin, { piecesOf } from '../../out/javascript/markdown-it.js';
import { links } from '../../out/javascript/inline.js';

const FOLDER = process.env.MARKDOWN_IT ?? '/usr/share/nodejs/markdown-it', SOURCE = process.env.MARKDOWN_IT_SOURCE;
const MarkdownIt = existsSync(FOLDER) ? createRequire(import.meta.url)(FOLDER) : null;
const tried = (name, run, needs = true) => test(name, { skip: !MarkdownIt || !needs }, run);

const DOCUMENTS = [
  '', 'a', 'a *b* __c__ ***d*** `e` ``f ` g`` ` ` `  `', 'é *漢* [😀](/é?ü "ñ") `日`', 'a\nb  \nc\\\nd \n  e', '<b c="d"> <!-- e --> <?f?> </g> <h\ni="j">',
  '<https://a.b/ü?c=*d*> <e@f.g>', '&amp; &copy; &#65; &#x1f600; &#0; &star; &lbrace; &nosuch; \\&star; `&amp;` &#xfdd0;', '\\* \\a \\\\ \\[b](c)',
  '[a](b) [a](<b c> "d") [a](b \'e "f"\') [a]() [a](<>) [](b) [a](\n b\n "c"\n)', '![a](b) ![*a* `b`](c "d\ne") ![![e](f)](g) [![h](i)](j) ![](k)',
  '[A b] [c][a  B] [d][] [D] ![e][d] [nothing] [*x*][d]\n\n[a b]: /1\n[d]: </2 3> "t &amp; \\*u*"\n[D]: /4', '[ẞ] [ss] [ΑΓΩ]\n\n[SS]: /1\n[αγω]: /2',
  '# a *b*\n\n> c `d`\n> e\n\n- f **g**\n  h\n\n1. i\n\n| j | *k* |\n|---|---|\n| `l` | [m](n) |\n', '~~a~~ ~b~ ~~c *d~~ e*', 'a "b" -- (c) \'d\' ...',
  '[a](javascript:b) *c*', '![a *b*](javascript:c) `d`', '<javascript:a> *b*', '[x [a](javascript:b) y](c)', '[a](javascript:b)\n\n[a]: /c', '[a [b](c)](d)',
  '[a](data:text/html,b) ok *c*\n\nanother [d](e)', 'x'.repeat(3000) + ' *y*', '*a* '.repeat(40), '[a]: /b\n\n[a][a] [a][] [a]', 'a&nbsp;b \u00a0c', '**a*b*c**', '*a_b_c*',
  'a `b\n  c\td` ``e\n`` ` f ` `` ` `` `\n` > `g\né`', '> `a\n>   b` *c*\n> ``d ` ``', '[__proto__] [constructor][] [1][b]\n\n[b]: /c\n[1]: /d\n[__proto__]: /e',
];
// Without what is read in two ways: by markdown-it and CommonMark a run of grave accents that is not closed in its label, and a label before a `[` that begins
// none; by CommonMark and the library some runs of markers.
const PARTS = ['a', ' ', ' b ', ' *r s* ', ' **t u** ', ' _v **w** x_ ', '`k`', '[l](m)', '![n *o*](p "q")', ']', '(c)', '](d)', '<e:f>', '<g>', '&amp;', '\n', '  \n', 'é', '漢', '[h]', '"', '&star;'];

/** Tokens without markdown-it's texts of no characters. */
const flat = (tokens) => (tokens ?? []).filter((it) => it.type !== 'text' || it.content !== '').map(({ children, ...it }) => ({ ...it, children: flat(children) }));

function both(words = [], change = () => {}) {
  const found = [MarkdownIt(...words), MarkdownIt(...words).use(plugin)];
  found.forEach(change);
  return found;
}

function same([plain, ours], documents = DOCUMENTS) {
  for (const it of documents) {
    assert.deepEqual(flat(ours.parse(it, {})), flat(plain.parse(it, {})), it);
    assert.equal(ours.render(it), plain.render(it));
  }
}

/** The contents of a document that markdown-it's own parser reads, and its HTML. */
function handedOn(md, document) {
  const found = [], real = md.inline.parse;
  md.inline.parse = function (content, ...given) {
    found.push(content);
    return real.call(this, content, ...given);
  };
  try {
    const html = md.render(document);
    // (markdown-it calls it again for what stands in an image)
    return [found, html];
  } finally {
    delete md.inline.parse;
  }
}

tried('tokens', () => {
  for (const preset of ['commonmark', 'default']) same(both([preset]));
  same(both(['default', { html: true, typographer: true, breaks: true, linkify: true }]));
  same(both(['commonmark', { html: false }]));
  same(both(['zero']));
});

/** A number below another, and the same each time. */
function drawer(seed) {
  let state = seed;
  return (below) => {
    state = (Math.imul(state, 1664525) + 1013904223) >>> 0;
    return Math.floor(state / 2 ** 32 * below);
  };
}

tried('drawn documents', () => {
  const pair = both(['commonmark']);
  for (let seed = 0; seed < 300; seed++) {
    const draw = drawer(seed);
    same(pair, [Array.from({ length: [4, 12, 40][draw(3)] }, () => PARTS[draw(PARTS.length)]).join('') + '\n\n[h]: /i "j"']);
  }
});

tried("markdown-it's own tests", () => {
  const md = MarkdownIt({ html: true, langPrefix: '', typographer: true, linkify: true }).use(plugin), strict = MarkdownIt('commonmark').use(plugin), others = [];
  const files = readdirSync(`${SOURCE}/test/fixtures/markdown-it`).map((it) => [`markdown-it/${it}`, md]);
  const read = (html) => html.replace(/<blockquote>\n<\/blockquote>/g, '<blockquote></blockquote>');
  let many = 0;
  for (const [name, how] of [...files, ['commonmark/good.txt', strict]]) {
    for (const [, given, wanted] of readFileSync(`${SOURCE}/test/fixtures/${name}`, 'utf8').matchAll(/^\.\n([^]*?)^\.\n([^]*?)^\.$/gm)) {
      many++;
      if (read(how.render(given)) !== read(wanted)) others.push(given);
    }
  }
  assert.ok(many > 700);
  // Version 10 of markdown-it reads comments by CommonMark 0.30.
  assert.deepEqual(others.filter((it) => !it.includes('<!--')), []);
  assert.ok(others.length < 6);
}, Boolean(SOURCE));

tried('examples of CommonMark', () => {
  const said = spawnSync('python3', [fileURLToPath(new URL('rows.py', import.meta.url))], { encoding: 'utf8' }), [plain, ours] = both(['commonmark']);
  const others = [];
  let many = 0;
  for (const [words, given] of said.stdout.trimEnd().split('\n').map((it) => JSON.parse(it))) {
    const references = () => {
      const found = {};
      let target = null;
      for (const [, name, value] of words.map((it) => /^(define|to|title)=(.*)$/s.exec(it)).filter((it) => it)) {
        if (name === 'define') found[plain.utils.normalizeReference(value)] ??= target = { href: '', title: '' };
        else target[name === 'to' ? 'href' : 'title'] = name === 'to' ? plain.normalizeLink(value) : value;
      }
      return { references: found };
    };
    many++;
    if (ours.renderInline(given, references()) !== plain.renderInline(given, references())) others.push(given);
  }
  assert.ok(many >= 400);
  // Version 10 of markdown-it reads symbols and comments by CommonMark 0.30.
  assert.deepEqual(others.filter((it) => !/[£€]|<!--/.test(it)), []);
}, MarkdownIt && spawnSync('python3', ['--version']).status === 0);

tried('rules that are off', () => {
  for (const rule of ['emphasis', 'backticks', 'escape', 'link', 'image', 'autolink', 'html_inline', 'entity', 'strikethrough']) {
    same(both(['default', { html: true }], (md) => md.disable(rule)));
  }
  for (const [change, documents] of [
    [(md) => md.disable('escape'), ['[foo][ref\\[]\n\n[ref\\[]: /a', '\\*a*']], [(md) => md.disable('link'), ['![[a](b)](c)', '[a](b) ![c](d)']],
    [(md) => md.inline.ruler2.disable('strikethrough'), ['~~a~~ *b*']], [() => {}, ['x ~~~a~~~', '~~~~a~~ b']],
  ]) same(both(['default'], change), documents);
});

tried('rules that are not known', () => {
  // Contents in which they may find something are read by markdown-it, with their rules.
  const mark = (state, silent) => {
    if (state.src[state.pos] !== '%') return false;
    if (!silent) state.push('text', '', 0).content = 'MARK';
    state.pos++;
    return true;
  };
  const document = '*a*\n\nb % *c*\n\n[d](e)', all = ['*a*', 'b % *c*', '[d](e)'];
  for (const [change, wanted] of [
    [(md) => md.inline.ruler.push('mark_', mark), all], [(md) => md.inline.ruler.at('emphasis', mark), all], [(md) => md.inline.ruler2.push('mark_', () => {}), all],
    [(md) => md.inline.ruler2.at('emphasis', () => {}), all], [(md) => md.inline.ruler2.disable('emphasis'), all], [(md) => md.inline.ruler2.disable('balance_pairs'), all],
    [(md) => md.disable('text'), all], [(md) => md.disable('newline'), all], [(md) => md.disable('link'), all], [(md) => md.disable('escape'), []], [() => {}, []],
  ]) {
    const [plain, ours] = both([], change);
    assert.deepEqual(handedOn(ours, document), [wanted, plain.render(document)]);
  }
  // The rules are looked at where a document is read, and signs are those of a rule. A sign that keeps a place is read from the start.
  const md = MarkdownIt().use(plugin, { signs: { mark_: /%/g, emphasis: /\*/ } });
  md.inline.ruler.push('mark_', mark);
  for (let round = 0; round < 2; round++) assert.deepEqual(handedOn(md, document), [['b % *c*'], '<p><em>a</em></p>\n<p>b MARK <em>c</em></p>\n<p><a href="e">d</a></p>\n']);
  md.inline.ruler.at('emphasis', () => false);
  assert.deepEqual(handedOn(md, document), [['*a*', 'b % *c*'], '<p>*a*</p>\n<p>b MARK *c*</p>\n<p><a href="e">d</a></p>\n']);
});

tried('images in images', () => {
  // The renderer calls itself for an image, so markdown-it's parser reads those that stand too deep in each other.
  for (const [words, deepest] of [[['commonmark'], 20], [['default'], 100], [['commonmark', { maxNesting: 3 }], 3]]) {
    const [plain, ours] = both(words);
    for (const count of [1, deepest - 1, deepest, deepest + 1, deepest + 2, 995]) {
      const document = '*a*\n\n' + '!['.repeat(count) + 'a' + '](b)'.repeat(count), [found, html] = handedOn(ours, document);
      assert.deepEqual([found.length > 0, found.includes('*a*')], [count > deepest, false]);
      if (count > deepest) assert.equal(html, plain.render(document));
      else assert.match(html, /^<p><em>a<\/em><\/p>\n<p><img src="b" alt="[^"]*"( \/)?><\/p>\n$/);
    }
  }
});

tried('texts that are joined later', () => {
  // As version 13 of markdown-it wants them: a token for each escape and each reference, which a later rule joins.
  const found = [], ours = MarkdownIt().use(plugin);
  ours.core.ruler.push('text_join', (state) => state.tokens.forEach(({ children }) => found.push(...(children ?? []).map(({ type, content, markup, info }) => [type, content, markup, info]))));
  ours.parse('a \\* b &amp;', {});
  assert.deepEqual(found, [['text', 'a ', '', ''], ['text_special', '*', '\\*', 'escape'], ['text', ' b ', '', ''], ['text_special', '&', '&amp;', 'entity']]);
});

tried('links are asked for', () => {
  for (const [name, put] of [['normalizeLink', (it) => '/n/' + it], ['validateLink', (it) => !it.includes('b')], ['normalizeLinkText', (it) => [...it].reverse().join('')]]) {
    same(both([], (md) => { md[name] = put; }));
  }
});

tried('contents that are no texts', () => {
  const [plain, ours] = both();
  for (const given of ['a\n\n*b*', 'a\n', '\n', ' ', 'a \ud800 *b*', '*\ud800*a', ' a', 'a ', '\ta\t', 'a\t\nb', 'a\t  \nb', 'a\n \t\nb', '']) {
    assert.deepEqual(flat(ours.parseInline(given, {})), flat(plain.parseInline(given, {})), given);
  }
  for (const given of ['a \ud800 *b*\n\n*c*', '*d*\n\n[e](f)\n\n\udfff']) assert.deepEqual(flat(ours.parse(given, {})), flat(plain.parse(given, {})));
  assert.equal(ours.renderInline('a *b*'), plain.renderInline('a *b*'));
});

/** The places of tokens follow each other, stand in each other, and have what the tokens say. */
function checkPlaces(content, tokens, start, end) {
  const opened = [];
  let at = start;
  for (const it of tokens) {
    // (markdown-it's own parser read it)
    if (!it.meta) return;
    const { start: first, end: last } = it.meta.markdown_inline, written = content.slice(first, last);
    assert.ok(start <= first && first < last && last <= end);
    if (it.nesting >= 0) {
      assert.ok(at <= first);
      at = it.nesting > 0 ? first : last;
    }
    if (it.nesting > 0) opened.push([first, last]);
    if (it.nesting < 0) {
      assert.deepEqual(opened.pop(), [first, last]);
      at = last;
    }
    if (it.markup !== '' && it.markup !== 'autolink') assert.ok(written.startsWith(it.markup));
    if (['text', 'code_inline', 'html_inline'].includes(it.type) && !/[\\&\n]/.test(written)) assert.ok(written.includes(it.content));
    if (it.type === 'image') checkPlaces(content, it.children, first, last);
  }
}

tried('places', () => {
  const ours = MarkdownIt({ html: true }).use(plugin, { places: true }), plain = MarkdownIt({ html: true }).use(plugin);
  for (const document of [...DOCUMENTS, 'é *a* **b\n_漢_** ~~c~~ \\* &amp; `` ` `` [d *e*](f "g") ![h *i*](j)\n<k:l>  \nm\\\nn <o>p']) {
    for (const it of ours.parse(document, {})) if (it.type === 'inline') checkPlaces(it.content, it.children, 0, it.content.length);
    for (const it of plain.parse(document, {})) assert.ok((it.children ?? []).every(({ meta }) => meta === null));
  }
  const [, inline] = ours.parse('😀 *b*', {});
  assert.deepEqual(inline.children.map(({ meta }) => meta.markdown_inline), [{ start: 0, end: 3 }, { start: 3, end: 6 }, { start: 4, end: 5 }, { start: 3, end: 6 }]);
});

tried('settings are own properties of an object', () => {
  for (const wrong of [1, 'places', [], null, { place: true }]) assert.throws(() => MarkdownIt().use(plugin, wrong), TypeError);
  Object.prototype.places = true;
  try {
    for (const md of [MarkdownIt().use(plugin), MarkdownIt().use(plugin, {})]) assert.ok(md.parse('a *b*', {})[1].children.every(({ meta }) => meta === null));
  } finally {
    delete Object.prototype.places;
  }
});

tried('pieces', () => {
  // What stands in the pieces of a token is what it has, and links are told by their places in the document.
  const document = '# *a* #\n\n> é [c](d)\r\n>   e\n> f  \n\n1. 1\n- é `g` \0\n\n| h | i | h |\n|---|---|---|\n| [j](k) || l\\|m |\n\nn\n=\n\n## # ##\n\n    x\n\n\to';
  const tokens = MarkdownIt().parse(document, {}), contents = tokens.filter(({ type }) => type === 'inline').map(({ content }) => content), found = piecesOf(tokens, document);
  assert.equal(found.length, contents.length);
  contents.forEach((content, at) => {
    if (content.includes('l|m')) return assert.equal(found[at], null);
    const lines = found[at].map(([start, end]) => document.slice(start, end).replace(/[\r\n]+$/, '').replaceAll('\0', '\ufffd').trimStart());
    assert.deepEqual(lines, content === '' ? [] : content.split('\n').map((it) => it.trimStart()));
  });
  const read = links(document, { contents: found.filter((it) => it).map((pieces) => ({ pieces })) });
  assert.deepEqual(read.map(({ line, column, destination }) => [line, column, destination]), [[3, 5, 'd'], [12, 3, 'k']]);
});
