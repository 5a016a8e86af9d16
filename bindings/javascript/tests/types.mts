// What has to fit the types, and what must not.
import { MarkdownInlineError, create, inline, links as linksOf, parse, render, type Block, type BlockKind, type Document, type Mdast, type Node as TreeNode, slugger, toHtml } from '../../out/javascript/index.js';
import { COMMONMARK, GFM, html, htmls, leaves, links, piecesOfLines, shortTexts, strings, text, tree, type Name, type Node } from '../../out/javascript/inline.js';
import plugin, { piecesOf } from '../../out/javascript/markdown-it.js';

for (const event of text('a *b*', { gfm: true, codeText: false, definitions: ['a'] })) {
  const name: Name = event.name;
  if (name === 'Emphasis' && event.enter) console.log(event.line, event.column, event.offset, event.byte, event.link?.content);
}
const one: string = html('[a]', { definitions: new Map([['a', ['/b', 'c'] as const]]), html: 'raw', limit: Infinity });
const two: string[] = htmls('a', [[0, 1], { pieces: [{ start: 0, end: 1 }], firstOfItem: true }], { definitions: { a: '/b', c: { destination: 'd', title: null } } });
const three: number | null | undefined = shortTexts('[a]', [[0, 3]], { bits: COMMONMARK | GFM }).at(0)?.at(-1)?.definition;
const four: string[] = leaves('a').at(0)?.content === 'a' ? strings('a', [[[0, 1]]]) : [];
const five: Uint8Array | undefined = leaves(new Uint8Array()).at(0)?.content;
try {
  create({ maximum: 1 << 20 }).inline.text('a\n\nb', { rules: 'crate' });
} catch (error) {
  if (error instanceof MarkdownInlineError && error.code === 'BLANK_LINE') console.log(error.at, one, two, three, four, five);
}
for (const { line, column, destination, title } of links('[a](b)', { contents: [[0, 6]] })) console.log(line, column, destination.length, title ?? '');
const six: Node[] = tree('a').children, seven: string = [...tree('*a*', { gfm: true }).find('Emphasis')][0]?.enter.name ?? tree('a').text;
plugin({}, { signs: { mention: /@/ }, places: true });
const eight: number | undefined = piecesOf([{ type: 'inline', tag: '', markup: '', content: 'a', map: [0, 1] }], 'a')[0]?.[0]?.[0];
const nine: string[] = htmls('> a', piecesOfLines('> a', [[1]]).map((pieces) => ({ pieces })));
const ten: string = render('# a', { html: 'raw', strikethrough: true, bareUrls: false, tasks: true, math: true, frontMatter: true, lineEnds: '\r\n' }) + render(new Uint8Array(), { limit: 9 });
for (const block of parse('# [a]\n\n[a]: b', { tasks: true, html: 'raw', limit: 9 })) {
  const kind: BlockKind = block.kind, line: number = block.line;
  for (const event of block.events) console.log(kind, line, event.line, event.column, event.offset, block.html, block.links[0]?.column, block.lines.length);
}
const read: Document = parse(''), found: Block | undefined = parse(new Uint8Array()).at(0), title: string | null | undefined = read.definitions[0]?.title;
const eleven: string = (linksOf('<a:b>', { bareUrls: true })[0]?.destination ?? '') + inline.html('a');
for (const node of read.find('heading', 'link')) console.log(node.kind, node.line, node.level ?? node.url, node.children.length);
const twelve: readonly TreeNode[] = [...read.headings, ...read.children], thirteen: Mdast = read.toMdast(), fourteen: string = toHtml(read, { handlers: { link: (node, inner) => node.url === '' ? inner : null } });
console.log(twelve, thirteen.position.start.offset, thirteen.children?.[0]?.type, fourteen, read.toJson() + read.toText() + slugger()('a'));
const matter: string | undefined = read.frontMatter?.text, language: 'yaml' | 'toml' | undefined = read.frontMatter?.lang, fifteen: string = toHtml(read, { handlers: { math: ({ info }, inner) => (info ?? '') + inner, frontMatter: ({ lang }) => lang } });
const isMatter: boolean = read.at(0)?.kind === 'FrontMatter' || thirteen.children?.[0]?.type === 'toml' || [...read.find('frontMatter', 'math')].length > 0;
console.log(matter, language, fifteen, isMatter, six, seven, eight, nine, ten, eleven, found?.pieces[0]?.[0], title);

// @ts-expect-error no such name
tree('a').find('Nothing');
// @ts-expect-error signs are regular expressions
plugin({}, { signs: { mention: '@' } });
// @ts-expect-error no such option
text('a', { nonsense: true });
// @ts-expect-error a document has no such option
render('a', { gfm: true });
// @ts-expect-error no such type of mdast
export const type: Mdast['type'] = 'frontMatter';
// @ts-expect-error no such line ending
render('a', { lineEnds: '\r' });
// @ts-expect-error no such word
render('a', { html: 'omit' });
// @ts-expect-error links are not written
linksOf('a', { html: 'raw' });
// @ts-expect-error a document has its own definitions
parse('a', { definitions: ['a'] });
// @ts-expect-error no such kind
read.find('Heading');
// @ts-expect-error no such kind
toHtml(read, { handlers: { Link: () => '' } });
// @ts-expect-error no such kind
export const kind: BlockKind = 'heading';
// @ts-expect-error no such rules
text('a', { rules: 'gfm' });
// @ts-expect-error definitions of HTML say where they lead
html('a', { definitions: ['a'] });
// @ts-expect-error no such name
export const name: Name = 'Nothing';
