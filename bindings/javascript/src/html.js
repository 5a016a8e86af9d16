// Renders nodes to HTML, of which handlers of the caller write some kinds. Texts without nodes of these kinds are rendered by the library.
import { optionsBy } from './arguments.js';
import { Node } from './nodes.js';
import { KINDS } from './syntax.js';

const SIGNS = { __proto__: null, '&': '&amp;', '<': '&lt;', '>': '&gt;', '"': '&quot;' };
const LINKS = ['link', 'linkReference', 'image', 'imageReference'];
// What is in these kinds is their text.
const LEAVES = new Set(['text', 'inlineCode', 'inlineMath', 'code', 'math', 'frontMatter', 'html', 'break', 'image', 'imageReference']);
// What is in texts.
const INLINE = new Set([...LEAVES, 'emphasis', 'strong', 'delete', 'link', 'linkReference']);
const IS_RAW = 1, WITH_LF = 0x20, WITH_CRLF = 0x40;
const optionsOf = optionsBy('handlers');

const escaped = (text) => text.replace(/\p{Surrogate}|\0/gu, '\ufffd').replace(/[&<>"]/g, (it) => SIGNS[it]);

const same = (_, inner) => inner;
const tagged = (tag, attributes = '') => (_, inner) => `<${tag}${attributes}>${inner}</${tag}>`;
const code = (inner, end, language) => `<pre><code${language === null ? '' : ` class="language-${escaped(language)}"`}>${inner}</code></pre>${end}`;
const link = (node, inner, { tags }) => `${tags.get(node)}${inner}</a>`;
const image = (node, inner, { tags }) => tags.get(node).replace(/ alt="[^"]*"/, () => ` alt="${inner}"`);

/** The HTML of a node by its kind, made of the HTML inside it. */
const DEFAULTS = {
  __proto__: null,
  root: same, text: same, html: same, link, linkReference: link, image, imageReference: image,
  emphasis: tagged('em'), strong: tagged('strong'), delete: tagged('del'), inlineCode: tagged('code'), inlineMath: tagged('code', ' class="language-math math-inline"'),
  break: (_, inner) => `<br />${inner}`,
  paragraph: (_, inner, { end }, isTight) => isTight ? inner : `<p>${inner}</p>${end}`,
  heading: ({ level }, inner, { end }) => `<h${level}>${inner}</h${level}>${end}`,
  blockquote: (_, inner, { end }) => `<blockquote>${end}${inner}</blockquote>${end}`,
  list({ ordered, startNumber }, inner, { end }) {
    return ordered ? `<ol${startNumber === 1 ? '' : ` start="${startNumber}"`}>${end}${inner}</ol>${end}` : `<ul>${end}${inner}</ul>${end}`;
  },
  listItem: (_, inner, { end }) => `<li>${inner}</li>${end}`,
  code: ({ lang }, inner, { end }) => code(inner, end, lang),
  math: (_, inner, { end }) => code(inner, end, 'math math-display'),
  thematicBreak: (_, __, { end }) => `<hr />${end}`,
  definition: () => '',
  frontMatter: () => '',
};

/** The opening tags of links and images, as the library renders them. Each target is passed once, however many links lead there. */
function tagsOf(document, nodes) {
  const targets = new Map(), definitions = new Map(), contents = [], words = [];
  let length = 0;
  for (const { kind, url, title } of nodes) {
    if (!targets.has(url)) targets.set(url, new Map());
    const titles = targets.get(url);
    if (!titles.has(title)) {
      titles.set(title, `${definitions.size}`);
      definitions.set(titles.get(title), [url, title]);
    }
    words.push(`${kind.startsWith('image') ? '!' : ''}[${titles.get(title)}]`);
    contents.push([length, length += words.at(-1).length]);
  }
  const htmls = document.htmlsOf(words.join(''), contents, definitions);
  return new Map(nodes.map((node, at) => [node, htmls[at].slice(0, htmls[at].indexOf('>') + 1)]));
}

class Renderer {
  constructor(root, handlers) {
    const document = Node.documentOf(root), { shown, htmls } = document;
    this.root = root;
    this.handlers = handlers;
    // The limit is exceeded here, if it is.
    this.htmls = htmls;
    this.inline = Object.keys(handlers).filter((it) => INLINE.has(it));
    this.tags = new Map();
    if (this.inline.length > 0 || INLINE.has(root.kind)) this.tags = tagsOf(document, [root, ...root.find(...LINKS)].filter(({ kind }) => LINKS.includes(kind)));
    this.isRaw = (shown & IS_RAW) !== 0;
    this.lineEnds = shown & WITH_LF ? '\n' : shown & WITH_CRLF ? '\r\n' : null;
    this.end = this.lineEnds ?? '\n';
  }

  /** The HTML. No call goes deeper than another, so deep nesting does not exhaust the stack. */
  render() {
    const opened = [this.#open(this.root)];
    for (; ;) {
      const around = opened.at(-1), { value: node, done } = around.left.next();
      if (!done) {
        opened.push(this.#open(node, around, opened.at(-2)));
        continue;
      }
      const html = this.#close(opened.pop(), opened.at(-1));
      if (opened.length === 0) return html;
    }
  }

  /** A node whose children are rendered next, if its HTML is made of theirs. */
  #open(node, around, list) {
    const { kind } = node, isTight = kind === 'paragraph' && around?.node.kind === 'listItem' && list?.node.tight === true;
    const content = kind === 'paragraph' || kind === 'heading' ? Node.contentOf(node) : null;
    const isWhole = content !== null && (this.inline.length === 0 || node.find(...this.inline).next().done);
    const check = kind === 'paragraph' ? Node.checkOf(node) : undefined, parts = check === undefined ? [] : [{ html: `<input type="checkbox" disabled=""${check ? ' checked=""' : ''} />` }];
    return { node, isTight, whole: isWhole ? this.htmls[content] : null, parts, left: (isWhole || LEAVES.has(kind) ? [] : node.children).values() };
  }

  /** Renders a node, and adds its HTML to that of the node around it. */
  #close({ node, isTight, whole, parts }, around) {
    const { kind } = node, inner = whole ?? this.#inside(node, parts), html = this.handlers[kind]?.(node, inner) ?? DEFAULTS[kind](node, inner, this, isTight);
    if (typeof html !== 'string') throw new TypeError(`the handler of ${kind} returns a string, or nothing`);
    around?.parts.push({ html, isTight });
    return html;
  }

  /** The HTML inside a node. Parts are added and not joined: engines copy them once, however deep they are. */
  #inside(node, parts) {
    const { kind } = node;
    if (kind === 'listItem') return this.#insideItem(parts);
    if (!LEAVES.has(kind)) return parts.reduce((all, { html }) => all + html, '');
    // A description has line feeds, as titles have.
    const text = kind.startsWith('image') ? node.text : Node.textOf(node, this.lineEnds);
    return kind === 'html' && this.isRaw ? text.replace(/\p{Surrogate}/gu, '\ufffd') : escaped(text);
  }

  /** The HTML inside an item. Each block but the paragraph of a tight list begins on a line of its own. */
  #insideItem(parts) {
    let isInLine = true, found = '';
    for (const { html, isTight } of parts) {
      found += isTight || !isInLine || html === '' ? html : this.end + html;
      if (html !== '') isInLine = isTight;
    }
    return found;
  }
}

/** Handlers of kinds: own properties of an object. */
function handlersOf(given = {}) {
  if (given === null || typeof given !== 'object') throw new TypeError('handlers are an object');
  const handlers = Object.assign(Object.create(null), given);
  for (const [kind, handler] of Object.entries(handlers)) {
    if (!KINDS.includes(kind)) throw new TypeError(`no node is of the kind ${kind}`);
    if (typeof handler !== 'function') throw new TypeError(`the handler of ${kind} is a function`);
  }
  return handlers;
}

/** Renders a document or a node, as the options of `parse` say. A handler gets a node of its kind and the HTML inside it. It returns HTML, which is written as it is, or
 *  null for the default. Without handlers the HTML of a document is that of `render`. */
export function toHtml(tree, given) {
  const { handlers } = optionsOf(given), root = tree?.root ?? tree;
  if (!(root instanceof Node)) throw new TypeError('a tree is a document that parse returns, or a node');
  return new Renderer(root, handlersOf(handlers)).render();
}
