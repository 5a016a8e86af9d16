// The calls for whole documents, as types.
import type { Event, InlineCalls, Link, Rows, ShortEvent, Text, Written } from './inline.js';
import type { Code } from './names.js';
export type { Event, InlineCalls, Link, Rows, ShortEvent, Text, Written } from './inline.js';
export type { Code } from './names.js';
export * as inline from './inline.js';

/** Which constructs are read in addition to CommonMark. */
export interface Constructs {
  /** Strikethrough, by one or two tildes. */
  strikethrough?: boolean;
  /** Links for URLs and email addresses without angle brackets. */
  bareUrls?: boolean;
  /** Checkboxes of task list items. */
  tasks?: boolean;
  /** Math spans, by one or more dollars, and math blocks, which are fenced with two or more. */
  math?: boolean;
  /** Front matter: the lines between two lines of `---`, or of `+++`, at the start of a document. HTML leaves it out. */
  frontMatter?: boolean;
}

export type DocumentOptions = Constructs & Written;

/** A link reference definition: its label as it is written, and where it leads, with escapes and character references resolved. */
export interface Definition {
  label: string;
  destination: string;
  title: string | null;
}

/** What a block is. */
export type BlockKind = 'BlankLine' | 'ThematicBreak' | 'Heading' | 'Paragraph' | 'IndentedCode' | 'FencedCode' | 'Html' | 'Quote' | 'Item' | 'FrontMatter';

/** A block of a document. */
export interface Block {
  readonly kind: BlockKind;
  /** How many containers are round it: what a quote or an item holds comes after it, one deeper. */
  readonly depth: number;
  /** The level of a heading, the number of an item of an ordered list, the kind of HTML; else 0. */
  readonly number: number;
  /** The character of an item's marker or of a fence. Fenced code with the character `$` is math. */
  readonly marker: string | null;
  /** Of an item, where it is in its list. */
  readonly beginsList: boolean;
  readonly endsList: boolean;
  /** Whether the item's list is loose. */
  readonly isLoose: boolean;
  /** The number of its text among those of `Document.texts`. Headings and paragraphs have a text, of which a paragraph of definitions alone has nothing. */
  readonly content: number | null;
  /** The pieces of a heading's or a paragraph's text; of code, HTML and front matter its lines, one piece each. Of fenced code the first piece is the info string. */
  readonly pieces: [start: number, end: number, startVs: number, endVs: number][];
  /** The line on which it begins, from 1. Fenced code and front matter begin with their fence, and a text with the definitions at its front. */
  readonly line: number;
  /** The lines of a text, of code, of HTML or of front matter, each with its line ending, if it has one. Of a tab that a container cuts, the remaining columns are
   * spaces. The blank lines after indented code are among them, which HTML leaves out. */
  readonly lines: string[];
  /** The info string of fenced code, with escapes and character references resolved. Its first word names the language. */
  readonly info: string | null;
  /** The events of its text, none where it has none. */
  readonly events: Rows<Event>;
  readonly shortEvents: Rows<ShortEvent>;
  /** The HTML of its text, without a tag of the block itself; empty where it has no text. */
  readonly html: string;
  /** The links, images, autolinks and bare URLs of its text. */
  readonly links: readonly Link[];
}

/** What a node is, by the names of mdast. */
export type NodeKind =
  | 'root' | 'paragraph' | 'heading' | 'list' | 'listItem' | 'blockquote' | 'code' | 'html' | 'thematicBreak' | 'definition' | 'text' | 'emphasis' | 'strong' | 'delete' | 'inlineCode'
  | 'inlineMath' | 'break' | 'link' | 'image' | 'linkReference' | 'imageReference' | 'math' | 'frontMatter';

/** A node of a document, from the offset `start` to `end`. What only some kinds have is undefined of the others. */
export interface Node {
  readonly kind: NodeKind;
  readonly start: number;
  readonly end: number;
  readonly line: number;
  readonly column: number;
  readonly endLine: number;
  readonly endColumn: number;
  /** The nodes directly inside. Those of an image are its description. */
  readonly children: readonly Node[];
  /** Without markup: of code, math, raw HTML and front matter the source, of others the text inside, without raw HTML and front matter. A blank line separates blocks. */
  readonly text: string;
  /** All nodes inside, in the order in which they begin. */
  walk(): IterableIterator<Node>;
  /** The nodes inside that are of one of these kinds. */
  find(...kinds: NodeKind[]): IterableIterator<Node>;
  /** The level of a heading, from 1 to 6. */
  readonly level: number | undefined;
  /** Whether the items of a list are numbered. */
  readonly ordered: boolean | undefined;
  /** The number of the first item of a list, null of a bullet list. */
  readonly startNumber: number | null | undefined;
  /** Whether a list is tight (CommonMark 5.3). */
  readonly tight: boolean | undefined;
  /** Whether a blank line separates two of the nodes directly in a list or an item. */
  readonly spread: boolean | undefined;
  /** Whether the checkbox of an item is checked, null of an item without one. */
  readonly checked: boolean | null | undefined;
  /** The info string of fenced code and of math, with escapes and character references resolved, null of indented code. */
  readonly info: string | null | undefined;
  /** The first word of the info string of code. Of front matter `yaml` or `toml`, by its fences. */
  readonly lang: string | null | undefined;
  /** Where a link, an image or a definition leads, and its title, with escapes and character references resolved. */
  readonly url: string | undefined;
  readonly title: string | null | undefined;
  /** The description of an image, without markup. */
  readonly alt: string | undefined;
  /** The label of a reference or a definition, as it is written. */
  readonly label: string | undefined;
  /** How a reference is written: `[a][b]`, `[a][]` or `[a]`. */
  readonly reference: 'full' | 'collapsed' | 'shortcut' | undefined;
}

/** A node of mdast. */
export interface Mdast {
  type: Exclude<NodeKind, 'frontMatter'> | 'yaml' | 'toml';
  position: { start: Point; end: Point };
  children?: Mdast[];
  [field: string]: unknown;
}

/** A point of unist. */
export interface Point {
  line: number;
  column: number;
  offset: number;
}

/** A document: its blocks as rows, in order, and its nodes. Inline parsing is lazy: the first access to `texts`, `htmls`, `links` or nodes parses the texts of all
 * headings and paragraphs at once. It never changes. */
export interface Document extends Rows<Block> {
  /** The document as it was given. */
  readonly raw: Text;
  /** The node of the whole document, and the nodes directly in it. */
  readonly root: Node;
  readonly children: readonly Node[];
  readonly headings: Node[];
  /** The language and the text of front matter, null where the document has none. */
  readonly frontMatter: { readonly lang: 'yaml' | 'toml'; readonly text: string } | null;
  /** The text of all paragraphs, headings, code and math, without markup and raw HTML. A blank line separates two of them. */
  readonly text: string;
  walk(): IterableIterator<Node>;
  find(...kinds: NodeKind[]): IterableIterator<Node>;
  /** The same as `text`. */
  toText(): string;
  /** The tree of mdast, as unist says: plain objects with positions. */
  toMdast(): Mdast;
  /** The tree of mdast as JSON. */
  toJson(): string;
  /** The link reference definitions of the document. Of several with one identifier the first counts. */
  readonly definitions: readonly Definition[];
  /** The events of the texts of all headings and paragraphs, in order. */
  readonly texts: Rows<Rows<Event>>;
  /** The short events of the same texts. The number of a definition is that of it among `definitions`. */
  readonly shortTexts: Rows<Rows<ShortEvent>>;
  /** The HTML of the same texts. */
  readonly htmls: readonly string[];
  /** The links, images, autolinks and bare URLs of the same texts. */
  readonly links: readonly Link[];
}

export interface ToHtmlOptions {
  /** A handler gets a node of its kind and the HTML inside it, of code and other leaves their escaped text. It returns HTML, which is written as it is, or null for the
   * default. */
  handlers?: { readonly [Kind in NodeKind]?: (node: Node, inner: string) => string | null | undefined };
}

/** Why the library rejects a call. */
export declare class MarkdownInlineError extends Error {
  readonly code: Code;
  /** The number of the code in markdown_inline.h. */
  readonly status: number;
  /** The number of the content, the string or the definition that is to blame, in a call for many. Footnotes are counted after the definitions.
   * Where the document is not UTF-8, the first byte that is wrong. */
  readonly at: number | null;
}

export interface Calls {
  /** Renders a document to HTML: its blocks and the text inside them, following CommonMark 0.31.2, with the constructs that the options add. A byte order mark at
   * the front is no text. If the document is not UTF-8, `at` of the error is the first byte that is wrong. */
  render(document: Text, options?: DocumentOptions): string;
  /** Parses a document: its blocks, following CommonMark 0.31.2, and the text inside them. Lines, columns and offsets are those of the document. The writing
   * options are for the HTML of texts and of `toHtml`. */
  parse(document: Text, options?: DocumentOptions): Document;
  /** The links, images, autolinks and bare URLs of a document, in order: `parse(document).links`. */
  links(document: Text, options?: Constructs): readonly Link[];
  /** The calls for one text, such as a paragraph. */
  readonly inline: InlineCalls;
}

/** The calls over an instance of their own, whose memory has `maximum` bytes at most: by default nearly 4 GB. */
export declare function create(settings?: { maximum?: number }): Calls;

/** Renders a document or a node to HTML, of which handlers write some kinds. The other options are those of `parse`. Without handlers it is the HTML of `render`. */
export declare function toHtml(tree: Document | Node, options?: ToHtmlOptions): string;

/** A function that makes ids of the texts of headings, as GitHub does. No two are alike: after `a` comes `a-1`. */
export declare function slugger(): (text: string) => string;

export declare const render: Calls['render'];
export declare const parse: Calls['parse'];
export declare const links: Calls['links'];
