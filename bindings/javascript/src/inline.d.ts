// The calls for one text, as types.
import type { Name, Switches } from './names.js';
export type { Name, Switches } from './names.js';

/** A string, whose offsets count units of UTF-16; or its UTF-8, whose offsets count bytes. In a string half of a surrogate pair is read as U+FFFD. */
export type Text = string | Uint8Array;

/** A piece of a document, from an offset to an offset. `startVs` and `endVs` count the columns of a tab there that come before. */
export type Piece = readonly [start: number, end: number, startVs?: number, endVs?: number] | { start: number; end: number; startVs?: number; endVs?: number };

/** One of many contents of a document: one piece as an array, or its pieces, and whether it is the first of a list item. */
export type Content = readonly [start: number, end: number, startVs?: number, endVs?: number] | { pieces: Iterable<Piece>; firstOfItem?: boolean };

/** Where a definition leads, and its title, with escapes and character references resolved. */
export type Target = Text | readonly [destination: Text, title?: Text | null] | { destination: Text; title?: Text | null };

/** Where definitions lead, by their labels as they are written. */
export type Targets = ReadonlyMap<Text, Target> | { readonly [label: string]: Target };

/** What is read as what. By default a text is read as CommonMark 0.31.2 says. Each switch adds or takes away, whatever the words above it say. */
export interface Rules extends Switches {
  /** CommonMark's rules, or those of the crate `markdown` where it departs from them. */
  rules?: 'commonmark' | 'crate';
  /** What GitHub adds. */
  gfm?: boolean;
  /** Math spans. */
  math?: boolean;
  /** All of it as bits instead, such as `COMMONMARK | GFM`. It takes no rules and no switch beside them. */
  bits?: number;
}

/** Whether numbers of pieces and parts are offsets of a string, or bytes of its UTF-8. */
export interface Offsets {
  offsets?: 'utf-16' | 'bytes';
}

/** Which pieces of a document are meant. Without them it is the whole document. */
export interface Pieces extends Offsets {
  pieces?: Iterable<Piece> | null;
}

export interface Footnotes {
  /** Labels of footnotes as they are written, without their carets. */
  footnotes?: Iterable<Text>;
}

export interface Definitions {
  /** Labels as they are written; the keys of a Map or an object. */
  definitions?: Iterable<Text> | Targets;
}

export interface Task {
  /** Whether the text is the first of a list item. */
  task?: boolean;
}

export type TextOptions = Rules & Pieces & Footnotes & Definitions & Task;
export type TextsOptions = Rules & Offsets & Footnotes & Definitions;

/** What HTML may contain and how it is written. */
export interface Written {
  /** Whether raw HTML is escaped, or written as it is. */
  html?: 'escape' | 'raw';
  /** Lets links lead wherever they say, and not only to listed schemes. */
  anyLink?: boolean;
  /** What each line ending is written as. By default those of the document stay as they are, and a page adds line feeds. */
  lineEnds?: '\n' | '\r\n';
  /** How many bytes references may expand to, from 1 on; Infinity is no limit. By default it is the length of the document in bytes, or 100,000 where that is more. */
  limit?: number;
}

export interface HtmlsOptions extends Written, Rules, Offsets, Footnotes {
  definitions?: Targets;
}

export type HtmlOptions = HtmlsOptions & Pieces & Task;

export interface StringsOptions extends Rules, Offsets {
  /** Writes a line feed for each line ending. */
  lineFeeds?: boolean;
  /** Writes U+FFFD for NUL. */
  replacedNul?: boolean;
}

export interface LinksOptions extends Rules, Pieces, Footnotes, Task {
  definitions?: Targets;
  /** The contents of the document. Without them and without pieces the document is one text. */
  contents?: Iterable<Content>;
}

/** How what an event names is to be read again, with the numbers of the events before and after on its chain. */
export interface Chain {
  content: 'String' | 'Text';
  previous: number | null;
  next: number | null;
}

/** The beginning or the end of something. Lines and columns count from 1. */
export interface Event {
  enter: boolean;
  name: Name;
  line: number;
  column: number;
  offset: number;
  /** How many columns of the tab at the offset come before. */
  vs: number;
  byteColumn: number;
  byte: number;
  link: Chain | null;
}

/** The beginning or the end of something, without its line and column, with the number of the definition or the footnote that it refers to, or with the
 * character that a character reference stands for: null where it stands for two. */
export interface ShortEvent {
  enter: boolean;
  name: Name;
  offset: number;
  /** 255 where it is more. */
  vs: number;
  byte: number;
  link: 'String' | 'Text' | null;
  definition: number | null;
  standsFor: string | null;
}

/** The source of an event that has no other inside. `before` and `after` count virtual spaces of tabs on either side of the content. */
export interface Leaf<Document extends Text = Text> {
  name: Name;
  line: number;
  column: number;
  offset: number;
  vs: number;
  byteColumn: number;
  byte: number;
  endLine: number;
  endColumn: number;
  endOffset: number;
  endVs: number;
  endByteColumn: number;
  endByte: number;
  before: number;
  content: Document;
  after: number;
}

/** A link, an image, an autolink or a bare URL, which is a `literal`, and where it leads. */
export interface Link {
  kind: 'link' | 'image' | 'autolink' | 'literal';
  line: number;
  column: number;
  offset: number;
  endOffset: number;
  byteColumn: number;
  byte: number;
  endByte: number;
  destination: string;
  title: string | null;
  /** The number of the definition that it refers to. */
  definition: number | null;
  /** The number of its content. */
  content: number;
}

/** Rows, each of which becomes an object when it is looked at. */
export interface Rows<Row> extends Iterable<Row> {
  readonly length: number;
  at(number: number): Row | undefined;
}

/** The tree of a text. */
export interface Tree {
  /** The nodes directly in this one. */
  readonly children: Node[];
  /** Its source, without what a block has between its pieces. */
  readonly text: string;
  /** All nodes inside this one, in the order in which they begin. */
  walk(): IterableIterator<Node>;
  /** The nodes inside this one that have one of these names. */
  find(...names: Name[]): IterableIterator<Node>;
}

/** Something that begins and ends in a text, with the events by which it does. */
export interface Node extends Tree {
  readonly name: Name;
  readonly enter: Event;
  readonly exit: Event;
}

/** The bit of each switch. */
export declare const OPTIONS: Readonly<Record<keyof Switches, number>>;
/** The names of events. */
export declare const NAMES: readonly Name[];
export declare const COMMONMARK: number;
export declare const CRATE: number;
export declare const GFM: number;
export declare const MATH: number;

export interface InlineCalls {
  /** The events of a text: of a whole document, or of pieces of it. A call reads the whole document, so for many contents there is `texts`. */
  text(document: Text, options?: TextOptions): Rows<Event>;
  /** The events of a string, such as a title: of escapes, character references and data. */
  string(document: Text, options?: Rules & Pieces): Rows<Event>;
  /** The leaves of a text, in order: together they cover its pieces. */
  leaves<Document extends Text>(document: Document, options?: TextOptions): Rows<Leaf<Document extends string ? string : Uint8Array>>;
  /** The tree of a text, whose nodes are made when they are looked at. */
  tree(document: Text, options?: TextOptions): Tree;
  /** The events of many contents of a document, of each alone. */
  texts(document: Text, contents: Iterable<Content>, options?: TextsOptions): Rows<Rows<Event>>;
  /** The same events without lines and columns. */
  shortTexts(document: Text, contents: Iterable<Content>, options?: TextsOptions): Rows<Rows<ShortEvent>>;
  /** The HTML of a text. */
  html(document: Text, options?: HtmlOptions): string;
  /** The HTML of many contents of a document, with footnotes numbered through all of them. */
  htmls(document: Text, contents: Iterable<Content>, options?: HtmlsOptions): string[];
  /** The texts of strings, of each by its parts, with escapes and character references resolved. */
  strings(document: Text, strings: Iterable<Iterable<readonly [start: number, end: number]>>, options?: StringsOptions): string[];
  /** The pieces of paragraphs, made of where their lines begin: for each line of a paragraph the offset at which the paragraph's part of it begins, after the
   * markers of quotes and items; spaces and tabs may follow. A piece begins after these, and ends just after its line's ending; the last one of a paragraph ends
   * before the whitespace at its end. A call reads the document once, for all paragraphs. The number of an error is that of the paragraph. */
  piecesOfLines(document: Text, paragraphs: Iterable<Iterable<number>>, options?: Offsets): [start: number, end: number][][];
  /** What labels are compared by. */
  identifier(label: Text): string;
  /** The text that a character reference stands for. It is the whole reference, with its `&` and its `;`. */
  reference(reference: Text, options?: Rules): string;
  /** Whether the pieces are a text of the document. */
  isText(document: Text, options?: Pieces): boolean;
  /** Whether the pieces are a content of the document: a text may not have a blank line. */
  isContent(document: Text, options?: Pieces): boolean;
  /** The links, images, autolinks and bare URLs of a document, in the order in which they begin. */
  links(document: Text, options?: LinksOptions): Link[];
}

export declare const text: InlineCalls['text'];
export declare const string: InlineCalls['string'];
export declare const leaves: InlineCalls['leaves'];
export declare const tree: InlineCalls['tree'];
export declare const texts: InlineCalls['texts'];
export declare const shortTexts: InlineCalls['shortTexts'];
export declare const html: InlineCalls['html'];
export declare const htmls: InlineCalls['htmls'];
export declare const strings: InlineCalls['strings'];
export declare const piecesOfLines: InlineCalls['piecesOfLines'];
export declare const identifier: InlineCalls['identifier'];
export declare const reference: InlineCalls['reference'];
export declare const isText: InlineCalls['isText'];
export declare const isContent: InlineCalls['isContent'];
export declare const links: InlineCalls['links'];
