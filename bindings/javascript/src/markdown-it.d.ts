// The plugin for markdown-it, as types. What is asked of markdown-it is said here, so that its own types need not be there.
/** A token of markdown-it, as far as `piecesOf` looks at it. */
export interface Token {
  readonly type: string;
  readonly tag: string;
  readonly markup: string;
  readonly content: string;
  readonly map: readonly [number, number] | number[] | null;
}

export interface Settings {
  /** For the name of a rule of another plugin, what stands in each content in which the rule can find something. */
  signs?: { readonly [rule: string]: RegExp };
  /** Whether `token.meta.markdown_inline` says from where to where each token stands, as `start` and `end`, in units of the content. */
  places?: boolean;
}

/** Puts the library into the place of markdown-it's inline parser: `MarkdownIt().use(plugin)`. */
export default function plugin(md: any, settings?: Settings): void;

/** For each inline token among the tokens of a document, in order, the pieces of the document that it is made of; null where they cannot be told. */
export declare function piecesOf(tokens: readonly Token[], document: string): ([start: number, end: number][] | null)[];
