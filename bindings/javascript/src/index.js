// The calls for whole documents.
import { calls } from './library.js';

export { MarkdownInlineError } from './errors.js';
export { toHtml } from './html.js';
export * as inline from './inline.js';
export { create } from './library.js';
export { slugger } from './slugger.js';

export const { render, parse, links } = calls;
