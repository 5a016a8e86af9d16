// The calls for one text, such as a paragraph.
import { calls } from './library.js';

export { COMMONMARK, CRATE, GFM, MATH, NAMES, OPTIONS } from './names.js';

export const { text, string, leaves, tree, texts, shortTexts, html, htmls, strings, piecesOfLines, identifier, reference, isText, isContent, links } = calls.inline;
