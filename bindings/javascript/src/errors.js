// Why a call returns nothing.
import { STATUSES } from './names.js';

const NOT_UTF8 = 3;
export const NO_MEMORY = 5;
export const TOO_SMALL = 6;

/** Why the library refuses a call. */
export class MarkdownInlineError extends Error {
  constructor(status, at = null) {
    const [code, words] = STATUSES[status] ?? ['UNKNOWN', `status ${status}`];
    super(at === null ? words : `${words} (${status === NOT_UTF8 ? 'byte' : 'number'} ${at})`);
    this.name = 'MarkdownInlineError';
    this.code = code;
    this.status = status;
    this.at = at;
  }
}
