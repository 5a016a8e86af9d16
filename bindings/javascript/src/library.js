// The calls over the module beside this file.
import { callsOf } from './calls.js';
import { compiled } from './module.js';

const module = await compiled();

/** The calls over an instance of their own, whose memory has `maximum` bytes at most. */
export const create = (settings) => callsOf(module, settings);

export const calls = create();
