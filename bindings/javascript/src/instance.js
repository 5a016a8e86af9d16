// An instance of the module of WebAssembly, and what stands in its memory during a call.
import { encoder } from './arguments.js';
import { MarkdownInlineError, NO_MEMORY, TOO_SMALL } from './errors.js';
import { VERSION } from './names.js';

const PAGE = 65536;
// How large a memory may be that is kept for the next call, in bytes.
const KEPT = 64 * 1024 * 1024;
const NONE = 0xffffffff;
const decoder = new TextDecoder('utf-8', { ignoreBOM: true });

// A text whose UTF-8 certainly fits here needs no view of its own.
const SMALL = 4096;

const roundedUp = (bytes) => Math.ceil(bytes / 16) * 16;

/** Takes new views of an instance's memory. */
function view(one) {
  const { buffer } = one.exports.memory;
  one.bytes = new Uint8Array(buffer);
  one.words = new Uint32Array(buffer);
  one.small = one.bytes.subarray(one.base, one.base + SMALL);
}

/** The memory and the calls of one module. `maximum` is how many bytes its memory may have. */
export class Instance {
  #module;
  #pages;
  // An instance for the next call, and the one of the call that runs: its exports, where its room begins, and views of its memory.
  #kept = null;
  #current = null;
  // Where room begins that is still free.
  #top = 0;

  constructor(module, maximum) {
    this.#module = module;
    this.#pages = Math.max(1, Math.floor(maximum / PAGE));
  }

  /** Runs what makes one call, and gives all memory back. What stops the module on its way, such as a stack that is used up, leaves its stack pointer where it
   *  was: so that instance is not used again, and neither is one whose memory has become large. */
  within(run) {
    const one = this.#current = this.#kept ?? this.#fresh();
    this.#kept = null;
    this.#top = one.base;
    let isUsable = false;
    try {
      const found = run();
      isUsable = true;
      return found;
    } catch (error) {
      isUsable = error instanceof MarkdownInlineError;
      throw error;
    } finally {
      if (isUsable && one.bytes.length <= KEPT) this.#kept = one;
      else this.#current = null;
    }
  }

  #fresh() {
    const { exports } = new WebAssembly.Instance(this.#module, {});
    if (exports.version() !== VERSION) throw new Error(`the module is not of version ${VERSION} of the interface`);
    exports.limit(this.#pages);
    const one = { exports, base: exports.base() >>> 0, bytes: null, words: null, small: null };
    view(one);
    return one;
  }

  // Where memory grows, its views have nothing left.
  #look() {
    if (this.#current.bytes.length === 0) view(this.#current);
  }

  #room(bytes) {
    const at = this.#top, end = at + roundedUp(bytes), one = this.#current;
    if (end > one.bytes.length) {
      if (end > NONE || !one.exports.reach(end)) throw new MarkdownInlineError(NO_MEMORY);
      this.#look();
    }
    this.#top = end;
    return at;
  }

  /** A text in memory: where it stands, how many bytes it has, and whether offsets in UTF-16 are others than bytes. */
  put(text) {
    if (typeof text !== 'string') {
      const at = this.#room(text.length);
      this.#current.bytes.set(text, at);
      return { at, length: text.length, isWide: false };
    }
    // Room for what most texts need, and then for what each may need.
    for (const most of text.length * 3 <= SMALL ? [SMALL] : [text.length + (text.length >> 3) + 16, text.length * 3]) {
      const at = this.#room(most), { base, bytes, small } = this.#current;
      const { read, written } = encoder.encodeInto(text, most === SMALL && at === base ? small : bytes.subarray(at, at + most));
      this.#top = at + (read === text.length ? roundedUp(written) : 0);
      if (read === text.length) return { at, length: written, isWide: written !== read };
    }
    throw new MarkdownInlineError(NO_MEMORY);
  }

  /** 64-bit numbers in memory. Infinity is the largest. */
  putNumbers(list) {
    const at = this.#room(list.length * 8), { words } = this.#current;
    let to = at / 4;
    for (const it of list) {
      words[to++] = it === Infinity ? NONE : it;
      words[to++] = it === Infinity ? NONE : it <= NONE ? 0 : it / 2 ** 32;
    }
    return at;
  }

  /** Texts in memory, one behind another: where, how many bytes they have, and their starts and ends. */
  putJoined(texts) {
    const ranges = [], written = texts.map((it) => typeof it === 'string' ? encoder.encode(it) : it);
    let length = 0;
    for (const it of written) ranges.push(length, length += it.length);
    const at = this.#room(length);
    written.forEach((it, number) => this.#current.bytes.set(it, at + ranges[2 * number]));
    return { at, length, ranges };
  }

  /** The status of a call. It may use all memory from the top on. */
  call(name, list) {
    const at = this.putNumbers(list), status = this.#current.exports[name](at, this.#top);
    this.#look();
    return status;
  }

  /** Calls with room for so many elements, and once more where they are more. It returns where they stand, and how many they are. The call writes their count,
   *  or an outcome, which has the count in its middle. */
  filled(name, list, size, many, hasOutcome = false) {
    const outcome = this.#room(24), count = outcome + 8, before = this.#top;
    for (;;) {
      const at = this.#room(many * size), status = this.call(name, [...list, at, many, hasOutcome ? outcome : count]), { words } = this.#current;
      const blamed = hasOutcome ? words[outcome / 4 + 4] : NONE;
      many = words[count / 4];
      if (status === 0) return { at, many };
      if (status !== TOO_SMALL) throw new MarkdownInlineError(status, blamed === NONE ? null : blamed);
      this.#top = before;
    }
  }

  /** The same of a call that is lent several arrays, and counts. An array is told by the size of its elements, the number of their count, and how many have room
   *  at first. */
  filledEach(name, list, arrays) {
    const counts = this.#room(16), before = this.#top;
    let rooms = arrays.map(([, , many]) => many);
    for (;;) {
      const found = arrays.map(([size], number) => this.#room(rooms[number] * size));
      const status = this.call(name, [...list, ...found.flatMap((at, number) => [at, rooms[number]]), counts]);
      rooms = arrays.map(([, count]) => this.#current.words[counts / 4 + 2 * count]);
      if (status === 0) return found.map((at, number) => ({ at, many: rooms[number] }));
      if (status !== TOO_SMALL) throw new MarkdownInlineError(status);
      this.#top = before;
    }
  }

  /** The same of a call for so many contents or strings. It returns too where the elements of each end. */
  filledMany(name, list, size, many, contents) {
    const outcome = this.#room(24), ends = this.#room(8 * contents), before = this.#top;
    for (;;) {
      const at = this.#room(many * size), status = this.call(name, [...list, at, many, ends, contents, outcome]), { words } = this.#current;
      const blamed = words[outcome / 4 + 4];
      many = words[outcome / 4 + 2];
      if (status === 0) return { at, many, ends: Uint32Array.from({ length: contents }, (_, number) => words[ends / 4 + 2 * number]) };
      if (status !== TOO_SMALL) throw new MarkdownInlineError(status, blamed === NONE ? null : blamed);
      this.#top = before;
    }
  }

  /** Calls for the pieces of each paragraph, whose starts stand one behind another, and end there. It returns where the pieces stand. */
  piecesOfLines(text, starts, ends) {
    const outcome = this.#room(24), at = this.#room(32 * (ends.at(-1) ?? 0)), before = this.#top;
    ends.forEach((end, number) => {
      const first = number === 0 ? 0 : ends[number - 1];
      const status = this.call('pieces_of_lines', [text.at, text.length, starts + 8 * first, end - first, at + 32 * first, end - first, outcome]);
      if (status !== 0) throw new MarkdownInlineError(status, status === NO_MEMORY ? null : number);
      this.#top = before;
    });
    return at;
  }

  /** The bytes of offsets in UTF-16 of a text, in the place of these. There are so many, so many bytes apart. */
  toBytes(text, offsets, many, apart) {
    if (!text.isWide || many === 0) return;
    const isDone = this.#current.exports.to_bytes(text.at, text.length, offsets, many, apart, this.#top);
    this.#look();
    if (!isDone) throw new MarkdownInlineError(NO_MEMORY);
  }

  /** A copy of rows. Offsets in UTF-16 stand in the upper halves of places, where the text has others than bytes; so do columns, if rows have them. */
  copied(text, at, many, size, places) {
    for (const [place, column] of text.isWide && many > 0 ? places : []) {
      const isDone = this.#current.exports.to_units(text.at, text.length, at, many, size, place, column === undefined ? 0 : 1, column ?? 0, this.#top);
      this.#look();
      if (!isDone) throw new MarkdownInlineError(NO_MEMORY);
    }
    return this.#current.words.slice(at / 4, (at + many * size) / 4);
  }

  /** The text of bytes in memory. */
  decoded(at, end) {
    return decoder.decode(new Uint8Array(this.#current.bytes.buffer, at, end - at));
  }
}
