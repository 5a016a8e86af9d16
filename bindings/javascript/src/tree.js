// The tree of a text, as nodes that are made when they are looked at.
import { NAMES } from './names.js';

const decoder = new TextDecoder('utf-8', { ignoreBOM: true });

/** All that stands in a text. The nodes that stand in nothing else are its `children`. */
export class Tree {
  // `spans` has for each node, in the order in which they begin: the numbers of the events by which it begins and ends, and the number of the first node behind
  // it. Inside this one are those from `first` to `after`.
  constructor(spans, events, first, after) {
    this.spans = spans;
    this.events = events;
    this.first = first;
    this.after = after;
  }

  node(at) {
    return new Node(this.spans, this.events, at + 1, this.spans[3 * at + 2]);
  }

  get children() {
    const found = [];
    for (let at = this.first; at < this.after; at = this.spans[3 * at + 2]) found.push(this.node(at));
    return found;
  }

  /** What stands here, as it is written, without what a block has between its pieces. */
  get text() {
    const { spans, events } = this, { document } = events;
    let found = '';
    for (let at = this instanceof Node ? this.first - 1 : this.first; at < this.after; at++) {
      if (spans[3 * at + 2] !== at + 1) continue;
      const part = document.slice(events.offsetOf(spans[3 * at]), events.offsetOf(spans[3 * at + 1]));
      found += typeof part === 'string' ? part : decoder.decode(part);
    }
    return found;
  }

  /** All nodes inside this one, in the order in which they begin. */
  *walk() {
    for (let at = this.first; at < this.after; at++) yield this.node(at);
  }

  /** The nodes inside this one that have one of these names. */
  *find(...names) {
    const wanted = new Set(names.map((it) => NAMES.indexOf(it)));
    for (let at = this.first; at < this.after; at++) if (wanted.has(this.events.nameOf(this.spans[3 * at]))) yield this.node(at);
  }
}

/** Something that begins and ends in a text. */
export class Node extends Tree {
  get name() {
    return this.enter.name;
  }

  /** The event by which it begins. */
  get enter() {
    return this.events.at(this.spans[3 * (this.first - 1)]);
  }

  /** The event by which it ends. */
  get exit() {
    return this.events.at(this.spans[3 * (this.first - 1) + 1]);
  }
}

/** The tree of a text's events. */
export function treeOf(events) {
  const spans = new Uint32Array(events.length / 2 * 3), opened = [];
  let many = 0;
  for (let number = 0; number < events.length; number++) {
    if (events.isEnter(number)) {
      opened.push(many);
      spans[3 * many++] = number;
    } else {
      const at = opened.pop();
      spans[3 * at + 1] = number;
      spans[3 * at + 2] = many;
    }
  }
  return new Tree(spans, events, 0, many);
}
