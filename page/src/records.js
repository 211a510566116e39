// The records of a message, and the messages of a log.

import {
  BATCH, BYTES, DONE, END, FRAME, MORE, NO_LIMIT, RECORD_SIZE, START
} from './reader.js';
import {shown} from './shown.js';

export const allLimits = (depth = 100) => ({depth, records: NO_LIMIT, payloads: NO_LIMIT});

// The events of one message, or the messages of a log. Event i stands from start[i] to endOf(i).
export class List {
  constructor(place, length, parent, index, level) {
    Object.assign(this, {place, length, parent, index, level, size: 0, end: place});
    this.stop = {status: MORE};
    this.children = new Map();
    this.closed = new Set();
    this.broken = new Map();
    this.open = [];
    this.starts = [];
    this.type = null;
    this.grow(Math.min(64, length + 1));
  }
  grow(size) {
    const more = (Kind, old) => {
      const a = new Kind(size);
      if (old) a.set(old);
      return a;
    };
    this.tag = more(Uint32Array, this.tag);
    this.start = more(Float64Array, this.start);
    this.behind = more(Float64Array, this.behind);
    this.value = more(BigUint64Array, this.value);
    this.depth = more(Uint8Array, this.depth);
    // (the event that the innermost group around each starts with)
    if (shown.schema) this.outer = more(Int32Array, this.outer);
  }
  push(kind, number, value, start, behind, end) {
    if (this.size === this.tag.length) this.grow(this.size * 2);
    if (kind === END) {
      this.open.pop();
      this.starts.pop();
    }
    const i = this.size++;
    this.tag[i] = number * 8 + kind;
    this.start[i] = start;
    this.behind[i] = behind;
    this.value[i] = value;
    this.depth[i] = this.open.length;
    if (this.outer) this.outer[i] = this.starts.length ? this.starts.at(-1) : -1;
    if (kind === START) {
      this.open.push(number);
      this.starts.push(i);
    }
    this.end = end;
  }
  kind(i) { return this.tag[i] % 8; }
  number(i) { return Math.floor(this.tag[i] / 8); }
  endOf(i) { return i + 1 < this.size ? this.start[i + 1] : this.end; }
  payload(i) { return this.endOf(i) - Number(this.value[i]); }
  holds(i) { return this.kind(i) === BYTES || this.kind(i) === FRAME; }
  // The last event of the group that starts at i.
  groupEnd(i) {
    let k = i + 1;
    while (k < this.size && !(this.kind(k) === END && this.depth[k] === this.depth[i])) k++;
    return Math.min(k, this.size - 1);
  }
  // How deep an event stands among groups and messages.
  nesting(i) { return this.level + this.depth[i]; }
  isFault() { return this.stop.status > DONE; }
  forget() {
    for (let list = this; list; list = list.parent) list.known = null;
  }
}

// Reads the events of a list, a batch a step.
export function* reading(list, within = shown.limits) {
  const {module} = shown, state = module.begin(within);
  for (;;) {
    const found = module.events(state, list.place, list.length);
    const {view, room} = module;
    for (let k = 0; k < found; k++) {
      const at = room + k * RECORD_SIZE;
      const place = (n) => list.place + Number(view.getBigUint64(at + n, true));
      list.push(view.getUint32(at, true), view.getUint32(at + 4, true),
        view.getBigUint64(at + 8, true), place(16), place(24), place(32));
    }
    list.stop = module.stopped(list.place);
    if (list.stop.status !== MORE) return;
    yield;
  }
}

// Reads the messages of a log, some at a step.
export function* frames(list) {
  let place = list.place;
  const end = list.place + list.length;
  for (let k = 1; place < end; k++) {
    const {taken, number, status} = shown.module.prefix(place, end);
    const message = place + taken;
    if (!taken || number > BigInt(end - message)) {
      list.stop = {
        status: taken ? 2 : status,
        detail: 0,
        part: taken ? 3 : 2,
        record: place,
        place: message,
        frame: k
      };
      return;
    }
    list.push(FRAME, k, number, place, message, message + Number(number));
    place = message + Number(number);
    if (k % BATCH === 0) yield;
  }
  list.stop = {status: DONE};
}
