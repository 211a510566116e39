// The proved reader, wire_page: the numbers that it answers, and its calls. That the scripts agree
// with it is tested, not proved.

import {WIRE_PAGE} from './wire_page.js';

// How many events a call answers at most, and the bytes of one and of a reader between calls.
export const BATCH = 4096;
export const RECORD_SIZE = 40;
const READER_SIZE = 432;
export const NO_LIMIT = 2n ** 64n - 1n;

// Kinds of events, by their wire types, and messages of a log.
export const VARINT = 0;
export const FIXED64 = 1;
export const BYTES = 2;
export const START = 3;
export const END = 4;
export const FIXED32 = 5;
export const FRAME = 6;
export const KINDS = [
  'varint', '8 bytes', 'bytes', 'group', 'end of group', '4 bytes', 'message'
];

// Why a call ended: the batch is full, all is read, or a fault in a part of a record.
export const MORE = 0;
export const DONE = 1;
const ERRORS = {
  2: 'UnexpectedEof',
  3: 'VarintTooLong',
  4: 'InvalidWireType',
  5: 'InvalidFieldNumber',
  9: 'RecursionLimitExceeded',
  10: 'InvalidEndGroup',
  12: 'UnknownFieldLimitExceeded'
};
export const errorOf = ({status, detail}) =>
  ERRORS[status] + (status === 4 || status === 10 ? `(${detail})` : '');
export const PARTS = ['tag', 'value', 'length', 'payload', 'end tag'];

// A memory of 64 bits, as the smallest module with one has it.
export function hasWideMemory() {
  try {
    return WebAssembly.validate(Uint8Array.of(0, 97, 115, 109, 1, 0, 0, 0, 5, 3, 1, 4, 1));
  } catch { return false; }
}

// The proved reader. Its structs, its room and the input stand behind what the module has itself.
export class Module {
  constructor() {
    const code = Uint8Array.from(atob(WIRE_PAGE), (c) => c.charCodeAt(0));
    this.calls = new WebAssembly.Instance(new WebAssembly.Module(code), {}).exports;
    const base = Math.ceil(Number(this.calls.__heap_base.value) / 64) * 64;
    [this.reader, this.limits, this.stop, this.number] =
      [base, base + 512, base + 576, base + 640];
    this.room = base + 704;
    this.input = this.room + BATCH * RECORD_SIZE;
    this.hold(this.input);
  }
  hold(end) {
    const pages = Math.ceil((end - this.calls.memory.buffer.byteLength) / 65536);
    if (pages > 0) this.calls.memory.grow(BigInt(pages));
    this.view = new DataView(this.calls.memory.buffer);
  }
  load(bytes) {
    this.hold(this.input + bytes.length);
    this.bytes(this.input, bytes.length).set(bytes);
  }
  bytes(place, length) { return new Uint8Array(this.calls.memory.buffer, place, length); }
  setLimits({depth, records, payloads}) {
    this.view.setBigUint64(this.limits, records, true);
    this.view.setBigUint64(this.limits + 8, payloads, true);
    this.view.setUint32(this.limits + 16, depth, true);
  }
  // What a call left behind as the reason of its end.
  stopped(offset) {
    const at = (k) => this.view.getUint32(this.stop + k, true);
    const place = (k) => offset + Number(this.view.getBigUint64(this.stop + k, true));
    return {status: at(0), detail: at(4), part: at(8), record: place(16), place: place(24)};
  }
  begin(limits) {
    this.setLimits(limits);
    this.calls.page_begin(BigInt(this.reader), BigInt(this.limits));
    return this.bytes(this.reader, READER_SIZE).slice();
  }
  // The next events behind a state, which goes on to what stands behind them.
  events(state, place, length) {
    this.bytes(this.reader, READER_SIZE).set(state);
    const found = Number(this.calls.page_events(BigInt(this.reader), BigInt(this.input + place),
      BigInt(length), BigInt(this.room), BigInt(BATCH), BigInt(this.stop)));
    state.set(this.bytes(this.reader, READER_SIZE));
    return found;
  }
  validate(place, length, limits) {
    this.setLimits(limits);
    this.calls.page_validate(
      BigInt(this.input + place), BigInt(length), BigInt(this.limits), BigInt(this.stop));
    return this.stopped(place);
  }
  // The varint at a place: its number and how many bytes it takes.
  prefix(place, end) {
    const taken = Number(this.calls.page_prefix(
      BigInt(this.input + place), BigInt(end - place), BigInt(this.number), BigInt(this.stop)));
    return {
      taken,
      number: taken ? this.view.getBigUint64(this.number, true) : 0n,
      status: this.view.getUint32(this.stop, true)
    };
  }
  shortest(length, limits) {
    this.setLimits(limits);
    const room = this.input + length;
    const call = (size) => Number(this.calls.page_shortest(BigInt(this.input), BigInt(length),
      BigInt(this.limits), BigInt(room), BigInt(size), BigInt(this.stop)));
    const size = call(0);
    const stop = this.stopped(0);
    if (stop.status > DONE) return {stop};
    this.hold(room + size);
    call(size);
    return {bytes: this.bytes(room, size).slice()};
  }
}
