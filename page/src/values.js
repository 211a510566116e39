// What values say without a schema.

import {BYTES, END, FIXED32, FIXED64, FRAME, START, VARINT} from './reader.js';
import {shown} from './shown.js';
import {escaped, hex} from './words.js';

// The bytes of a payload, at most so many of them.
export function payloadOf(list, i, most = Infinity) {
  const place = list.payload(i);
  return shown.bytes.subarray(place, place + Math.min(Number(list.value[i]), most));
}

const decoder = new TextDecoder('utf-8', {fatal: true});
export function textOf(payload) {
  try {
    return decoder.decode(payload);
  } catch { return null; }
}
export const isPrintable = (text) => !/[\u0000-\u0008\u000b\u000c\u000e-\u001f\u007f]/.test(text);
export function float32(number) {
  const view = new DataView(new ArrayBuffer(4));
  view.setUint32(0, number);
  const value = view.getFloat32(0);
  for (let digits = 1; digits < 10 && Number.isFinite(value); digits++) {
    const short = Number(value.toPrecision(digits));
    if (Math.fround(short) === value) return Object.is(value, -0) ? '-0' : String(short);
  }
  return String(value);
}
export function float64(number) {
  const view = new DataView(new ArrayBuffer(8));
  view.setBigUint64(0, number);
  const value = view.getFloat64(0);
  return Object.is(value, -0) ? '-0' : String(value);
}
function numberReadings(kind, value) {
  const width = kind === FIXED32 ? 32 : 64;
  const signed = BigInt.asIntN(width, value);
  const found = [['unsigned', String(value)]];
  if (signed < 0n) found.push(['signed', String(signed)]);
  if (kind === VARINT) {
    found.push(['zigzag', String((value >> 1n) ^ -(value & 1n))]);
    if (value < 2n) found.push(['bool', value ? 'true' : 'false']);
    return found;
  }
  const digits = '0x' + value.toString(16).padStart(width / 4, '0');
  const float = kind === FIXED32 ? float32(Number(value)) : float64(value);
  const real = [kind === FIXED32 ? 'float' : 'double', float], size = Math.abs(Number(float));
  found.splice(size > 1e-9 && size < 1e15 ? 0 : found.length, 0, real);
  return [...found, ['hexadecimal', digits]];
}
function payloadReadings(list, i, most) {
  const length = Number(list.value[i]), all = payloadOf(list, i, most);
  const cut = length > most ? ' …' : '';
  const text = textOf(all) ?? (cut ? textOf(all.subarray(0, most - 3)) : null);
  const found = [];
  if (text !== null && isPrintable(text)) found.push(['text', JSON.stringify(text) + cut]);
  found.push(['bytes', (length ? hex(all) : 'none') + cut]);
  return found;
}
export function readingsOf(list, i, most) {
  const kind = list.kind(i);
  if (kind === BYTES) return payloadReadings(list, i, most);
  if (kind === START || kind === END || kind === FRAME) return [];
  return numberReadings(kind, list.value[i]);
}
// A record without a schema, as its wire type has it.
export function untypedText(list, i) {
  const kind = list.kind(i), value = list.value[i];
  if (kind === VARINT) return String(value);
  if (kind === BYTES) return `"${escaped(payloadOf(list, i))}"`;
  return `0x${value.toString(16).padStart(kind === FIXED64 ? 16 : 8, '0')}`;
}
