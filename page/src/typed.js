// What records say by the schema that was chosen, and whether they fit it.

import {fieldOf, isPacked, pathOf} from './fields.js';
import {brokenAt} from './inside.js';
import {BYTES, END, FIXED32, FIXED64, KINDS} from './reader.js';
import {wireOf} from './schema.js';
import {shown} from './shown.js';
import {float32, float64, payloadOf, textOf, untypedText} from './values.js';
import {escaped} from './words.js';

// Why a record does not fit the type of its field, or nothing.
export function misfitOf(list, i, field) {
  const kind = list.kind(i);
  if (kind === END) return '';
  if (isPacked(field, kind))
    return packedOf(list, i, field, 0) === null ? `no list of ${field.type} values` : '';
  if (kind !== wireOf(field.type)) return `${KINDS[kind]}, and no ${field.type}`;
  if (field.type === 'string' && field.isChecked && textOf(payloadOf(list, i)) === null)
    return 'text that is no UTF-8';
  if (field.type === 'message' && field.message) return brokenIn(list, i);
  return '';
}
// The error of a message in a payload, if it has one.
function brokenIn(list, i) {
  const error = brokenAt(list, i);
  return error && `a message that breaks: ${error}`;
}

// The elements of a packed list, at most so many of them; null where its payload is no such list.
function packedOf(list, i, field, most, asFloat = shownFloat) {
  const {module} = shown;
  const wire = wireOf(field.type), end = list.endOf(i), found = [];
  const size = wire === FIXED64 ? 8 : wire === FIXED32 ? 4 : 0;
  let place = list.payload(i);
  if (size && (end - place) % size) return null;
  while (place < end) {
    let value;
    if (size) {
      value = size === 8 ? module.view.getBigUint64(module.input + place, true)
                         : BigInt(module.view.getUint32(module.input + place, true));
      place += size;
    } else {
      const {taken, number} = module.prefix(place, end);
      if (!taken) return null;
      value = number;
      place += taken;
    }
    if (found.length < most) found.push(valueOf(field, value, asFloat));
    if (size && found.length >= most) break;
  }
  return found;
}

// A number as its type has it; floats in as few digits as tell them apart, or as C++ prints them.
function valueOf(field, value, asFloat = shownFloat) {
  switch (field.type) {
    case 'int32': case 'sfixed32': return String(BigInt.asIntN(32, value));
    case 'int64': case 'sfixed64': return String(BigInt.asIntN(64, value));
    case 'uint32': case 'fixed32': return String(BigInt.asUintN(32, value));
    case 'sint32': case 'sint64': return String(unzigzag(field, value));
    case 'bool': return value ? 'true' : 'false';
    case 'enum': return enumName(field, BigInt.asIntN(32, value));
    case 'float': return asFloat(float32(Number(value)), 6, Math.fround);
    case 'double': return asFloat(float64(value), 15, Number);
  }
  return String(value);
}
function unzigzag(field, value) {
  const number = field.type === 'sint32' ? BigInt.asUintN(32, value) : value;
  return (number >> 1n) ^ -(number & 1n);
}
const enumName = (field, number) => field.values?.get(number) ?? String(number);
const shownFloat = (text) => text.replace('Infinity', 'inf').replace('NaN', 'nan');

// As C++ prints them: in so many digits where these are read back, and else in two or three more.
function printedFloat(text, digits, width) {
  const value = Number(text);
  if (!Number.isFinite(value)) return shownFloat(text);
  const short = rounded(value, digits);
  return width(Number(short)) === value ? short : rounded(value, digits + (digits === 6 ? 3 : 2));
}
function rounded(value, digits) {
  const [mantissa, exponent] = value.toExponential(digits - 1).split('e');
  const power = Number(exponent), trim = (it) => it.includes('.') ? it.replace(/\.?0+$/, '') : it;
  const sign = Object.is(value, -0) ? '-' : '';
  if (power >= -4 && power < digits) return sign + trim(value.toFixed(digits - 1 - power));
  return `${trim(mantissa)}e${power < 0 ? '-' : '+'}${String(Math.abs(power)).padStart(2, '0')}`;
}
// The values of a record as text, each of a line.
export function typedText(list, i, field) {
  if (isPacked(field, list.kind(i))) return packedOf(list, i, field, Infinity, printedFloat);
  if (list.kind(i) === BYTES) return [untypedText(list, i)];
  return [valueOf(field, list.value[i], printedFloat)];
}

// What is said of a record of a field: its value, or a list of values.
export function sayTyped(list, i, field, most) {
  const kind = list.kind(i);
  if (isPacked(field, kind)) {
    const found = packedOf(list, i, field, most + 1);
    return `[${found.slice(0, most).join(', ')}${found.length > most ? ', …' : ''}]`;
  }
  if (kind !== BYTES) return valueOf(field, list.value[i]);
  const length = Math.min(Number(list.value[i]), 40 * most), cut = length < Number(list.value[i]);
  const text = field.type === 'string' ? textOf(payloadOf(list, i)) : null;
  const said = text === null ? `"${escaped(payloadOf(list, i, length))}"`
                             : JSON.stringify(cut ? text.slice(0, length) : text);
  return said + (cut ? ' …' : '');
}

// The first record that does not fit, among those that are opened.
export function firstMisfit(list) {
  for (let i = 0; i < list.size; i++) {
    const field = fieldOf(list, i), why = field ? misfitOf(list, i, field) : '';
    const child = list.children.get(i), inner = child && firstMisfit(child);
    if (inner) return inner;
    if (child && child.isFault()) return {list: child, i: -1, path: pathOf(list, i)};
    if (why) return {list, i, path: pathOf(list, i), why};
  }
  return null;
}
