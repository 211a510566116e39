// The fields that records are of, by the schema that was chosen.

import {BYTES, FRAME, START} from './reader.js';
import {wireOf} from './schema.js';

// The message type of the events among which one stands: that of its list, or of the innermost
// group around it.
export function typeAt(list, i) {
  if (!list.type || !list.depth[i]) return list.type;
  const start = list.outer[i];
  return fieldOf(list, start)?.message ?? null;
}
// The field that a record is of, if the schema has it.
export function fieldOf(list, i) {
  if (!list.type || list.kind(i) === FRAME) return null;
  return typeAt(list, i)?.fields.get(list.number(i)) ?? null;
}
export const typeName = (field) =>
  field.message?.name ?? (field.values ? field.of.slice(1) : field.type);
const isNumber = (field) => wireOf(field.type) !== BYTES && wireOf(field.type) !== START;
export const isPacked = (field, kind) => kind === BYTES && field.isRepeated && isNumber(field);

// What leads to a record, as `lines[2].article`.
export function pathOf(list, i) {
  const own = nameIn(list, i), outer = i >= 0 && list.depth[i] ? list.outer[i] : -1;
  if (outer >= 0) return `${pathOf(list, outer)}.${own}`;
  if (!list.parent) return own;
  const above = list.parent.kind(list.index) === FRAME ? `message ${list.parent.number(list.index)}`
                                                       : pathOf(list.parent, list.index);
  return own ? `${above}.${own}` : above;
}
// Its name, with its place among those of a repeated field.
function nameIn(list, i) {
  if (i < 0) return '';
  const field = fieldOf(list, i);
  if (!field) return String(list.number(i));
  if (!field.isRepeated) return field.name;
  let index = 0;
  for (let k = 0; k < i; k++)
    if (list.tag[k] === list.tag[i] && list.depth[k] === list.depth[i]
      && list.outer[k] === list.outer[i]) index++;
  return `${field.name}[${index}]`;
}
