// Descriptor sets, read by the proved reader, and the types that they have. How a schema is made of
// their records is not proved.

import {BYTES, END, FIXED32, FIXED64, START, VARINT, errorOf} from './reader.js';
import {List, allLimits, reading} from './records.js';
import {shown} from './shown.js';
import {textOf} from './values.js';
import {count} from './words.js';

// The numbers that a `FieldDescriptorProto` has for types, in their order, and the wire types of
// records of each.
const TYPES = ['', 'double', 'float', 'int64', 'uint64', 'int32', 'fixed64', 'fixed32', 'bool',
  'string', 'group', 'message', 'bytes', 'uint32', 'enum', 'sfixed32', 'sfixed64', 'sint32',
  'sint64'];
const WIRES = {
  double: FIXED64, fixed64: FIXED64, sfixed64: FIXED64, float: FIXED32, fixed32: FIXED32,
  sfixed32: FIXED32, string: BYTES, bytes: BYTES, message: BYTES, group: START
};
export const wireOf = (type) => WIRES[type] ?? VARINT;
const REPEATED = 3, MOST_TYPES_WITHIN = 100, EDITION_2023 = 1000n;
export class NoSchema extends Error {}

// The records of a part of a descriptor set, by their numbers: of each the last, or all.
class Descriptor {
  constructor(place, length) {
    this.records = new Map();
    const list = new List(place, length, null, 0, 0);
    for (const _ of reading(list, allLimits())) {}
    if (list.isFault())
      throw new NoSchema(`This is no descriptor set: ${errorOf(list.stop)} at byte ${
        count(list.stop.place)}.`);
    for (let i = 0; i < list.size; i++) {
      if (list.depth[i] > 0 || list.kind(i) === START || list.kind(i) === END) continue;
      const of = this.records.get(list.number(i)) ?? [];
      const place = list.holds(i) ? list.payload(i) : 0;
      of.push({kind: list.kind(i), value: list.value[i], place});
      this.records.set(list.number(i), of);
    }
  }
  all(number) { return this.records.get(number) ?? []; }
  bytesOf({kind, value, place}) {
    if (kind !== BYTES) throw new NoSchema('This is no descriptor set: a name is no text.');
    return shown.module.bytes(shown.module.input + place, Number(value));
  }
  text(number) {
    const text = textOf(this.all(number).length ? this.bytesOf(this.all(number).at(-1))
                                                : new Uint8Array(0));
    if (text === null) throw new NoSchema('This is no descriptor set: a name is no UTF-8.');
    return text;
  }
  number(number, none = 0n) {
    const last = this.all(number).at(-1);
    return last && last.kind === VARINT ? BigInt.asIntN(32, last.value) : none;
  }
  inner(number) {
    return this.all(number).map((it) => {
      if (it.kind !== BYTES) throw new NoSchema('This is no descriptor set.');
      return new Descriptor(it.place, Number(it.value));
    });
  }
  // Whether options say so, of which a later one counts.
  isSet(options, number) {
    let found = null;
    for (const it of this.inner(options)) found = it.all(number).length ? it.number(number) : found;
    return found;
  }
}

// The types of a set: messages by their full names, of each its fields by their numbers, and enums,
// of each the names of its numbers.
class Schema {
  constructor(length) {
    this.messages = new Map();
    this.enums = new Map();
    const extensions = [];
    const files = new Descriptor(0, length).inner(1);
    if (!files.length) throw new NoSchema('This is no descriptor set: it has no file.');
    for (const file of files) {
      const name = file.text(2), outer = name ? `.${name}` : '';
      const of = {
        isChecked: file.text(12) === 'proto3' || file.number(14) === EDITION_2023,
        isDelimited: this.isDelimited(file.inner(8), 50, false)
      };
      for (const it of file.inner(5)) this.addEnum(it, outer);
      for (const it of file.inner(4)) this.addMessage(it, outer, of, extensions, 0);
      extensions.push(...file.inner(7).map((it) => [it, outer, of]));
    }
    for (const [it, outer, of] of extensions) this.extend(it, outer, of);
    for (const message of this.messages.values())
      for (const field of message.fields.values()) this.resolve(field);
  }
  // Features of an edition: whether messages are groups, by these options, or else as outside.
  isDelimited(options, number, outside) {
    const said = options.flatMap((it) => it.inner(number)).map((it) => it.number(5));
    return said.some((it) => it !== 0n) ? said.findLast((it) => it !== 0n) === 2n : outside;
  }
  addEnum(it, outer) {
    const names = new Map();
    for (const value of it.inner(2)) {
      const number = value.number(2);
      if (!names.has(number)) names.set(number, value.text(1));
    }
    this.enums.set(`${outer}.${it.text(1)}`, names);
  }
  addMessage(it, outer, of, extensions, level) {
    if (level > MOST_TYPES_WITHIN)
      throw new NoSchema('This set has more than 100 types within one another.');
    const full = `${outer}.${it.text(1)}`, fields = new Map();
    const isEntry = it.isSet(7, 7) === 1n;
    for (const field of it.inner(2)) {
      const made = this.field(field, isEntry ? {...of, isEntry} : of);
      fields.set(made.number, made);
    }
    if (!this.messages.has(full)) this.messages.set(full, {name: full.slice(1), fields, isEntry});
    for (const inner of it.inner(4)) this.addEnum(inner, full);
    for (const inner of it.inner(3)) this.addMessage(inner, full, of, extensions, level + 1);
    extensions.push(...it.inner(6).map((inner) => [inner, full, of]));
  }
  field(it, of) {
    // (what stands in an entry of a map is no group)
    const isGroup = !of.isEntry && this.isDelimited(it.inner(8), 21, of.isDelimited);
    const type = TYPES[Number(it.number(5))] ?? '';
    return {
      name: it.text(1),
      number: Number(it.number(3)),
      type: type === 'message' && isGroup ? 'group' : type,
      of: it.text(6),
      isRepeated: it.number(4) === BigInt(REPEATED),
      isChecked: of.isChecked,
      message: null,
      values: null
    };
  }
  extend(it, outer, of) {
    const made = this.field(it, of), message = this.messages.get(it.text(2));
    made.name = `[${outer}.${made.name}]`.replace('[.', '[');
    if (message && !message.fields.has(made.number)) message.fields.set(made.number, made);
  }
  resolve(field) {
    field.message = this.messages.get(field.of) ?? null;
    field.values = this.enums.get(field.of) ?? null;
    // (what protoc calls a group by is its type, and entries of maps are never groups)
    if (field.type === 'group' && field.message && field.message.isEntry) field.type = 'message';
    if (field.type === 'group' && field.message)
      field.name = field.name.startsWith('[') ? field.name : this.groupName(field);
  }
  // A group of proto2 is called by its type, in lower case in the schema, and so it is shown.
  groupName(field) {
    const name = field.message.name.split('.').at(-1);
    return name.toLowerCase() === field.name ? name : field.name;
  }
  // Those that a message may be of, in order.
  names() {
    return [...this.messages.values()].filter((it) => !it.isEntry).map((it) => it.name).sort();
  }
}

// Reads a set where the input stands, which is read anew behind it.
export function readSchema(set) {
  const {module} = shown;
  module.load(set);
  try {
    return new Schema(set.length);
  } finally { module.load(shown.bytes); }
}
