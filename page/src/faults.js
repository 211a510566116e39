// Faults in words.

import {fieldOf} from './fields.js';
import {PARTS} from './reader.js';
import {shown} from './shown.js';
import {count, many} from './words.js';

// A field by its number, and by its name where the schema has it.
function calledAt(list, number) {
  const start = list.starts.at(-1);
  const type = start === undefined ? list.type : fieldOf(list, start)?.message;
  const field = type?.fields.get(number);
  return field ? `${number} (${field.name})` : String(number);
}
export function sentenceOf(list) {
  const {module} = shown;
  const {status, detail, part, record, place, frame} = list.stop;
  const end = list.place + list.length, left = end - place;
  const tag = module.prefix(record, end);
  const field = tag.taken ? calledAt(list, Number(tag.number >> 3n)) : '0';
  const groups = list.open;
  if (frame && part === 2) return `What stands before message ${frame} of the log is no length.`;
  if (frame)
    return `Message ${frame} of the log is cut short: ${many(left, 'byte')} of it ${
      left === 1 ? 'is' : 'are'} there, and its length says more.`;
  if (status === 12)
    return part === 3 ? `The payload of field ${field} is more than the limit of bytes leaves.`
                      : 'This record is one more than the limit takes.';
  if (status === 9)
    return `A group within so many others is more than the limit of open groups takes.`;
  if (part === 4 && status === 10)
    return `This ends group ${detail}, but group ${
      groups[groups.length - 1]} is the innermost that is open.`;
  if (part === 4) return `This ends group ${field}, but no group is open.`;
  if (part === 0 && status === 2 && left === 0)
    return `The bytes end inside of group ${
      groups[groups.length - 1]}, whose end tag is missing.`;
  if (part === 0 && status === 2) return 'The bytes end within a tag.';
  if (part === 0 && status === 3) return 'This tag goes on past ten bytes, or past 64 bits.';
  if (part === 0 && status === 4)
    return `This tag has wire type ${detail}, and there is none such.`;
  if (part === 0)
    return 'This tag has a field number that there is not: 0, or one above 536,870,911.';
  if (status === 3)
    return `The ${PARTS[part]} of field ${field} goes on past ten bytes, or past 64 bits.`;
  if (part === 1) return `The value of field ${field} is cut short: the bytes end within it.`;
  if (part === 2) return `The length of field ${field} is cut short: the bytes end within it.`;
  const {number} = module.prefix(record + tag.taken, end);
  return `The payload of field ${field} is cut short: its length says ${count(number)}, and ${
    many(left, 'byte')} ${left === 1 ? 'is' : 'are'} there.`;
}
