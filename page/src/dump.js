// Records as text.

import {fieldOf} from './fields.js';
import {BUDGET, isMessage, openChild, readChild} from './inside.js';
import {BYTES, END, FRAME, START} from './reader.js';
import {shown} from './shown.js';
import {misfitOf, typedText} from './typed.js';
import {untypedText} from './values.js';

// The lines as wire_dump prints them, of what its budget opens: ten levels of messages that no
// schema tells, groups that it lacks counted.
function dumpText(list, budget = BUDGET, margin = '') {
  const lines = [];
  const inside = (i) => margin + '  '.repeat(list.depth[i]);
  let unknown = 0;
  for (let i = 0; i < list.size; i++) {
    const field = fieldOf(list, i), fits = !!field && !misfitOf(list, i, field);
    const kind = list.kind(i), name = inside(i) + (fits ? field.name : list.number(i));
    const left = fits || kind === FRAME ? BUDGET : budget - unknown - 1;
    if (kind === START) {
      lines.push(`${name} {`);
      if (unknown || !fits) unknown += 1;
    } else if (kind === END) {
      lines.push(`${inside(i)}}`);
      if (unknown) unknown -= 1;
    } else if (fits && !field.message)
      lines.push(...typedText(list, i, field).map((value) => `${name}: ${value}`));
    else if (fits || opensUntyped(list, i, field, left + 1)) {
      const child = list.children.get(i) || readChild(list, i, 0);
      lines.push(`${name} {`, ...dumpText(child, left, inside(i) + '  '), `${inside(i)}}`);
    } else
      lines.push(`${name}: ${untypedText(list, i)}`);
  }
  return lines;
}
const opensUntyped = (list, i, field, depth) =>
  !field && list.kind(i) === BYTES && isMessage(list, i, depth);

// Of a log, the lines of each message that spells records, one behind the other.
export function dumpAll() {
  const {root} = shown;
  if (!root.isLog) return dumpText(root);
  const lines = [];
  for (let i = 0; i < root.size; i++) {
    const child = root.children.get(i) || openChild(root, i);
    lines.push(`# message ${root.number(i)}`, ...dumpText(child));
  }
  return lines;
}
