// What is said of the record that is chosen.

import {id, make} from './elements.js';
import {sentenceOf} from './faults.js';
import {fieldOf, pathOf, typeName} from './fields.js';
import {END, FRAME, KINDS, START, errorOf} from './reader.js';
import {shown} from './shown.js';
import {misfitOf, sayTyped} from './typed.js';
import {readingsOf} from './values.js';
import {count, hex} from './words.js';

export function showReadings() {
  const {bytes, chosen} = shown;
  const node = id('readings');
  node.replaceChildren();
  if (!chosen) return;
  const {list, i} = chosen;
  if (i < 0) {
    node.append(make('h3', '', errorOf(list.stop)), make('p', '', sentenceOf(list)));
    return;
  }
  const kind = list.kind(i), [from, to] = [list.start[i], list.endOf(i)];
  node.append(
    make('h3', '', `${kind === FRAME ? 'Message' : 'Field'} ${list.number(i)}, ${KINDS[kind]}`));
  const table = make('dl'), field = fieldOf(list, i);
  const add = (name, text) => table.append(make('dt', '', name), make('dd', '', text));
  const part = (name, a, b) => {
    if (b > a)
      add(name,
        `${count(a)}..${count(b)}   ${hex(bytes.subarray(a, Math.min(b, a + 12)))}${
          b - a > 12 ? ' …' : ''}`);
  };
  if (field && kind !== END) {
    add('field', `${pathOf(list, i)}, ${field.isRepeated ? 'repeated ' : ''}${typeName(field)}`);
    const why = misfitOf(list, i, field);
    if (why) add('does not fit', why);
    else if (kind !== START && !field.message) add('value', sayTyped(list, i, field, 200));
  }
  for (const [name, text] of readingsOf(list, i, 600)) add(name, text);
  const held = list.holds(i) ? list.payload(i) : list.behind[i];
  if (kind !== FRAME) part('tag at', from, list.behind[i]);
  if (list.holds(i)) part('length at', kind === FRAME ? from : list.behind[i], held);
  part(list.holds(i) ? 'payload at' : 'value at', held, to);
  node.append(table);
}
