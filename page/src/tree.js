// The rows of the tree of records, in the first pane.

import {make} from './elements.js';
import {sentenceOf} from './faults.js';
import {fieldOf, typeName} from './fields.js';
import {brokenAt, isOpenable} from './inside.js';
import {atRow, isSame} from './layout.js';
import {BYTES, END, FRAME, KINDS, START, errorOf} from './reader.js';
import {shown} from './shown.js';
import {misfitOf, sayTyped} from './typed.js';
import {isPrintable, payloadOf, readingsOf} from './values.js';
import {escaped, many} from './words.js';

export const isOpen = (list, i) =>
  list.kind(i) === START ? !list.closed.has(i) : list.children.has(i);
export const canOpen = (list, i) =>
  list.kind(i) === START || (list.holds(i) && isOpenable(list, i));

export function drawRecord(row) {
  const at = atRow(shown.root, row), {list, i} = at;
  const node = make('div', 'row');
  node.id = `row-${row}`;
  node.dataset.row = row;
  node.setAttribute('role', 'treeitem');
  if (isSame(at, shown.chosen)) node.classList.add('chosen');
  if (isSame(at, shown.pointed)) node.classList.add('pointed');
  node.setAttribute('aria-selected', isSame(at, shown.chosen));
  const level = i < 0 ? list.level + list.open.length : list.nesting(i);
  node.setAttribute('aria-level', level + 1);
  node.style.paddingLeft = `calc(.5rem + ${Math.min(level, 24)} * var(--step))`;
  if (i < 0)
    drawFault(node, list);
  else
    drawEvent(node, list, i);
  return node;
}
function drawFault(node, list) {
  node.classList.add('broken');
  node.append(make('span', 'turn', '✕'), make('b', '', errorOf(list.stop)),
    make('span', 'said', sentenceOf(list)));
  node.setAttribute(
    'aria-label', `Fault at byte ${list.stop.place}: ${errorOf(list.stop)}. ${sentenceOf(list)}`);
}
function drawEvent(node, list, i) {
  const kind = list.kind(i), openable = canOpen(list, i), isShown = openable && isOpen(list, i);
  node.classList.add(`k${kind}`);
  const turn = make('span', 'turn', openable ? (isShown ? '▾' : '▸') : '');
  turn.setAttribute('aria-hidden', 'true');
  node.append(turn);
  if (openable) node.setAttribute('aria-expanded', isShown);
  const field = fieldOf(list, i), why = field ? misfitOf(list, i, field) : '';
  const name = kind === FRAME ? `message ${list.number(i)}` : field?.name ?? String(list.number(i));
  node.append(make('b', '', name));
  if (kind !== FRAME) node.append(make('span', 'kind', field ? typeName(field) : KINDS[kind]));
  if (field && !(why && kind !== BYTES)) {
    drawTyped(node, list, i, field, why);
    return;
  }
  const found = readingsOf(list, i, 96);
  const said = sayEvent(list, i, kind, openable, found);
  if (said) node.append(said);
  if (why) node.append(make('span', 'also bad', why));
  const alike = found.length > 1 && !(kind === BYTES && openable) ? found.slice(1) : [];
  if (alike.length && kind !== BYTES) {
    const also = alike.map(([name, text]) => `${name} ${text}`);
    node.append(make('span', 'also', also.join(' · ')));
  }
  const [from, to] = [list.start[i], list.endOf(i)];
  node.setAttribute('aria-label',
    `${kind === FRAME ? 'Message' : 'Field'} ${list.number(i)}, ${KINDS[kind]}, ` +
      `${said ? said.textContent : ''}, bytes ${from} to ${to - 1}`);
}
// A record of a field that the schema has, and why it does not fit, where it does not.
function drawTyped(node, list, i, field, why) {
  const kind = list.kind(i), isGroup = kind === START || kind === END;
  let said = isGroup ? '' : many(Number(list.value[i]), 'byte');
  if (!isGroup && !(field.type === 'message' && field.message))
    said = why ? `"${escaped(payloadOf(list, i, 96))}"`
               : sayTyped(list, i, field, 24);
  if (said) node.append(make('span', 'value', said));
  if (why) node.append(make('span', 'also bad', why));
  const [from, to] = [list.start[i], list.endOf(i)];
  node.setAttribute('aria-label',
    `Field ${list.number(i)}, ${field.name}, ${typeName(field)}, ${said}, ` +
      `${why ? `${why}, ` : ''}bytes ${from} to ${to - 1}`);
}
function sayEvent(list, i, kind, openable, found) {
  const length = Number(list.value[i]);
  if (kind === START || kind === END) return null;
  if (kind === FRAME) {
    const broken = brokenAt(list, i);
    return make('span', broken ? 'value bad' : 'value',
      many(length, 'byte') + (broken ? `: ${broken}` : ''));
  }
  if (kind === BYTES) {
    const [name, text] = found[0];
    if (openable) {
      const said = make('span', 'value', `message of ${many(length, 'byte')}`);
      if (name === 'text' && length > 1 && isPrintable(text) && !text.includes('\\')) {
        said.append(make('span', 'also', ` or text ${text}`));
      }
      return said;
    }
    return make('span', `value ${name}`, length ? text : '""');
  }
  return make('span', 'value', found[0][1]);
}
