// Reads the input, and shows what it holds.

import {id} from './elements.js';
import {sentenceOf} from './faults.js';
import {fieldOf, typeAt, typeName} from './fields.js';
import {hexRows} from './hex.js';
import {readInput} from './input.js';
import {openGuessed} from './inside.js';
import {layout} from './layout.js';
import {keepLink} from './links.js';
import {choose, fitWidth, hexPane, tree} from './panes.js';
import {END, errorOf} from './reader.js';
import {showReadings} from './readings.js';
import {List, frames, reading} from './records.js';
import {shown} from './shown.js';
import {Trouble} from './texts.js';
import {firstMisfit} from './typed.js';
import {count, many} from './words.js';

// How many messages are opened at once.
const OPENED_AT_ONCE = 2000;

export async function decode() {
  const mine = ++shown.run;
  shown.chosen = shown.pointed = null;
  id('shortest-panel').hidden = true;
  id('shortest').setAttribute('aria-expanded', 'false');
  shown.bytes = bytesOrTrouble();
  shown.module.load(shown.bytes);
  shown.byteAt = 0;
  const name = id('type').value;
  shown.type = name && shown.schema ? shown.schema.messages.get(`.${name}`) : null;
  const root = shown.root = new List(0, shown.bytes.length, null, 0, 0);
  root.isLog = id('log').checked;
  root.type = root.isLog ? null : shown.type;
  await readWhole(root, mine);
  if (mine !== shown.run) return;
  shown.chosen = shown.pointed = null;
  root.forget();
  if (root.size <= 20000) openGuessed(root, OPENED_AT_ONCE);
  show();
}
// The input; what it is not is said, and it counts as empty.
function bytesOrTrouble() {
  id('trouble').textContent = '';
  try {
    return readInput();
  } catch (error) {
    if (!(error instanceof Trouble)) throw error;
    id('trouble').textContent = error.message;
    return new Uint8Array(0);
  }
}
// Reads all of a list, unless the next reading begins meanwhile.
async function readWhole(list, mine) {
  const steps = list.isLog ? frames(list) : reading(list);
  document.body.classList.add('reading');
  for (let until = performance.now() + 12; !steps.next().done;) {
    if (performance.now() < until) continue;
    waitFor(list);
    await new Promise((done) => setTimeout(done));
    if (mine !== shown.run) return;
    until = performance.now() + 12;
  }
  document.body.classList.remove('reading');
}
// What is shown while a large input is read.
function waitFor(list) {
  id('summary').textContent = `Reading: ${count(list.size)} so far`;
  id('output').hidden = false;
  id('fault').hidden = id('empty').hidden = true;
  if (tree.rows + hexPane.rows) {
    tree.setRows(0);
    hexPane.setRows(0);
  }
}

function show() {
  const {bytes, root} = shown, isEmpty = bytes.length === 0, isBad = root.isFault();
  id('output').hidden = isEmpty;
  id('empty').hidden = !isEmpty;
  shown.misfit = shown.type && !isBad && root.size <= 20000 ? firstMisfit(root) : null;
  id('fault').hidden = !(isBad || shown.misfit) || isEmpty;
  if (isBad) showFault();
  else if (shown.misfit) showMisfit(shown.misfit);
  const noun = root.isLog ? 'message' : 'record';
  const top = root.isLog || root.size > 5e6 ? root.size : countTop(root);
  id('summary').textContent =
    `${many(bytes.length, 'byte')}, ${many(top, noun)}${isBad ? ' before the fault' : ''}`;
  id('shortest').disabled = isBad || root.isLog;
  fitWidth();
  tree.top = hexPane.top = 0;
  tree.setRows(layout(root).rows);
  hexPane.setRows(hexRows());
  id('tree').removeAttribute('aria-activedescendant');
  if (isBad && !isEmpty)
    choose({list: root, i: -1});
  else
    showReadings();
  keepLink();
  document.body.dataset.run = shown.run;
}
// A record that does not fit the schema, or a message that breaks inside.
function showMisfit({list, i, path, why}) {
  const stop = list.stop, place = i < 0 ? stop.place : list.start[i];
  id('fault-name').textContent = path;
  id('fault-place').textContent = `at byte ${count(place)}`;
  id('fault-sentence').textContent = i < 0
    ? `${list.type?.name ?? 'This message'} breaks inside: ${errorOf(stop)}. ${sentenceOf(list)}`
    : `Field ${fieldOf(list, i).name} of ${typeAt(list, i).name} is of type ${
      typeName(fieldOf(list, i))}; here stands ${why}.`;
}
function countTop(list) {
  let found = 0;
  for (let i = 0; i < list.size; i++)
    if (list.depth[i] === 0 && list.kind(i) !== END) found++;
  return found;
}
function showFault() {
  const {bytes, root} = shown, {stop, open} = root;
  id('fault-name').textContent = errorOf(stop);
  id('fault-place').textContent = `at byte ${count(stop.place)}${
    stop.place < bytes.length ? ` (0x${bytes[stop.place].toString(16).padStart(2, '0')})`
                              : ', the end'}`;
  const inside =
    open.length ? `, in ${open.length === 1 ? 'group' : 'groups'} ${open.join(', ')}` : '';
  id('fault-sentence').textContent = `${sentenceOf(root)} The ${
    root.isLog ? 'message' : 'record'} begins at byte ${count(stop.record)}${inside}.`;
}
