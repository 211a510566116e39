// Keys and pointers in the panes.

import {id} from './elements.js';
import {atRow, ownerOf, rowOf} from './layout.js';
import {choose, hexPane, point, toggle, tree} from './panes.js';
import {START} from './reader.js';
import {shown} from './shown.js';
import {canOpen, isOpen} from './tree.js';

function treeKeys(event) {
  const {rows} = tree, {chosen, root} = shown;
  if (!rows) return;
  const row = chosen ? rowOf(chosen) : -1, page = Math.max(1, Math.floor(tree.seen) - 1);
  const go = (to) => choose(atRow(root, Math.max(0, Math.min(to, rows - 1))));
  const steps = {
    ArrowDown: row + 1,
    ArrowUp: row - 1,
    PageDown: row + page,
    PageUp: row - page,
    Home: 0,
    End: rows - 1
  };
  if (event.key in steps)
    go(steps[event.key]);
  else if (!chosen)
    return;
  else if (event.key === 'ArrowRight') {
    const {list, i} = chosen;
    if (i >= 0 && canOpen(list, i) && isOpen(list, i))
      go(row + 1);
    else
      toggle(chosen, true);
  } else if (event.key === 'ArrowLeft')
    leave(row);
  else if (event.key === 'Enter' || event.key === ' ')
    toggle(chosen, !(chosen.i >= 0 && isOpen(chosen.list, chosen.i)));
  else
    return;
  event.preventDefault();
}
// Closes what is chosen, or goes to what it stands in.
function leave(row) {
  const {list, i} = shown.chosen;
  if (i >= 0 && canOpen(list, i) && isOpen(list, i)) {
    toggle(shown.chosen, false);
    return;
  }
  const level = i < 0 ? list.open.length : list.depth[i];
  let k = i < 0 ? list.size - 1 : i;
  while (level > 0 && k >= 0 && !(list.kind(k) === START && list.depth[k] === level - 1)) k--;
  if (level > 0 && k >= 0)
    choose({list, i: k});
  else if (list.parent)
    choose({list: list.parent, i: list.index});
  else if (row > 0)
    choose(atRow(shown.root, 0));
}

function hexKeys(event) {
  const {width, byteAt} = shown, page = Math.max(1, Math.floor(hexPane.seen) - 1) * width;
  const steps = {
    ArrowRight: 1,
    ArrowLeft: -1,
    ArrowDown: width,
    ArrowUp: -width,
    PageDown: page,
    PageUp: -page,
    Home: -byteAt,
    End: shown.bytes.length
  };
  if (!(event.key in steps) || !hexPane.rows) return;
  event.preventDefault();
  goToByte(byteAt + steps[event.key]);
}
function goToByte(place) {
  shown.byteAt = Math.max(0, Math.min(place, shown.bytes.length - 1));
  hexPane.show(Math.floor(shown.byteAt / shown.width));
  choose(ownerOf(shown.root, shown.byteAt), {inHex: false});
}

const rowUnder = (event) => {
  const node = event.target.closest('[data-row]');
  return node ? atRow(shown.root, Number(node.dataset.row)) : null;
};
const byteUnder = (event) => {
  const node = event.target.closest('[data-place]');
  return node ? Number(node.dataset.place) : -1;
};
function listenToTree(node) {
  node.addEventListener('click', (event) => {
    const at = rowUnder(event);
    if (!at) return;
    if (event.target.closest('.turn')) toggle(at, !(at.i >= 0 && isOpen(at.list, at.i)));
    choose(at);
  });
  node.addEventListener('dblclick', (event) => {
    const at = rowUnder(event);
    if (at && at.i >= 0) toggle(at, !isOpen(at.list, at.i));
  });
  node.addEventListener('keydown', treeKeys);
  node.addEventListener('pointermove', (event) => point(rowUnder(event)));
  node.addEventListener('pointerleave', () => point(null));
}
function listenToHex(node) {
  node.addEventListener('keydown', hexKeys);
  node.addEventListener('click', (event) => {
    if (byteUnder(event) >= 0) goToByte(byteUnder(event));
  });
  node.addEventListener('pointermove', (event) => {
    const place = byteUnder(event);
    point(place < 0 ? null : ownerOf(shown.root, place));
  });
  node.addEventListener('pointerleave', () => point(null));
}
export function listenToPanes() {
  listenToTree(id('tree'));
  listenToHex(id('hex'));
}
