// The two panes: what is open in them, what is chosen, and what is pointed at.

import {id} from './elements.js';
import {drawBytes, hexRows, placeDigits} from './hex.js';
import {openChild, openGuessed} from './inside.js';
import {isSame, layout, rangeOf, rowOf} from './layout.js';
import {Pane} from './pane.js';
import {START} from './reader.js';
import {showReadings} from './readings.js';
import {shown} from './shown.js';
import {canOpen, drawRecord, isOpen} from './tree.js';

export const tree = new Pane(id('tree'), drawRecord, fitPanes);
export const hexPane = new Pane(id('hex'), drawBytes, fitPanes);

// The panes are as high as what they show, up to what the style allows.
function fitPanes() {
  const need = Math.max(tree.rows * tree.rowHeight, hexPane.rows * hexPane.rowHeight) + 4;
  document.querySelector('.panes').style.setProperty('--need', `${Math.min(need, 5000)}px`);
}
// A row has sixteen bytes where the pane has room for them, and else eight.
export function fitWidth() {
  document.querySelector('.panes').style.setProperty('--places', placeDigits());
  const was = shown.width;
  shown.width = 16;
  if (shown.root && shown.bytes.length) {
    const probe = drawBytes(0);
    hexPane.body.append(probe);
    if (probe.offsetWidth > id('hex').clientWidth) shown.width = 8;
    probe.remove();
  }
  if (shown.root && shown.width !== was) hexPane.setRows(hexRows());
}
// Shows what is open now.
function showOpened() {
  tree.setRows(layout(shown.root).rows);
  hexPane.paint();
}

export function toggle({list, i}, wanted) {
  if (i < 0 || !canOpen(list, i) || isOpen(list, i) === wanted) return;
  if (list.kind(i) === START) {
    if (!list.closed.delete(i)) list.closed.add(i);
  } else if (!list.children.delete(i))
    openChild(list, i);
  list.forget();
  showOpened();
}
export function closeAll() {
  const {root} = shown;
  root.children.clear();
  for (let i = 0; i < root.size; i++)
    if (root.kind(i) === START) root.closed.add(i);
  root.forget();
  shown.chosen = null;
  showOpened();
  showReadings();
}
// Opens all that holds records, until there are many.
export function openAll() {
  openGroups(shown.root);
  openGuessed(shown.root, 50000);
  showOpened();
}
function openGroups(list) {
  list.closed.clear();
  list.forget();
  for (const child of list.children.values()) openGroups(child);
}

export function choose(at, {inTree = true, inHex = true} = {}) {
  shown.chosen = at;
  if (!at) {
    showReadings();
    return;
  }
  const row = rowOf(at);
  if (inTree) tree.show(row);
  const [from] = rangeOf(at);
  if (inHex) {
    const place = at.i < 0 ? at.list.stop.place : from;
    shown.byteAt = Math.min(place, Math.max(shown.bytes.length - 1, 0));
    hexPane.show(Math.floor(shown.byteAt / shown.width));
  }
  id('tree').setAttribute('aria-activedescendant', `row-${row}`);
  id('hex').setAttribute('aria-activedescendant', `byte-${shown.byteAt}`);
  tree.paint();
  hexPane.paint();
  showReadings();
}
export function point(at) {
  if (isSame(at, shown.pointed) || (!at && !shown.pointed)) return;
  shown.pointed = at;
  tree.paint();
  hexPane.paint();
}
