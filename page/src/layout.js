// The rows that records have.

import {START} from './reader.js';

// Which rows a list has: runs of its own events, rows of lists that are open in it, and its
// fault.
export function layout(list) {
  if (list.known) return list.known;
  const parts = [];
  let row = 0, next = 0;
  const add = (part, rows) => {
    if (rows > 0) {
      parts.push({...part, row, rows});
      row += rows;
    }
  };
  const marks = [...list.children.keys(), ...list.closed].sort((a, b) => a - b);
  for (const i of marks) {
    if (i < next) continue;
    add({event: next}, i - next + 1);
    next = i + 1;
    if (list.closed.has(i))
      next = list.groupEnd(i) + 1;
    else {
      const child = list.children.get(i);
      add({child}, layout(child).rows);
    }
  }
  add({event: next}, list.size - next);
  if (list.isFault()) add({fault: true}, 1);
  return (list.known = {parts, rows: row});
}
function partAt(parts, row) {
  let low = 0, high = parts.length - 1;
  while (low < high) {
    const middle = (low + high + 1) >> 1;
    if (parts[middle].row <= row)
      low = middle;
    else
      high = middle - 1;
  }
  return parts[low];
}
export function atRow(list, row) {
  const part = partAt(layout(list).parts, row);
  if (part.child) return atRow(part.child, row - part.row);
  return {list, i: part.fault ? -1 : part.event + row - part.row};
}
export function rowOf({list, i}) {
  const {parts, rows} = layout(list);
  let row = rows - 1;
  if (i >= 0) {
    const before = parts.filter((part) => part.event !== undefined && part.event <= i);
    const part = before[before.length - 1];
    row = part.row + Math.min(i - part.event, part.rows - 1);
  }
  return list.parent ? rowOf({list: list.parent, i: list.index}) + 1 + row : row;
}
export const isSame = (a, b) => !!a && !!b && a.list === b.list && a.i === b.i;

// The innermost record that is shown and has a byte.
export function ownerOf(list, place) {
  if (list.isFault() && place >= list.stop.record) return {list, i: -1};
  if (!list.size || place < list.place || place >= list.end) return null;
  let low = 0, high = list.size - 1;
  while (low < high) {
    const middle = (low + high + 1) >> 1;
    if (list.start[middle] <= place)
      low = middle;
    else
      high = middle - 1;
  }
  const child = list.children.get(low);
  if (child && place >= child.place) return ownerOf(child, place) || {list, i: low};
  return {list, i: low};
}
export function rangeOf({list, i}) {
  if (i < 0) return [list.stop.record, list.place + list.length];
  if (list.kind(i) === START) return [list.start[i], list.endOf(list.groupEnd(i))];
  return [list.start[i], list.endOf(i)];
}
