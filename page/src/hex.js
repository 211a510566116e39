// The rows of bytes, in the second pane.

import {make} from './elements.js';
import {ownerOf, rangeOf} from './layout.js';
import {FRAME} from './reader.js';
import {shown} from './shown.js';

// How many digits a place has: four, or as many as the last one takes, an even number of them.
export const placeDigits = () =>
  Math.max(4, 2 * Math.ceil(Math.max(0, shown.bytes.length - 1).toString(16).length / 2));
const isIn = (range, place) => range && place >= range[0] && place < range[1];
const isEndFault = () =>
  shown.root.isFault() && shown.root.stop.place === shown.bytes.length;

// What a byte is to the record that it is of.
function partOf(at, place) {
  if (!at) return '';
  const {list, i} = at;
  if (i < 0) return place >= list.stop.place ? 'bad' : 'before';
  if (place < list.behind[i]) return list.kind(i) === FRAME ? 'length' : 'tag';
  if (list.holds(i) && place < list.payload(i)) return 'length';
  return 'value';
}
export function drawBytes(row) {
  const {bytes, width} = shown;
  const node = make('div', 'row'), first = row * width;
  node.setAttribute('role', 'row');
  const place = make('span', 'place', first.toString(16).padStart(placeDigits(), '0'));
  place.setAttribute('role', 'rowheader');
  const digits = make('span', 'digits'), letters = make('span', 'letters');
  digits.setAttribute('role', 'presentation');
  digits.style.setProperty('--cells', width);
  letters.setAttribute('aria-hidden', 'true');
  node.append(place, digits, letters);
  const {chosen, pointed} = shown;
  const ranges = {chosen: chosen && rangeOf(chosen), pointed: pointed && rangeOf(pointed)};
  const last = Math.min(first + width, bytes.length);
  for (let k = first; k < last; k++) {
    const cell = drawByte(k, ranges);
    digits.append(cell);
    const letter = make('span', cell.className,
      bytes[k] > 31 && bytes[k] < 127 ? String.fromCharCode(bytes[k]) : '·');
    letter.dataset.place = k;
    letters.append(letter);
  }
  if (isEndFault() && last - first < width)
    digits.append(make('span', 'fault bad ends', 'end'));
  return node;
}
// The digits of a byte, marked where it is in one of these ranges.
function drawByte(k, ranges) {
  const {root} = shown, digits = shown.bytes[k].toString(16), part = partOf(ownerOf(root, k), k);
  const cell = make('span', part, digits.padStart(2, '0'));
  for (const name of ['chosen', 'pointed'])
    if (isIn(ranges[name], k)) cell.classList.add(name);
  if (k === shown.byteAt) cell.classList.add('here');
  if (root.isFault() && k === root.stop.place) cell.classList.add('fault');
  cell.id = `byte-${k}`;
  cell.dataset.place = k;
  cell.setAttribute('role', 'gridcell');
  cell.setAttribute('aria-label', `byte ${k}, ${digits}${part ? `, ${part}` : ''}`);
  return cell;
}
export const hexRows = () =>
  Math.ceil((shown.bytes.length + (shown.root && isEndFault() ? 1 : 0)) / shown.width);
