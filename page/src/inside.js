// The records inside of payloads.

import {fieldOf} from './fields.js';
import {DONE, FRAME, errorOf} from './reader.js';
import {List, reading} from './records.js';
import {shown} from './shown.js';

// How many levels of messages that no schema tells are opened, as `wire_dump` has it.
export const BUDGET = 10;

// The records inside of a payload or a message of a log, read at once.
export function readChild(list, i, level) {
  const child = new List(list.payload(i), Number(list.value[i]), list, i, level);
  child.type = list.kind(i) === FRAME ? shown.type : fieldOf(list, i)?.message ?? null;
  for (const _ of reading(child)) {}
  return child;
}
export function openChild(list, i) {
  const child = readChild(list, i, list.nesting(i) + 1);
  list.children.set(i, child);
  list.forget();
  return child;
}

// Whether a payload spells records, of so many levels at most.
export function isMessage(list, i, depth) {
  const {module, limits} = shown;
  const length = Number(list.value[i]), field = fieldOf(list, i);
  if (field) return depth > 0 && field.type === 'message' && !!field.message;
  return list.kind(i) === FRAME
    || (length > 0 && depth > 0
      && module
           .validate(list.payload(i), length, {...limits, depth: Math.min(depth, limits.depth)})
           .status
        === DONE);
}
export function isOpenable(list, i) {
  if (!list.messages) list.messages = new Map();
  if (!list.messages.has(i)) list.messages.set(i, isMessage(list, i, 100));
  return list.messages.get(i);
}

// The error of a message in a payload or of a log, if it has one.
export function brokenAt(list, i) {
  if (!list.broken.has(i)) {
    const stop = shown.module.validate(list.payload(i), Number(list.value[i]), shown.limits);
    list.broken.set(i, stop.status > DONE ? errorOf(stop) : '');
  }
  return list.broken.get(i);
}

// Opens what holds records, as `wire_dump` guesses it, until so many are opened.
export function openGuessed(list, most) {
  let left = most;
  const open = (list) => {
    for (let i = 0; i < list.size && left > 0; i++) {
      const level = list.nesting(i) - (shown.root.isLog ? 1 : 0);
      if (!list.holds(i)) continue;
      if (!list.children.has(i) && !isMessage(list, i, BUDGET - level)) continue;
      left--;
      open(list.children.get(i) || openChild(list, i));
    }
  };
  open(list);
}
