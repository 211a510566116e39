// The input and the limits as they stand in the page.

import {id} from './elements.js';
import {NO_LIMIT} from './reader.js';
import {shown} from './shown.js';
import {NAMES, READERS, Trouble, guess} from './texts.js';
import {count} from './words.js';

function readLimit(name, most, none) {
  const text = id(name).value.replace(/[\s,_]/g, '');
  id(name).removeAttribute('aria-invalid');
  if (!text && none !== undefined) return none;
  if (!/^\d{1,15}$/.test(text) || Number(text) > most) {
    id(name).setAttribute('aria-invalid', 'true');
    throw new Trouble(`A limit is a number up to ${count(most)}.`);
  }
  return BigInt(text);
}
export function readInput() {
  const {file} = shown;
  shown.limits = {
    depth: Number(readLimit('depth', 100)),
    records: readLimit('records', 1e15, NO_LIMIT),
    payloads: readLimit('payloads', 1e15, NO_LIMIT)
  };
  const asked = id('kind').value, text = file ? '' : id('text').value;
  const isGuessed = asked === 'guess' || (asked === 'raw' && !file);
  shown.kind = !isGuessed ? asked : file ? 'raw' : guess(text);
  id('guessed').textContent =
    asked === 'guess' && (text.trim() || file) ? `is ${NAMES[shown.kind]}` : '';
  if (shown.kind === 'raw') return file.bytes;
  return READERS[shown.kind](file ? new TextDecoder().decode(file.bytes) : text);
}
