// The input in the page's address.

import {LIMITS, id} from './elements.js';
import {forgetFile} from './files.js';
import {shown} from './shown.js';
import {fromBase64} from './texts.js';
import {escaped, hex, toBase64} from './words.js';

// How many bytes are put into an address at most.
const LINK_LIMIT = 32768;

export function keepLink() {
  const {bytes, kind} = shown;
  const isLong = bytes.length > LINK_LIMIT;
  id('copy-link').disabled = isLong || !bytes.length;
  id('link').textContent = isLong ? 'No link is made of more than 32 KB.' : '';
  const words = new URLSearchParams();
  if (bytes.length && !isLong) {
    words.set(
      'bytes', toBase64(bytes).replace(/\+/g, '-').replace(/\//g, '_').replace(/=+$/, ''));
    if (kind !== 'hex' && kind !== 'raw') words.set('kind', kind);
    if (id('log').checked) words.set('log', '1');
    for (const name of LIMITS) {
      const text = id(name).value.trim();
      if (text && !(name === 'depth' && text === '100')) words.set(name, text);
    }
  }
  const url = `${location.pathname}${location.search}${words.size ? `#${words}` : ''}`;
  try {
    history.replaceState(null, '', url);
  } catch { /* some browsers take only so many a minute */
  }
}
export function readLink() {
  const words = new URLSearchParams(location.hash.slice(1));
  if (!words.has('bytes')) return;
  let data;
  try {
    data = fromBase64(words.get('bytes'));
  } catch {
    id('trouble').textContent = 'This link is cut short.';
    return;
  }
  const kind = words.get('kind');
  for (const name of LIMITS) {
    id(name).value = words.get(name) ?? (name === 'depth' ? '100' : '');
  }
  id('limits').open = LIMITS.some((name) => words.has(name));
  id('log').checked = words.get('log') === '1';
  forgetFile();
  id('kind').value = kind === 'base64' || kind === 'escaped' ? kind : 'guess';
  id('text').value = kind === 'base64' ? toBase64(data)
    : kind === 'escaped'               ? escaped(data)
                                       : hex(data);
}
