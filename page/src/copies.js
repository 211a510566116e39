// What is copied, and the shortest encoding.

import {dumpAll} from './dump.js';
import {id, make} from './elements.js';
import {shown} from './shown.js';
import {hex, many, toBase64} from './words.js';

async function copy(text, button) {
  const was = button.textContent;
  try {
    await navigator.clipboard.writeText(text);
  } catch {
    const area = make('textarea');
    area.value = text;
    document.body.append(area);
    area.select();
    document.execCommand('copy');
    area.remove();
  }
  button.textContent = 'Copied';
  setTimeout(() => {
    button.textContent = was;
  }, 1200);
}

let shortest = new Uint8Array(0);
function showShortest() {
  const panel = id('shortest-panel');
  panel.hidden = !panel.hidden;
  id('shortest').setAttribute('aria-expanded', !panel.hidden);
  if (panel.hidden) return;
  const {bytes, limits, module} = shown;
  shortest = module.shortest(bytes.length, limits).bytes;
  const cost = bytes.length - shortest.length;
  id('shortest-said').textContent = cost
    ? `The same records take ${many(shortest.length, 'byte')}: padding cost ${
      many(cost, 'byte')}.`
    : `This is the shortest encoding: ${many(shortest.length, 'byte')}, and none is padding.`;
}

export function listenToCopies() {
  const copies = {
    'copy-text': () => dumpAll().join('\n') + '\n',
    'copy-link': () => location.href,
    'copy-hex': () => hex(shortest),
    'copy-base64': () => toBase64(shortest)
  };
  for (const [name, text] of Object.entries(copies))
    id(name).addEventListener('click', (event) => copy(text(), event.target));
  id('shortest').addEventListener('click', showShortest);
}
