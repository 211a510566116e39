// The start of the page, and what its buttons do.

import {listenToCopies} from './copies.js';
import {decode} from './decode.js';
import {LIMITS, id} from './elements.js';
import {EXAMPLES} from './examples.js';
import {forgetFile, holdFile} from './files.js';
import {listenToPanes} from './keys.js';
import {readLink} from './links.js';
import {choose, closeAll, fitWidth, openAll} from './panes.js';
import {Module, hasWideMemory} from './reader.js';
import {allLimits} from './records.js';
import {NoSchema, readSchema} from './schema.js';
import {shown} from './shown.js';
import {many} from './words.js';

async function takeFile(taken) {
  if (!taken) return;
  holdFile(taken.name, new Uint8Array(await taken.arrayBuffer()));
  await decode();
}
async function takeSchema(taken) {
  if (!taken) return;
  id('schema-trouble').textContent = '';
  try {
    shown.schema = readSchema(new Uint8Array(await taken.arrayBuffer()));
  } catch (error) {
    if (!(error instanceof NoSchema)) throw error;
    id('schema-trouble').textContent = error.message;
    return;
  }
  const names = shown.schema.names(), was = id('type').value;
  id('type').replaceChildren(new Option('no type', ''), ...names.map((it) => new Option(it, it)));
  id('type').value = names.includes(was) ? was : names[0] ?? '';
  id('type-of').hidden = false;
  id('schema-file').textContent = `${taken.name}, ${many(names.length, 'type')}`;
  id('schema-file').hidden = false;
  await decode();
}
function takeExample(name) {
  forgetFile();
  [id('text').value, id('log').checked] = EXAMPLES[name];
  id('kind').value = 'guess';
  decode();
}
function clear() {
  forgetFile();
  id('file').value = '';
  id('text').value = '';
  decode();
  id('text').focus();
}

function listenToInput() {
  let wait;
  id('text').addEventListener('input', () => {
    clearTimeout(wait);
    wait = setTimeout(decode, id('text').value.length > 1e5 ? 300 : 40);
  });
  for (const name of ['kind', 'log', 'type']) id(name).addEventListener('change', decode);
  for (const name of LIMITS) id(name).addEventListener('input', decode);
  for (const button of document.querySelectorAll('[data-example]')) {
    button.addEventListener('click', () => takeExample(button.dataset.example));
  }
  id('clear').addEventListener('click', clear);
  addEventListener('hashchange', () => {
    readLink();
    decode();
  });
}
function listenToFiles() {
  id('choose').addEventListener('click', () => id('file').click());
  id('file').addEventListener('change', () => takeFile(id('file').files[0]));
  id('choose-schema').addEventListener('click', () => id('schema').click());
  id('schema').addEventListener('change', () => takeSchema(id('schema').files[0]));
  addEventListener('dragover', (event) => {
    event.preventDefault();
    document.body.classList.add('dropping');
  });
  addEventListener('dragleave', (event) => {
    if (!event.relatedTarget) document.body.classList.remove('dropping');
  });
  addEventListener('drop', (event) => {
    event.preventDefault();
    document.body.classList.remove('dropping');
    takeFile(event.dataTransfer.files[0]);
  });
}
function listenToOutput() {
  id('show-fault').addEventListener('click', () => {
    choose(shown.misfit ?? {list: shown.root, i: -1});
    id('hex').focus();
  });
  id('open-all').addEventListener('click', openAll);
  id('close-all').addEventListener('click', closeAll);
  listenToCopies();
  listenToPanes();
  new ResizeObserver(fitWidth).observe(id('hex'));
}

function begin() {
  if (!hasWideMemory()) {
    id('lacking').textContent =
      'This browser lacks WebAssembly’s 64-bit memory, which the reader takes: '
      + 'Chromium has it from version 133 on, and Firefox from 134 on.';
    id('lacking').hidden = false;
    id('input').hidden = true;
    id('empty').hidden = true;
    return;
  }
  shown.module = new Module();
  shown.limits = allLimits();
  listenToInput();
  listenToFiles();
  listenToOutput();
  readLink();
  decode();
}
begin();
