// The input as a file.

import {id} from './elements.js';
import {shown} from './shown.js';
import {many} from './words.js';

export function forgetFile() {
  shown.file = null;
  id('from-file').hidden = true;
  id('text').hidden = false;
}
export function holdFile(name, bytes) {
  shown.file = {name, bytes};
  id('from-file').textContent = `${name}, ${many(bytes.length, 'byte')}`;
  id('from-file').hidden = false;
  id('text').hidden = true;
  id('kind').value = 'guess';
}
