// Numbers and bytes in words.

export const count = (n) => n.toLocaleString('en');
export const many = (n, word) => `${count(n)} ${word}${n === 1 ? '' : 's'}`;
export const hex = (bytes) => Array.from(bytes, (b) => b.toString(16).padStart(2, '0')).join(' ');

export function toBase64(data) {
  let text = '';
  for (let k = 0; k < data.length; k += 8192)
    text += String.fromCharCode(...data.subarray(k, k + 8192));
  return btoa(text);
}

const ESCAPES = {10: '\\n', 13: '\\r', 9: '\\t', 34: '\\"', 39: "\\'", 92: '\\\\'};
export function escaped(data) {
  let text = '';
  for (const b of data) {
    text += ESCAPES[b]
      || (b < 32 || b > 126 ? '\\' + b.toString(8).padStart(3, '0') : String.fromCharCode(b));
  }
  return text;
}
