// Bytes from text: hexadecimal, base64, and text with escapes.

export class Trouble extends Error {}

// The places and digits of what `xxd` prints, lines as `00000000: 0a03 4164 61  .Ada`; none of any
// other text.
const XXD_LINE = /^([0-9a-f]{8,}): ((?:[0-9a-f]+ )*[0-9a-f]+)(?: {2}.*)?\s*$/i;
function xxdLines(text) {
  const lines = text.split('\n').filter((line) => line.trim()).map((line) => XXD_LINE.exec(line));
  return lines.length && lines.every(Boolean)
    ? lines.map(([, place, digits]) => [parseInt(place, 16), digits.replaceAll(' ', '')])
    : null;
}
function fromXxd(lines) {
  let next = lines[0][0];
  for (const [place, digits] of lines) {
    if (place !== next)
      throw new Trouble(`Lines are lacking before the one at ${place.toString(16)}.`);
    next += digits.length / 2;
  }
  return lines.map(([, digits]) => digits).join('');
}
function fromHex(text) {
  const lines = xxdLines(text);
  const digits = lines
    ? fromXxd(lines)
    : text.replace(/\\x|0x|[\s,:;_"'{}[\]()<>]|\bb(?=["'])/gi, '');
  const wrong = digits.match(/[^0-9a-f]/i);
  if (wrong) throw new Trouble(`This is no hexadecimal text: it has a “${wrong[0]}”.`);
  if (digits.length % 2)
    throw new Trouble('Half a byte: the hexadecimal digits are an odd number.');
  const found = new Uint8Array(digits.length / 2);
  const digit = (k) => {
    const c = digits.charCodeAt(k) | 32;
    return c < 58 ? c - 48 : c - 87;
  };
  for (let k = 0; k < found.length; k++) found[k] = 16 * digit(2 * k) + digit(2 * k + 1);
  return found;
}
export function fromBase64(text) {
  const plain = text.replace(/\s/g, '');
  if (/[-_]/.test(plain) && /[+/]/.test(plain))
    throw new Trouble('This base64 text has letters of both alphabets.');
  const letters = plain.replace(/=+$/, '').replace(/-/g, '+').replace(/_/g, '/');
  const wrong = letters.match(/[^A-Za-z0-9+/]/);
  if (wrong) throw new Trouble(`This is no base64 text: it has a “${wrong[0]}”.`);
  if (letters.length % 4 === 1) throw new Trouble('This base64 text is cut short.');
  try {
    return Uint8Array.from(atob(letters), (c) => c.charCodeAt(0));
  } catch { throw new Trouble('This is no base64 text.'); }
}
const LETTERS =
  {n: 10, r: 13, t: 9, a: 7, b: 8, f: 12, v: 11, '\\': 92, '"': 34, "'": 39, '?': 63};
function fromEscaped(text) {
  const inner = text.trim().replace(/^b?(["'])([\s\S]*)\1$/, '$2');
  const found = [];
  const piece = /\\x([0-9a-f]{1,2})|\\([0-7]{1,3})|\\([\s\S])|([^\\])|(\\)$/giu;
  for (const [, digits, octal, letter, plain, lone] of inner.matchAll(piece)) {
    if (digits)
      found.push(parseInt(digits, 16));
    else if (octal)
      found.push(parseInt(octal, 8) % 256);
    else if (plain)
      found.push(...new TextEncoder().encode(plain));
    else if (lone || !(letter in LETTERS))
      throw new Trouble(`There is no escape \\${letter || ''}.`);
    else
      found.push(LETTERS[letter]);
  }
  return Uint8Array.from(found);
}
export const READERS = {hex: fromHex, base64: fromBase64, escaped: fromEscaped};
export const NAMES =
  {hex: 'hexadecimal', base64: 'base64', escaped: 'escaped text', raw: 'bytes of a file'};

// The kind of text that this is likely.
export function guess(text) {
  if (xxdLines(text)) return 'hex';
  if (/\\/.test(text))
    return /^[\s"'b]*(\\x[0-9a-f]{2}[\s"',]*)+$/i.test(text) ? 'hex' : 'escaped';
  for (const kind of ['hex', 'base64']) {
    try {
      READERS[kind](text);
      return kind;
    } catch { /* the next */
    }
  }
  return /^[0-9a-f\s]*$/i.test(text) ? 'hex' : /^[\w+/=\s-]*$/.test(text) ? 'base64' : 'hex';
}
