// The elements of the page.

export const id = (name) => document.getElementById(name);
// Those that limits are written into.
export const LIMITS = ['depth', 'records', 'payloads'];

export function make(tag, name, text) {
  const node = document.createElement(tag);
  if (name) node.className = name;
  if (text !== undefined) node.textContent = text;
  return node;
}
