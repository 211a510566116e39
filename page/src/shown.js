// What is shown, the one state that the page has.

export const shown = {
  // The proved reader.
  module: null,
  // The input, the file that it is where it is one, and which kind of text it is read as.
  bytes: new Uint8Array(0),
  file: null,
  kind: '',
  // How it is read: under which limits, by which schema, and as which of its types.
  limits: null,
  schema: null,
  type: null,
  // What was read of it, the number of this reading, and the first record that misfits the schema.
  root: null,
  run: 0,
  misfit: null,
  // Records, as `{list, i}`: the one that is chosen and the one that is pointed at. The byte that
  // keys move from.
  chosen: null,
  pointed: null,
  byteAt: 0,
  // How many bytes a row has.
  width: 16
};
