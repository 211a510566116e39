// What the page shows by itself.

// Of each the hexadecimal text, and whether it is a log.
export const EXAMPLES = {
  message: [
    '0a 08 47 65 74 74 61 76 69 6c 10 96 01 1a 10 0a 04 77 69 72 65 15 00 00 c8 42 20 01 28 80 ' +
      '00 23 08 88 00 11 18 2d 44 54 fb 21 09 40 24 32 06 e2 82 ac 20 31 38 38 b5 fe ff ff ' +
      'ff ff ff ff ff 01 42 03 fb fb ff',
    false
  ],
  broken: ['0a 03 41 64 61 1b 10 96 01 22 0a 68 65 6c 6c 6f', false],
  log: ['08 08 01 12 04 77 69 72 65 04 08 02 10 07 05 08 03 12 09 61', true],
};
