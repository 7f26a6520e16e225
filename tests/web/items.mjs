// A small module, that of python/tests/worked.py.
export const utf8 = new TextEncoder();
export const section = (id, ...parts) => {
  const content = parts.flatMap((it) => (typeof it === 'string' ? [it.length, ...utf8.encode(it)] : it));
  return [id, content.length, ...content];
};
// An item of each kind, or two. Function 0 and global 0 are imported; names of the module, of function 1 and of its locals; producers.
export const ITEMS = Uint8Array.from([
  0, 0x61, 0x73, 0x6D, 1, 0, 0, 0,
  ...section(1, [3, 0x60, 0, 0, 0x60, 1, 0x7F, 1, 0x7F, 0x60, 0, 1, 0x7E]),
  ...section(2, [2], 'env', 'f', [0, 1], 'env', 'g', [3, 0x7F, 0]),
  ...section(3, [2, 1, 0]),
  ...section(4, [2, 0x70, 1, 1, 2, 0x6F, 0, 0]),
  ...section(5, [1, 0, 1]),
  ...section(13, [1, 0, 0]),
  ...section(6, [2, 0x7E, 1, 0x42, 5, 0x0B, 0x7F, 0, 0x41, 1, 0x0B]),
  ...section(7, [2], 'run', [0, 1], 'mem', [2, 0]),
  ...section(8, [2]),
  ...section(9, [2, 0, 0x41, 0, 0x0B, 1, 1, 1, 0, 1, 2]),
  ...section(12, [2]),
  ...section(10, [2, 8, 1, 1, 0x7F, 0x20, 0, 0x10, 0, 0x0B, 2, 0, 0x0B]),
  ...section(11, [2, 0, 0x41, 3, 0x0B], 'ab', [1], 'c'),
  ...section(0, 'note', [1, 2]),
  ...section(0, 'other'),
  ...section(0, 'name', [0, 2], 'm', [1, 7, 1, 1], 'work', [2, 9, 1, 1, 2, 0], 'x', [1], 'y'),
  ...section(0, 'producers', [2], 'language', [1], 'C', '11', 'other', [1], 't', ''),
]);
