// Numbers, names, types and records, as the library tells them and as edits have them.

const encoder = new TextEncoder();
const decoder = new TextDecoder('utf-8', { fatal: true, ignoreBOM: true });

// Types of values are texts, and those of references `{ heapType, nullable }`, where the first is a text or the id of a type.
const VALUES = new Map([['i32', 0x7F], ['i64', 0x7E], ['f32', 0x7D], ['f64', 0x7C], ['v128', 0x7B]]);
const HEAPS = new Map([
  ['func', 0x70], ['extern', 0x6F], ['any', 0x6E], ['eq', 0x6D], ['i31', 0x6C], ['struct', 0x6B], ['array', 0x6A], ['exn', 0x69], ['none', 0x71], ['noextern', 0x72],
  ['nofunc', 0x73], ['noexn', 0x74],
]);
const NULLABLE = 0x63, NON_NULL = 0x64;
const turned = (map) => new Map([...map].map(([name, byte]) => [byte, name]));
const VALUE_OF = turned(VALUES), HEAP_OF = turned(HEAPS);

/** Bytes of parts, each bytes, an array of numbers, or a number that is a byte. */
export function joined(...parts) {
  const all = parts.map((it) => (typeof it === 'number' ? [it] : it)), bytes = new Uint8Array(all.reduce((sum, it) => sum + it.length, 0));
  let at = 0;
  for (const it of all) {
    bytes.set(it, at);
    at += it.length;
  }
  return bytes;
}

/** A number without a sign, in LEB128. */
export function number(value) {
  if (typeof value === 'number' && !(Number.isSafeInteger(value) && value >= 0)) throw new RangeError(`${value} is no whole number of 0 and more`);
  let rest = BigInt(value);
  if (rest < 0n) throw new RangeError(`${value} is below 0`);
  const bytes = [];
  for (; rest >= 0x80n; rest >>= 7n) bytes.push(Number(rest & 0x7Fn) | 0x80);
  bytes.push(Number(rest));
  return bytes;
}

/** A number with a sign, in LEB128. */
export function signed(value) {
  let rest = BigInt(value);
  const bytes = [];
  for (; rest < -0x40n || rest >= 0x40n; rest >>= 7n) bytes.push(Number(rest & 0x7Fn) | 0x80);
  bytes.push(Number(rest & 0x7Fn));
  return bytes;
}

/** Bytes behind their count. */
export const block = (bytes) => joined(number(bytes.length), bytes);

/** The bytes of a name behind their count. */
export function name(text) {
  if (typeof text !== 'string' || /\p{Surrogate}/u.test(text)) throw new TypeError('a name has to be a text of whole characters');
  return block(encoder.encode(text));
}

function byteOf(map, word) {
  const byte = map.get(word);
  if (byte === undefined) throw new TypeError(`there is no type ${String(word)}`);
  return byte;
}

export const heapType = (heap) => (typeof heap === 'number' ? signed(heap) : [byteOf(HEAPS, heap)]);

export function valueType(type) {
  if (typeof type === 'string') return [byteOf(VALUES, type)];
  const { heapType: heap, nullable } = type;
  if (nullable && typeof heap === 'string') return heapType(heap);
  return [nullable ? NULLABLE : NON_NULL, ...heapType(heap)];
}

/** Entries behind their count. */
export const vector = (entries) => joined(number(entries.length), ...entries);

export const valueTypes = (types) => vector(types.map(valueType));

/** Bytes that are read from the front. The library keeps to its forms, so that what is read is there. */
export class Reader {
  constructor(bytes, at = 0, end = bytes.length) {
    this.bytes = bytes;
    this.at = at;
    this.end = end;
  }

  get isEmpty() {
    return this.at >= this.end;
  }

  byte() {
    return this.bytes[this.at++];
  }

  // One past 2^53 is a BigInt.
  number() {
    let byte = this.byte(), value = byte & 0x7F, factor = 0x80, wide = null;
    while (byte >= 0x80) {
      byte = this.byte();
      if (factor > 2 ** 42) wide = (wide ?? BigInt(value)) + BigInt(byte & 0x7F) * BigInt(factor);
      else value += (byte & 0x7F) * factor;
      factor *= 0x80;
    }
    if (wide === null) return value;
    return wide <= BigInt(Number.MAX_SAFE_INTEGER) ? Number(wide) : wide;
  }

  take(count) {
    this.at += count;
    return this.bytes.slice(this.at - count, this.at);
  }

  block() {
    return this.take(this.number());
  }

  rest() {
    return this.take(this.end - this.at);
  }

  name() {
    const count = this.number();
    this.at += count;
    return decoder.decode(this.bytes.subarray(this.at - count, this.at));
  }

  // A number of 33 bits with a sign: below 0 it has one byte, of an abstract type.
  heapType() {
    const byte = this.bytes[this.at];
    if (byte < 0x40 || byte >= 0x80) return this.number();
    this.at++;
    return HEAP_OF.get(byte);
  }

  valueType() {
    const byte = this.byte(), value = VALUE_OF.get(byte);
    if (value !== undefined) return value;
    if (byte === NULLABLE || byte === NON_NULL) return { heapType: this.heapType(), nullable: byte === NULLABLE };
    return { heapType: HEAP_OF.get(byte), nullable: true };
  }

  // So many of what this reads as a number in front says.
  vector(read) {
    return Array.from({ length: this.number() }, () => read(this));
  }
}
