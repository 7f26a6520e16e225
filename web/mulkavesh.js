// Mulkavesh, a verified module layer for WebAssembly, in JavaScript: for Node from 18 on and for browsers, with no other package.
//
//     import { load } from 'mulkavesh';
//     const { gc } = await load();
//     const smaller = gc(module, { names: false });
//
// Each call goes from the bytes of a module to bytes or to plain values, and keeps nothing. mulkavesh.d.ts says what each takes and answers.

/** A call was refused; `code` is one of INVALID, TOO_LARGE, NO_MEMORY, NOT_FOUND, BAD_EDIT, BAD_MODULE, BAD_ITEM, TRAPPED and UNKNOWN_STATUS. */
export class MulkaveshError extends Error {
  constructor(code, message, options) {
    super(message, options);
    this.name = new.target.name;
    this.code = code;
  }
}
/** The input is no module that keeps the rules (of `strip` and `sections`: its framing is none; of `parts`: it isn't the sections of a module); `fault` is what is wrong with it, as `diagnose` tells it, or null where that could not be found out. */
export class InvalidModule extends MulkaveshError {
  constructor(code, message, fault = null) {
    super(code, fault === null ? message : `${message}: ${fault.text}`);
    this.fault = fault;
  }
}
/** What is to be written has a count or a size past 32 bits. */
export class TooLarge extends MulkaveshError {}
/** Memory ran out. */
export class OutOfMemory extends MulkaveshError {}
/** There is nothing that the call could work on; `unfit` is the NAME of `keep` or `drop` that fits no export, or null where something else isn't there. */
export class NotFound extends MulkaveshError {
  constructor(code, message, unfit = null) {
    super(code, message);
    this.unfit = unfit;
  }
}
/** An edit of a list isn't of its form, or can't be made of what those in front of it left; so many can be made. */
export class BadEdit extends MulkaveshError {
  constructor(code, message, made) {
    super(code, message);
    this.made = made;
  }
}
/** All edits can be made, and what they leave can't be written; `cause` is the rule that is broken, or another cause. */
export class BadModule extends MulkaveshError {
  constructor(code, message, cause) {
    super(code, message);
    this.cause = cause;
  }
}
/** The library stopped in the midst of a call, which is a mistake in it or a host with too little stack. Later calls have a fresh instance. */
export class Trapped extends MulkaveshError {}

const INVALID = 1, TOO_LARGE = 2, NO_MEMORY = 3, NO_ROOM = 4, NOT_FOUND = 6, BAD_EDIT = 7, BAD_MODULE = 8;
// What isn't there, where a call doesn't find what it is to work on.
const MISSING = {
  strip: 'no custom section has such a name',
  why: 'there is no such function or export',
  callers: 'there is no such function or export',
  snip: 'there is no such function, or one of them is imported',
  stub: 'no function is imported so',
};
const outOfMemory = () => new OutOfMemory('NO_MEMORY', 'out of memory');
const FLAGS = { names: 1, producers: 2, legacy: 4 }, GC = 8;
// A smaller module, or a list, is seldom longer than the input by more.
const MARGIN = 256;
// A dozen lines of words and one or two numbers of ten digits are shorter.
const ROOM_OF_A_REPORT = 1024;
// Two numbers of 32 bits.
const ROOM_OF_A_FAULT = 8;
// Few chains have more, and few functions more callers.
const ROOM_OF_LINKS = 65536;
// Few modules have more than some forty sections.
const ROOM_OF_SECTIONS = 1024;
// Memory of WebAssembly never shrinks: an instance that has come to more is left behind, however the call ends.
const MOST_MEMORY = 64 * 1024 * 1024;
const NONE = 2 ** 32 - 1;

const encoder = new TextEncoder();
const decoder = new TextDecoder('utf-8', { fatal: true, ignoreBOM: true });
const lossy = new TextDecoder('utf-8', { ignoreBOM: true });

function bytesOf(data) {
  if (data instanceof Uint8Array) return data;
  if (ArrayBuffer.isView(data)) return new Uint8Array(data.buffer, data.byteOffset, data.byteLength);
  if (data instanceof ArrayBuffer) return new Uint8Array(data);
  throw new TypeError('bytes have to be a Uint8Array or an ArrayBuffer');
}

function nameOf(name) {
  if (typeof name !== 'string') return bytesOf(name);
  if (/\p{Surrogate}/u.test(name)) throw new TypeError('the name has half a character');
  return encoder.encode(name);
}

// What means a function: its index, which may be a number, or a name.
function functionOf(it) {
  if (typeof it !== 'number') return nameOf(it);
  if (!Number.isInteger(it) || it < 0 || it >= 2 ** 32) throw new RangeError('an index is a whole number of 32 bits');
  return encoder.encode(String(it));
}

// The number that stands for what isn't wanted.
function flagsOf(options = {}) {
  let flags = 0;
  for (const [word, wanted] of Object.entries(options)) {
    if (!Object.hasOwn(FLAGS, word)) throw new TypeError(`there is no option ${word}`);
    if (wanted === false) flags |= FLAGS[word];
    else if (wanted !== true && wanted !== undefined) throw new TypeError(`the option ${word} has to be true or false`);
  }
  return flags;
}

// One alone is no list.
const listOf = (those) => (Array.isArray(those) ? those : [those]);

const GOES = 0, STAYS = 1;

// A list of choices: for each name a byte, which says what is chosen of those that it fits, its length, and the name.
function choicesOf(records) {
  const choices = new Uint8Array(records.reduce((sum, [, name]) => sum + 5 + name.length, 0)), view = new DataView(choices.buffer);
  let at = 0;
  for (const [kind, name] of records) {
    view.setUint8(at, kind);
    view.setUint32(at + 1, name.length, true);
    choices.set(name, at + 5);
    at += 5 + name.length;
  }
  return choices;
}

const going = (names, bytesOfOne = nameOf) => choicesOf(listOf(names).map((it) => [GOES, bytesOfOne(it)]));

// What goes of the custom sections, and what stays after all.
function sectionsChosen(names, { keep = [], ...others } = {}) {
  for (const word of Object.keys(others)) throw new TypeError(`there is no option ${word}`);
  return choicesOf([names, keep].flatMap((those, kind) => listOf(those).map((it) => [kind, nameOf(it)])));
}

// Which exports are roots: the NAMEs, a choice of each, and the flags that the other options are.
function rootsOf({ keep = [], drop = [], ...others } = {}) {
  const kept = listOf(keep), dropped = listOf(drop);
  const choice = choicesOf([...kept.map((it) => [STAYS, nameOf(it)]), ...dropped.map((it) => [GOES, nameOf(it)])]);
  return { flags: flagsOf(others), choice, chosen: [...kept, ...dropped] };
}

// What is thrown by a status; the number is that of the NAME which fits no export, and no less than there are where something else isn't found.
function refusalOf(status, { name, chosen = [] }, number, fault) {
  if (status === INVALID) return new InvalidModule('INVALID', 'the input is no module that keeps the rules', fault);
  if (status === TOO_LARGE) return new TooLarge('TOO_LARGE', 'a count or a size passes 32 bits');
  if (status === NO_MEMORY) return outOfMemory();
  if (status === BAD_EDIT) return new BadEdit('BAD_EDIT', `edit ${number}, counted from 0, isn't of its form, or can't be made of what those in front of it left`, number);
  if (status === BAD_MODULE) return badModule(number);
  if (status !== NOT_FOUND) return new MulkaveshError('UNKNOWN_STATUS', `the library answers status ${status}`);
  if (number >= chosen.length) return new NotFound('NOT_FOUND', MISSING[name] ?? 'there is nothing of this name or index');
  const unfit = chosen[number];
  return new NotFound('NOT_FOUND', `no export fits ${JSON.stringify(typeof unfit === 'string' ? unfit : lossy.decode(unfit))}`, unfit);
}

// An instance, what is held in its memory for one call, and the call.
class Call {
  constructor(exports) {
    this.exports = exports;
    this.held = [];
  }

  hold(count) {
    const at = count < 2 ** 31 ? this.exports.room(count) >>> 0 : 0;
    if (at === 0) throw outOfMemory();
    this.held.push(at);
    return at;
  }

  // What the library takes for a module or a name: where it is and how long it is.
  lend(bytes) {
    const at = this.hold(bytes.length);
    new Uint8Array(this.exports.memory.buffer, at, bytes.length).set(bytes);
    return [at, BigInt(bytes.length)];
  }

  giveBack() {
    while (this.held.length > 0) this.exports.give_back(this.held.pop());
  }

  // One call with this much room, which is given back: the status, how much the answer has or wants, and the answer, where there is one. Views are made behind
  // the call, in which memory may have grown.
  tried(name, words, room, length) {
    const at = this.hold(room);
    const status = this.exports[`mulkavesh_${name}`](...words, at, BigInt(room), length);
    const { buffer } = this.exports.memory;
    const count = Number(new DataView(buffer).getBigUint64(length, true));
    const answer = status === 0 ? new Uint8Array(buffer, at, count).slice() : null;
    this.exports.give_back(this.held.pop());
    return { status, count, answer };
  }

  // What is wrong with the input that is lent; null where there is no room to find that out.
  fault(lent, flags, length) {
    try {
      const { answer } = this.tried('diagnose', [...lent, flags], ROOM_OF_A_FAULT, length);
      return answer && faultOf(answer);
    } catch (error) {
      if (error instanceof OutOfMemory) return null;
      throw error;
    }
  }

  // Calls with as much room as is mostly enough, and where that is too little with as much as is asked for. Where the input is invalid, a second call tells why.
  answer(asked, lent, words) {
    const length = this.hold(8);
    for (let room = asked.room; ; ) {
      const { status, count, answer } = this.tried(asked.name, [...lent, ...words], room, length);
      if (status === 0) return answer;
      if (status !== NO_ROOM || count <= room) throw refusalOf(status, asked, count, status === INVALID ? this.fault(lent, (asked.flags ?? 0) & ~GC, length) : null);
      room = count;
    }
  }

  // Lends what is given, and answers or refuses; either way all is given back. Where the library stops nothing is, since its memory may be in disorder then.
  run(asked) {
    try {
      const lent = this.lend(asked.input), behind = (asked.behind ?? []).flatMap((it) => this.lend(it));
      const answer = this.answer(asked, lent, asked.flags === undefined ? behind : [asked.flags, ...behind]);
      this.giveBack();
      return answer;
    } catch (error) {
      if (error instanceof MulkaveshError) this.giveBack();
      throw error;
    }
  }
}

// Reads an answer from its front on. A number is one of 32 bits, and a name is its length and so many bytes; the largest number stands for none.
class Reader {
  constructor(bytes) {
    this.bytes = bytes;
    this.view = new DataView(bytes.buffer, bytes.byteOffset, bytes.length);
    this.at = 0;
  }

  byte() {
    return this.bytes[this.at++];
  }

  number() {
    this.at += 4;
    return this.view.getUint32(this.at - 4, true);
  }

  numberOrNull() {
    const number = this.number();
    return number === NONE ? null : number;
  }

  name() {
    const length = this.numberOrNull();
    if (length === null) return null;
    this.at += length;
    return decoder.decode(this.bytes.subarray(this.at - length, this.at));
  }

  names() {
    return Array.from({ length: this.number() }, () => this.name());
  }

  // What this reads, over and over up to the end.
  all(read) {
    const found = [];
    while (this.at < this.bytes.length) found.push(read(this));
    return found;
  }
}

const allOf = (bytes, read) => new Reader(bytes).all(read);

// Of items in an answer, by their numbers: first those that are imported and exported, then all.
const OUTER_KINDS = ['function', 'table', 'memory', 'global', 'tag'];
const ITEM_KINDS = ['type', 'function', 'table', 'memory', 'tag', 'global', 'element', 'data'];
const ROOTS = [null, 'exported', 'start', 'active', 'declared'];

const listedOf = (it) => ({ index: it.number(), size: it.number(), name: it.name() });
const exportOf = (it) => ({ kind: OUTER_KINDS[it.byte()], index: it.number(), name: it.name() });
const importOf = (it) => ({ kind: OUTER_KINDS[it.byte()], index: it.number(), module: it.name(), name: it.name() });

function linkOf(it) {
  const kind = ITEM_KINDS[it.byte()], index = it.number(), size = it.numberOrNull();
  return { kind, index, name: it.name(), exports: it.names(), size };
}

function reasonOf(bytes) {
  const it = new Reader(bytes);
  const item = { kind: ITEM_KINDS[it.byte()], index: it.number() }, root = ROOTS[it.byte()];
  const isAlone = it.byte() === 1, alone = { functions: it.number(), bytes: it.number() };
  return { item, root, chain: it.all(linkOf), alone: isAlone ? alone : null };
}

// The lines of a report, as values.
const COUNTED = /^(\w+) kept (\d+) dropped (\d+)$/gm;
const MEASURED = /^bytes read (\d+) written (\d+)\nbytes of dropped functions (\d+)\nbytes of debug information (\d+)$/m;

function reportOf(text) {
  const counts = Array.from(text.matchAll(COUNTED), ([, kind, kept, dropped]) => [kind, { kept: Number(kept), dropped: Number(dropped) }]);
  const [read, written, dropped, debug] = MEASURED.exec(text).slice(1).map(Number);
  return { ...Object.fromEntries(counts), bytes: { read, written, dropped, debug } };
}

// What the standard calls the sections of each id.
const KINDS = ['custom', 'type', 'import', 'function', 'table', 'memory', 'global', 'export', 'start', 'element', 'code', 'data', 'data count', 'tag'];

function sectionOf(it) {
  const id = it.byte(), isCounted = it.byte() === 1, start = it.number(), size = it.number(), entries = it.number();
  return { id, kind: KINDS[id] ?? 'unknown', name: it.name(), start, size, entries: isCounted ? entries : null };
}

function sectionsOf(bytes) {
  const it = new Reader(bytes), whole = it.byte() === 1, end = it.number();
  return { sections: it.all(sectionOf), end, whole };
}

// What is told in place of the number of a section that isn't one.
const ITEMS = new Map([[138, 'function'], [139, 'data']]);

const partOf = (told) => (ITEMS.has(told.id) ? { kind: ITEMS.get(told.id), index: told.entries, start: told.start, size: told.size } : told);

// The rules on the whole, by their numbers from 1 on, and what is said where one is broken.
const RULES = [
  ['Order', 'the sections stand out of order, or one stands twice'],
  ['Types', "a type names one that isn't declared by the end of its group, or has a supertype that isn't before it, or more than one"],
  ['Indices', "an index names something that isn't declared, or isn't yet"],
  ['FunctionTypes', 'a function or a tag has a type that is no function type'],
  ['Limits', "the limits of a table or a memory aren't allowed"],
  ['Counts', "the number of bodies or of data segments isn't the one that is declared"],
  ['ExportNames', 'two exports have the same name'],
  ['Start', 'the start function has parameters or results'],
  ['Offsets', "the offset of a segment isn't of the type of addresses"],
  ['Locals', 'a body declares more than 50,000 locals'],
];

// Why what edits left can't be written, beside the rules, by their numbers from 11 on.
const FIRST_CAUSE = 11;
const CAUSES = [
  ['Gone', 'it names an item that is gone'],
  ['TwoIndices', 'an item stands in it twice'],
  ['NoIndex', 'it names an item that stands nowhere'],
  ['NoSpelling', "a body or an expression can't be spelled"],
];

function badModule(number) {
  const [cause, text] = number < FIRST_CAUSE ? RULES[number - 1] : CAUSES[number - FIRST_CAUSE];
  return new BadModule('BAD_MODULE', `the changed module is invalid: ${text}`, cause);
}

// What bytes begin as that don't begin as a module, by its number, and what is said of that.
const BEGINNINGS = [
  [null, ''],
  ['empty', ': there are none'],
  ['cut', ': they end within the header'],
  ['gzip', ': they are compressed by gzip'],
  ['zip', ': they are a zip archive'],
  ['zstd', ': they are compressed by zstd'],
  ['elf', ': they are an ELF file'],
  ['bitcode', ': they are LLVM bitcode'],
  ['text', ': they are WebAssembly text, not binary'],
  ['component', ': they are a component, not a module'],
  ['other version', ': they have another version'],
];

// What is wrong, by its kind and the number behind that.
const FAULTS = [
  () => null,
  (number) => ({ kind: 'header', begins: BEGINNINGS[number][0], text: `the bytes don't begin as a WebAssembly module${BEGINNINGS[number][1]}` }),
  (place) => ({ kind: 'section', place, text: `no well-formed section stands at byte ${place} (0x${place.toString(16).toUpperCase()})` }),
  (number) => ({ kind: 'rule', rule: RULES[number - 1][0], text: RULES[number - 1][1] }),
  (index) => ({ kind: 'body', index, text: `the body of function ${index} isn't made of allowed instructions, well nested, with declared indices` }),
];

function faultOf(bytes) {
  const view = new DataView(bytes.buffer);
  return FAULTS[view.getUint32(0, true)](view.getUint32(4, true));
}

// What holds the instance between calls: one call at a time, since none of them waits. Behind a call it holds none where the library stopped or has come to
// too much memory. Nor does an error that a caller keeps: V8 keeps with it what stands on the stack, until the error's `stack` is read. So the call lets the
// instance go, and the stack of what stopped the library, on which the instance stands itself, is read.
function caller(module) {
  let exports = null;
  const begin = () => new WebAssembly.Instance(module, {}).exports;
  return function call(asked) {
    const one = new Call(exports ?? begin());
    exports = null;
    try {
      return one.run(asked);
    } catch (error) {
      if (error instanceof MulkaveshError) throw error;
      void error.stack;
      one.exports = null;
      throw new Trapped('TRAPPED', `the library stopped: ${error.message}`, { cause: error });
    } finally {
      if (one.exports?.memory.buffer.byteLength <= MOST_MEMORY) exports = one.exports;
      one.exports = null;
    }
  };
}

// What is asked of the library: the call's name; the module; its flags, where it takes any; what stands behind those; how much room the answer mostly has; and
// the NAMEs of the exports that were chosen.
function callsOver(module) {
  const call = caller(module), version = new WebAssembly.Instance(module, {}).exports.mulkavesh_version();
  const plain = (name, input, behind, more = {}) => {
    const bytes = bytesOf(input);
    return call({ name, input: bytes, room: bytes.length + MARGIN, behind, ...more });
  };
  const rooted = (name, input, options, more = {}) => {
    const { choice, ...roots } = rootsOf(options), { behind = [], ...others } = more;
    return plain(name, input, [choice, ...behind], { ...roots, ...others });
  };
  const about = (name, input, which, options) => rooted(name, input, options, { behind: [functionOf(which)], room: ROOM_OF_LINKS });
  return Object.freeze({
    gc: (input, options) => rooted('gc', input, options),
    report: (input, options) => reportOf(decoder.decode(rooted('report', input, options, { room: ROOM_OF_A_REPORT }))),
    diagnose: (input, options) => faultOf(plain('diagnose', input, [], { flags: flagsOf(options), room: ROOM_OF_A_FAULT })),
    list: (input, options) => allOf(rooted('list', input, options), listedOf),
    dropped: (input, options) => allOf(rooted('dropped', input, options), listedOf),
    exports: (input, options) => allOf(rooted('exports', input, options), exportOf),
    imports: (input, options) => allOf(rooted('imports', input, options), importOf),
    sections: (input) => sectionsOf(plain('sections', input, [], { room: ROOM_OF_SECTIONS })),
    parts: (input) => {
      const bytes = bytesOf(input);
      return sectionsOf(plain('parts', bytes, [], { room: (bytes.length >>> 2) + ROOM_OF_SECTIONS })).sections.map(partOf);
    },
    strip: (input, names, options) => plain('strip', input, [sectionsChosen(names, options)]),
    why: (input, which, options) => reasonOf(about('why', input, which, options)),
    callers: (input, which, options) => allOf(about('callers', input, which, options), linkOf),
    snip: (input, functions, options) => plain('snip', input, [going(functions, functionOf)], { flags: flagsOf(options) }),
    stub: (input, modules, { imports = [], ...options } = {}) => plain('stub', input, [going(modules), going(imports)], { flags: flagsOf(options) }),
    read: (input, { legacy } = {}) => plain('read', input, [], { flags: flagsOf({ legacy }) }),
    edit: (input, edits, { gc = false, ...options } = {}) => {
      const bytes = bytesOf(input), list = bytesOf(edits);
      if (typeof gc !== 'boolean') throw new TypeError('the option gc has to be true or false');
      return plain('edit', bytes, [list], { flags: flagsOf(options) | (gc ? GC : 0), room: bytes.length + list.length + MARGIN });
    },
    version: () => `${version >>> 16}.${(version >>> 8) & 255}.${version & 255}`,
  });
}

// The bytes at an address; Node's `fetch` takes none of files.
async function fetched(address) {
  if (address.protocol === 'file:' && globalThis.process?.versions?.node) {
    const { readFile } = await import('node:fs/promises');
    return readFile(address);
  }
  const response = await fetch(address);
  if (!response.ok) throw new Error(`${address}: status ${response.status}`);
  return response.arrayBuffer();
}

/**
 * Loads the library: mulkavesh.wasm beside this file, or from where the argument says, which is its address, its bytes, or a module of it that is compiled.
 * A text is an address too, by that of the page, or by this file's where there is no page.
 */
export async function load(source = new URL('mulkavesh.wasm', import.meta.url)) {
  if (source instanceof WebAssembly.Module) return callsOver(source);
  const address = typeof source === 'string' ? new URL(source, globalThis.location?.href ?? import.meta.url) : source;
  const bytes = address instanceof URL ? await fetched(address) : bytesOf(address);
  return callsOver(await WebAssembly.compile(bytes));
}
