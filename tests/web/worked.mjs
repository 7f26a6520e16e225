// Compares what each call from JavaScript answers with answers that were worked out by hand, and the memory behind a large call with that behind a small one.
// node tests/web/worked.mjs FOLDER, that of mulkavesh.js. tests/web.sh calls it.
// The modules are those of crates/walrus_tool_tests/src/samples.rt and python/tests/worked.py, for `diagnose` and refusals those of tests/faults.txt. Tried are also
// an error of each kind and each way to load. Prints the count and a line for each find.
import assert from 'node:assert/strict';
import { readFileSync } from 'node:fs';
import { join } from 'node:path';
import { pathToFileURL } from 'node:url';
import v8 from 'node:v8';
import vm from 'node:vm';

const folder = process.argv[2], here = pathToFileURL(join(folder, 'mulkavesh.js'));
const wasm = readFileSync(join(folder, 'mulkavesh.wasm'));
const { load, MulkaveshError, InvalidModule, TooLarge, OutOfMemory, NotFound, Trapped } = await import(here);
const library = await load();
const { gc, report, diagnose, list, dropped, exports, imports, sections, parts, strip, why, callers, snip, stub, version } = library;

// ---- modules

const HEADER = '00 61 73 6D 01 00 00 00', TYPE = '01 04 01 60 00 00';
const hex = (...texts) => Uint8Array.from(texts.join(' ').split(' '), (it) => Number.parseInt(it, 16));
const module = (...sections) => hex(HEADER, ...sections);
// What is written behind a module where producers are wanted and there were none.
const PRODUCERS = '00 27 09 70 72 6F 64 75 63 65 72 73 01 0C 70 72 6F 63 65 73 73 65 64 2D 62 79 01 06 77 61 6C 72 75 73 06 30 2E 32 38 2E 30';
// A function that nothing reaches, and one that is exported as `f`; and what is left.
const TWO_SECTIONS = [TYPE, '03 03 02 00 00', '07 05 01 01 66 00 01', '0A 08 02 03 00 01 0B 02 00 0B'];
const ONE_SECTIONS = [TYPE, '03 02 01 00', '07 05 01 01 66 00 00', '0A 04 01 02 00 0B'];
const TWO = module(...TWO_SECTIONS), ONE = module(...ONE_SECTIONS);
// The same with the names `g` and, in two bytes of UTF-8, `é`.
const TWO_NAMED = module(...TWO_SECTIONS, '00 0F 04 6E 61 6D 65 01 08 02 00 01 67 01 02 C3 A9');
const ONE_NAMED = module(...ONE_SECTIONS, '00 0C 04 6E 61 6D 65 01 05 01 00 02 C3 A9');
// A legacy `try`.
const LEGACY = module('01 08 02 60 00 00 60 01 7F 00', '03 02 01 00', '0D 03 01 00 01', '07 05 01 01 66 00 00', '0A 0C 01 0A 00 06 7F 41 00 07 00 0B 1A 0B');
// Three custom sections: `a`, `a` and `é`.
const SECTIONS = module('00 03 01 61 01', '00 03 01 61 02', '00 04 02 C3 A9 03');
// `.debug_info` with its size in two bytes, the bodies of two functions in front of the functions, `.debug_line`, `a*`, and names that are none.
const BROKEN_SECTIONS = ['0A 08 02 03 00 01 0B 02 00 0B', '03 03 02 00 00', '00 04 02 61 2A 03', '00 06 04 6E 61 6D 65 FF'];
const [CODE, FUNCTIONS, STAR, NAMES] = BROKEN_SECTIONS, INFO = '00 8D 00 0B 2E 64 65 62 75 67 5F 69 6E 66 6F 01', LINE = '00 0D 0B 2E 64 65 62 75 67 5F 6C 69 6E 65 02';
const BROKEN = module(INFO, CODE, FUNCTIONS, LINE, STAR, NAMES), INFO_SECTION = hex(INFO), LINE_SECTION = hex(LINE);
// Functions `f` and `g` from `env`, and `h` from `m`; the exported `a` calls `h` and gives what `f` makes of its argument.
const IMPORTS = module(
  '01 09 02 60 01 7F 01 7F 60 00 00', '02 17 03 03 65 6E 76 01 66 00 00 03 65 6E 76 01 67 00 01 01 6D 01 68 00 01', '03 02 01 00', '07 05 01 01 61 00 03',
  '0A 0A 01 08 00 10 02 20 00 10 00 0B',
);
const STUBBED = module(
  '01 09 02 60 01 7F 01 7F 60 00 00', '02 07 01 01 6D 01 68 00 01', '03 03 02 00 00', '07 05 01 01 61 00 01',
  '0A 0E 02 08 00 10 00 20 00 10 02 0B 03 00 00 0B', PRODUCERS,
);
// The exported `a` calls a function that nothing else calls.
const CALLS = module(TYPE, '03 03 02 00 00', '07 05 01 01 61 00 00', '0A 0A 02 04 00 10 01 0B 03 00 01 0B');
const SNIPPED = module(TYPE, '03 02 01 00', '07 05 01 01 61 00 00', '0A 05 01 03 00 00 0B', PRODUCERS);
// Two functions, the first exported as `a`, the second as `b` and as `*`; and what is left of each alone.
const [TWO_FUNCTIONS, TWO_BODIES] = ['03 03 02 00 00', '0A 08 02 03 00 01 0B 02 00 0B'];
const CHOSEN = module(TYPE, TWO_FUNCTIONS, '07 0D 03 01 61 00 00 01 62 00 01 01 2A 00 01', TWO_BODIES);
const CHOSEN_A = module(TYPE, '03 02 01 00', '07 05 01 01 61 00 00', '0A 05 01 03 00 01 0B');
const CHOSEN_B = module(TYPE, '03 02 01 00', '07 05 01 01 62 00 00', '0A 04 01 02 00 0B');
const CHOSEN_STAR = module(TYPE, '03 02 01 00', '07 05 01 01 2A 00 00', '0A 04 01 02 00 0B');
const CHOSEN_NOT_A = module(TYPE, '03 02 01 00', '07 09 02 01 62 00 00 01 2A 00 00', '0A 04 01 02 00 0B');
// The start function calls the second function, an active segment names the third, and a declared one the fourth, which is `ref.func` of nothing; a memory is `m`.
const ROOTS = module(
  TYPE, '03 05 04 00 00 00 00', '04 04 01 70 00 01', '05 03 01 00 01', '07 05 01 01 6D 02 00', '08 01 00', '09 0B 02 00 41 00 0B 01 02 03 00 01 03',
  '0A 10 04 05 00 10 01 01 0B 02 00 0B 02 00 0B 02 00 0B',
);
const NOTHING = { kept: 0, dropped: 0 };
const KINDS_BUT_FUNCTIONS = { tables: NOTHING, memories: NOTHING, tags: NOTHING, globals: NOTHING, elements: NOTHING, data: NOTHING };
const REPORT = { functions: { kept: 1, dropped: 1 }, ...KINDS_BUT_FUNCTIONS, bytes: { read: 36, written: 72, dropped: 3, debug: 0 } };

// A number in LEB128, in as few bytes as it has.
const number = (value) => (value < 128 ? [value] : [(value & 127) | 128, ...number(value >>> 7)]);
const section = (kind, content) => [kind, ...number(content.length), ...content];
const bodies = (...operators) => section(10, [...number(operators.length), ...operators.flatMap((it) => [...number(it.length + 2), 0, ...it, 11])]);

// 120 functions, all in a segment of the table: each has five bytes here, and twelve in a list.
function listedInMore() {
  const all = [...Array(120).keys()], segment = section(9, [1, 0, 0x41, 0, 11, 120, ...all]);
  const functions = section(3, [120, ...all.map(() => 0)]), table = section(4, [1, 0x70, 0, 120]);
  return Uint8Array.from([...module(TYPE), ...functions, ...table, ...segment, ...bodies(...all.map(() => []))]);
}

// So many functions, each of which calls the next; the first is exported.
function chained(count) {
  const calls = [...Array(count - 1).keys()].map((at) => [16, ...number(at + 1)]);
  return Uint8Array.from([...module(TYPE), ...section(3, [...number(count), ...Array(count).fill(0)]), ...section(7, [1, 1, 97, 0, 0]), ...bodies(...calls, [])]);
}

// One of a custom section of so many bytes.
function large(size) {
  const made = new Uint8Array(8 + 1 + number(size + 2).length + 2 + size);
  made.set([...module(), 0, ...number(size + 2), 1, 97]);
  return made;
}

// A header, and so many bytes that are no section.
function junk(size) {
  const made = new Uint8Array(8 + size).fill(0xFF);
  made.set(module());
  return made;
}

// The lines of tests/faults.txt: the options, the fault that is to be told, and the bytes.
function faults() {
  const begin = [null, 'empty', 'cut', 'gzip', 'zip', 'zstd', 'elf', 'bitcode', 'text', 'component', 'other version'];
  const rules = [, 'Order', 'Types', 'Indices', 'FunctionTypes', 'Limits', 'Counts', 'ExportNames', 'Start', 'Offsets', 'Locals'];
  const lines = readFileSync(new URL('../faults.txt', import.meta.url), 'utf8').split('\n').filter((it) => it !== '' && !it.startsWith('#'));
  return lines.map((line) => {
    const [numbers, digits, text] = line.split('|').map((it) => it.trim()), [flags, kind, which] = numbers.split(' ').map(Number);
    const header = { kind: 'header', begins: begin[which] };
    const of = [null, header, { kind: 'section', place: which }, { kind: 'rule', rule: rules[which] }, { kind: 'body', index: which }][kind];
    const options = { names: !(flags & 1), producers: !(flags & 2), legacy: !(flags & 4) };
    return { options, fault: of && { ...of, text }, bytes: digits === '' ? new Uint8Array() : hex(digits) };
  });
}

// A library whose calls `gc` and `diagnose` answer nothing but this status.
function answering(status) {
  const name = (text) => [text.length, ...new TextEncoder().encode(text)];
  const shown = [['memory', 2, 0], ['mulkavesh_version', 0, 0], ['room', 0, 1], ['give_back', 0, 2], ['mulkavesh_gc', 0, 3], ['mulkavesh_diagnose', 0, 4]];
  const constant = (low, high) => [4 + (high === undefined ? 0 : 1), 0, 0x41, low, ...(high === undefined ? [] : [high]), 11];
  // Numbers of 32 bits, and lengths.
  const [number_, length] = [0x7F, 0x7E], type = (taken, given) => [0x60, taken.length, ...taken, given.length, ...given];
  const lent = [number_, length], room = [number_, length, number_];
  const types = [
    type([], [number_]), type([number_], [number_]), type([number_], []), type([...lent, number_, ...lent, ...room], [number_]),
    type([...lent, number_, ...room], [number_]),
  ];
  return Uint8Array.from([
    ...module(), ...section(1, [5, ...types.flat()]), ...section(3, [5, 0, 1, 2, 3, 4]), ...section(5, [1, 0, 1]),
    ...section(7, [6, ...shown.flatMap(([text, kind, index]) => [...name(text), kind, index])]),
    ...section(10, [5, ...constant(0x80, 2), ...constant(16), 2, 0, 11, ...constant(status), ...constant(status)]),
  ]);
}

// The library with at most so many pages of memory.
function withMost(pages) {
  let at = 8;
  const read = () => {
    let value = 0, shift = 0, byte;
    do {
      byte = wasm[at++];
      value |= (byte & 127) << shift;
      shift += 7;
    } while (byte & 128);
    return value;
  };
  for (;;) {
    const begin = at, kind = wasm[at++], size = read(), end = at + size;
    if (kind === 5) {
      at += 2;
      return Uint8Array.from([...wasm.subarray(0, begin), ...section(5, [1, 1, ...number(read()), ...number(pages)]), ...wasm.subarray(end)]);
    }
    at = end;
  }
}

// Does this with instances that have room for each second piece of so many bytes refused.
async function withNoSecond(size, run) {
  const { Instance: before } = WebAssembly;
  let times = 0;
  WebAssembly.Instance = function short(...words) {
    const { exports } = new before(...words);
    return { exports: { ...exports, room: (count) => (count === size && ++times % 2 === 0 ? 0 : exports.room(count)) } };
  };
  try {
    await run();
    assert.ok(times > 1);
  } finally {
    WebAssembly.Instance = before;
  }
}

// ---- memory

const MB = 1 << 20, LARGE = 64 * MB;

// The memories of the instances that are made.
const memories = [];
const { Instance } = WebAssembly;
WebAssembly.Instance = function watched(...words) {
  const made = new Instance(...words);
  memories.push(new WeakRef(made.exports.memory));
  return made;
};
v8.setFlagsFromString('--expose-gc');
const collect = vm.runInNewContext('gc');

const sizes = () => memories.map((it) => it.deref()?.buffer.byteLength ?? 0);

// How many bytes of memory are left, when all is gone that nothing reaches. What a WeakRef was asked for is there up to the next task.
async function memoryLeft() {
  for (let times = 0; times < 3; times++) {
    await new Promise(setImmediate);
    collect();
  }
  return sizes().reduce((sum, it) => sum + it, 0);
}

// The error of a call, whose stack nobody reads, or null.
function errorOf(call) {
  try {
    call();
    return null;
  } catch (error) {
    return error;
  }
}

// ---- what is tried

const alone = { producers: false };
const equals = (found, wanted) => assert.equal(Buffer.from(found).toString('hex'), Buffer.from(wanted).toString('hex'));
const refuses = (kind, code, call) =>
  assert.throws(call, (error) => error.constructor === kind && error instanceof MulkaveshError && error.code === code && error.message !== '');
const refusesFor = (fault, ...calls) => calls.forEach((call) => {
  const error = errorOf(call);
  assert.equal(error?.constructor, InvalidModule);
  assert.deepEqual(error.fault, fault);
});

// Ways in which a call ends: the library, what is thrown, and the call of it on a module of about so many bytes. There is no room at all for one of 128 MB in
// 94 MB of memory, which so stays small; one of 64 MB comes in, and then there is none for the answer.
const ENDS = {
  'an answer': [() => wasm, null, (it, size) => it.gc(large(size))],
  'no module': [() => wasm, InvalidModule, (it, size) => it.gc(junk(size))],
  'no module, in a list': [() => wasm, InvalidModule, (it, size) => it.list(junk(size))],
  'a module without its last byte': [() => wasm, InvalidModule, (it, size) => it.gc(large(size).subarray(0, -1))],
  'a name that is not there': [() => wasm, NotFound, (it, size) => it.strip(large(size), 'c')],
  'an index that is not there': [() => wasm, NotFound, (it, size) => it.why(large(size), 0)],
  'memory that runs out': [() => withMost(1500), OutOfMemory, (it, size) => it.gc(large(size < LARGE ? 2 * LARGE : size))],
  'a trap': [() => snip(wasm, 'mulkavesh_gc'), Trapped, (it, size) => it.gc(large(size))],
  'wrong arguments': [() => wasm, TypeError, (it, size) => it.gc(large(size), { names: 0 })],
};

// A large call leaves no more memory behind than a small one, even while its error is kept.
async function leavesNoMore([made, kind, call]) {
  const library = await load(made()), kept = [];
  memories.length = 0;
  const ends = (size) => {
    const error = errorOf(() => call(library, size));
    assert.equal(error?.constructor, kind ?? undefined);
    kept.push(error);
  };
  ends(1000);
  const left = await memoryLeft();
  assert.ok(left < 4 * MB, `${left} bytes behind a small call`);
  for (let times = 0; times < 3; times++) {
    ends(LARGE);
    assert.ok(kind === TypeError || Math.max(...sizes()) > LARGE);
    const now = await memoryLeft();
    assert.ok(now <= left, `${now} bytes behind a large call, ${left} behind a small one`);
  }
  assert.deepEqual(library.report(TWO), REPORT);
  assert.equal(kept.length, 4);
}

const TRIES = {
  gc: () => equals(gc(TWO, alone), ONE),
  'gc with producers': () => equals(gc(TWO), hex(HEADER, ...ONE_SECTIONS, PRODUCERS)),
  'gc with names': () => equals(gc(TWO_NAMED, { names: true, producers: false }), ONE_NAMED),
  'gc without names': () => equals(gc(TWO_NAMED, { names: false, producers: false }), ONE),
  'gc of chosen exports': () => {
    const wanted = [
      [{ keep: 'a' }, CHOSEN_A], [{ keep: 'b' }, CHOSEN_B], [{ keep: ['b', '\\*'] }, CHOSEN_NOT_A], [{ keep: '\\*' }, CHOSEN_STAR], [{ drop: 'a' }, CHOSEN_NOT_A],
      [{ drop: ['a', '\\*'] }, CHOSEN_B], [{ keep: '*', drop: 'a' }, CHOSEN_NOT_A], [{ keep: ['a', 'b'], drop: ['b'] }, CHOSEN_A], [{ drop: '*' }, module()],
      [{ keep: hex('61') }, CHOSEN_A], [{ keep: 'a*' }, CHOSEN_A], [{ keep: [], drop: '*' }, module()],
    ];
    wanted.forEach(([roots, smaller]) => equals(gc(CHOSEN, { ...roots, ...alone }), smaller));
    equals(gc(CHOSEN, { keep: [], drop: [], ...alone }), gc(CHOSEN, alone));
  },
  'what is left of other exports': () => {
    const roots = { keep: 'b' };
    assert.deepEqual(report(CHOSEN, { ...roots, ...alone }), { ...REPORT, bytes: { read: 44, written: 31, dropped: 3, debug: 0 } });
    assert.deepEqual(list(CHOSEN, roots), [{ index: 1, size: 2, name: null }]);
    assert.deepEqual(dropped(CHOSEN, roots), [{ index: 0, size: 3, name: null }]);
    assert.deepEqual(exports(CHOSEN, roots), [{ kind: 'function', index: 1, name: 'b' }]);
    assert.deepEqual(imports(IMPORTS, { drop: '*' }), []);
    assert.deepEqual(why(CHOSEN, 1, roots).chain, [{ kind: 'function', index: 1, name: null, exports: ['b'], size: 2 }]);
    assert.equal(why(CHOSEN, 0, roots).root, null);
    assert.deepEqual(callers(CALLS, 1, { drop: '*' }), []);
  },
  'a NAME that fits no export': () => {
    const bytes = hex('63'), wanted = [
      [{ keep: 'c' }, 'c'], [{ keep: ['a', 'c', 'd'] }, 'c'], [{ keep: 'a', drop: ['b', 'a*c'] }, 'a*c'], [{ drop: ['*', 'ab'] }, 'ab'],
      [{ keep: ['*', bytes] }, bytes], [{ drop: '' }, ''],
    ];
    for (const call of [gc, report, list, dropped, exports, imports, (it, roots) => why(it, 0, roots), (it, roots) => callers(it, 0, roots)]) {
      for (const [roots, unfit] of wanted) {
        const error = errorOf(() => call(CHOSEN, roots));
        assert.deepEqual([error?.constructor, error?.code, error?.unfit], [NotFound, 'NOT_FOUND', unfit]);
        assert.equal(error.message, `no export fits ${JSON.stringify(unfit === bytes ? 'c' : unfit)}`);
      }
    }
  },
  report: () => {
    assert.deepEqual(report(TWO), REPORT);
    assert.deepEqual(report(TWO, alone).bytes, { read: 36, written: 31, dropped: 3, debug: 0 });
    const { bytes } = report(Uint8Array.from([...TWO, ...INFO_SECTION, ...LINE_SECTION]), alone);
    assert.deepEqual(bytes, { read: 36 + INFO_SECTION.length + LINE_SECTION.length, written: 31, dropped: 3, debug: INFO_SECTION.length + LINE_SECTION.length });
  },
  diagnose: () => {
    assert.equal(diagnose(TWO), null);
    assert.equal(diagnose(LEGACY, { legacy: false }).index, 0);
    faults().forEach(({ options, fault, bytes }) => assert.deepEqual(diagnose(bytes, options), fault));
    assert.ok(faults().length > 13);
  },
  'a refusal has the fault': () => faults().filter(({ fault }) => fault !== null).forEach(({ options, fault, bytes }) => {
    [gc, report, list, dropped, exports, imports].forEach((call) => refusesFor(fault, () => call(bytes, options), () => call(bytes, { keep: 'a', ...options })));
    [why, callers, snip, stub].forEach((call) => refusesFor(fault, () => call(bytes, 'a', options)));
  }),
  'a refusal of the framing has the fault': () => faults().filter(({ fault }) => fault !== null).forEach(({ fault, bytes }) => {
    if (fault.kind === 'header') refusesFor(fault, () => sections(bytes), () => strip(bytes, []));
    else if (sections(bytes).whole) equals(strip(bytes, []), bytes);
    else refusesFor({ ...fault, kind: 'section' }, () => strip(bytes, []));
  }),
  'a refusal says the fault': () => {
    const { name, code, message } = errorOf(() => why(hex('00 61'), 0));
    const wanted = "the input is no module that keeps the rules: the bytes don't begin as a WebAssembly module: they end within the header";
    assert.deepEqual({ name, code, message }, { name: 'InvalidModule', code: 'INVALID', message: wanted });
  },
  'a fault that is not found out': async () => {
    const other = await load(answering(1)), { fault, message } = errorOf(() => other.gc(TWO));
    assert.deepEqual({ fault, message }, { fault: null, message: 'the input is no module that keeps the rules' });
  },
  'no room for a fault': () => withNoSecond(8, async () => {
    const other = await load(wasm);
    refusesFor(null, () => other.gc(junk(1)));
    equals(other.gc(TWO, alone), ONE);
  }),
  list: () => assert.deepEqual(list(TWO), [{ index: 1, size: 2, name: null }]),
  'list with a name': () => assert.deepEqual(list(TWO_NAMED), [{ index: 1, size: 2, name: 'é' }]),
  'list with more room': () => assert.deepEqual(list(listedInMore()), [...Array(120).keys()].map((index) => ({ index, size: 2, name: null }))),
  dropped: () => {
    assert.deepEqual(dropped(TWO), [{ index: 0, size: 3, name: null }]);
    assert.deepEqual(dropped(TWO_NAMED), [{ index: 0, size: 3, name: 'g' }]);
    assert.deepEqual(dropped(CALLS), []);
  },
  exports: () => {
    assert.deepEqual(exports(CHOSEN), ['a', 'b', '*'].map((name, at) => ({ kind: 'function', index: Math.min(at, 1), name })));
    const names = '07 15 05 01 66 00 00 01 74 01 00 01 6D 02 00 01 67 03 00 01 65 04 00', all = ['function', 'table', 'memory', 'global', 'tag'];
    const told = exports(module(TYPE, '03 02 01 00', '04 04 01 70 00 00', '05 03 01 00 00', '0D 03 01 00 00', '06 06 01 7F 00 41 00 0B', names, '0A 04 01 02 00 0B'));
    assert.deepEqual(told, all.map((kind, at) => ({ kind, index: 0, name: 'ftmge'[at] })));
    assert.deepEqual(exports(module()), []);
  },
  imports: () => {
    assert.deepEqual(imports(IMPORTS), [{ kind: 'function', index: 0, module: 'env', name: 'f' }, { kind: 'function', index: 2, module: 'm', name: 'h' }]);
    assert.deepEqual(imports(module('02 09 01 02 C3 A9 01 6D 02 00 00', '07 05 01 01 6D 02 00')), [{ kind: 'memory', index: 0, module: 'é', name: 'm' }]);
  },
  sections: () => {
    const told = (id, kind, start, size, entries) => ({ id, kind, name: null, start, size, entries });
    const wanted = [told(1, 'type', 8, 6, 1), told(3, 'function', 14, 5, 2), told(7, 'export', 19, 7, 1), told(10, 'code', 26, 10, 2)];
    assert.deepEqual(sections(TWO), { sections: wanted, end: 36, whole: true });
    for (let cut = 27; cut < 36; cut++) assert.deepEqual(sections(TWO.subarray(0, cut)), { sections: wanted.slice(0, 3), end: 26, whole: false });
    assert.deepEqual(sections(module()), { sections: [], end: 8, whole: true });
  },
  parts: () => {
    const items = (input) => parts(input).filter((it) => !('id' in it)), told = (kind, index, start, size) => ({ kind, index, start, size });
    assert.deepEqual(parts(TWO).slice(0, 4), sections(TWO).sections);
    assert.deepEqual(parts(TWO).slice(4), [told('function', 0, 30, 3), told('function', 1, 34, 2)]);
    assert.deepEqual(items(IMPORTS), [told('function', 3, IMPORTS.length - 8, 8)]);
    assert.deepEqual(items(module('05 03 01 00 01', '0B 0B 02 00 41 00 0B 02 07 07 01 01 09')), [told('data', 0, 16, 7), told('data', 1, 23, 3)]);
    assert.deepEqual(parts(module()), []);
    refusesFor(diagnose(TWO.subarray(0, 35)), () => parts(TWO.subarray(0, 35)));
  },
  'sections with names': () => {
    const custom = (name, start, size) => ({ id: 0, kind: 'custom', name, start, size, entries: null });
    const wanted = [custom('a', 8, 5), custom('a', 13, 5), custom('é', 18, 6)];
    assert.deepEqual(sections(SECTIONS), { sections: wanted, end: 24, whole: true });
    assert.deepEqual(sections(hex(HEADER, '00 02 01 FF')), { sections: [], end: 8, whole: false });
  },
  'kinds of sections': () => {
    const kinds = 'custom type import function table memory global export start element code data'.split(' ').concat('data count', 'tag', 'unknown');
    const all = kinds.map((_, id) => hex(`0${id.toString(16)} 01 00`)), { sections: found } = sections(Uint8Array.from([...module(), ...all.flatMap((it) => [...it])]));
    assert.deepEqual(found.map(({ kind }) => kind), kinds);
    assert.deepEqual(found.filter(({ entries }) => entries === null).map(({ id }) => id), [0, 8, 12, 14]);
  },
  'sections with more room': () => {
    const all = Array(100).fill('00 03 01 61 01'), { sections: found } = sections(module(...all));
    assert.deepEqual(found.map(({ start }) => start), all.map((_, at) => 8 + 5 * at));
  },
  strip: () => {
    equals(strip(SECTIONS, 'a'), module('00 04 02 C3 A9 03'));
    equals(strip(SECTIONS, ['a', 'é']), module());
    equals(strip(SECTIONS, []), SECTIONS);
    equals(strip(TWO_NAMED, 'name'), TWO);
    equals(strip(hex(HEADER, ...ONE_SECTIONS, PRODUCERS), ['producers']), ONE);
  },
  'strip by a name that is not ASCII': () => equals(strip(SECTIONS, 'é'), module('00 03 01 61 01', '00 03 01 61 02')),
  'strip by bytes': () => equals(strip(SECTIONS, hex('C3 A9')), module('00 03 01 61 01', '00 03 01 61 02')),
  'strip by stars': () => {
    ['*', '**', ['a*', '*\u00E9']].forEach((names) => equals(strip(SECTIONS, names), module()));
    ['a*', '*a', '*a*'].forEach((name) => equals(strip(SECTIONS, name), module('00 04 02 C3 A9 03')));
    ['c*', 'a*a', '\\*', 'a\\*'].forEach((name) => refuses(NotFound, 'NOT_FOUND', () => strip(SECTIONS, name)));
    equals(strip(BROKEN, 'a\\*'), module(INFO, CODE, FUNCTIONS, LINE, NAMES));
  },
  'strip and keep': () => {
    equals(strip(SECTIONS, '*', { keep: 'a' }), module('00 03 01 61 01', '00 03 01 61 02'));
    equals(strip(SECTIONS, ['*'], { keep: ['c', '*\u00E9'] }), module('00 04 02 C3 A9 03'));
    equals(strip(SECTIONS, 'a', { keep: [] }), module('00 04 02 C3 A9 03'));
    equals(strip(SECTIONS, 'a', { keep: '*' }), SECTIONS);
    refuses(NotFound, 'NOT_FOUND', () => strip(SECTIONS, ['*', 'c'], { keep: 'c' }));
  },
  'strip of what breaks a rule': () => {
    assert.equal(diagnose(BROKEN).rule, 'Order');
    equals(strip(BROKEN, '.debug*'), module(CODE, FUNCTIONS, STAR, NAMES));
    assert.deepEqual(sections(BROKEN).sections.map(({ id }) => id), [0, 10, 3, 0, 0, 0]);
  },
  why: () => {
    const [first, second] = [{ kind: 'function', index: 0, name: null, exports: ['a'], size: 4 }, { kind: 'function', index: 1, name: null, exports: [], size: 3 }];
    const wanted = { item: { kind: 'function', index: 1 }, root: 'exported', chain: [first, second], alone: { functions: 1, bytes: 3 } };
    [1, '1', hex('31')].forEach((it) => assert.deepEqual(why(CALLS, it), wanted));
    const outer = { item: { kind: 'function', index: 0 }, root: 'exported', chain: [first], alone: { functions: 2, bytes: 7 } };
    [0, '0', 'a', hex('61')].forEach((it) => assert.deepEqual(why(CALLS, it), outer));
  },
  'why by a name': () => {
    const [{ name, index, size }] = why(TWO_NAMED, 'é').chain;
    assert.deepEqual({ name, index, size }, { name: 'é', index: 1, size: 2 });
    assert.deepEqual(why(TWO_NAMED, 'g'), { item: { kind: 'function', index: 0 }, root: null, chain: [], alone: null });
  },
  'why not': () => assert.deepEqual(why(TWO, 0), { item: { kind: 'function', index: 0 }, root: null, chain: [], alone: null }),
  'why, of several roots': () => {
    const told = (it) => {
      const { root, chain } = why(ROOTS, it);
      return [root, ...chain.map(({ kind, index }) => `${kind} ${index}`)];
    };
    assert.deepEqual([0, 1, 2, 3].map(told), [
      ['start', 'function 0'], ['start', 'function 0', 'function 1'], ['active', 'element 0', 'function 2'], ['declared', 'element 1', 'function 3'],
    ]);
    const memory = { kind: 'memory', index: 0, name: null, exports: ['m'], size: null };
    assert.deepEqual(why(ROOTS, 'm'), { item: { kind: 'memory', index: 0 }, root: 'exported', chain: [memory], alone: null });
    assert.deepEqual(why(IMPORTS, 0).alone, null);
    assert.equal(why(IMPORTS, 0).chain.at(-1).size, null);
  },
  'why with more room': () => {
    const { chain, alone: left } = why(chained(5000), 4999);
    assert.deepEqual(chain.map(({ index }) => index), [...Array(5000).keys()]);
    assert.deepEqual(left.functions, 1);
    assert.deepEqual(why(chained(5000), 0).alone.functions, 5000);
  },
  callers: () => {
    assert.deepEqual(callers(CALLS, 1), [{ kind: 'function', index: 0, name: null, exports: ['a'], size: 4 }]);
    [[CALLS, 0], [CALLS, 'a'], [TWO, 0]].forEach(([it, which]) => assert.deepEqual(callers(it, which), []));
    assert.deepEqual(callers(ROOTS, 2), [{ kind: 'element', index: 0, name: null, exports: [], size: null }]);
  },
  snip: () => {
    [0, '0', 'a', ['a', 0], '*', ['a*']].forEach((those) => equals(snip(CALLS, those), SNIPPED));
    equals(snip(CALLS, 1, alone), module(TYPE, '03 03 02 00 00', '07 05 01 01 61 00 00', '0A 0A 02 04 00 10 01 0B 03 00 00 0B'));
    equals(snip(TWO_NAMED, 'é', { names: false, producers: false }), module(TYPE, '03 02 01 00', '07 05 01 01 66 00 00', '0A 05 01 03 00 00 0B'));
    equals(snip(CALLS, [], alone), gc(CALLS, alone));
  },
  stub: () => {
    const ways = [['env'], ['e*'], ['env', { imports: 'f' }], ['*', { imports: ['f', 'g'] }], [['env', 'x']]];
    ways.forEach(([from, options]) => equals(stub(IMPORTS, from, options), STUBBED));
    equals(stub(IMPORTS, 'env', { imports: 'g' }), gc(IMPORTS));
    equals(stub(IMPORTS, 'env', alone), STUBBED.subarray(0, -hex(PRODUCERS).length));
  },
  version: () => assert.equal(version(), '0.1.0'),
  'an ArrayBuffer and another view': () => {
    equals(gc(TWO.buffer, alone), ONE);
    equals(gc(new DataView(Uint8Array.from([1, 2, ...TWO, 3]).buffer, 2, TWO.length), alone), ONE);
  },
  invalid: () => {
    const named = [strip, why, callers, snip, stub].map((call) => (it) => call(it, 'a'));
    [gc, report, list, dropped, exports, imports, sections, ...named].forEach((call) => {
      refuses(InvalidModule, 'INVALID', () => call(new Uint8Array()));
      if (call !== sections) refuses(InvalidModule, 'INVALID', () => call(TWO.subarray(0, TWO.length - 1)));
    });
  },
  'legacy exceptions are invalid': () => {
    assert.ok(gc(LEGACY).length > 0);
    const named = [why, callers, snip].map((call) => (it, options) => call(it, 'f', options));
    for (const call of [gc, report, list, dropped, exports, imports, ...named]) {
      refuses(InvalidModule, 'INVALID', () => call(LEGACY, { legacy: false }));
      call(LEGACY, { legacy: true });
    }
  },
  'not found': () => {
    const calls = [
      () => strip(SECTIONS, 'c'), () => why(TWO, 2), () => why(TWO, 'g'), () => why(TWO, hex('FF')), () => why(CHOSEN, 'c', { keep: ['a', 'b'] }),
      () => callers(TWO, 'f*'), () => snip(CALLS, 'b'), () => snip(CALLS, ['a', 2]), () => snip(CALLS, 'b*'), () => snip(IMPORTS, 0), () => stub(IMPORTS, hex('FF')), () => stub(IMPORTS, 'x'),
      () => stub(IMPORTS, []), () => stub(IMPORTS, 'env', { imports: 'h' }),
    ];
    for (const call of calls) {
      refuses(NotFound, 'NOT_FOUND', call);
      assert.equal(errorOf(call).unfit, null);
    }
  },
  'wrong arguments': () => {
    const calls = [
      () => gc('text'), () => gc(TWO, { name: false }), () => gc(TWO, { names: 0 }), () => gc(TWO, { keep: 3 }), () => gc(TWO, { drop: [null] }),
      () => gc(TWO, { keep: '\uD800' }), () => diagnose(TWO, { keep: 'f' }), () => why(TWO), () => why(TWO, ['f']), () => why(TWO, 'f', { imports: [] }),
      () => callers(TWO, {}), () => snip(CALLS, { a: 1 }), () => snip(CALLS, 'a', { keep: 'a' }), () => stub(IMPORTS, 3), () => stub(IMPORTS, 'env', { imports: 3 }),
      () => stub(IMPORTS, 'env', { keep: 'a' }), () => sections('text'),
    ];
    const names = ['\uD800', 3, undefined, ['a', 3]].flatMap((it) => [() => strip(SECTIONS, it), () => strip(SECTIONS, 'a', { keep: it ?? null })]);
    [...calls, ...names, () => strip(SECTIONS, 'a', { names: false })].forEach((call) => assert.throws(call, TypeError));
    [why, callers, snip].forEach((call) => [-1, 0.5, 2 ** 32].forEach((index) => assert.throws(() => call(TWO, index), RangeError)));
  },
  'the statuses that only huge modules come to': async () => {
    const wanted = [
      [1, InvalidModule, 'INVALID'], [2, TooLarge, 'TOO_LARGE'], [3, OutOfMemory, 'NO_MEMORY'], [5, MulkaveshError, 'UNKNOWN_STATUS'], [6, NotFound, 'NOT_FOUND'],
    ];
    for (const [status, kind, code] of wanted) {
      const other = await load(answering(status));
      refuses(kind, code, () => other.gc(TWO));
    }
  },
  'no room, and no more is asked for': async () => {
    const other = await load(answering(4));
    refuses(MulkaveshError, 'UNKNOWN_STATUS', () => other.gc(new Uint8Array()));
  },
  'a trap as a fault is looked for': async () => {
    const other = await load(snip(wasm, 'mulkavesh_diagnose'));
    for (let times = 0; times < 3; times++) {
      refuses(Trapped, 'TRAPPED', () => other.gc(junk(1)));
      equals(other.gc(TWO, alone), ONE);
    }
    assert.throws(() => other.why(TWO, 2), NotFound);
  },
  'a trap, and a fresh instance': async () => {
    const other = await load(snip(wasm, 'mulkavesh_gc'));
    for (let times = 0; times < 3; times++) {
      refuses(Trapped, 'TRAPPED', () => other.gc(TWO));
      assert.deepEqual(other.report(TWO), REPORT);
    }
  },
  'memory runs out': async () => {
    const other = await load(withMost(64));
    for (let times = 0; times < 3; times++) {
      refuses(OutOfMemory, 'NO_MEMORY', () => other.gc(large(1 << 20)));
      refuses(OutOfMemory, 'NO_MEMORY', () => other.gc(large(1 << 23)));
      equals(other.gc(TWO, alone), ONE);
    }
  },
  'memory grows': () => {
    for (const size of [1 << 20, 1 << 25, 1 << 16]) {
      equals(gc(large(size), alone), large(size));
      equals(gc(TWO, alone), ONE);
    }
  },
  ...Object.fromEntries(Object.entries(ENDS).map(([end, way]) => [`memory behind ${end}`, () => leavesNoMore(way)])),
  'each way to load': async () => {
    const { buffer, byteOffset, length } = wasm, address = new URL('mulkavesh.wasm', here);
    for (const source of [address, 'mulkavesh.wasm', address.href, wasm, buffer.slice(byteOffset, byteOffset + length), new WebAssembly.Module(wasm)]) {
      equals((await load(source)).gc(TWO, alone), ONE);
    }
    await assert.rejects(load(TWO));
    await assert.rejects(load(3), TypeError);
  },
};

let finds = 0;
for (const [name, run] of Object.entries(TRIES)) {
  try {
    await run();
  } catch (error) {
    finds++;
    console.log(`FIND ${name}: ${error.stack}`);
  }
}
console.log(`tests/web.sh: worked modules and errors: ${Object.keys(TRIES).length} tries, ${finds} finds`);
process.exitCode = finds > 0 ? 1 : 0;
