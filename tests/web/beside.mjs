// Compares what the calls from JavaScript answer with what walrus-gc writes of the same modules, and with one another.
// node tests/web/beside.mjs FOLDER PROGRAM MUTANTS MODULES.. , each but the program a folder. tests/web.sh calls it.
// The calls `gc` and `report` are held against the program, and `diagnose`, which has to find nothing wrong exactly where the program accepts; `sections`, `strip`
// and `exports` against what stands in the bytes, read anew; the other calls against one another. The modules go under each of the eight sets of words, a mutant
// under one of the sixteen ways.
import { spawnSync } from 'node:child_process';
import { readFileSync, readdirSync } from 'node:fs';
import { basename, join } from 'node:path';
import { pathToFileURL } from 'node:url';
import { isDeepStrictEqual } from 'node:util';

const [folder, program, mutants, ...folders] = process.argv.slice(2);
const { load, MulkaveshError } = await import(pathToFileURL(join(folder, 'mulkavesh.js')));
const library = await load();
const CODES = new Map([
  ['', 'DONE'],
  ['walrus-gc: The input WebAssembly is invalid\n', 'INVALID'],
  ['walrus-gc: a count or size passes 32 bits\n', 'TOO_LARGE'],
  ['walrus-gc: out of memory\n', 'NO_MEMORY'],
]);
const WORDS = { names: '--no-names', producers: '--no-producers', legacy: '--no-legacy' };
const WAYS = [...Array(16).keys()].map((bits) => ({
  call: bits & 8 ? 'report' : 'gc',
  options: Object.fromEntries(Object.keys(WORDS).map((word, at) => [word, !(bits & (1 << at))])),
}));
const utf8 = new TextDecoder('utf-8', { fatal: true, ignoreBOM: true });
let finds = 0;

function find(name, text) {
  finds++;
  console.log(`FIND ${name}: ${text}`);
}

// The counts of a report in the program's lines.
const linesOf = ({ bytes, ...counts }) => Object.entries(counts).map(([kind, { kept, dropped }]) => `${kind} kept ${kept} dropped ${dropped}\n`).join('');

// What a call answers: a code, and bytes.
function answered(call, ...words) {
  try {
    const answer = library[call](...words);
    return ['DONE', Buffer.from(call === 'report' ? linesOf(answer) : answer)];
  } catch (error) {
    if (error instanceof MulkaveshError) return [error.code, Buffer.alloc(0)];
    throw error;
  }
}

function byProgram(input, { call, options }) {
  const words = Object.keys(WORDS).filter((word) => !options[word]).map((word) => WORDS[word]);
  const ran = spawnSync(program, [...words, ...(call === 'report' ? ['--report'] : [])], { input, maxBuffer: 2 ** 30 });
  const told = ran.stderr.toString();
  return [CODES.get(told) ?? `status ${ran.status}, ${told}`, ran.stdout];
}

function besideTheProgram(name, input, way) {
  const wanted = byProgram(input, way), found = answered(way.call, input, way.options);
  if (wanted[0] !== found[0] || !wanted[1].equals(found[1])) {
    find(name, `${JSON.stringify(way)}: ${found[0]} and ${found[1].length} bytes, and not ${wanted[0]} and ${wanted[1].length}`);
  }
  const fault = library.diagnose(input, way.options);
  if ((fault === null) !== (wanted[0] === 'DONE' || wanted[0] === 'TOO_LARGE')) find(name, `diagnose: ${JSON.stringify(fault)}, and the program ends as ${wanted[0]}`);
  return wanted[0];
}

const isSorted = (all) => all.every((it, at) => at === 0 || all[at - 1] < it);

function same(name, what, found, wanted) {
  if (!isDeepStrictEqual(found, wanted)) find(name, `${what}: ${JSON.stringify(found)?.slice(0, 300)}, and not ${JSON.stringify(wanted)?.slice(0, 300)}`);
}

// The parts of a report, under the options that chose its roots, by what the other calls tell.
function reportBeside(name, input, roots, smaller) {
  const { functions, bytes } = library.report(input, roots), listed = library.list(input, roots), dropped = library.dropped(input, roots);
  const debug = library.sections(input).sections.filter((it) => it.name?.startsWith('.debug'));
  const sum = (all) => all.reduce((whole, it) => whole + it.size, 0);
  same(name, 'bytes of a report', bytes, { read: input.length, written: smaller.length, dropped: sum(dropped), debug: sum(debug) });
  same(name, 'functions with a body', listed.length + dropped.length, library.parts(input).filter((it) => it.kind === 'function' && !('id' in it)).length);
  const imported = library.imports(input, roots).filter((it) => it.kind === 'function').length;
  same(name, 'functions that stay', functions.kept, listed.length + imported);
  if (!isSorted(listed.map((it) => it.index)) || !isSorted(dropped.map((it) => it.index))) find(name, 'list, dropped: not by rising index');
  return { functions, listed };
}

// Why functions stay, under these roots: chains, those that refer to them, and what would go with them, beside lists and what `snip` leaves.
function reasonsBeside(name, input, roots, kept) {
  const { listed, functions } = kept, shown = library.exports(input, roots);
  const linkOf = (kind, index) => {
    const { name: called = null, size = null } = (kind === 'function' && listed.find((it) => it.index === index)) || {};
    return { called, size, exports: shown.filter((it) => it.kind === kind && it.index === index).map((it) => it.name) };
  };
  for (const { index, size } of listed.filter((_, at) => at % Math.ceil(listed.length / 12) === 0)) {
    const { item, root, chain, alone } = library.why(input, index, roots), callers = library.callers(input, index, roots);
    const [first, last] = [chain[0], chain.at(-1)];
    same(name, `why ${index}, the item`, [item, last.kind, last.index, last.size], [{ kind: 'function', index }, 'function', index, size]);
    if (root === null || (root === 'exported') !== first.exports.length > 0) find(name, `why ${index}: the root ${root} of ${JSON.stringify(first)}`);
    for (const it of [...chain, ...callers]) {
      const wanted = linkOf(it.kind, it.index), isImported = it.kind === 'function' && it.size === null;
      same(name, `a link of ${index}`, [it.exports, it.size], [wanted.exports, wanted.size]);
      if (it.kind === 'function' && !isImported) same(name, `the name of ${it.index}`, it.name, wanted.called);
    }
    const previous = chain.at(-2);
    if (previous && !callers.some((it) => it.kind === previous.kind && it.index === previous.index)) find(name, `callers of ${index}: not ${JSON.stringify(previous)}`);
    if (alone.functions < 1 || alone.bytes < size) find(name, `alone ${index}: ${JSON.stringify(alone)}`);
    if (roots.keep === undefined && roots.drop === undefined) goneBeside(name, input, index, alone, functions.kept);
  }
}

// What would go with a function goes where it traps, but for itself.
function goneBeside(name, input, index, { functions }, kept) {
  const [code, snipped] = answered('snip', input, index);
  if (code !== 'DONE') return find(name, `snip ${index}: ${code}`);
  same(name, `alone ${index}`, functions, kept - library.report(snipped).functions.kept + 1);
}

// Each of the others in what all modules have in common with gc and list.
function othersBesideGc(name, input) {
  const [code, smaller] = answered('gc', input);
  if (code !== 'DONE') return;
  reasonsBeside(name, input, {}, reportBeside(name, input, {}, smaller));
  chosenBeside(name, input);
  for (const [call, word] of [['strip', 'no section'], ['why', 2 ** 32 - 1], ['callers', 'no function'], ['snip', 'no function'], ['stub', 'no module']]) {
    if (answered(call, input, word)[0] !== 'NOT_FOUND') find(name, `${call}: not NOT_FOUND`);
  }
  const module = WebAssembly.validate(input) && new WebAssembly.Module(input);
  if (module) {
    importsBeside(name, input, module, new WebAssembly.Module(smaller));
    editsBeside(name, input, module);
  }
}

// What `gc` leaves of imports, by what the engine says of both modules.
function importsBeside(name, input, before, after) {
  const counts = {}, text = ({ kind, module, name: word, index }) => JSON.stringify([kind, module, word, index]);
  const all = WebAssembly.Module.imports(before).map((it) => ({ ...it, index: (counts[it.kind] = (counts[it.kind] ?? -1) + 1) })).map(text);
  const found = library.imports(input), left = found.map(text), places = left.map((it) => all.indexOf(it));
  if (places.includes(-1) || !isSorted(places)) find(name, `imports: ${left}, and not some of ${all}`);
  const bare = (those) => those.map((it) => text({ ...it, index: 0 })).sort();
  same(name, 'imports that stay', bare(found), bare(WebAssembly.Module.imports(after)));
}

// What `snip` and `stub` make is valid, and of the exports and imports that they say.
function editsBeside(name, input, module) {
  for (const { name: word, kind } of WebAssembly.Module.exports(module).slice(0, 20)) {
    const [told, snipped] = answered('snip', input, word.replaceAll('*', '\\*'));
    if (told === 'DONE' ? kind !== 'function' || !WebAssembly.validate(snipped) : told !== 'NOT_FOUND') find(name, `snip ${word}: ${told}`);
  }
  for (const { module: from, name: word, kind } of WebAssembly.Module.imports(module).slice(0, 20)) {
    for (const options of [{}, { imports: word.replaceAll('*', '\\*') }]) {
      const [told, stubbed] = answered('stub', input, from.replaceAll('*', '\\*'), options);
      const isHit = (it) => it.kind === 'function' && it.module === from && (options.imports === undefined || it.name === word);
      if (told === 'NOT_FOUND' && !WebAssembly.Module.imports(module).some(isHit)) continue;
      const isStill = told === 'DONE' && WebAssembly.Module.imports(new WebAssembly.Module(stubbed)).some(isHit);
      if (told !== 'DONE' || isStill) find(name, `stub ${from} ${word}, a ${kind}: ${told}, or still imported`);
    }
  }
}

// ---- chosen exports

// The exports that stand in bytes that are a module.
function exportsIn(input) {
  const section = framed(input).sections.find((it) => it.id === 7), found = [];
  if (section === undefined) return found;
  const [, begins] = numberAt(input, section.start + 1);
  let [count, at] = numberAt(input, begins);
  for (; count > 0; count--) {
    const [length, from] = numberAt(input, at), kind = ['function', 'table', 'memory', 'global', 'tag'][input[from + length]];
    const [index, ends] = numberAt(input, from + length + 1);
    found.push({ kind, index, name: utf8.decode(input.subarray(from, from + length)) });
    at = ends;
  }
  return found;
}

// Half of the exports, chosen in several ways that come to the same.
function chosenBeside(name, input) {
  const all = exportsIn(input), escaped = (those) => those.map((it) => it.name.replaceAll('*', '\\*'));
  same(name, 'exports', library.exports(input), all);
  const [some, others] = [0, 1].map((rest) => all.filter((_, at) => at % 2 === rest));
  if (some.length === 0) return;
  const ways = [{ keep: escaped(some) }, { drop: escaped(others) }, { keep: escaped(all), drop: escaped(others) }, { keep: '*', drop: escaped(others) }];
  const [{ told, smaller }, ...rest] = ways.map((roots) => {
    const [code, bytes] = answered('gc', input, roots);
    return { told: code, smaller: bytes };
  });
  if (told !== 'DONE') return find(name, `gc of half of its exports: ${told}`);
  if (rest.some((it) => it.told !== told || !it.smaller.equals(smaller))) find(name, 'ways to choose the exports come to different bytes');
  same(name, 'exports that stay', library.exports(input, ways[0]), some);
  same(name, 'exports of what is left', exportsIn(smaller).map((it) => it.name), some.map((it) => it.name));
  same(name, 'what is left, again', answered('gc', smaller)[1].equals(smaller), true);
  if (WebAssembly.validate(input) && !WebAssembly.validate(smaller)) find(name, 'what is left of chosen exports is invalid');
  reasonsBeside(name, input, ways[0], reportBeside(name, input, ways[0], smaller));
  const none = answered('gc', input, { drop: '*' })[1];
  same(name, 'none of the exports', [library.exports(input, { drop: '*' }), exportsIn(none)], [[], []]);
  if (answered('gc', input, { keep: [...escaped(some), 'nothing has this name'] })[0] !== 'NOT_FOUND') find(name, 'a NAME that fits no export');
}

// ---- framing

// The number of 32 bits that stands at a place, and the place behind it; or null where none stands there.
function numberAt(bytes, at) {
  let value = 0;
  for (let shift = 0; shift < 35; shift += 7) {
    const byte = bytes[at++];
    if (byte === undefined) return null;
    value += (byte & 127) * 2 ** shift;
    if (byte < 128) return value < 2 ** 32 ? [value, at] : null;
  }
  return null;
}

// The name in front of these bytes, or null where none stands there.
function nameIn(content) {
  const [length, at] = numberAt(content, 0) ?? [Infinity, 0];
  if (at + length > content.length) return null;
  try {
    return utf8.decode(content.subarray(at, at + length));
  } catch {
    return null;
  }
}

// The section at a place, or null where none stands there.
function sectionAt(input, start) {
  const id = input[start], [length, at] = numberAt(input, start + 1) ?? [Infinity, 0], content = input.subarray(at, at + length);
  const name = id === 0 && content.length === length ? nameIn(content) : null;
  if (content.length < length || (id === 0 && name === null)) return null;
  const [entries] = (id > 0 && id < 14 && id !== 8 && id !== 12 && numberAt(content, 0)) || [null];
  return { id, name, start, size: at + length - start, entries };
}

// The sections that stand in the bytes, or null where they don't begin as a module.
function framed(input) {
  if (input.subarray(0, 8).compare(Buffer.from('\0asm\x01\0\0\0', 'latin1')) !== 0) return null;
  const sections = [];
  let end = 8;
  for (let it; end < input.length && (it = sectionAt(input, end)) !== null; end += it.size) sections.push(it);
  return { sections, end, whole: end === input.length };
}

// What `sections` answers, but for the kinds, or the code of what it throws.
function sectionsOf(input) {
  try {
    const { sections, ...others } = library.sections(input);
    return { sections: sections.map(({ kind, ...all }) => all), ...others };
  } catch (error) {
    return error.code;
  }
}

// The call `sections`, and `strip` of all custom sections, of those of each name, and of all but those.
function besideTheFraming(name, input) {
  const wanted = framed(input), found = sectionsOf(input);
  if (!isDeepStrictEqual(found, wanted ?? 'INVALID')) find(name, `sections: ${JSON.stringify(found)}, and not ${JSON.stringify(wanted)}`);
  const all = wanted?.sections ?? [], names = new Set(all.map((it) => it.name).filter((it) => it !== null));
  const right = wanted?.whole ? (names.size > 0 ? 'DONE' : 'NOT_FOUND') : 'INVALID';
  const left = (goes) => all.filter((it) => it.name === null || !goes(it.name)).map(({ start, size }) => input.subarray(start, start + size));
  const strips = (goes, keep, test) => {
    const [told, output] = answered('strip', input, goes, { keep }), bytes = Buffer.concat(told === 'DONE' ? [input.subarray(0, 8), ...left(test)] : []);
    if (told !== right || !output.equals(bytes)) find(name, `strip ${goes} but ${keep}: ${told} and ${output.length} bytes, and not ${right} and ${bytes.length}`);
  };
  strips('*', [], () => true);
  for (const word of names) {
    const escaped = word.replaceAll('*', '\\*');
    strips(escaped, [], (it) => it === word);
    strips('*', escaped, (it) => it !== word);
    if (!word.endsWith('\\')) strips(`${escaped}*`, [], (it) => it.startsWith(word));
  }
}

function modulesOf(places) {
  const paths = places.flatMap((place) => readdirSync(place).filter((it) => it.endsWith('.wasm')).sort().map((it) => join(place, it)));
  return [...new Map(paths.map((path) => [basename(path), path])).values()];
}

function told(what, count, before, codes) {
  const refused = Object.entries(codes).map(([code, times]) => `, ${times} ${code}`).join('');
  console.log(`tests/web.sh: ${what}: ${count}${refused}; ${finds - before} finds`);
}

function runs(what, tries) {
  const before = finds, codes = {};
  let count = 0;
  for (const [path, ways] of tries) {
    const input = readFileSync(path);
    for (const way of ways) {
      const code = besideTheProgram(basename(path), input, way);
      codes[code] = (codes[code] ?? 0) + 1;
      count++;
    }
  }
  told(what, count, before, codes);
}

const modules = modulesOf(folders), changed = modulesOf([mutants]);
runs('modules under each set of words', modules.map((path) => [path, WAYS]));
runs('mutants', changed.map((path, at) => [path, [WAYS[at % 16]]]));
const before = finds;
for (const path of modules) othersBesideGc(basename(path), readFileSync(path));
told('modules in the other calls', modules.length, before, {});
const beforeFraming = finds;
for (const path of [...modules, ...changed]) besideTheFraming(basename(path), readFileSync(path));
told('modules and mutants by their framing', modules.length + changed.length, beforeFraming, {});
process.exitCode = finds > 0 || modules.length === 0 || changed.length === 0 ? 1 : 0;
