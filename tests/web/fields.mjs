// Compares what `mulkavesh/module` writes of each field with what was set: each field of each item gets another value, once and by itself, and what is written, read
// again, has it, or `emitWasm` refuses it by the item and by what of it. So with items that are the module's own, with imported ones, and with such as come.
// node tests/web/fields.mjs FOLDER , the folder of mulkavesh.js and of the types. tests/web.sh calls it. Prints the count and a line for each find.
import assert from 'node:assert/strict';
import { readFileSync } from 'node:fs';
import { join } from 'node:path';
import { pathToFileURL } from 'node:url';
import { ITEMS, section } from './items.mjs';

const [folder] = process.argv.slice(2), from = (file) => import(pathToFileURL(join(folder, file)));
const { load } = await from('mulkavesh.js');
const { BadItem, Body, EXTERNREF, FUNCREF, InstrSeqBuilder, Module } = await from('module.js');
const library = await load();

const read = (bytes) => Module.fromBuffer(library, bytes), code = () => new InstrSeqBuilder();
const TRAP = new Body([0, 0, 0x0B]), NOTHING = new Body([0, 1, 0x0B]), OTHER = new Body([0, 0x20, 0, 0x0B]);
const ZERO = code().i32Const(0).constExpr(), ONE = code().i32Const(1).constExpr(), SEVEN = code().i64Const(7).constExpr(), NULL = code().refNull('func').constExpr();
// A table, a memory, a global and a tag, imported from `m` and exported; and a type that no item has.
const KINDS = Uint8Array.from([
  ...ITEMS.subarray(0, 8),
  ...section(1, [2, 0x60, 0, 0, 0x60, 1, 0x7F, 0]),
  ...section(2, [4], 'm', 't', [1, 0x70, 0, 0], 'm', 'e', [2, 0, 0], 'm', 'g', [3, 0x7F, 0], 'm', 'x', [4, 0, 0]),
  ...section(7, [4], 'T', [1, 0], 'E', [2, 0], 'G', [3, 0], 'X', [4, 0]),
]);

const fixed = (key) => `its \`${key}\` can't be changed, only its name`, brought = (key) => `its \`${key}\` can't be changed, since an import brings it`;
const IMPORT = "its import can't be changed", LOCALS = "the names of its locals can't be changed", TYPE = "its type can't be changed";
// Of each arena: the id of an item, a field, another value, and why that is refused, where it is.
const OWN = {
  types: [[1, 'params', [], fixed('params')], [1, 'results', [], fixed('results')], [1, 'name', 'unary']],
  imports: [[0, 'module', 'other'], [0, 'name', 'other'], [0, 'item', { kind: 'global', id: 0 }, "what it brings can't be changed"]],
  funcs: [[1, 'type', 0, TYPE], [1, 'body', OTHER], [1, 'imported', 0, 'it has a body and an import'], [1, 'name', 'other'], [1, 'localNames', new Map([[0, 'z']]), LOCALS]],
  tables: [
    [0, 'elementType', EXTERNREF, fixed('elementType')], [0, 'initial', 0, fixed('initial')], [0, 'maximum', null, fixed('maximum')], [0, 'table64', true, fixed('table64')],
    [0, 'init', NULL, fixed('init')], [0, 'imported', 0, fixed('imported')], [0, 'name', 't'],
  ],
  memories: [[0, 'initial', 2], [0, 'maximum', 3], [0, 'shared', true], [0, 'memory64', true], [0, 'pageSizeLog2', 0], [0, 'imported', 0, IMPORT], [0, 'name', 'm']],
  globals: [[1, 'type', FUNCREF], [1, 'mutable', false], [1, 'shared', true], [1, 'init', SEVEN], [1, 'imported', 1, 'it has a value and an import'], [1, 'name', 'g']],
  tags: [[0, 'type', 1, fixed('type')], [0, 'imported', 0, fixed('imported')], [0, 'name', 'e']],
  exports: [[0, 'name', 'other'], [0, 'item', { kind: 'table', id: 1 }]],
  elements: [
    [0, 'items', [2], fixed('items')], [0, 'table', null, fixed('table')], [0, 'offset', ONE, fixed('offset')], [0, 'type', FUNCREF, fixed('type')],
    [0, 'declared', true, fixed('declared')], [0, 'name', 's'],
  ],
  data: [
    [0, 'value', Uint8Array.of(1, 2, 3)], [0, 'memory', null], [0, 'offset', ONE], [0, 'name', 'd'],
    [1, 'memory', 0, "its memory isn't there, or its offset isn't well formed"], [1, 'offset', ONE, 'it has an offset, and no memory'],
  ],
  customs: [[0, 'name', 'other', "its name can't be changed"], [0, 'data', Uint8Array.of(5)]],
};
const BROUGHT = {
  tables: [
    [0, 'elementType', EXTERNREF, fixed('elementType')], [0, 'initial', 1, fixed('initial')], [0, 'maximum', 9, fixed('maximum')], [0, 'table64', true, fixed('table64')],
    [0, 'init', NULL, fixed('init')], [0, 'imported', null, fixed('imported')], [0, 'name', 't'],
  ],
  memories: [[0, 'initial', 2], [0, 'maximum', 3], [0, 'shared', true], [0, 'memory64', true], [0, 'pageSizeLog2', 0], [0, 'imported', null, IMPORT], [0, 'name', 'm']],
  globals: [
    [0, 'type', 'i64', brought('type')], [0, 'mutable', true, brought('mutable')], [0, 'shared', true, brought('shared')], [0, 'init', ONE],
    [0, 'imported', null, IMPORT], [0, 'name', 'g'],
  ],
  tags: [[0, 'type', 1, fixed('type')], [0, 'imported', null, fixed('imported')], [0, 'name', 'e']],
};
const BROUGHT_FUNCTION = {
  funcs: [[0, 'type', 0, TYPE], [0, 'body', TRAP], [0, 'imported', 1, IMPORT], [0, 'name', 'f'], [0, 'localNames', new Map([[0, 'z']]), LOCALS]],
};
// Of items that were added: a function 3 and a global 3; an imported function 4 and global 4, by imports 2 and 3; and one of each other kind.
const ADDED = {
  types: [[3, 'params', ['f64']], [3, 'results', ['f64']], [3, 'name', 'new']],
  imports: [[2, 'module', 'other'], [2, 'name', 'other'], [2, 'item', { kind: 'table', id: 0 }, IMPORT]],
  funcs: [
    [3, 'type', 1], [3, 'body', NOTHING], [3, 'imported', 0, 'it has a body and an import'], [3, 'name', 'new'], [3, 'localNames', new Map([[0, 'z']]), LOCALS],
    [4, 'type', 1], [4, 'body', TRAP], [4, 'imported', 0, IMPORT], [4, 'name', 'new'], [4, 'localNames', new Map([[0, 'z']]), LOCALS],
  ],
  globals: [
    [3, 'type', FUNCREF], [3, 'mutable', false], [3, 'shared', true], [3, 'init', SEVEN], [3, 'imported', 1, 'it has a value and an import'], [3, 'name', 'new'],
    [4, 'type', 'f64'], [4, 'mutable', false], [4, 'shared', true], [4, 'init', SEVEN], [4, 'imported', 1, IMPORT], [4, 'name', 'new'],
  ],
  exports: [[2, 'name', 'other'], [2, 'item', { kind: 'table', id: 1 }]],
  elements: [
    [2, 'items', [0]], [2, 'table', null, 'it has an offset, and no table'], [2, 'offset', ZERO],
    [2, 'type', FUNCREF, 'it lists functions and has a `type`, or expressions and has none'], [2, 'declared', true, 'it has a table, and declares functions'], [2, 'name', 'new'],
  ],
  data: [[2, 'value', Uint8Array.of(1, 2)], [2, 'memory', null, 'it has an offset, and no memory'], [2, 'offset', ZERO], [2, 'name', 'new']],
  customs: [[2, 'name', 'other'], [2, 'data', Uint8Array.of(9)]],
};
const INTERFACES = {
  types: 'Type', imports: 'Import', funcs: 'Function', tables: 'Table', memories: 'Memory', globals: 'Global', tags: 'Tag', exports: 'Export', elements: 'Element', data: 'Data',
  customs: 'CustomSection',
};
const WORDS = {
  types: 'type', imports: 'import', funcs: 'function', tables: 'table', memories: 'memory', globals: 'global', tags: 'tag', exports: 'export', elements: 'element segment',
  data: 'data segment', customs: 'custom section',
};

function added(module) {
  const function_ = module.funcs.addLocal(module.types.add([], ['i32']), TRAP), value = module.globals.addLocal('i64', true, code().i64Const(1).constExpr());
  module.exports.add('new', 'function', function_);
  module.addImportFunc('m', 'n', module.types.add());
  module.addImportGlobal('m', 'g', 'i64', true);
  module.exports.add('value', 'global', value);
  module.elements.add({ items: [function_], table: 0, offset: ONE });
  module.data.add({ value: [1, 2, 3], memory: 0, offset: ONE });
  module.customs.add('new', [1]);
}

// The item of the output: functions stand there by the size of their bodies, and imports in front of what the module has itself.
function found(module, arena, id, key, value, output) {
  const values = output[arena].values(), kind = WORDS[arena];
  if (arena === 'types' || arena === 'imports') return values.find((it) => JSON.stringify(it[key]) === JSON.stringify(value));
  if (arena !== 'funcs' && arena !== 'globals') return output[arena].get(id);
  const { name } = module.exports.values().find(({ item }) => item.kind === kind && item.id === id);
  return output[arena].get(output.exports.get(output.exports.byName(name)).item.id);
}

const plain = (value) => (value instanceof Body ? [...value.bytes()] : ArrayBuffer.isView(value) ? [...value] : value);

function one(module, arena, [id, key, value, why]) {
  const item = module[arena].get(id), kind = WORDS[arena], what = `${kind} ${id}: ${key}`;
  if (!module.exports.values().some((it) => it.item.kind === kind && it.item.id === id) && (arena === 'funcs' || arena === 'globals')) module.exports.add('found', kind, id);
  if (key === 'shared' && arena === 'memories') item.maximum = 3;
  if (key === 'memory64') module.data.delete(0);
  assert.notDeepEqual(plain(item[key]), plain(value), what);
  item[key] = value;
  if (why !== undefined) {
    const which = arena === 'imports' && id === 2 ? 'function 4' : `${kind} ${id}`;
    assert.throws(() => module.emitWasm(), (error) => error instanceof BadItem && (assert.equal(error.message, `${which}: ${why}`), true), what);
    return;
  }
  const output = read(module.emitWasm()), its = found(module, arena, id, key, value, output);
  assert.ok(its !== undefined, what);
  if (arena === 'funcs' && key === 'type') assert.deepEqual(output.types.get(its.type).params, module.types.get(value).params, what);
  else assert.deepEqual(plain(its[key]), plain(value), what);
}

// The fields that the types of the package name.
function declared(name) {
  const [, fields] = readFileSync(join(folder, 'module.d.ts'), 'utf8').match(new RegExp(`export interface ${name} \\{\n(.*?)\n\\}`, 's'));
  return [...fields.matchAll(/^ {2}(?:readonly )?(\w+): /gm)].map((it) => it[1]).sort();
}

let count = 0, finds = 0;
function tried(name, run) {
  count++;
  try {
    run();
  } catch (error) {
    finds++;
    console.log(`FIND ${name}: ${error.stack}`);
  }
}

for (const [table, bytes, change] of [[OWN, ITEMS], [BROUGHT, KINDS], [BROUGHT_FUNCTION, ITEMS], [ADDED, ITEMS, added]]) {
  for (const [arena, all] of Object.entries(table)) {
    for (const it of all) {
      tried(`${arena} ${it.slice(0, 2)}`, () => {
        const module = read(bytes);
        change?.(module);
        one(module, arena, it);
      });
    }
    tried(`${arena}: no field is left out`, () => {
      const keys = [...new Set(all.map((it) => it[1]))].sort(), name = INTERFACES[arena];
      assert.deepEqual(keys, declared(name));
      assert.deepEqual(Object.keys(read(bytes)[arena].get(all[0][0] > 1 ? 0 : all[0][0])).sort(), keys);
    });
  }
}
tried('all kinds of items', () => assert.deepEqual(Object.keys(OWN).sort(), Object.keys(INTERFACES).sort()));
tried('producers', () => {
  assert.deepEqual(declared('Producer'), ['field', 'name', 'version']);
  for (const [key, value] of [['field', 'sdk'], ['name', 'other'], ['version', '17']]) {
    const module = read(ITEMS);
    module.producers.splice(1, 1);
    module.producers[0] = { ...module.producers[0], [key]: value };
    assert.ok(read(module.emitWasm()).producers.some((it) => it[key] === value), key);
  }
});
tried('the module', () => {
  const module = read(ITEMS);
  module.start = module.funcs.addLocal(module.types.add(), NOTHING);
  module.name = 'other';
  const output = read(module.emitWasm());
  assert.deepEqual([[...output.funcs.get(output.start).body.bytes()], output.name], [[0, 1, 0x0B], 'other']);
});
tried('names of locals go with another body', () => {
  for (const names of [[], [[0, 'x'], [1, 'y']]]) {
    const module = read(ITEMS);
    Object.assign(module.funcs.get(1), { body: OTHER, localNames: new Map(names) });
    assert.equal(read(module.emitWasm()).funcs.values().find((it) => it.name === 'work').localNames.size, 0);
  }
});
tried('no other field is there', () => {
  const module = read(ITEMS);
  for (const item of [module, ...Object.keys(OWN).map((arena) => module[arena].values()[0])]) assert.throws(() => { item.nmae = 'other'; }, TypeError);
});
console.log(`tests/web.sh: fields: ${count} tries, ${finds} finds`);
process.exitCode = finds > 0 ? 1 : 0;
