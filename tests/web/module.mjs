// Compares what `mulkavesh/module` makes of modules with what was worked out by hand, and with what other calls make of them.
// node tests/web/module.mjs FOLDER MODULES.. , each a folder: that of mulkavesh.js, and those of modules. tests/web.sh calls it.
// Items of a small module are written, and have to come out so or to be refused by name (fields.mjs has each field of each item, by itself). Modules of
// other tools are read and written as they are, with traps in the place of bodies and imports, and with edits of all kinds. Prints the counts and a line for each find.
import assert from 'node:assert/strict';
import { readFileSync, readdirSync } from 'node:fs';
import { join } from 'node:path';
import { pathToFileURL } from 'node:url';
import { ITEMS, utf8 } from './items.mjs';

const [folder, ...folders] = process.argv.slice(2), from = (file) => import(pathToFileURL(join(folder, file)));
const { load, BadEdit, BadModule, InvalidModule } = await from('mulkavesh.js');
const { BadItem, Body, EXTERNREF, FUNCREF, InstrSeqBuilder, Module } = await from('module.js');
const opcodes = await from('opcodes.js');
const library = await load();

const TRAP = new Body([0, 0, 0x0B]), code = () => new InstrSeqBuilder();
const read = (bytes = ITEMS) => Module.fromBuffer(library, bytes);
const again = (module) => read(module.emitWasm());

function changed(change) {
  const module = read();
  change(module);
  return again(module);
}

function refuses(text, change) {
  const module = read();
  change(module);
  assert.throws(() => module.emitWasm(), (error) => error instanceof BadItem && error.code === 'BAD_ITEM' && error.message === text, text);
}

function breaks(cause, change) {
  const module = read();
  change(module);
  assert.throws(() => module.emitWasm(), (error) => error instanceof BadModule && error.cause === cause, cause);
}

// The list of edits where this is changed, in hexadecimal.
function edits(change) {
  const module = read();
  change(module);
  return Buffer.from(module.edits()).toString('hex');
}

const equals = (found, wanted) => assert.deepEqual([...found], [...wanted]);
const bodyOf = (module, name) => [...module.funcs.get(module.exports.getFunc(name)).body.bytes()];

const WRITTEN = {
  'what is read': () => {
    const module = read(), work = module.funcs.get(module.funcs.byName('work'));
    assert.deepEqual([work.type, [...work.localNames], [...work.body.bytes()]], [1, [[0, 'x'], [1, 'y']], [1, 1, 0x7F, 0x20, 0, 0x10, 0, 0x0B]]);
    assert.deepEqual(module.types.get(1), { params: ['i32'], results: ['i32'], name: null });
    assert.deepEqual(module.imports.get(module.imports.find('env', 'g')).item, { kind: 'global', id: 0 });
    assert.deepEqual(module.tables.get(0), { elementType: FUNCREF, initial: 1, maximum: 2, table64: false, init: null, imported: null, name: null });
    assert.deepEqual(module.tables.get(1).elementType, EXTERNREF);
    equals(module.globals.get(1).init, code().i64Const(5n).constExpr());
    assert.deepEqual([module.start, module.name, module.tags.get(0).type, module.exports.getFunc('run'), module.exports.getFunc('mem')], [2, 'm', 0, 1, undefined]);
    assert.deepEqual(module.customs.values().map((it) => it.name), ['note', 'other']);
    assert.deepEqual(module.producers.map((it) => it.version), ['11', '', '0.28.0']);
    assert.deepEqual(module.elements.values().map((it) => it.items), [[1], [2]]);
    assert.throws(() => read(new Uint8Array()), InvalidModule);
    assert.throws(() => read('text'), TypeError);
  },
  'nothing changed': () => {
    assert.equal(edits(() => {}), '');
    equals(read().emitWasm({ gc: true }), library.gc(ITEMS));
    equals(read().emitWasm({ gc: true, names: false, producers: false }), library.gc(ITEMS, { names: false, producers: false }));
    assert.throws(() => read().emitWasm({ gc: 1 }), TypeError);
    assert.throws(() => read().emitWasm({ name: false }), TypeError);
  },
  'edits are as the form says': () => {
    assert.equal(edits((it) => it.exports.add('f', 'function', 0)), '07050101660000');
    assert.equal(edits((it) => it.funcs.addLocal(2, code().i64Const(42).return().body())), '100402' + '00000b' + '11070a0300422a0f0b');
    assert.equal(edits((it) => { it.funcs.get(2).body = TRAP; }), '11050a0200000b');
    assert.equal(edits((it) => it.exports.delete(0)), '12020700');
    assert.equal(edits((it) => { it.start = null; }), '120108');
    assert.equal(edits((it) => it.importFunc(2, 'env', 'f5')), '1309000203656e76026635');
    assert.equal(edits((it) => { it.funcs.get(2).name = 'f'; }), '14040a020166');
    assert.equal(edits((it) => { it.funcs.get(1).name = null; }), '14020a01');
    assert.equal(edits((it) => it.insertFront(1, code().call(2))), '1703011002');
  },
  types: () => {
    const output = changed((it) => {
      assert.equal(it.types.add(['i32'], ['i32']), 1);
      const type = it.types.add([{ heapType: 'any', nullable: false }, { heapType: 0, nullable: true }, 'v128']);
      it.exports.add('typed', 'function', it.funcs.addLocal(type, TRAP));
      it.types.get(1).name = 'unary';
    });
    const { params } = output.types.get(output.funcs.get(output.exports.getFunc('typed')).type);
    assert.deepEqual([params[0], params[2]], [{ heapType: 'any', nullable: false }, 'v128']);
    assert.ok(output.types.byName('unary') !== undefined);
    refuses('type 1: its `params` can\'t be changed, only its name', (it) => { it.types.get(1).params = []; });
  },
  imports: () => {
    const output = changed((it) => it.imports.values().forEach((one) => Object.assign(one, { module: './env.js', name: `${one.name}2` })));
    assert.ok(output.imports.find('./env.js', 'f2') !== undefined && output.imports.find('./env.js', 'g2') !== undefined);
    refuses("import 0: what it brings can't be changed", (it) => { it.imports.get(0).item = { kind: 'global', id: 0 }; });
  },
  exports: () => {
    const output = changed((it) => {
      Object.assign(it.exports.get(0), { name: 'start', item: { kind: 'table', id: 1 } });
      it.exports.add('é', 'global', 0);
      it.exports.delete(1);
    });
    assert.deepEqual(output.exports.values(), [{ name: 'start', item: { kind: 'table', id: 1 } }, { name: 'é', item: { kind: 'global', id: 0 } }]);
    refuses("export 2: what it exports isn't there", (it) => it.exports.add('g', 'function', 9));
    refuses("export 2: what it exports isn't there", (it) => it.exports.add('g', 'type', 0));
    breaks('ExportNames', (it) => it.exports.add('run', 'function', 0));
    assert.throws(() => changed((it) => it.exports.add('\uD800', 'function', 0)), TypeError);
  },
  bodies: () => {
    const body = code().localGet(0).localGet(1).op(opcodes.I32_ADD).body('i32');
    const output = changed((it) => { it.funcs.get(1).body = body; }), run = output.funcs.get(output.exports.getFunc('run'));
    assert.deepEqual([bodyOf(output, 'run'), run.name, run.localNames.size], [[1, 1, 0x7F, 0x20, 0, 0x20, 1, 0x6A, 0x0B], 'work', 0]);
    const text = (id) => `function ${id}: its body isn't well formed, or names what isn't there`;
    refuses(text(1), (it) => { it.funcs.get(1).body = code().block().body(); });
    refuses(text(3), (it) => it.funcs.addLocal(0, new Body([1, 0xFF, 0xFF, 0xFF, 0xFF, 0x0F, 0x7F, 0, 0x0B])));
  },
  fronts: () => {
    const output = changed((it) => {
      for (const [id, { body }] of it.funcs) {
        if (body === null) continue;
        it.insertFront(id, code().i32Const(id).drop());
        it.insertFront(id, code().block().end());
      }
    });
    assert.deepEqual(bodyOf(output, 'run'), [0, 2, 0x40, 0x0B, 0x41, 1, 0x1A, 0x20, 0, 0x10, 0, 0x0B]);
    assert.equal(output.funcs.get(output.exports.getFunc('run')).localNames.get(0), 'x');
    const text = (id) => `function ${id}: what stands in front of its body isn't well formed, or names what isn't there`;
    refuses(text(2), (it) => it.insertFront(2, code().call(7)));
    refuses(text(1), (it) => it.insertFront(1, code().localGet(1).drop()));
    assert.throws(() => read().insertFront(0, code()), BadItem);
  },
  'functions come': () => {
    const output = changed((it) => {
      const type = it.types.add(), [more] = it.addImportFunc('env', 'more', type), first = it.funcs.addLocal(type, TRAP);
      const second = it.funcs.addLocal(type, code().call(first).call(more).body());
      it.funcs.get(first).body = code().call(second).body();
      it.exports.add('first', 'function', first);
      assert.deepEqual([it.called(more), it.called(first), it.called(1)], ['more', `function[${first}]`, 'work']);
    });
    const first = output.exports.getFunc('first'), second = bodyOf(output, 'first')[2];
    equals(output.funcs.get(second).body.bytes(), [0, 0x10, first, 0x10, 1, 0x0B]);
    refuses("function 3: its type isn't there, or isn't one of functions", (it) => it.funcs.addLocal(9, TRAP));
  },
  'imports become functions, and functions imports': () => {
    for (const change of [(it) => it.replaceImportedFunc(0, TRAP), (it) => { it.funcs.get(0).body = TRAP; }]) assert.equal(changed(change).imports.size, 1);
    assert.throws(() => read().replaceImportedFunc(1, TRAP), BadItem);
    const output = changed((it) => {
      it.importFunc(2, 'later', 'b');
      it.importFunc(1, 'later', 'a');
      assert.throws(() => it.importFunc(1, 'x', 'y'), BadItem);
    });
    assert.deepEqual(output.imports.values().map((it) => it.name), ['f', 'g', 'b', 'a']);
    refuses("function 2: its import can't be changed", (it) => Object.assign(it.funcs.get(2), { body: null, imported: 0 }));
    refuses("function 0: its import can't be changed", (it) => { it.funcs.get(0).imported = 1; });
    refuses('function 2: it has neither a body nor an import', (it) => { it.funcs.get(2).body = null; });
    refuses("import 0: it is gone, since what it brought is the module's own", (it) => {
      it.funcs.get(0).body = TRAP;
      it.imports.get(0).name = 'h';
    });
    refuses("function 1: its type can't be changed", (it) => { it.funcs.get(1).type = 0; });
    refuses("function 1: the names of its locals can't be changed", (it) => it.funcs.get(1).localNames.clear());
  },
  'an exported function is replaced': () => {
    const output = changed((it) => {
      assert.equal(it.replaceExportedFunc(1, TRAP), 3);
      assert.throws(() => it.replaceExportedFunc(0, TRAP), BadItem);
    });
    assert.deepEqual([bodyOf(output, 'run'), output.funcs.size], [[0, 0, 0x0B], 4]);
  },
  'tables and tags': () => {
    const output = changed((it) => {
      it.tables.get(1).name = 't';
      it.tags.get(0).name = 'e';
    });
    assert.deepEqual([output.tables.get(1).name, output.tags.get(0).name], ['t', 'e']);
    for (const [key, value] of Object.entries({ elementType: EXTERNREF, initial: 0, maximum: 9n, table64: true, init: new Uint8Array(1), imported: 0 })) {
      refuses(`table 0: its \`${key}\` can't be changed, only its name`, (it) => { it.tables.get(0)[key] = value; });
    }
    refuses('tag 0: its `type` can\'t be changed, only its name', (it) => { it.tags.get(0).type = 1; });
  },
  memories: () => {
    for (const fields of [{ initial: 2 }, { maximum: 9 }, { shared: true, maximum: 3 }, { pageSizeLog2: 0 }, { name: 'm' }]) {
      const output = changed((it) => Object.assign(it.memories.get(0), fields)).memories.get(0);
      for (const [key, value] of Object.entries(fields)) assert.equal(output[key], value);
    }
    const wide = changed((it) => {
      Object.assign(it.memories.get(0), { memory64: true, maximum: 2n ** 48n });
      it.data.delete(0);
    });
    assert.deepEqual([wide.memories.get(0).memory64, wide.memories.get(0).maximum], [true, 2 ** 48]);
    breaks('Limits', (it) => { it.memories.get(0).maximum = 0; });
    refuses("memory 0: its import can't be changed", (it) => { it.memories.get(0).imported = 1; });
    assert.throws(() => changed((it) => { it.memories.get(0).initial = -1; }), RangeError);
  },
  globals: () => {
    const fields = { type: 'f64', mutable: false, init: code().f64Const(1.5).constExpr(), name: 'x' };
    const output = changed((it) => Object.assign(it.globals.get(1), fields));
    for (const [key, value] of Object.entries(fields)) assert.deepEqual(output.globals.get(1)[key], value);
    assert.ok(changed((it) => { it.globals.get(2).shared = true; }).globals.get(2).shared);
    const own = changed((it) => {
      it.globals.get(0).init = code().i32Const(-7).constExpr();
      const [brought] = it.addImportGlobal('env', 'h', 'f32', false);
      it.exports.add('copy', 'global', it.globals.addLocal('f32', false, code().globalGet(brought).constExpr()));
      it.globals.addLocal(EXTERNREF, true, code().refNull('extern').constExpr());
      it.globals.addLocal(FUNCREF, false, code().refFunc(1).constExpr());
    });
    assert.deepEqual([own.globals.size, own.imports.size], [7, 2]);
    const text = "global 1: its type or its initialiser isn't well formed, or names what isn't there";
    refuses(text, (it) => { it.globals.get(1).init = code().globalGet(7).constExpr(); });
    refuses("global 1: it can't come to be imported", (it) => Object.assign(it.globals.get(1), { init: null, imported: 1 }));
    for (const [key, value] of Object.entries({ type: 'i64', mutable: true, shared: true })) {
      refuses(`global 0: its \`${key}\` can't be changed, since an import brings it`, (it) => { it.globals.get(0)[key] = value; });
    }
  },
  'the start function': () => {
    assert.equal(changed((it) => { it.start = null; }).start, null);
    const other = changed((it) => { it.start = it.funcs.addLocal(it.types.add(), TRAP); });
    equals(other.funcs.get(other.start).body.bytes(), TRAP.bytes());
    refuses("the start function: it isn't there", (it) => { it.start = 9; });
    breaks('Start', (it) => { it.start = 1; });
  },
  segments: () => {
    const offset = code().i32Const(1).constExpr(), items = [0, 2].map((id) => code().refFunc(id).constExpr());
    const output = changed((it) => {
      it.elements.delete(0);
      it.elements.get(1).name = 'passive';
      it.elements.add({ items, table: 0, offset, type: FUNCREF });
      it.elements.add({ items: [1], declared: true });
      Object.assign(it.data.get(0), { value: [1, 2, 3], offset: code().globalGet(0).constExpr(), name: 'd' });
      it.data.delete(1);
      const gone = it.data.add({ value: [] }), stays = it.data.add({ value: [7] });
      it.data.delete(gone);
      it.funcs.get(2).body = code().op(opcodes.DATA_DROP, stays).body();
    });
    assert.deepEqual(output.elements.values().map((it) => [it.name, it.table, it.declared]), [['passive', null, false], [null, 0, false], [null, null, true]]);
    assert.deepEqual(output.data.values().map((it) => [[...it.value], it.name, it.memory]), [[[1, 2, 3], 'd', 0], [[7], null, null]]);
    equals(output.funcs.get(output.start).body.bytes(), [0, 0xFC, 9, 1, 0x0B]);
    refuses('element segment 0: its `items` can\'t be changed, only its name', (it) => { it.elements.get(0).items = [2]; });
    refuses("data segment 1: its memory isn't there, or its offset isn't well formed", (it) => Object.assign(it.data.get(1), { memory: 1, offset }));
  },
  'custom sections and producers': () => {
    const output = changed((it) => {
      it.customs.get(0).data = [1, 2];
      it.customs.removeRaw('other');
      it.customs.add('more', utf8.encode('123'));
      it.producers.addLanguage('C', '17');
      it.producers.addSdk('kit', '');
      it.producers.addProcessedBy('tool', '1.0');
      it.name = null;
    });
    assert.deepEqual(output.customs.values().map((it) => [it.name, [...it.data]]), [['note', [1, 2]], ['more', [49, 50, 51]]]);
    const wanted = ['language C 17', 'other t ', 'processed-by walrus 0.28.0', 'processed-by tool 1.0', 'sdk kit '];
    assert.deepEqual(output.producers.map((it) => `${it.field} ${it.name} ${it.version}`), wanted);
    assert.equal(output.name, null);
    refuses("custom section 0: its name can't be changed", (it) => { it.customs.get(0).name = 'x'; });
    refuses('custom section 2: the library writes sections of its name itself, or none', (it) => it.customs.add('producers', []));
    refuses("producer 0: its field isn't `language`, `processed-by` or `sdk`", (it) => it.producers.shift());
    refuses('producer 3: one of its name stands before it in its field', (it) => it.producers.push({ field: 'language', name: 'C', version: '3' }));
    assert.equal(changed((it) => { it.producers = []; }).producers.length, 1);
  },
  operators: () => {
    const builder = code().block('i32').loop(64).if().else().br(1).brIf(0).end().load(opcodes.I32_LOAD, 0, 2, 300).store(opcodes.I32_STORE, 1, 0, 1);
    builder.f32Const(1.5).f64Const(-2).localSet(3).localTee(128).select().refFunc(4).callIndirect(1, 2).op(opcodes.I32X4_ADD);
    const wanted = '027f03c000044005' + '0c010d000b' + '2802ac0236400101' + '430000c03f44' + '00000000000000c0' + '21032280011bd204' + '110102fdae01';
    assert.equal(Buffer.from(builder.bytes()).toString('hex'), wanted);
    assert.equal(Object.keys(opcodes).length, 575);
    equals(code().i64Const(-(2n ** 63n)).bytes(), [0x42, ...Array(9).fill(0x80), 0x7F]);
  },
  lists: () => {
    equals(library.edit(ITEMS, new Uint8Array(), { gc: true }), library.gc(ITEMS));
    assert.throws(() => library.edit(ITEMS, Uint8Array.of(7, 5, 1, 1, 97, 0, 0, 0x63, 0)), (error) => error instanceof BadEdit && error.made === 1);
    assert.throws(() => library.edit(new Uint8Array(), Uint8Array.of(0x63)), InvalidModule);
    assert.throws(() => library.edit(ITEMS, 'text'), TypeError);
    assert.throws(() => library.read(ITEMS, { legacy: 3 }), TypeError);
  },
};

const modules = folders.flatMap((it) => readdirSync(it).filter((name) => name.endsWith('.wasm')).map((name) => [name, readFileSync(join(it, name))]));
const taken = modules.filter(([, bytes]) => library.diagnose(bytes) === null);
let compared = 0;
const same = (name, found, wanted) => {
  compared++;
  assert.ok(Buffer.from(found).equals(Buffer.from(wanted)), name);
};
const small = (most) => taken.filter(([, bytes]) => bytes.length < most);

const COMPARED = {
  'nothing changed is what gc writes': () => taken.forEach(([name, bytes]) => {
    const module = read(bytes);
    assert.equal(module.edits().length, 0, name);
    same(name, module.emitWasm({ gc: true }), library.gc(bytes));
  }),
  'traps are what snip writes': () => small(20_000).forEach(([name, bytes]) => {
    for (const [id] of read(bytes).funcs.entries().filter(([, it]) => it.body !== null).slice(0, 5)) {
      const module = read(bytes);
      module.funcs.get(id).body = TRAP;
      same(`${name}: ${id}`, module.emitWasm({ gc: true }), library.snip(bytes, id));
    }
  }),
  'imports that trap are what stub writes': () => small(100_000).forEach(([name, bytes]) => {
    for (const each of new Set(read(bytes).imports.values().filter((it) => it.item.kind === 'function').map((it) => it.module))) {
      const module = read(bytes);
      for (const { item } of module.imports.values().filter((it) => it.item.kind === 'function' && it.module === each)) module.replaceImportedFunc(item.id, TRAP);
      same(`${name}: ${each}`, module.emitWasm({ gc: true }), library.stub(bytes, each.replaceAll('*', '\\*')));
    }
  }),
  'edits of all kinds': () => small(100_000).forEach(([name, bytes]) => {
    const module = read(bytes), type = module.types.add(), [added] = module.addImportFunc('added', 'f', type);
    for (const [id, { body }] of module.funcs) if (body !== null) module.insertFront(id, code().i32Const(id).drop());
    for (const it of [...module.imports.values(), ...module.exports.values()]) it.name = `_${it.name}`;
    module.exports.add('added', 'function', module.funcs.addLocal(type, code().call(added).body()));
    module.customs.add('added', [1]);
    const output = again(module);
    for (const kind of ['imports', 'exports', 'funcs', 'customs']) assert.equal(output[kind].size, module[kind].size, `${name}: ${kind}`);
    compared++;
  }),
};

let finds = 0;
const tries = { ...WRITTEN, ...COMPARED };
for (const [name, run] of Object.entries(tries)) {
  try {
    run();
  } catch (error) {
    finds++;
    console.log(`FIND ${name}: ${error.stack}`);
  }
}
console.log(`tests/web.sh: changed modules: ${Object.keys(tries).length} tries, ${compared} comparisons, ${finds} finds`);
process.exitCode = finds > 0 ? 1 : 0;
