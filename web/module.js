// A module that a program looks at and changes by ids, in the names of the crate `walrus`, for Node and browsers.
//
//     import { load } from 'mulkavesh';
//     import { Module } from 'mulkavesh/module';
//     const module = Module.fromBuffer(await load(), bytes);
//     module.exports.delete(module.exports.byName('debug'));
//     const changed = module.emitWasm({ gc: true });
//
// Items are plain values: `fromBuffer` reads them, and `emitWasm` makes a module of the input and of what differs by then. So their fields are written as any. What can't
// be changed is refused by `emitWasm`, with the item and the field; nothing is passed over. module.d.ts says what each item has.
import { Body, InstrSeqBuilder } from './code.js';
import { Refused, between } from './differ.js';
import { Arena, Items } from './items.js';
import { BadEdit, MulkaveshError } from './mulkavesh.js';

export { Body, InstrSeqBuilder };

/** Types of references that can be null: to functions, and to what the host has. */
export const FUNCREF = Object.freeze({ heapType: 'func', nullable: true }), EXTERNREF = Object.freeze({ heapType: 'extern', nullable: true });

const { put, take } = Arena;
const WORDS = { element: 'element segment', data: 'data segment' };

/** An item can't be written as it is, or a call on it can't be made; `item` is its kind and its id. */
export class BadItem extends MulkaveshError {
  constructor(item, why) {
    super('BAD_ITEM', `${item.id === null ? `the ${item.kind}` : `${WORDS[item.kind] ?? item.kind} ${item.id}`}: ${why}`);
    this.item = item;
  }
}

class Types extends Arena {
  /** The type of functions that take and give these: the first such one, or a new one. */
  add(params = [], results = []) {
    const key = JSON.stringify([params, results]);
    return this.where((it) => JSON.stringify([it.params, it.results]) === key)[0] ?? put(this, { params, results, name: null });
  }
}

class Imports extends Arena {
  /** The id of the first import of these names, or undefined. */
  find(module, name) {
    return this.where((it) => it.module === module && it.name === name)[0];
  }
}

class Functions extends Arena {
  /** A function of this type with this body comes. */
  addLocal(type, body) {
    return put(this, { type, body, imported: null, name: null, localNames: new Map() });
  }
}

class Globals extends Arena {
  /** A global that begins with the value of this expression comes. */
  addLocal(type, mutable, init, shared = false) {
    return put(this, { type, mutable, shared, init, imported: null, name: null });
  }
}

// Items that can be taken away.
class Listed extends Arena {
  /** Takes an item away, and answers it; or undefined. */
  delete(id) {
    return take(this, id);
  }
}

class Exports extends Listed {
  /** Exports the item of this kind and id. */
  add(name, kind, id) {
    return put(this, { name, item: { kind, id } });
  }

  /** The id of the function that is exported under this name, or undefined. */
  getFunc(name) {
    const item = this.get(this.byName(name))?.item;
    return item?.kind === 'function' ? item.id : undefined;
  }
}

class Elements extends Listed {
  /** A segment comes. */
  add({ items, table = null, offset = null, type = null, declared = false, name = null }) {
    return put(this, { items, table, offset, type, declared, name });
  }
}

class Segments extends Listed {
  /** A segment comes. */
  add({ value, memory = null, offset = null, name = null }) {
    return put(this, { value, memory, offset, name });
  }
}

class Customs extends Listed {
  /** A section comes. */
  add(name, data) {
    return put(this, { name, data });
  }

  /** Takes the first section of this name away, and answers it; or undefined. */
  removeRaw(name) {
    return take(this, this.byName(name));
  }
}

/** What had a part in making the module, in the order of its section. */
class Producers extends Array {
  static get [Symbol.species]() {
    return Array;
  }

  #add(field, name, version) {
    const at = this.findIndex((it) => it.field === field && it.name === name), it = { field, name, version };
    if (at < 0) this.push(it);
    else this[at] = it;
  }

  /** A language in which it was written. One of this name gets the version. */
  addLanguage(name, version) {
    this.#add('language', name, version);
  }

  /** A tool that made or changed it. One of this name gets the version. */
  addProcessedBy(name, version) {
    this.#add('processed-by', name, version);
  }

  /** A kit that it was made for. One of this name gets the version. */
  addSdk(name, version) {
    this.#add('sdk', name, version);
  }
}

const arenas = () => ({
  types: new Types(), imports: new Imports(), funcs: new Functions(), tables: new Arena(), memories: new Arena(), globals: new Globals(), tags: new Arena(),
  exports: new Exports(), elements: new Elements(), data: new Segments(), customs: new Customs(), producers: new Producers(),
});

/** A module: its items by their ids, its start function's id or null, its producers and its name or null. */
export class Module extends Items {
  #library;
  #input;
  #told;

  constructor(library, input, told) {
    super(arenas(), input, told);
    this.#library = library;
    this.#input = input;
    this.#told = told;
    Object.seal(this);
  }

  /** The module that the bytes are, over the calls that `load` answered. InvalidModule where they are none that keeps the rules. */
  static fromBuffer(library, bytes) {
    const told = library.read(bytes), input = ArrayBuffer.isView(bytes) ? new Uint8Array(bytes.buffer, bytes.byteOffset, bytes.byteLength) : new Uint8Array(bytes);
    return new Module(library, input.slice(), told);
  }

  #between() {
    try {
      return between(new Items(arenas(), this.#input, this.#told), this);
    } catch (error) {
      throw error instanceof Refused ? new BadItem(error.item, error.message) : error;
    }
  }

  /** The list of edits that `emitWasm` hands to the library, as docs/FORMATS.md of the repository has it. */
  edits() {
    return this.#between().bytes;
  }

  /**
   * The bytes of the module as it is now; with `gc` without what nothing reaches. It may be changed further and written again. BadItem with the first item that is
   * refused, BadModule where all of them break a rule.
   */
  emitWasm(options) {
    const { bytes, of } = this.#between();
    try {
      return this.#library.edit(this.#input, bytes, options);
    } catch (error) {
      throw error instanceof BadEdit ? new BadItem(...of[error.made]) : error;
    }
  }

  /** Imports a function of this type: the ids of the function and of the import. */
  addImportFunc(module, name, type) {
    const imported = put(this.imports, { module, name, item: { kind: 'function', id: this.funcs.nextId } });
    return [put(this.funcs, { type, body: null, imported, name: null, localNames: new Map() }), imported];
  }

  /** Imports a global of this type: the ids of the global and of the import. */
  addImportGlobal(module, name, type, mutable, shared = false) {
    const imported = put(this.imports, { module, name, item: { kind: 'global', id: this.globals.nextId } });
    return [put(this.globals, { type, mutable, shared, init: null, imported, name: null }), imported];
  }

  /** An imported function has this body from now on, and its import is gone. Its id, its type and its name stay. */
  replaceImportedFunc(id, body) {
    const found = this.funcs.get(id);
    if (found === undefined || found.imported === null) throw new BadItem({ kind: 'function', id }, "it isn't imported");
    take(this.imports, found.imported);
    Object.assign(found, { imported: null, body });
    return id;
  }

  /** The first export of a function exports a new one with this body from now on, of the same type: its id. */
  replaceExportedFunc(id, body) {
    const [found] = this.exports.where(({ item }) => item.kind === 'function' && item.id === id);
    if (found === undefined) throw new BadItem({ kind: 'function', id }, "it isn't exported");
    const made = this.funcs.addLocal(this.funcs.get(id).type, body);
    this.exports.get(found).item = { kind: 'function', id: made };
    return made;
  }

  /** A function with a body comes to be imported, and its body is gone: the import's id. Its own id, its type and its name stay. */
  importFunc(id, module, name) {
    const found = this.funcs.get(id);
    if (!found?.body) throw new BadItem({ kind: 'function', id }, 'it has no body');
    const imported = put(this.imports, { module, name, item: { kind: 'function', id } });
    Object.assign(found, { imported, body: null });
    return imported;
  }

  /** Puts operators in front of the body of a function. Of locals they name its parameters alone. */
  insertFront(id, operators) {
    const found = this.funcs.get(id);
    if (!found?.body) throw new BadItem({ kind: 'function', id }, 'it has no body');
    found.body = found.body.withFront(operators);
  }

  /** What a function is called: its name, that of its import, or one by its id. */
  called(id) {
    const { name, imported } = this.funcs.get(id);
    return name ?? (imported === null ? `function[${id}]` : this.imports.get(imported).name);
  }
}
