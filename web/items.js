// What the library tells of a module, as items: plain values, by their ids.
import { Body } from './code.js';
import { Reader } from './wire.js';

/** The kinds of what imports bring and exports export, by their numbers. */
export const KINDS = ['function', 'table', 'memory', 'global', 'tag'];
/** The numbers of sections, and of what else is told. */
export const SECTIONS = {
  custom: 0, type: 1, import: 2, table: 4, memory: 5, global: 6, export: 7, start: 8, element: 9, function: 10, data: 11, tag: 13, name: 20, producer: 21, local: 24, module: 255,
};
/** The kinds of items that have names, with the arena of each. */
export const NAMED = {
  type: 'types', function: 'funcs', table: 'tables', memory: 'memories', global: 'globals', tag: 'tags', element: 'elements', data: 'data',
};
export const HAS_MAXIMUM = 1, LIMITS_SHARED = 2, WIDE = 4, HAS_PAGE = 8, MUTABLE = 1, GLOBAL_SHARED = 2;
const OF_FUNCTIONS = 0x60, GROUP = 0x4E;
const NAMED_BY = new Map(Object.entries(NAMED).map(([kind, arena]) => [SECTIONS[kind], arena]));

/** The items of one kind by their ids. An item of the input has its index there, and none is used again. An item gets no field that it hasn't. */
export class Arena {
  #items = new Map();
  #next = 0;

  /** The id of the item that comes next. */
  get nextId() {
    return this.#next;
  }

  get size() {
    return this.#items.size;
  }

  /** The item of an id, or undefined. */
  get(id) {
    return this.#items.get(id);
  }

  has(id) {
    return this.#items.has(id);
  }

  /** Ids and items, of what is there now. */
  entries() {
    return [...this.#items];
  }

  [Symbol.iterator]() {
    return this.entries()[Symbol.iterator]();
  }

  ids() {
    return [...this.#items.keys()];
  }

  values() {
    return [...this.#items.values()];
  }

  /** The ids of the items that this holds of. */
  where(holds) {
    return this.entries().filter(([, it]) => holds(it)).map(([id]) => id);
  }

  /** The id of the first item of this name, or undefined. */
  byName(name) {
    return this.where((it) => it.name === name)[0];
  }

  static put(arena, item) {
    const id = arena.#next++;
    arena.#items.set(id, Object.seal(item));
    return id;
  }

  static take(arena, id) {
    const item = arena.#items.get(id);
    arena.#items.delete(id);
    return item;
  }
}

const { put } = Arena;

function limits(it) {
  const flags = it.byte(), initial = it.number(), maximum = flags & HAS_MAXIMUM ? it.number() : null;
  return { flags, initial, maximum };
}

function table(it, imported) {
  const elementType = it.valueType(), { flags, initial, maximum } = limits(it);
  return { elementType, initial, maximum, table64: (flags & WIDE) !== 0, init: it.isEmpty ? null : it.block(), imported, name: null };
}

function memory(it, imported) {
  const { flags, initial, maximum } = limits(it);
  const pageSizeLog2 = flags & HAS_PAGE ? it.number() : null;
  return { initial, maximum, shared: (flags & LIMITS_SHARED) !== 0, memory64: (flags & WIDE) !== 0, pageSizeLog2, imported, name: null };
}

function global(it, imported) {
  const type = it.valueType(), flags = it.byte(), init = imported === null ? it.block() : null;
  return { type, mutable: (flags & MUTABLE) !== 0, shared: (flags & GLOBAL_SHARED) !== 0, init, imported, name: null };
}

function element(it) {
  const mode = it.byte(), isActive = mode === 0, where = isActive ? { table: it.number(), offset: it.block() } : { table: null, offset: null };
  const type = it.byte() === 0 ? null : it.valueType();
  const items = it.vector(type === null ? (one) => one.number() : (one) => one.block());
  return { items, ...where, type, declared: mode === 2, name: null };
}

function data(it) {
  const where = it.byte() === 0 ? { memory: it.number(), offset: it.block() } : { memory: null, offset: null };
  return { value: it.block(), ...where, name: null };
}

/** The items of a module, as they are told of its input. */
export class Items {
  constructor(arenas, input, told) {
    Object.assign(this, arenas);
    this.start = null;
    this.name = null;
    const reader = new Reader(told), records = this.#records(input);
    while (!reader.isEmpty) {
      const section = reader.byte(), size = reader.number();
      records.get(section)(new Reader(told, reader.at, reader.at + size));
      reader.at += size;
    }
  }

  // What each record comes to. An import is told in front of what it brings.
  #records(input) {
    let names = null;
    const imported = (it, kind, arena) => {
      if (it.byte() === 0) return null;
      return put(this.imports, { ...names, item: { kind, id: arena.nextId } });
    };
    const brought = (kind, arena, read) => [SECTIONS[kind], (it) => put(arena, read(it, imported(it, kind, arena)))];
    const function_ = (it, import_) => {
      const type = it.number(), start = import_ === null ? it.number() : 0;
      const body = import_ === null ? new Body(input.subarray(start, start + it.number())) : null;
      return { type, body, imported: import_, name: null, localNames: new Map() };
    };
    return new Map([
      [SECTIONS.custom, (it) => put(this.customs, (it.number(), { name: it.name(), data: it.rest() }))],
      [SECTIONS.type, (it) => this.#types(it)],
      [SECTIONS.import, (it) => { names = { module: it.name(), name: it.name() }; }],
      brought('function', this.funcs, function_),
      brought('table', this.tables, table),
      brought('memory', this.memories, memory),
      brought('tag', this.tags, (it, import_) => ({ type: it.number(), imported: import_, name: null })),
      brought('global', this.globals, global),
      [SECTIONS.export, (it) => put(this.exports, { name: it.name(), item: { kind: KINDS[it.byte()], id: it.number() } })],
      [SECTIONS.start, (it) => { this.start = it.number(); }],
      [SECTIONS.element, (it) => put(this.elements, element(it))],
      [SECTIONS.data, (it) => put(this.data, data(it))],
      [SECTIONS.producer, (it) => this.producers.push({ field: it.name(), name: it.name(), version: it.name() })],
      [SECTIONS.name, (it) => this.#name(it)],
      [SECTIONS.local, (it) => this.funcs.get(it.number()).localNames.set(it.number(), it.name())],
    ]);
  }

  #types(it) {
    const begin = it.at, first = it.byte();
    if (first === OF_FUNCTIONS) {
      put(this.types, { params: it.vector((one) => one.valueType()), results: it.vector((one) => one.valueType()), name: null });
      return;
    }
    const group = it.bytes.slice(begin, it.end), count = first === GROUP ? it.number() : 1;
    for (let at = 0; at < count; at++) put(this.types, { params: null, results: null, name: null, group: at === 0 ? group : null });
  }

  #name(it) {
    const what = it.byte(), id = it.number(), name = it.name();
    if (what === SECTIONS.module) this.name = name;
    else this[NAMED_BY.get(what)].get(id).name = name;
  }
}
