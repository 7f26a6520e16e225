// What differs from what was read, as a list of edits (docs/FORMATS.md, "A list of edits"). What differs and no edit says is refused.
import { GLOBAL_SHARED, HAS_MAXIMUM, HAS_PAGE, KINDS, LIMITS_SHARED, MUTABLE, NAMED, SECTIONS, WIDE } from './items.js';
import { block, joined, name, number, valueType, valueTypes, vector } from './wire.js';

const ADD_FUNCTION = 16, SET = 17, DELETE = 18, BRING = 19, NO_PRODUCERS = 22, FRONT = 23;
const TRAP = [0, 0, 0x0B];
// The flags of segments: written at first, for operators, to declare; and beside these, that expressions are listed.
const ACTIVE = 2, PASSIVE = 1, DECLARED = 3, EXPRESSIONS = 4;

const WHY = {
  gone: "an item of its kind can't go",
  isNew: "an item of its kind can't be added",
  import: "its import can't be changed",
  locals: "the names of its locals can't be changed",
  type: "its type isn't there, or isn't one of functions",
  body: "its body isn't well formed, or names what isn't there",
  front: "what stands in front of its body isn't well formed, or names what isn't there",
  global: "its type or its initialiser isn't well formed, or names what isn't there",
  element: "its table, its offset or what it lists isn't there, or isn't well formed",
  data: "its memory isn't there, or its offset isn't well formed",
  export: "what it exports isn't there",
  custom: 'the library writes sections of its name itself, or none',
  field: "its field isn't `language`, `processed-by` or `sdk`",
  absent: "it isn't there",
  fixed: (key) => `its \`${key}\` can't be changed, only its name`,
  brought: (key) => `its \`${key}\` can't be changed, since an import brings it`,
  both: (what) => `it has a ${what} and an import`,
  neither: (what) => `it has neither a ${what} nor an import`,
  offset: (what) => `it has an offset, and no ${what}`,
};

/** An item that can't be written as it is, and why. */
export class Refused extends Error {
  constructor(item, why) {
    super(why);
    this.item = item;
  }
}

const refuse = (item, why) => {
  throw new Refused(item, why);
};

/** Whether two values are the same: bytes, lists, maps and plain values by what they hold. */
function same(one, other) {
  if (one === other) return true;
  if (typeof one !== 'object' || typeof other !== 'object' || one === null || other === null) return false;
  if (one instanceof Uint8Array || Array.isArray(one)) return one.length === other.length && one.every((it, at) => same(it, other[at]));
  if (one instanceof Map) return same([...one], [...other]);
  const keys = Object.keys(one);
  return keys.length === Object.keys(other).length && keys.every((key) => same(one[key], other[key]));
}

const sameIn = (one, other, ...keys) => keys.every((key) => same(one[key], other[key]));
// The first of these fields that differs, or undefined.
const differing = (one, other, ...keys) => keys.find((key) => !same(one[key], other[key]));
const butForName = (one, other) => differing(one, other, ...Object.keys(one).filter((key) => key !== 'name'));
const byte = (...flags) => flags.reduce((sum, [is, bit]) => sum | (is ? bit : 0), 0);

function limits(it) {
  const flags = byte([it.maximum !== null, HAS_MAXIMUM], [it.shared, LIMITS_SHARED], [it.memory64, WIDE], [it.pageSizeLog2 !== null, HAS_PAGE]);
  return joined(flags, ...[it.initial, it.maximum, it.pageSizeLog2].filter((one) => one !== null).map(number));
}

const spelled = {
  global: (it) => joined(valueType(it.type), byte([it.mutable, MUTABLE], [it.shared, GLOBAL_SHARED]), it.init ?? []),
  import: (it, brought) => joined(name(it.module), name(it.name), KINDS.indexOf(it.item.kind), brought),
  export: (it) => joined(name(it.name), KINDS.indexOf(it.item.kind), number(it.item.id)),
  element(it) {
    const mode = it.table !== null ? ACTIVE : it.declared ? DECLARED : PASSIVE;
    const front = joined(mode | (it.type ? EXPRESSIONS : 0), it.table === null ? [] : joined(number(it.table), it.offset ?? []));
    return joined(front, it.type ? valueType(it.type) : 0, vector(it.items.map((one) => (typeof one === 'number' ? number(one) : one))));
  },
  data: (it) => joined(it.memory === null ? PASSIVE : joined(ACTIVE, number(it.memory), it.offset ?? []), block(it.value)),
};

const EMPTY = { element: { items: [], table: null, type: null, declared: false }, data: { value: [], memory: null } };

function refuseAllButName(item, was, now) {
  const key = butForName(was, now);
  if (key) refuse(item, WHY.fixed(key));
}

/** The edits so far, and of which item each came, with what is wrong with that where the library refuses it. */
class Edits {
  parts = [];
  of = [];

  put(edit, payload, item, why = WHY.absent) {
    this.parts.push(joined(edit, block(payload)));
    this.of.push([item, why]);
  }

  // A section that lists this entry alone.
  add(section, entry, item, why) {
    this.put(section, vector([entry]), item, why);
  }

  set(section, entry, item, why) {
    this.put(SET, joined(section, number(item.id), entry), item, why);
  }

  delete(section, item) {
    this.put(DELETE, joined(section, number(item.id)), item);
  }
}

// Each id at which something differs, or came, or went, by rising id: what was there, what is, and whether it comes behind all that was there.
function* pairsOf(kind, was, now) {
  for (let id = 0; id < Math.max(was.nextId, now.nextId); id++) {
    const old = was.get(id), it = now.get(id);
    if (old === undefined || it === undefined || !same(old, it)) yield { item: { kind, id }, was: old, now: it, isNew: id >= was.nextId };
  }
}

// Edits are so ordered that each names what is there: types first, then functions that trap as yet, globals, memories and segments, then bodies, and then all else.
class Differ {
  constructor(was, now) {
    Object.assign(this, { was, now, edits: new Edits(), done: new Set() });
    for (const step of [
      'types', 'functions', 'globals', 'fixed', 'memories', 'elements', 'data', 'bodies', 'imports', 'exports', 'start', 'customs', 'producers', 'names',
    ]) {
      this[step]();
    }
  }

  pairs(kind, arena = NAMED[kind]) {
    return pairsOf(kind, this.was[arena], this.now[arena]);
  }

  types() {
    for (const { item, was, now } of this.pairs('type')) {
      if (now === undefined) refuse(item, WHY.gone);
      if (was !== undefined) {
        refuseAllButName(item, was, now);
      } else if (now.params === null) {
        refuse(item, 'only types of functions come');
      } else {
        this.edits.add(SECTIONS.type, joined(0x60, valueTypes(now.params), valueTypes(now.results)), item, "it names a type that isn't there");
      }
    }
  }

  // The import of this id, which is new and brings this item.
  newImport(id, item) {
    const found = this.now.imports.get(id);
    if (found === undefined || id < this.was.imports.nextId || this.done.has(id) || !same(found.item, item)) refuse(item, WHY.import);
    this.done.add(id);
    return found;
  }

  // What was there of a function, of which the body comes later. Names of its locals go with another body.
  changeFunction(pair, brought) {
    const { item, was, now } = pair;
    if (was.type !== now.type) refuse(item, "its type can't be changed");
    if (now.body === null && now.imported === null) refuse(item, WHY.neither('body'));
    const stays = same(was.body?.data, now.body?.data);
    if (!same(was.localNames, now.localNames) && (stays || now.localNames.size > 0)) refuse(item, WHY.locals);
    if (now.body !== null) {
      if (now.imported !== null && now.imported !== was.imported) refuse(item, WHY.both('body'));
      if (was.imported !== null) this.done.add(was.imported);
    } else if (was.imported === null && !brought.has(now.imported)) {
      brought.set(now.imported, pair);
    } else if (was.imported !== now.imported) {
      refuse(item, WHY.import);
    }
  }

  // Refuses an item that is new and has a body or a value, and an import too that isn't its own. Its own one is gone.
  own({ item, now }, what) {
    const its = now.imported !== null && now.imported >= this.was.imports.nextId ? this.now.imports.get(now.imported)?.item : undefined;
    if (now.imported !== null && !same(its, item)) refuse(item, WHY.both(what));
  }

  // Has functions imported by those of these imports that come before this one.
  bring(brought, end = Infinity) {
    for (const id of [...brought.keys()].filter((it) => it < end).sort((one, other) => one - other)) {
      const { item } = brought.get(id), { module, name: its } = this.newImport(id, item);
      brought.delete(id);
      this.edits.put(BRING, joined(0, number(item.id), name(module), name(its)), item);
    }
  }

  addFunction(pair, brought) {
    const { item, now } = pair;
    if (now.localNames.size > 0) refuse(item, WHY.locals);
    if (now.body !== null) {
      this.own(pair, 'body');
      this.edits.put(ADD_FUNCTION, joined(number(now.type), TRAP), item, WHY.type);
    } else if (now.imported !== null) {
      this.bring(brought, now.imported);
      this.edits.add(SECTIONS.import, spelled.import(this.newImport(now.imported, item), number(now.type)), item, WHY.type);
    } else {
      refuse(item, WHY.neither('body'));
    }
  }

  // New imports come in their order.
  functions() {
    const brought = new Map();
    for (const pair of this.pairs('function')) {
      if (pair.now === undefined) refuse(pair.item, WHY.gone);
      if (pair.was === undefined) this.addFunction(pair, brought);
      else this.changeFunction(pair, brought);
    }
    this.bring(brought);
  }

  bodies() {
    for (const { item, was, now } of this.pairs('function')) {
      const old = was?.body ?? null;
      if (now.body === null || same(old, now.body)) continue;
      if (old !== null && same(old.data, now.body.data)) this.edits.put(FRONT, joined(number(item.id), now.body.front), item, WHY.front);
      else this.edits.set(SECTIONS.function, now.body.bytes(), item, WHY.body);
    }
  }

  // Tables and tags, of which only the name can be changed.
  fixed() {
    for (const kind of ['table', 'tag']) {
      for (const { item, was, now } of this.pairs(kind)) {
        if (was === undefined || now === undefined) refuse(item, was === undefined ? WHY.isNew : WHY.gone);
        refuseAllButName(item, was, now);
      }
    }
  }

  memories() {
    for (const { item, was, now } of this.pairs('memory')) {
      if (was === undefined || now === undefined) refuse(item, was === undefined ? WHY.isNew : WHY.gone);
      if (was.imported !== now.imported) refuse(item, WHY.import);
      if (butForName(was, now)) this.edits.set(SECTIONS.memory, limits(now), item, "its limits can't be spelled");
    }
  }

  // Whether what was read of a global comes anew.
  isSet({ item, was, now }) {
    if (now.init !== null) {
      if (now.imported !== null && now.imported !== was.imported) refuse(item, WHY.both('value'));
      if (was.imported !== null) this.done.add(was.imported);
      return !sameIn(was, now, 'type', 'mutable', 'shared', 'init');
    }
    if (was.imported === null) refuse(item, now.imported === null ? WHY.neither('value') : "it can't come to be imported");
    if (was.imported !== now.imported) refuse(item, WHY.import);
    const key = differing(was, now, 'type', 'mutable', 'shared');
    if (key) refuse(item, WHY.brought(key));
    return false;
  }

  addGlobal(pair) {
    const { item, now } = pair;
    if (now.init !== null) this.own(pair, 'value');
    if (now.init !== null) this.edits.add(SECTIONS.global, spelled.global(now), item, WHY.global);
    else if (now.imported === null) refuse(item, WHY.neither('value'));
    else this.edits.add(SECTIONS.import, spelled.import(this.newImport(now.imported, item), spelled.global(now)), item, WHY.global);
  }

  globals() {
    const later = [];
    for (const pair of this.pairs('global')) {
      if (pair.now === undefined) refuse(pair.item, WHY.gone);
      if (pair.was === undefined) this.addGlobal(pair);
      else if (this.isSet(pair)) later.push(pair);
    }
    for (const { item, now } of later) this.edits.set(SECTIONS.global, spelled.global(now), item, WHY.global);
  }

  // A segment that came and went has an id all the same, and so do those behind it.
  segment(kind, { item, now, isNew }) {
    if (isNew) this.edits.add(SECTIONS[kind], spelled[kind](now ?? EMPTY[kind]), item, WHY[kind]);
    if (now === undefined) this.edits.delete(SECTIONS[kind], item);
  }

  // A new segment that has what it doesn't need is refused.
  elements() {
    for (const pair of this.pairs('element')) {
      const { item, was, now, isNew } = pair;
      if (isNew && now !== undefined) {
        if (now.table === null && now.offset?.length) refuse(item, WHY.offset('table'));
        if (now.table !== null && now.declared) refuse(item, 'it has a table, and declares functions');
        if (now.items.some((one) => (typeof one === 'number') !== (now.type === null))) refuse(item, 'it lists functions and has a `type`, or expressions and has none');
      }
      if (isNew || now === undefined) this.segment('element', pair);
      else refuseAllButName(item, was, now);
    }
  }

  data() {
    for (const pair of this.pairs('data')) {
      const { item, was, now, isNew } = pair;
      if (now?.memory === null && now.offset?.length && (isNew || !same(was.offset, now.offset))) refuse(item, WHY.offset('memory'));
      if (isNew || now === undefined) this.segment('data', pair);
      else if (butForName(was, now)) this.edits.set(SECTIONS.data, spelled.data(pair.now), pair.item, WHY.data);
    }
  }

  // An import whose item has a body or a value now is gone, and so needs no edit.
  imports() {
    for (const { item, was, now, isNew } of this.pairs('import', 'imports')) {
      const isDone = this.done.has(item.id);
      if (isNew || (now === undefined && isDone)) continue;
      if (now === undefined) refuse(item, WHY.gone);
      if (!same(was.item, now.item)) refuse(item, "what it brings can't be changed");
      if (isDone) refuse(item, "it is gone, since what it brought is the module's own");
      this.edits.set(SECTIONS.import, joined(name(now.module), name(now.name)), item);
    }
  }

  exports() {
    for (const { item, now, isNew } of this.pairs('export', 'exports')) {
      if (now === undefined) {
        if (!isNew) this.edits.delete(SECTIONS.export, item);
        continue;
      }
      if (!KINDS.includes(now.item.kind)) refuse(item, WHY.export);
      if (isNew) this.edits.add(SECTIONS.export, spelled.export(now), item, WHY.export);
      else this.edits.set(SECTIONS.export, spelled.export(now), item, WHY.export);
    }
  }

  start() {
    const { start } = this.now, item = { kind: 'start function', id: null };
    if (start === this.was.start) return;
    if (start === null) this.edits.put(DELETE, [SECTIONS.start], item);
    else this.edits.put(SECTIONS.start, number(start), item);
  }

  customs() {
    for (const { item, was, now, isNew } of this.pairs('custom section', 'customs')) {
      if (now === undefined) {
        if (!isNew) this.edits.delete(SECTIONS.custom, item);
      } else if (isNew) {
        this.edits.put(SECTIONS.custom, joined(name(now.name), now.data), item, WHY.custom);
      } else if (was.name !== now.name) {
        refuse(item, "its name can't be changed");
      } else {
        this.edits.set(SECTIONS.custom, now.data, item);
      }
    }
  }

  // Those that differ come, each in the place of one of its name in the field, where there is one; or all go and all come.
  producers() {
    const was = [...this.was.producers], now = [...this.now.producers], names = new Set();
    if (same(was, now)) return;
    const stay = was.length <= now.length && was.every((it, at) => sameIn(it, now[at], 'field', 'name'));
    if (!stay) this.edits.put(NO_PRODUCERS, [], { kind: 'producer', id: 0 });
    now.forEach((it, at) => {
      const item = { kind: 'producer', id: at }, key = JSON.stringify([it.field, it.name]), isFirst = !names.has(key);
      names.add(key);
      if (stay && same(was[at], it)) return;
      if (!isFirst) refuse(item, 'one of its name stands before it in its field');
      this.edits.put(SECTIONS.producer, joined(name(it.field), name(it.name), name(it.version)), item, WHY.field);
    });
  }

  putName(what, item, text) {
    this.edits.put(SECTIONS.name, joined(what, number(item.id ?? 0), text === null ? [] : name(text)), item);
  }

  names() {
    if (this.was.name !== this.now.name) this.putName(SECTIONS.module, { kind: 'module', id: null }, this.now.name);
    for (const kind of Object.keys(NAMED)) {
      for (const { item, was, now } of this.pairs(kind)) {
        if (now !== undefined && now.name !== (was?.name ?? null)) this.putName(SECTIONS[kind], item, now.name);
      }
    }
  }
}

/** The edits that make `now` of what was read: their bytes, and of which item each came. */
export function between(was, now) {
  const { edits } = new Differ(was, now);
  return { bytes: joined(...edits.parts), of: edits.of };
}
