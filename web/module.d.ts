// What module.js takes and answers. docs/USING.md of the repository, "Changing a module", says more.
import type { Bytes, Mulkavesh, Options, OuterKind } from './mulkavesh.js';
import { MulkaveshError } from './mulkavesh.js';

declare const of: unique symbol;
/** The id of an item of one kind. That of an item of the input is its index there, imported ones first; what is added has the next ones. */
export type Id<Kind extends string> = number & { readonly [of]?: Kind };
export type TypeId = Id<'type'>;
export type FunctionId = Id<'function'>;
export type TableId = Id<'table'>;
export type MemoryId = Id<'memory'>;
export type GlobalId = Id<'global'>;
export type TagId = Id<'tag'>;
export type ImportId = Id<'import'>;
export type ExportId = Id<'export'>;
export type ElementId = Id<'element'>;
export type DataId = Id<'data'>;
export type CustomId = Id<'custom section'>;

/** What a reference leads to: a type of the module by its id, or else. */
export type HeapType =
  | 'func' | 'extern' | 'any' | 'eq' | 'i31' | 'struct' | 'array' | 'exn' | 'none' | 'noextern' | 'nofunc' | 'noexn' | TypeId;
/** A type of references, and whether null is one. */
export interface RefType {
  readonly heapType: HeapType;
  readonly nullable: boolean;
}
export const FUNCREF: RefType;
export const EXTERNREF: RefType;
export type ValType = 'i32' | 'i64' | 'f32' | 'f64' | 'v128' | RefType;

/** The body of a function without its size. */
export class Body {
  /** Of locals, operators and `0B`, and of operators that stand in front of those. */
  constructor(data: ArrayLike<number>, front?: ArrayLike<number>);
  readonly data: Uint8Array;
  readonly front: Uint8Array;
  /** All its bytes. */
  bytes(): Uint8Array;
  /** The body with these operators in front, which leaves the names of its locals. Of locals they name the function's parameters alone, as the first ones. */
  withFront(operators: InstrSeqBuilder): Body;
}

/** Operators, one behind the other; each call answers the same builder. Where wasm has an index, they have the item's id. `mulkavesh/opcodes` has their numbers. */
export class InstrSeqBuilder {
  /** The bytes of the operators. */
  bytes(): Uint8Array;
  /** Operators that these bytes are. */
  raw(...parts: (number | ArrayLike<number>)[]): this;
  /** An operator with arguments that are indices, if any. */
  op(opcode: number, ...args: number[]): this;
  /** A load of a memory, at a constant offset: the alignment is an exponent of 2. */
  load(opcode: number, memory: MemoryId, align: number, offset: number | bigint): this;
  /** A store to a memory, as a load. */
  store(opcode: number, memory: MemoryId, align: number, offset: number | bigint): this;
  i32Const(value: number): this;
  i64Const(value: number | bigint): this;
  f32Const(value: number): this;
  f64Const(value: number): this;
  /** Parameters are the first locals. */
  localGet(local: number): this;
  localSet(local: number): this;
  localTee(local: number): this;
  globalGet(id: GlobalId): this;
  globalSet(id: GlobalId): this;
  call(id: FunctionId): this;
  callIndirect(type: TypeId, table: TableId): this;
  refFunc(id: FunctionId): this;
  refNull(of: HeapType): this;
  /** A block that leaves nothing, a value of this type, or what functions of the type of this id do; `end` closes it. */
  block(type?: ValType | TypeId): this;
  /** A loop, as a block. */
  loop(type?: ValType | TypeId): this;
  /** A block where the operand isn't 0, as a block. */
  if(type?: ValType | TypeId): this;
  else(): this;
  /** The end of a block. The one that closes the function comes with its body. */
  end(): this;
  /** 0 is the innermost block. */
  br(label: number): this;
  brIf(label: number): this;
  return(): this;
  unreachable(): this;
  drop(): this;
  select(): this;
  /** The body of a function with these operators, and these locals behind its parameters. */
  body(...locals: ValType[]): Body;
  /** The constant expression that these operators are. */
  constExpr(): Uint8Array;
}

/** What an export exports, or an import brings. */
export interface ExportItem {
  kind: OuterKind;
  id: number;
}

/** A type: what its functions take and give, where it stands alone, is final and has no supertype, or null. Only its name can be changed. */
export interface Type {
  readonly params: readonly ValType[] | null;
  readonly results: readonly ValType[] | null;
  name: string | null;
}

export interface Import {
  /** The module that it comes from, and its name there. */
  module: string;
  name: string;
  /** What it brings. */
  readonly item: Readonly<ExportItem>;
}

export interface Export {
  name: string;
  item: ExportItem;
}

/** A function. An imported one that gets a body loses its import. */
export interface Function {
  readonly type: TypeId;
  /** Null where an import brings it. */
  body: Body | null;
  imported: ImportId | null;
  name: string | null;
  /** The names of its locals by their indices. They go where it gets another body. */
  readonly localNames: ReadonlyMap<number, string>;
}

/** A table. Only its name can be changed. Numbers past 2^53 are a bigint. */
export interface Table {
  readonly elementType: RefType;
  readonly initial: number | bigint;
  readonly maximum: number | bigint | null;
  readonly table64: boolean;
  /** The expression of what its elements are at first, or null. */
  readonly init: Uint8Array | null;
  readonly imported: ImportId | null;
  name: string | null;
}

export interface Memory {
  /** How many pages it has at first, and may have. */
  initial: number | bigint;
  maximum: number | bigint | null;
  shared: boolean;
  memory64: boolean;
  /** The bytes of a page, as an exponent of 2; null for 16. */
  pageSizeLog2: number | null;
  readonly imported: ImportId | null;
  name: string | null;
}

/** A global. The type of an imported one can't be changed; one that gets a value loses its import. */
export interface Global {
  type: ValType;
  mutable: boolean;
  shared: boolean;
  /** The expression of its value at first, or null where an import brings it. */
  init: Uint8Array | null;
  imported: ImportId | null;
  name: string | null;
}

/** A tag. Only its name can be changed. */
export interface Tag {
  readonly type: TypeId;
  readonly imported: ImportId | null;
  name: string | null;
}

/** An element segment: functions, or where `type` isn't null expressions of that. Only its name can be changed; another one can be added in its place. */
export interface Element {
  readonly items: readonly FunctionId[] | readonly Uint8Array[];
  /** The table that it is written to at first, with the expression of the offset, or null. */
  readonly table: TableId | null;
  readonly offset: Uint8Array | null;
  readonly type: RefType | null;
  /** Whether it declares functions. */
  readonly declared: boolean;
  name: string | null;
}

export interface Data {
  value: ArrayLike<number>;
  /** The memory that it is written to at first, with the expression of the offset, or null. */
  memory: MemoryId | null;
  offset: Uint8Array | null;
  name: string | null;
}

/** A custom section, but names, producers and debug information. */
export interface CustomSection {
  readonly name: string;
  data: ArrayLike<number>;
}

export interface Producer {
  /** `language`, `processed-by` or `sdk`, where it is written. */
  readonly field: string;
  readonly name: string;
  readonly version: string;
}

/** The items of one kind by their ids. */
export interface Arena<I extends number, T> extends Iterable<[I, T]> {
  readonly size: number;
  readonly nextId: I;
  get(id: I): T | undefined;
  has(id: I): boolean;
  /** Ids and items, of what is there now. */
  entries(): [I, T][];
  ids(): I[];
  values(): T[];
  /** The ids of the items that this holds of. */
  where(holds: (item: T) => boolean): I[];
  /** The id of the first item of this name, or undefined. */
  byName(name: string): I | undefined;
}

/** Items that can be taken away. */
export interface Listed<I extends number, T> extends Arena<I, T> {
  delete(id: I): T | undefined;
}

/** A module. */
export class Module {
  private constructor();
  /** The module that the bytes are, over the calls that `load` answered. InvalidModule where they are none that keeps the rules. */
  static fromBuffer(library: Mulkavesh, bytes: Bytes): Module;

  /** `add` answers the first type of functions that take and give these, or a new one. Types that legacy exceptions need stand behind those of the input. */
  readonly types: Arena<TypeId, Type> & { add(params?: readonly ValType[], results?: readonly ValType[]): TypeId };
  readonly imports: Arena<ImportId, Import> & { find(module: string, name: string): ImportId | undefined };
  readonly funcs: Arena<FunctionId, Function> & { addLocal(type: TypeId, body: Body): FunctionId };
  readonly tables: Arena<TableId, Table>;
  readonly memories: Arena<MemoryId, Memory>;
  readonly globals: Arena<GlobalId, Global> & { addLocal(type: ValType, mutable: boolean, init: Uint8Array, shared?: boolean): GlobalId };
  readonly tags: Arena<TagId, Tag>;
  readonly exports: Listed<ExportId, Export> & {
    add(name: string, kind: OuterKind, id: number): ExportId;
    getFunc(name: string): FunctionId | undefined;
  };
  readonly elements: Listed<ElementId, Element> & { add(segment: Partial<Element> & Pick<Element, 'items'>): ElementId };
  readonly data: Listed<DataId, Data> & { add(segment: Partial<Data> & Pick<Data, 'value'>): DataId };
  readonly customs: Listed<CustomId, CustomSection> & {
    add(name: string, data: ArrayLike<number>): CustomId;
    removeRaw(name: string): CustomSection | undefined;
  };
  /** In the order of their section. The calls give one of this name the version. */
  producers: Producer[] & {
    addLanguage(name: string, version: string): void;
    addProcessedBy(name: string, version: string): void;
    addSdk(name: string, version: string): void;
  };
  /** The function that is called first, or null. */
  start: FunctionId | null;
  name: string | null;

  /** The list of edits that `emitWasm` hands to the library, as docs/FORMATS.md of the repository has it. */
  edits(): Uint8Array;
  /**
   * The bytes of the module as it is now; with `gc` without what nothing reaches. It may be changed further and written again. BadItem with the first item that is
   * refused: it has what can't be changed, or isn't well formed, or names what isn't there. BadModule where all of them break a rule.
   */
  emitWasm(options?: Options & { gc?: boolean }): Uint8Array;

  /** Imports a function of this type. */
  addImportFunc(module: string, name: string, type: TypeId): [FunctionId, ImportId];
  /** Imports a global of this type. */
  addImportGlobal(module: string, name: string, type: ValType, mutable: boolean, shared?: boolean): [GlobalId, ImportId];
  /** An imported function has this body from now on, and its import is gone. Its id, its type and its name stay. BadItem where it isn't imported. */
  replaceImportedFunc(id: FunctionId, body: Body): FunctionId;
  /** The first export of a function exports a new one with this body from now on, of the same type. BadItem where it isn't exported. */
  replaceExportedFunc(id: FunctionId, body: Body): FunctionId;
  /** A function with a body comes to be imported, and its body is gone. Its id, its type and its name stay. BadItem where it has none. */
  importFunc(id: FunctionId, module: string, name: string): ImportId;
  /** Puts operators in front of the body of a function. Of locals they name its parameters alone. BadItem where it has none. */
  insertFront(id: FunctionId, operators: InstrSeqBuilder): void;
  /** What a function is called: its name, that of its import, or one by its id. */
  called(id: FunctionId): string;
}

/** An item can't be written as it is, or a call on it can't be made; the message says why. */
export class BadItem extends MulkaveshError {
  readonly item: { readonly kind: string; readonly id: number | null };
}
