// What mulkavesh.js takes and answers. docs/USING.md of the repository says more of each call.

/** What is written or taken; each is true where it isn't told. */
export interface Options {
  /** Whether names are written. */
  names?: boolean;
  /** Whether producers are written, `walrus` 0.28.0 among them. */
  producers?: boolean;
  /** Whether bodies with legacy exceptions are taken. */
  legacy?: boolean;
}

/**
 * Which exports stay, and with them what they lead to: where `keep` has NAMEs, those that fit one, and else all; but none that fits a NAME of `drop`. The others
 * are as if they weren't there. The start function and segments that aren't passive keep what they keep. NotFound where a NAME fits no export of the input.
 */
export interface Roots extends Options {
  keep?: Names;
  drop?: Names;
}

export type Bytes = Uint8Array | ArrayBuffer | ArrayBufferView;

/** A function with a body, in a list. */
export interface Listed {
  /** Its index in the input. */
  index: number;
  /** The bytes of its body: of one that stays, in the output; of one that goes, in the input. */
  size: number;
  /** Its name as the input's name section has it, or null. */
  name: string | null;
}

/** What can be imported and exported. */
export type OuterKind = 'function' | 'table' | 'memory' | 'global' | 'tag';

/** An export: the kind and the index, in the input, of what is exported, and under which name. */
export interface Exported {
  kind: OuterKind;
  index: number;
  name: string;
}

/** An import: the kind and the index, in the input, of what is imported, from which module, and under which name. */
export interface Imported extends Exported {
  module: string;
}

/** What a module has of itself and refers to. */
export type ItemKind = OuterKind | 'type' | 'element' | 'data';

/** What stays, and stands in a chain or refers to something. */
export interface Link {
  kind: ItemKind;
  /** Its index in the input. */
  index: number;
  /** Its name as the input's name section has it, or null. */
  name: string | null;
  /** The names under which it is exported, of exports that stay. */
  exports: string[];
  /** Of a function with a body the bytes of that in the output; else null. */
  size: number | null;
}

/** Why something stays. */
export interface Reason {
  /** What was asked about. */
  item: { kind: ItemKind; index: number };
  /** What makes the first of the chain stay: it is exported, the start function, an active segment, or one that declares functions. Null where nothing leads here. */
  root: 'exported' | 'start' | 'active' | 'declared' | null;
  /** Each refers to the next, and the last is what was asked about. Which chain is told, of several, isn't promised. Empty where nothing leads here. */
  chain: Link[];
  /**
   * Of a function with a body that stays, what would go with it: how many functions stay and wouldn't if its body did nothing but trap, itself among them, and
   * the bytes of their bodies in the output. Else null.
   */
  alone: { functions: number; bytes: number } | null;
}

/** How many items of a kind stay and go, imported ones too. */
export interface Counts {
  kept: number;
  dropped: number;
}

/** What `gc` comes to. */
export interface Report {
  functions: Counts;
  tables: Counts;
  memories: Counts;
  tags: Counts;
  globals: Counts;
  elements: Counts;
  data: Counts;
  /**
   * The bytes of the input; of the output; in the input those of the bodies of functions that go; and there those of sections whose name begins with `.debug`. The
   * rest of the difference is what else goes, less what is added or numbered anew.
   */
  bytes: { read: number; written: number; dropped: number; debug: number };
}

/** What the standard calls a section. */
export type SectionKind =
  | 'custom' | 'type' | 'import' | 'function' | 'table' | 'memory' | 'global' | 'export' | 'start' | 'element' | 'code' | 'data' | 'data count' | 'tag' | 'unknown';

/** A section, as its framing tells of it. */
export interface Section {
  /** The number in front of it, and what the standard calls a section of this id. */
  id: number;
  kind: SectionKind;
  /** The name of a custom section, or null. */
  name: string | null;
  /** Where its id stands, in bytes from the start, and how many bytes all of it has, id and size too. */
  start: number;
  size: number;
  /** The count of entries in front of its content, or null where none stands there. */
  entries: number | null;
}

/** The sections that stand in bytes, by their framing alone: an id, a size and so many bytes, which in a custom section begin with its name. */
export interface Sections {
  sections: Section[];
  /** Where they end, in bytes from the start: at the end of the bytes, or where no section stands. */
  end: number;
  /** Whether they reach the end of the bytes. */
  whole: boolean;
}

/**
 * A function with a body, or a data segment: its index, where imported functions have the first ones; where it begins, in bytes from the start, a function behind
 * the number that says the size of its body; and how many bytes it has.
 */
export interface Item {
  kind: 'function' | 'data';
  index: number;
  start: number;
  size: number;
}

/** NAMEs, in which `*` stands for any bytes, also for none, and `\*` for a star. */
export type Names = string | Bytes | readonly (string | Bytes)[];

/** A FUNCTION: its index, as a number or in decimal; or else the name of the first one of this name; or else the name of an export, which may be of another kind. */
export type Meant = number | string | Bytes;

/** What bytes begin as that don't begin as a module. */
export type Beginning = 'empty' | 'cut' | 'gzip' | 'zip' | 'zstd' | 'elf' | 'bitcode' | 'text' | 'component' | 'other version';

/** A rule on the sections of a module as a whole. */
export type Rule = 'Order' | 'Types' | 'Indices' | 'FunctionTypes' | 'Limits' | 'Counts' | 'ExportNames' | 'Start' | 'Offsets' | 'Locals';

/**
 * What is wrong with bytes that are no module: the header, with what stands there in its place, or null where that isn't known; the place, in bytes from the
 * start, where no section stands; the rule that is broken; or the index of a function whose body isn't well made, where imported ones come first. `text` says
 * it in plain words.
 */
export type Fault =
  | { kind: 'header'; begins: Beginning | null; text: string }
  | { kind: 'section'; place: number; text: string }
  | { kind: 'rule'; rule: Rule; text: string }
  | { kind: 'body'; index: number; text: string };

/** The calls. Each may throw InvalidModule, TooLarge, OutOfMemory and Trapped, but `diagnose` never the first. */
export interface Mulkavesh {
  /** The module without what nothing reaches. */
  gc(input: Bytes, options?: Roots): Uint8Array;
  /** How many items of each kind `gc` keeps and drops, and bytes. */
  report(input: Bytes, options?: Roots): Report;
  /** What is wrong with bytes, as in the `fault` of InvalidModule, or null exactly where the others accept them. */
  diagnose(input: Bytes, options?: Options): Fault | null;
  /** The functions with a body that `gc` keeps, by rising index. */
  list(input: Bytes, options?: Roots): Listed[];
  /** The functions with a body that `gc` drops, by rising index. */
  dropped(input: Bytes, options?: Roots): Listed[];
  /** The exports that stay, as they stand in the input. */
  exports(input: Bytes, options?: Roots): Exported[];
  /** The imports that `gc` keeps, as they stand in the input. */
  imports(input: Bytes, options?: Roots): Imported[];
  /**
   * What sections stand in the bytes, by their framing alone: what stands in them, and in which order they come, isn't looked at. InvalidModule exactly where the
   * magic number and the version don't stand in front.
   */
  sections(input: Bytes): Sections;
  /**
   * What stands in a module: its sections, and behind one of code the functions in it, behind one of data the data segments. InvalidModule exactly where the bytes
   * aren't the sections of a module, read to their ends.
   */
  parts(input: Bytes): (Section | Item)[];
  /**
   * The module without the custom sections whose names fit one of `names` and none of `keep`; NotFound where one of `names` fits none. All else is as it stands,
   * byte for byte. Debug information (`.debug*`), names (`name`) and producers (`producers`) are custom sections as any. Nothing is read but where sections begin
   * and end and what custom ones are called, so that the module may break other rules: InvalidModule exactly where the bytes aren't a header and whole sections.
   */
  strip(input: Bytes, names: Names, options?: { keep?: Names }): Uint8Array;
  /** Why something stays, and what would go with it. NotFound where FUNCTION means nothing. */
  why(input: Bytes, which: Meant, options?: Roots): Reason;
  /** What stays and refers to it directly, by kind and index. NotFound where FUNCTION means nothing. */
  callers(input: Bytes, which: Meant, options?: Roots): Link[];
  /**
   * The module in which the bodies of these functions do nothing but trap, without what nothing reaches then. Each FUNCTION means the one of this index, or of this
   * name, or under this export; or with a `*`, as in a NAME, all with a body that have such a name or export. NotFound where one means no function, or an imported one.
   */
  snip(input: Bytes, functions: Meant | readonly Meant[], options?: Options): Uint8Array;
  /**
   * The module in which each function that is imported from a module of one of these NAMEs, and under one of those of `imports` where there are any, has a body,
   * which traps, without what nothing reaches then. NotFound where no function is imported so.
   */
  stub(input: Bytes, modules: Names, options?: Options & { imports?: Names }): Uint8Array;
  /** The items of a module, each with its id, as records: docs/FORMATS.md of the repository, "A list of items". `Module` of `mulkavesh/module` reads them. */
  read(input: Bytes, options?: { legacy?: boolean }): Uint8Array;
  /**
   * The module that a list of edits makes of it, each in its turn: docs/FORMATS.md, "A list of edits"; with `gc`, without what nothing reaches then. `Module` of
   * `mulkavesh/module` makes lists. BadEdit where one is refused, BadModule where what all of them left is.
   */
  edit(input: Bytes, edits: Bytes, options?: Options & { gc?: boolean }): Uint8Array;
  /** The version of the library, as `0.1.0`. */
  version(): string;
}

/** Loads mulkavesh.wasm: from beside mulkavesh.js, or from an address, bytes, or a module that is compiled. */
export function load(source?: string | URL | Bytes | WebAssembly.Module): Promise<Mulkavesh>;

export type Code = 'INVALID' | 'TOO_LARGE' | 'NO_MEMORY' | 'NOT_FOUND' | 'BAD_EDIT' | 'BAD_MODULE' | 'BAD_ITEM' | 'TRAPPED' | 'UNKNOWN_STATUS';

/** Why what edits left can't be written: a rule is broken; an item that is named is gone, stands twice or nowhere; or something can't be spelled. */
export type Cause = Rule | 'Gone' | 'TwoIndices' | 'NoIndex' | 'NoSpelling';

/** A call was refused. */
export class MulkaveshError extends Error {
  readonly code: Code;
}
/** The input is no module that keeps the rules; of `strip` and `sections`, its framing is none; of `parts`, it isn't the sections of a module. */
export class InvalidModule extends MulkaveshError {
  /** What `diagnose` tells of it under the same choice of `legacy`; the message says it. Null where memory ran out while it was looked for. */
  readonly fault: Fault | null;
}
/** What is to be written has a count or a size past 32 bits. */
export class TooLarge extends MulkaveshError {}
/** Memory ran out. */
export class OutOfMemory extends MulkaveshError {}
/** There is nothing that the call could work on. */
export class NotFound extends MulkaveshError {
  /** The NAME of `keep` or `drop` that fits no export, as it was given; null where something else isn't there. */
  readonly unfit: string | Bytes | null;
}
/** An edit isn't of its form, or can't be made of what those in front of it left. */
export class BadEdit extends MulkaveshError {
  /** How many edits in front of it can be made. */
  readonly made: number;
}
/** All edits can be made, and what they leave can't be written. */
export class BadModule extends MulkaveshError {
  readonly cause: Cause;
}
/** The library stopped in the midst of a call. Later calls have a fresh instance. */
export class Trapped extends MulkaveshError {}
