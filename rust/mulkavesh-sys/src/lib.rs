//! The calls of Mulkavesh, a verified module layer for WebAssembly, as its header `mulkavesh.h`
//! declares them. The crate `mulkavesh` makes safe calls of them.
//!
//! Each call reads `input` and writes `output`, which has `room` bytes, and `*length`, and nothing
//! else; it keeps nothing from one call to the next, and calls in several threads at once are fine.
//! What a call leaves, by its status:
//!
//! - [`MULKAVESH_DONE`]: the answer stands in the first `*length` bytes of `output`, and the bytes
//!   behind it are as they were;
//! - [`MULKAVESH_NO_ROOM`]: `output` is as it was, and `*length` is how much room the answer wants;
//! - [`MULKAVESH_NOT_FOUND`]: `output` is as it was, and of a call with a choice of exports `*length`
//!   is a number (see below); of others it is 0;
//! - [`MULKAVESH_BAD_EDIT`]: `output` is as it was, and `*length` is how many edits of a list can be
//!   made; [`MULKAVESH_BAD_MODULE`]: the same, and it is the number of a cause;
//! - any other: `output` is as it was, and `*length` is 0.
//!
//! A list of NAMEs is a list of records, one behind the other: a byte, the length of a NAME as a
//! number of 32 bits, little-endian, and the NAME. In a NAME `*` stands for any bytes, also for none,
//! and `\*` for a star. What the byte, 0 or 1, says, the calls tell. Bytes that are no such list are
//! refused with [`MULKAVESH_UNKNOWN_FLAG`].
//!
//! A choice of exports is such a list. The byte is 1 where exports that the NAME fits are kept, and 0
//! where they go. Where a byte is 1, those go that no such NAME fits; then those go that a NAME behind
//! 0 fits. So no bytes keep all. The start function and segments that aren't passive keep what they
//! reach all the same. Where a NAME fits no export of the input, the status is
//! [`MULKAVESH_NOT_FOUND`], and `*length` the number of the first such NAME, from 0 on; where each
//! fits one and a function isn't found, it is the count of the NAMEs.
//!
//! # Safety
//!
//! What the caller of each call but [`mulkavesh_version`] owes:
//!
//! - `input`, `choice`, `function`, `module`, `name`, `edits` and `output` have as many bytes as is told,
//!   `output` may be written (its bytes need no value before), and nothing else writes them during
//!   the call;
//! - none of them is null, not even where the length is 0, and `length` isn't null and is aligned;
//! - `output` and `*length` stand apart from each other and from all that is read;
//! - `malloc`, `realloc` and `free` are of one allocator, and align as the C standard says;
//! - no call is made from a signal handler, or from the forked child of a process with threads.

#![no_std]

/// The answer stands in the first `*length` bytes of `output`.
pub const MULKAVESH_DONE: u32 = 0;

/// The input is no module that keeps the rules; of [`mulkavesh_strip`], [`mulkavesh_sections`] and
/// [`mulkavesh_parts`], its framing alone is none.
pub const MULKAVESH_INVALID: u32 = 1;

/// What is to be written has a count or a size past 32 bits.
pub const MULKAVESH_TOO_LARGE: u32 = 2;

/// Memory ran out.
pub const MULKAVESH_NO_MEMORY: u32 = 3;

/// The room is smaller than the answer, whose length is told.
pub const MULKAVESH_NO_ROOM: u32 = 4;

/// A flag isn't known, or what has to be a list of NAMEs is none.
pub const MULKAVESH_UNKNOWN_FLAG: u32 = 5;

/// There is nothing of this name or index that the call could work on, or a NAME fits nothing.
pub const MULKAVESH_NOT_FOUND: u32 = 6;

/// An edit isn't of its form, names what isn't there, or has a body that isn't well formed; the first
/// `*length` edits can be made.
pub const MULKAVESH_BAD_EDIT: u32 = 7;

/// What all edits left can't be written, for the cause whose number `*length` is.
pub const MULKAVESH_BAD_MODULE: u32 = 8;

/// A flag: no names are written.
pub const MULKAVESH_NO_NAMES: u32 = 1;

/// A flag: no producers are written.
pub const MULKAVESH_NO_PRODUCERS: u32 = 2;

/// A flag: bodies with legacy exceptions are refused.
pub const MULKAVESH_NO_LEGACY: u32 = 4;

/// A flag of [`mulkavesh_edit`] alone: what nothing reaches goes.
pub const MULKAVESH_GC: u32 = 8;

/// What stands in a list for the length of a name, or for a size, that isn't there.
pub const MULKAVESH_NO_NAME: u32 = u32::MAX;

/// The kind of a type, in front of its index in what [`mulkavesh_why`] and [`mulkavesh_callers`] tell.
pub const MULKAVESH_KIND_TYPE: u8 = 0;

/// The kind of a function, there.
pub const MULKAVESH_KIND_FUNCTION: u8 = 1;

/// The kind of a table, there.
pub const MULKAVESH_KIND_TABLE: u8 = 2;

/// The kind of a memory, there.
pub const MULKAVESH_KIND_MEMORY: u8 = 3;

/// The kind of a tag, there.
pub const MULKAVESH_KIND_TAG: u8 = 4;

/// The kind of a global, there.
pub const MULKAVESH_KIND_GLOBAL: u8 = 5;

/// The kind of an element segment, there.
pub const MULKAVESH_KIND_ELEMENT: u8 = 6;

/// The kind of a data segment, there.
pub const MULKAVESH_KIND_DATA: u8 = 7;

/// The kind of a function, in front of its index in what [`mulkavesh_exports`] and
/// [`mulkavesh_imports`] tell.
pub const MULKAVESH_EXTERN_FUNCTION: u8 = 0;

/// The kind of a table, there.
pub const MULKAVESH_EXTERN_TABLE: u8 = 1;

/// The kind of a memory, there.
pub const MULKAVESH_EXTERN_MEMORY: u8 = 2;

/// The kind of a global, there.
pub const MULKAVESH_EXTERN_GLOBAL: u8 = 3;

/// The kind of a tag, there.
pub const MULKAVESH_EXTERN_TAG: u8 = 4;

/// There is no chain, since the item isn't reached: what makes the first item of one stay, as
/// [`mulkavesh_why`] tells it.
pub const MULKAVESH_ROOT_NONE: u8 = 0;

/// The first item of the chain is exported.
pub const MULKAVESH_ROOT_EXPORTED: u8 = 1;

/// It is the start function.
pub const MULKAVESH_ROOT_START: u8 = 2;

/// It is an active segment.
pub const MULKAVESH_ROOT_ACTIVE: u8 = 3;

/// It is a declared segment.
pub const MULKAVESH_ROOT_DECLARED: u8 = 4;

/// A function with a body: what [`mulkavesh_parts`] tells in place of the number of a section.
pub const MULKAVESH_FUNCTION: u8 = 138;

/// A data segment: the same.
pub const MULKAVESH_SEGMENT: u8 = 139;

/// Nothing is wrong with the bytes: the first number that [`mulkavesh_diagnose`] tells.
pub const MULKAVESH_FAULT_NONE: u32 = 0;

/// The bytes don't begin as a WebAssembly module; the second number says what they begin as.
pub const MULKAVESH_FAULT_HEADER: u32 = 1;

/// No well-formed section stands at the place, in bytes from the start, that is the second number.
pub const MULKAVESH_FAULT_SECTION: u32 = 2;

/// The rule on the whole that the second number says is broken.
pub const MULKAVESH_FAULT_RULE: u32 = 3;

/// The body of the function whose index is the second number isn't made of allowed instructions,
/// well nested, with declared indices.
pub const MULKAVESH_FAULT_BODY: u32 = 4;

/// The bytes don't begin as a WebAssembly module, and as none of these: what they begin as, which is
/// the second number.
pub const MULKAVESH_BEGINS_OTHER: u32 = 0;

/// There are no bytes.
pub const MULKAVESH_BEGINS_EMPTY: u32 = 1;

/// The bytes end within the header.
pub const MULKAVESH_BEGINS_CUT: u32 = 2;

/// The bytes are compressed by gzip.
pub const MULKAVESH_BEGINS_GZIP: u32 = 3;

/// The bytes are a zip archive.
pub const MULKAVESH_BEGINS_ZIP: u32 = 4;

/// The bytes are compressed by zstd.
pub const MULKAVESH_BEGINS_ZSTD: u32 = 5;

/// The bytes are an ELF file.
pub const MULKAVESH_BEGINS_ELF: u32 = 6;

/// The bytes are LLVM bitcode.
pub const MULKAVESH_BEGINS_BITCODE: u32 = 7;

/// The bytes are WebAssembly text, not binary.
pub const MULKAVESH_BEGINS_TEXT: u32 = 8;

/// The bytes are a component, not a module.
pub const MULKAVESH_BEGINS_COMPONENT: u32 = 9;

/// The bytes have another version.
pub const MULKAVESH_BEGINS_OTHER_VERSION: u32 = 10;

/// The sections stand out of order, or one stands twice: a rule, which is the second number.
pub const MULKAVESH_RULE_ORDER: u32 = 1;

/// A type names one that isn't declared by the end of its group, or has a supertype that isn't
/// before it, or more than one.
pub const MULKAVESH_RULE_TYPES: u32 = 2;

/// An index names something that isn't declared, or isn't yet.
pub const MULKAVESH_RULE_INDICES: u32 = 3;

/// A function or a tag has a type that is no function type.
pub const MULKAVESH_RULE_FUNCTION_TYPES: u32 = 4;

/// The limits of a table or a memory aren't allowed.
pub const MULKAVESH_RULE_LIMITS: u32 = 5;

/// The number of bodies or of data segments isn't the one that is declared.
pub const MULKAVESH_RULE_COUNTS: u32 = 6;

/// Two exports have the same name.
pub const MULKAVESH_RULE_EXPORT_NAMES: u32 = 7;

/// The start function has parameters or results.
pub const MULKAVESH_RULE_START: u32 = 8;

/// The offset of a segment isn't of the type of addresses.
pub const MULKAVESH_RULE_OFFSETS: u32 = 9;

/// A body declares more than 50,000 locals.
pub const MULKAVESH_RULE_LOCALS: u32 = 10;

/// What all edits left names an item that is gone: a cause, as the rules 4, 5 and 7 to 10 are ones.
pub const MULKAVESH_CAUSE_GONE: u32 = 11;

/// An item stands in it twice.
pub const MULKAVESH_CAUSE_TWO_INDICES: u32 = 12;

/// It names an item that stands nowhere.
pub const MULKAVESH_CAUSE_NO_INDEX: u32 = 13;

/// A body or an expression of it can't be spelled.
pub const MULKAVESH_CAUSE_NO_SPELLING: u32 = 14;

extern "C" {
    /// The version of the library: the major number times 2^16, the minor one times 2^8, and the
    /// patch.
    pub fn mulkavesh_version() -> u32;

    /// The module of which the chosen exports are left, without what nothing reaches then.
    pub fn mulkavesh_gc(
        input: *const u8,
        input_length: usize,
        flags: u32,
        choice: *const u8,
        choice_length: usize,
        output: *mut u8,
        room: usize,
        length: *mut usize,
    ) -> u32;

    /// What [`mulkavesh_gc`] keeps and drops, as lines of text: seven of items, as
    /// `functions kept 19 dropped 1`, and of bytes `bytes read 2073 written 1991`,
    /// `bytes of dropped functions 60`, which their bodies have in the input,
    /// `bytes of debug information 0`, which `.debug` sections have there, and
    /// `bytes of the rest 22 less`, or `more`. Where the output is longer than the input a line more
    /// says why it may be.
    pub fn mulkavesh_report(
        input: *const u8,
        input_length: usize,
        flags: u32,
        choice: *const u8,
        choice_length: usize,
        output: *mut u8,
        room: usize,
        length: *mut usize,
    ) -> u32;

    /// What is wrong with bytes that aren't accepted, as two numbers of 32 bits, little-endian: a
    /// `MULKAVESH_FAULT_..`, and what that one says. Both are 0 exactly where the bytes are
    /// accepted. Never [`MULKAVESH_INVALID`]; [`MULKAVESH_TOO_LARGE`] is for a second number past
    /// 32 bits. Of the flags [`MULKAVESH_NO_LEGACY`] alone has a say.
    pub fn mulkavesh_diagnose(
        input: *const u8,
        input_length: usize,
        flags: u32,
        output: *mut u8,
        room: usize,
        length: *mut usize,
    ) -> u32;

    /// The functions with a body that [`mulkavesh_gc`] keeps, by rising index. For each: its index
    /// in the input, the bytes of its body in the output, and the length of its name or
    /// [`MULKAVESH_NO_NAME`], as three numbers of 32 bits, little-endian; and then the name as the
    /// input's name section has it. Of the flags [`MULKAVESH_NO_LEGACY`] alone has a say.
    pub fn mulkavesh_list(
        input: *const u8,
        input_length: usize,
        flags: u32,
        choice: *const u8,
        choice_length: usize,
        output: *mut u8,
        room: usize,
        length: *mut usize,
    ) -> u32;

    /// The functions with a body that [`mulkavesh_gc`] drops, as [`mulkavesh_list`] tells those that it
    /// keeps, but with the bytes of the body in the input.
    pub fn mulkavesh_dropped(
        input: *const u8,
        input_length: usize,
        flags: u32,
        choice: *const u8,
        choice_length: usize,
        output: *mut u8,
        room: usize,
        length: *mut usize,
    ) -> u32;

    /// The exports that stay, in the order of the input. For each a byte, a `MULKAVESH_EXTERN_..`; the
    /// index of what is exported, in the input; the length of the name; and the name. Numbers are of
    /// 32 bits, little-endian. Of the flags [`MULKAVESH_NO_LEGACY`] alone has a say.
    pub fn mulkavesh_exports(
        input: *const u8,
        input_length: usize,
        flags: u32,
        choice: *const u8,
        choice_length: usize,
        output: *mut u8,
        room: usize,
        length: *mut usize,
    ) -> u32;

    /// The imports that [`mulkavesh_gc`] keeps, in the order of the input. For each a byte, a
    /// `MULKAVESH_EXTERN_..`; the index of what is imported, in the input; the length of the module's
    /// name, and that name; the length of its own name, and that one. Numbers are of 32 bits,
    /// little-endian. Of the flags [`MULKAVESH_NO_LEGACY`] alone has a say.
    pub fn mulkavesh_imports(
        input: *const u8,
        input_length: usize,
        flags: u32,
        choice: *const u8,
        choice_length: usize,
        output: *mut u8,
        room: usize,
        length: *mut usize,
    ) -> u32;

    /// What sections stand in the bytes, by their framing alone: an id, a size and so many bytes,
    /// which in a custom section begin with its name in UTF-8. First a byte, which is 1 where
    /// sections reach the end of the input and else 0, and the place where they end. Behind that for
    /// each: its id, a byte; a byte that is 1 where a count of entries stands in front of its content
    /// and else 0; the place of its id; how many bytes all of it has; the count of its entries, 0
    /// where none stands; the length of the name of a custom section, or [`MULKAVESH_NO_NAME`] of
    /// others; and the name. Places, counts and lengths are numbers of 32 bits, little-endian.
    /// [`MULKAVESH_INVALID`] exactly where the magic number and the version don't stand in front,
    /// and [`MULKAVESH_TOO_LARGE`] where a number passes 32 bits.
    pub fn mulkavesh_sections(
        input: *const u8,
        input_length: usize,
        output: *mut u8,
        room: usize,
        length: *mut usize,
    ) -> u32;

    /// What stands in a module, as [`mulkavesh_sections`] tells it: each section, and behind one of
    /// code each function in it, as a section with the number [`MULKAVESH_FUNCTION`], behind one of
    /// data each data segment, as one with the number [`MULKAVESH_SEGMENT`]. Their place is that of
    /// the first byte of a function's body, behind its size, and of a segment's first byte; the count
    /// is their index, where imported functions have the first ones; and they have no name. The first
    /// byte is 1. [`MULKAVESH_INVALID`] exactly where the bytes aren't the sections of a module, read
    /// to their ends, and [`MULKAVESH_TOO_LARGE`] where a number passes 32 bits.
    pub fn mulkavesh_parts(
        input: *const u8,
        input_length: usize,
        output: *mut u8,
        room: usize,
        length: *mut usize,
    ) -> u32;

    /// The module without the custom sections that are chosen. All else is as it stands, byte for
    /// byte: nothing is read but where sections begin and end and what custom ones are called, so
    /// that the module may break other rules. Debug information, names and producers are custom
    /// sections as any.
    ///
    /// `choice` is a list of NAMEs. The byte is 0 where the custom sections whose name the NAME fits
    /// go, and 1 where they stay after all. [`MULKAVESH_NOT_FOUND`] where a NAME behind 0 fits no
    /// custom section; [`MULKAVESH_INVALID`] exactly where the bytes aren't a header and whole
    /// sections.
    pub fn mulkavesh_strip(
        input: *const u8,
        input_length: usize,
        choice: *const u8,
        choice_length: usize,
        output: *mut u8,
        room: usize,
        length: *mut usize,
    ) -> u32;

    /// Why [`mulkavesh_gc`] keeps a function, or another item that is exported. `function` is the
    /// index of a function, in decimal; or else the name of one, of which the first is meant; or else
    /// that of an export, and then its item is meant.
    ///
    /// First the item: a byte, a `MULKAVESH_KIND_..`, and its index. Then a byte, a
    /// `MULKAVESH_ROOT_..`. Then a byte that is 1 where the item is a function with a body that stays,
    /// and how many functions stay that wouldn't if it trapped, itself among them, and how many bytes
    /// their bodies have in the output; 0, 0 and 0 of others. Behind that the links of a chain of
    /// references that leads to the item, from what is a root by itself down to the item. For each link
    /// a byte, a `MULKAVESH_KIND_..`; its index; the bytes that its body has in the output, or
    /// [`MULKAVESH_NO_NAME`] of what isn't a function with a body; the length of its name or
    /// [`MULKAVESH_NO_NAME`]; the name; how many exports that stay are of it, and for each of them the
    /// length of its name, and the name. Numbers are of 32 bits, little-endian, and indices those of
    /// the input. Which chain it is isn't promised: call again with more room until the room suffices.
    /// Of the flags [`MULKAVESH_NO_LEGACY`] alone has a say. [`MULKAVESH_NOT_FOUND`] also where
    /// `function` means nothing.
    pub fn mulkavesh_why(
        input: *const u8,
        input_length: usize,
        flags: u32,
        choice: *const u8,
        choice_length: usize,
        function: *const u8,
        function_length: usize,
        output: *mut u8,
        room: usize,
        length: *mut usize,
    ) -> u32;

    /// What stays and refers directly to the item that `function` means, by kind and index: links as
    /// [`mulkavesh_why`] tells them.
    pub fn mulkavesh_callers(
        input: *const u8,
        input_length: usize,
        flags: u32,
        choice: *const u8,
        choice_length: usize,
        function: *const u8,
        function_length: usize,
        output: *mut u8,
        room: usize,
        length: *mut usize,
    ) -> u32;

    /// The module where functions trap, whoever calls them, without what nothing reaches then.
    /// `function` is a list of records as that of NAMEs, each with the byte 0. A NAME is the index of a
    /// function, in decimal; or, with a star in it, means each function with a body whose name it fits,
    /// or the name of one of whose exports; or is the name of a function, of which the first is meant;
    /// or else that of an export of one. [`MULKAVESH_NOT_FOUND`] where a NAME means no function, or an
    /// imported one.
    pub fn mulkavesh_snip(
        input: *const u8,
        input_length: usize,
        flags: u32,
        function: *const u8,
        function_length: usize,
        output: *mut u8,
        room: usize,
        length: *mut usize,
    ) -> u32;

    /// The module where functions that were imported are its own ones, which trap, without what nothing
    /// reaches then: those from a module that `module`, a list of NAMEs, says, and under a name that
    /// `name` says, another one. A list says what a NAME behind 0 fits, and none behind 1. No bytes for
    /// `name` say each name, and none for `module` no module. [`MULKAVESH_NOT_FOUND`] where no function
    /// is imported so.
    pub fn mulkavesh_stub(
        input: *const u8,
        input_length: usize,
        flags: u32,
        module: *const u8,
        module_length: usize,
        name: *const u8,
        name_length: usize,
        output: *mut u8,
        room: usize,
        length: *mut usize,
    ) -> u32;

    /// The items of the module, each with its id, as records: docs/FORMATS.md, "A list of items". Of
    /// the flags [`MULKAVESH_NO_LEGACY`] alone has a say.
    pub fn mulkavesh_read(
        input: *const u8,
        input_length: usize,
        flags: u32,
        output: *mut u8,
        room: usize,
        length: *mut usize,
    ) -> u32;

    /// The module that a list of edits makes of the input, each in its turn: docs/FORMATS.md, "A list of
    /// edits". With [`MULKAVESH_GC`] what nothing reaches then goes.
    pub fn mulkavesh_edit(
        input: *const u8,
        input_length: usize,
        flags: u32,
        edits: *const u8,
        edits_length: usize,
        output: *mut u8,
        room: usize,
        length: *mut usize,
    ) -> u32;
}
