/* The calls of Mulkavesh, a verified module layer for WebAssembly, from C and C++.
 *
 * Each call reads `input` and writes `output` and `*length`, and nothing else; it keeps nothing from one call to the next, and calls in
 * several threads at once are fine. The caller owns the room: `output` has `room` bytes. What a call leaves, by its status:
 *
 *   MULKAVESH_DONE       the answer stands in the first `*length` bytes of `output`; the bytes behind it are as they were
 *   MULKAVESH_NO_ROOM    `output` is as it was, and `*length` is how much room the answer wants: call again with that much
 *   MULKAVESH_NOT_FOUND  `output` is as it was, and of a call with a choice of exports `*length` is a number (see below); of others it is 0
 *   MULKAVESH_BAD_EDIT   `output` is as it was, and `*length` is how many edits of a list can be made, one behind the other: the next one can't
 *   MULKAVESH_BAD_MODULE `output` is as it was, and `*length` is the number of a cause
 *   any other            `output` is as it was, and `*length` is 0
 *
 * A smaller module is seldom longer than its input: with 256 bytes more than that one call mostly serves.
 *
 * What the caller owes, and no call checks:
 *   - `input`, `choice`, `function`, `module`, `name`, `edits` and `output` have as many bytes as is told, `output` may be written, and nothing else
 *     writes them during the call;
 *   - none of them is null, not even where the length is 0, and `length` isn't null and is aligned as a size_t;
 *   - `output` and `*length` stand apart from each other and from all that is read;
 *   - `malloc`, `realloc` and `free` are of one allocator, and align as the C standard says;
 *   - no call is made from a signal handler, or from the forked child of a process with threads.
 *
 * Flags that aren't known are refused, so that what they come to mean isn't passed over. Names are compared as bytes.
 *
 * A list of NAMEs is a list of records, one behind the other: a byte, the length of a NAME as a number of 32 bits, little-endian, and the NAME. In a
 * NAME `*` stands for any bytes, also for none, and `\*` for a star. What the byte, 0 or 1, says, the calls tell. Bytes that are no such list are
 * refused with MULKAVESH_UNKNOWN_FLAG.
 *
 * A choice of exports is such a list. The byte is 1 where exports that the NAME fits are kept, and 0 where they go. Where a byte is 1, those go that no
 * such NAME fits; then those go that a NAME behind 0 fits. So no bytes keep all. The start function and segments that aren't passive keep what they
 * reach all the same. Where a NAME fits no export of the input, the status is MULKAVESH_NOT_FOUND, and `*length` the number of the first such NAME, from 0
 * on; where each fits one and a function isn't found, it is the count of the NAMEs. */
#ifndef MULKAVESH_H
#define MULKAVESH_H

#include <stddef.h>
#include <stdint.h>

#ifdef __cplusplus
extern "C" {
#endif

/* The statuses. */
enum {
  MULKAVESH_DONE = 0,
  /* The input is no module that keeps the rules; of mulkavesh_strip and mulkavesh_sections, its framing alone is none; of
     mulkavesh_parts, it isn't the sections of a module. */
  MULKAVESH_INVALID = 1,
  /* What is to be written has a count or a size past 32 bits. */
  MULKAVESH_TOO_LARGE = 2,
  /* Memory ran out. */
  MULKAVESH_NO_MEMORY = 3,
  /* The room is smaller than the answer. */
  MULKAVESH_NO_ROOM = 4,
  /* A flag isn't known, or what has to be a list of NAMEs is none. */
  MULKAVESH_UNKNOWN_FLAG = 5,
  /* There is nothing of this name or index that the call could work on, or a NAME fits nothing. */
  MULKAVESH_NOT_FOUND = 6,
  /* An edit isn't of its form, names what isn't there, has a body that isn't well formed, brings what is imported, or is a front of what has no body. */
  MULKAVESH_BAD_EDIT = 7,
  /* All edits can be made, and what they leave can't be written. The cause is a MULKAVESH_RULE_.. or a MULKAVESH_CAUSE_... */
  MULKAVESH_BAD_MODULE = 8
};

/* The flags, as the words of the program. */
enum {
  /* No names are written: --no-names. */
  MULKAVESH_NO_NAMES = 1,
  /* No producers are written: --no-producers. */
  MULKAVESH_NO_PRODUCERS = 2,
  /* Bodies with legacy exceptions are refused: --no-legacy. */
  MULKAVESH_NO_LEGACY = 4,
  /* What nothing reaches goes: of mulkavesh_edit alone. */
  MULKAVESH_GC = 8
};

/* What stands in a list for the length of a name, or for a size, that isn't there. */
#define MULKAVESH_NO_NAME UINT32_MAX

/* The kinds of items: what stands in front of an index in what mulkavesh_why and mulkavesh_callers tell. */
enum {
  MULKAVESH_KIND_TYPE = 0,
  MULKAVESH_KIND_FUNCTION = 1,
  MULKAVESH_KIND_TABLE = 2,
  MULKAVESH_KIND_MEMORY = 3,
  MULKAVESH_KIND_TAG = 4,
  MULKAVESH_KIND_GLOBAL = 5,
  MULKAVESH_KIND_ELEMENT = 6,
  MULKAVESH_KIND_DATA = 7
};

/* The kinds of exports and imports: what stands in front of an index in what mulkavesh_exports and mulkavesh_imports tell. */
enum {
  MULKAVESH_EXTERN_FUNCTION = 0,
  MULKAVESH_EXTERN_TABLE = 1,
  MULKAVESH_EXTERN_MEMORY = 2,
  MULKAVESH_EXTERN_GLOBAL = 3,
  MULKAVESH_EXTERN_TAG = 4
};

/* What makes the first item of a chain one that stays: what mulkavesh_why tells. */
enum {
  /* There is no chain: the item isn't reached. */
  MULKAVESH_ROOT_NONE = 0,
  /* It is exported. */
  MULKAVESH_ROOT_EXPORTED = 1,
  /* It is the start function. */
  MULKAVESH_ROOT_START = 2,
  /* It is an active segment. */
  MULKAVESH_ROOT_ACTIVE = 3,
  /* It is a declared segment. */
  MULKAVESH_ROOT_DECLARED = 4
};

/* What mulkavesh_parts tells in place of the number of a section. */
enum {
  /* A function with a body. */
  MULKAVESH_FUNCTION = 138,
  /* A data segment. */
  MULKAVESH_SEGMENT = 139
};

/* What is wrong with bytes: the first number that mulkavesh_diagnose tells. */
enum {
  /* Nothing: the bytes are accepted. The second number is 0. */
  MULKAVESH_FAULT_NONE = 0,
  /* The bytes don't begin as a WebAssembly module. The second number says what they begin as. */
  MULKAVESH_FAULT_HEADER = 1,
  /* No well-formed section stands at a byte. The second number is its place from the start of the input; whole sections stand up to there. */
  MULKAVESH_FAULT_SECTION = 2,
  /* A rule on the whole is broken. The second number says which. */
  MULKAVESH_FAULT_RULE = 3,
  /* The body of a function isn't made of allowed instructions, well nested, with declared indices. The second number is the function's index,
   * where imported ones come first; the bodies before it are well made. */
  MULKAVESH_FAULT_BODY = 4
};

/* What bytes begin as that don't begin as a module: the second number that mulkavesh_diagnose tells behind MULKAVESH_FAULT_HEADER. */
enum {
  /* None of these: the bytes don't begin as a WebAssembly module. */
  MULKAVESH_BEGINS_OTHER = 0,
  /* The bytes don't begin as a WebAssembly module: there are none. */
  MULKAVESH_BEGINS_EMPTY = 1,
  /* The bytes don't begin as a WebAssembly module: they end within the header. */
  MULKAVESH_BEGINS_CUT = 2,
  /* The bytes don't begin as a WebAssembly module: they are compressed by gzip. */
  MULKAVESH_BEGINS_GZIP = 3,
  /* The bytes don't begin as a WebAssembly module: they are a zip archive. */
  MULKAVESH_BEGINS_ZIP = 4,
  /* The bytes don't begin as a WebAssembly module: they are compressed by zstd. */
  MULKAVESH_BEGINS_ZSTD = 5,
  /* The bytes don't begin as a WebAssembly module: they are an ELF file. */
  MULKAVESH_BEGINS_ELF = 6,
  /* The bytes don't begin as a WebAssembly module: they are LLVM bitcode. */
  MULKAVESH_BEGINS_BITCODE = 7,
  /* The bytes don't begin as a WebAssembly module: they are WebAssembly text, not binary. */
  MULKAVESH_BEGINS_TEXT = 8,
  /* The bytes don't begin as a WebAssembly module: they are a component, not a module. */
  MULKAVESH_BEGINS_COMPONENT = 9,
  /* The bytes don't begin as a WebAssembly module: they have another version. */
  MULKAVESH_BEGINS_OTHER_VERSION = 10
};

/* The rules on the whole: the second number that mulkavesh_diagnose tells behind MULKAVESH_FAULT_RULE. */
enum {
  /* The sections stand out of order, or one stands twice. */
  MULKAVESH_RULE_ORDER = 1,
  /* A type names one that isn't declared by the end of its group, or has a supertype that isn't before it, or more than one. */
  MULKAVESH_RULE_TYPES = 2,
  /* An index names something that isn't declared, or isn't yet. */
  MULKAVESH_RULE_INDICES = 3,
  /* A function or a tag has a type that is no function type. */
  MULKAVESH_RULE_FUNCTION_TYPES = 4,
  /* The limits of a table or a memory aren't allowed. */
  MULKAVESH_RULE_LIMITS = 5,
  /* The number of bodies or of data segments isn't the one that is declared. */
  MULKAVESH_RULE_COUNTS = 6,
  /* Two exports have the same name. */
  MULKAVESH_RULE_EXPORT_NAMES = 7,
  /* The start function has parameters or results. */
  MULKAVESH_RULE_START = 8,
  /* The offset of a segment isn't of the type of addresses. */
  MULKAVESH_RULE_OFFSETS = 9,
  /* A body declares more than 50,000 locals. */
  MULKAVESH_RULE_LOCALS = 10
};

/* Why what all edits left can't be written, beside the rules 4, 5 and 7 to 10: what mulkavesh_edit tells with MULKAVESH_BAD_MODULE. */
enum {
  /* It names an item that is gone. */
  MULKAVESH_CAUSE_GONE = 11,
  /* An item stands in it twice. */
  MULKAVESH_CAUSE_TWO_INDICES = 12,
  /* It names an item that stands nowhere. */
  MULKAVESH_CAUSE_NO_INDEX = 13,
  /* A body or an expression of it can't be spelled. */
  MULKAVESH_CAUSE_NO_SPELLING = 14
};

/* The version of the library: the major number times 2^16, the minor one times 2^8, and the patch. */
#define MULKAVESH_VERSION 0x000100u
uint32_t mulkavesh_version(void);

/* The module of which the chosen exports are left, without what nothing reaches then. */
uint32_t mulkavesh_gc(const uint8_t *input, size_t input_length, uint32_t flags, const uint8_t *choice, size_t choice_length,
                      uint8_t *output, size_t room, size_t *length);

/* What mulkavesh_gc keeps and drops, as lines of text: seven of items, as `functions kept 19 dropped 1`, and of bytes `bytes read 2073 written 1991`,
 * `bytes of dropped functions 60`, which their bodies have in the input, `bytes of debug information 0`, which `.debug` sections have there, and
 * `bytes of the rest 22 less`, or `more`. Where the output is longer than the input a line more says why it may be. */
uint32_t mulkavesh_report(const uint8_t *input, size_t input_length, uint32_t flags, const uint8_t *choice, size_t choice_length,
                          uint8_t *output, size_t room, size_t *length);

/* What is wrong with bytes that aren't accepted: eight bytes, two numbers of 32 bits, little-endian, a MULKAVESH_FAULT_.. and what it says stands in
 * the second one. Both are 0 exactly where the bytes are accepted. Where several things are wrong, one of them is told. The status is never
 * MULKAVESH_INVALID; MULKAVESH_TOO_LARGE is for a second number past 32 bits. Of the flags MULKAVESH_NO_LEGACY alone has a say. */
uint32_t mulkavesh_diagnose(const uint8_t *input, size_t input_length, uint32_t flags, uint8_t *output, size_t room, size_t *length);

/* The functions with a body that mulkavesh_gc keeps, by rising index. For each of them three numbers of 32 bits, little-endian: its index in the input,
 * the bytes of its body in the output, and the length of its name or MULKAVESH_NO_NAME; and then the name as the input's name section has it, in UTF-8.
 * Of the flags MULKAVESH_NO_LEGACY alone has a say. */
uint32_t mulkavesh_list(const uint8_t *input, size_t input_length, uint32_t flags, const uint8_t *choice, size_t choice_length,
                        uint8_t *output, size_t room, size_t *length);

/* The functions with a body that mulkavesh_gc drops, as mulkavesh_list tells those that it keeps, but with the bytes of the body in the input. */
uint32_t mulkavesh_dropped(const uint8_t *input, size_t input_length, uint32_t flags, const uint8_t *choice, size_t choice_length,
                           uint8_t *output, size_t room, size_t *length);

/* The exports that stay, in the order of the input. For each a byte, a MULKAVESH_EXTERN_..; the index of what is exported, in the input; the length of the
 * name; and the name, in UTF-8. Numbers are of 32 bits, little-endian. Of the flags MULKAVESH_NO_LEGACY alone has a say. */
uint32_t mulkavesh_exports(const uint8_t *input, size_t input_length, uint32_t flags, const uint8_t *choice, size_t choice_length,
                           uint8_t *output, size_t room, size_t *length);

/* The imports that mulkavesh_gc keeps, in the order of the input. For each a byte, a MULKAVESH_EXTERN_..; the index of what is imported, in the input; the
 * length of the module's name, and that name; the length of its own name, and that one. Numbers are of 32 bits, little-endian, and names in UTF-8. Of the
 * flags MULKAVESH_NO_LEGACY alone has a say. */
uint32_t mulkavesh_imports(const uint8_t *input, size_t input_length, uint32_t flags, const uint8_t *choice, size_t choice_length,
                           uint8_t *output, size_t room, size_t *length);

/* What sections stand in the bytes, by their framing alone: an id, a size and so many bytes, which in a custom section begin with its name in UTF-8. What else
 * stands in them, and in which order they come, isn't looked at. First a byte, which is 1 where sections reach the end of the input and else 0, and the place where
 * they end: the length of the input, or where no section stands. Behind that for each section its id, a byte; a byte that is 1 where a count of entries stands in
 * front of its content and else 0; the place of its id; how many bytes all of it has; the count of its entries, 0 where none stands; the length of the name of a
 * custom section, or MULKAVESH_NO_NAME of others; and the name. Places, counts and lengths are numbers of 32 bits, little-endian, and places are in bytes from the
 * start. MULKAVESH_INVALID exactly where the magic number and the version don't stand in front; MULKAVESH_TOO_LARGE where a number passes 32 bits. */
uint32_t mulkavesh_sections(const uint8_t *input, size_t input_length, uint8_t *output, size_t room, size_t *length);

/* What stands in a module, as mulkavesh_sections tells it: each section, and behind one of code each function in it, as a section with the number
 * MULKAVESH_FUNCTION, behind one of data each data segment, as one with the number MULKAVESH_SEGMENT. Their place is that of the first byte of a function's
 * body, behind its size, and of a segment's first byte; the count is their index, where imported functions have the first ones; and they have no name. The
 * first byte is 1. MULKAVESH_INVALID exactly where the bytes aren't the sections of a module, read to their ends; MULKAVESH_TOO_LARGE where a number passes
 * 32 bits. */
uint32_t mulkavesh_parts(const uint8_t *input, size_t input_length, uint8_t *output, size_t room, size_t *length);

/* The module without the custom sections that are chosen. All else is as it stands, byte for byte: nothing is read but where sections begin and end and what
 * custom ones are called, so that the module may break other rules. Debug information (`.debug_info`), names (`name`) and producers are custom sections as any.
 * `choice` is a list of NAMEs. The byte is 0 where the custom sections whose name the NAME fits go, and 1 where they stay after all. MULKAVESH_NOT_FOUND where
 * a NAME behind 0 fits no custom section; MULKAVESH_INVALID exactly where the bytes aren't a header and whole sections. */
uint32_t mulkavesh_strip(const uint8_t *input, size_t input_length, const uint8_t *choice, size_t choice_length, uint8_t *output, size_t room, size_t *length);

/* Why mulkavesh_gc keeps a function, or another item that is exported. `function` is the index of a function, in decimal; or else the name of one, of which
 * the first is meant; or else that of an export, and then its item is meant. First the item: a byte, a MULKAVESH_KIND_.., and its index. Then a byte, a
 * MULKAVESH_ROOT_... Then a byte that is 1 where the item is a function with a body that stays, and how many functions stay that wouldn't if it trapped,
 * itself among them, and how many bytes their bodies have in the output; 0, 0 and 0 of others. Behind that the links of a chain of references that
 * leads to the item, from what is a root by itself down to the item. For each link a byte, a MULKAVESH_KIND_..; its index; the bytes that its body has in the output, or
 * MULKAVESH_NO_NAME of what isn't a function with a body; the length of its name or MULKAVESH_NO_NAME; the name; how many exports that stay are of it, and for each
 * of them the length of its name, and the name. Numbers are of 32 bits, little-endian, and indices those of the input. Which chain it is isn't promised, so
 * a second call may want more room than the first one told: call again with more until the room suffices. Of the flags MULKAVESH_NO_LEGACY alone has a
 * say. MULKAVESH_NOT_FOUND also where `function` means nothing. */
uint32_t mulkavesh_why(const uint8_t *input, size_t input_length, uint32_t flags, const uint8_t *choice, size_t choice_length,
                       const uint8_t *function, size_t function_length, uint8_t *output, size_t room, size_t *length);

/* What stays and refers directly to the item that `function` means, by kind and index: links as mulkavesh_why tells them. */
uint32_t mulkavesh_callers(const uint8_t *input, size_t input_length, uint32_t flags, const uint8_t *choice, size_t choice_length,
                           const uint8_t *function, size_t function_length, uint8_t *output, size_t room, size_t *length);

/* The module where functions trap, whoever calls them, without what nothing reaches then. `function` is a list of records as that of NAMEs, each with the
 * byte 0. A NAME is the index of a function, in decimal; or, with a star in it, means each function with a body whose name it fits, or the name of one
 * of whose exports; or is the name of a function, of which the first is meant; or else that of an export of one. MULKAVESH_NOT_FOUND where a NAME means no function, or
 * an imported one. */
uint32_t mulkavesh_snip(const uint8_t *input, size_t input_length, uint32_t flags, const uint8_t *function, size_t function_length,
                        uint8_t *output, size_t room, size_t *length);

/* The module where functions that were imported are its own ones, which trap, without what nothing reaches then: those from a module that
 * `module`, a list of NAMEs, says, and under a name that `name` says, another one. A list says what a NAME behind 0 fits, and none behind 1. No bytes for
 * `name` say each name, and none for `module` no module. MULKAVESH_NOT_FOUND where no function is imported so. */
uint32_t mulkavesh_stub(const uint8_t *input, size_t input_length, uint32_t flags, const uint8_t *module, size_t module_length,
                        const uint8_t *name, size_t name_length, uint8_t *output, size_t room, size_t *length);

/* The items of the module, each with its id, as records: docs/FORMATS.md, "A list of items". Of the flags MULKAVESH_NO_LEGACY alone has a say. */
uint32_t mulkavesh_read(const uint8_t *input, size_t input_length, uint32_t flags, uint8_t *output, size_t room, size_t *length);

/* The module that edits make of the input, each in its turn: `edits` is a list of records, as docs/FORMATS.md has it, "A list of edits". Wherever wasm has an
 * index, an edit has an id: that of an item of the input is its index there, and what is added has the next ones. So any library for wasm makes the bodies and
 * sections in it; `07 05 01 01 66 00 00` exports function 0 as `f`. With MULKAVESH_GC what nothing reaches goes in the end. MULKAVESH_INVALID for the input alone. */
uint32_t mulkavesh_edit(const uint8_t *input, size_t input_length, uint32_t flags, const uint8_t *edits, size_t edits_length,
                        uint8_t *output, size_t room, size_t *length);

#ifdef __cplusplus
}
#endif

#endif
