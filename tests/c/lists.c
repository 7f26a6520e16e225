// lists MODULE < CASES: mulkavesh_edit of one module by many lists of edits. A case is its flags and the length of a list, of 32 bits each, little-endian, and the list.
// Asked of each call: it ends by a status that the header has for it; memory that it asks for comes, at any time, to at most 20 times the bytes that are handed over and
// 64 MB, behind which requests are refused; and all of it is given back. What a call doesn't write stays as it was. An output is accepted when it is read again, under the
// same choice of legacy exceptions, and where it was made with gc and without producers, gc leaves it as it is. Where an edit is refused, those in front of it can be made.
// Prints a line for each find, with the number of the case, and then how many calls ended by each status, and the most bytes that one asked for.
#include <malloc.h>
#include <stdio.h>
#include <stdlib.h>
#include <string.h>

#include "mulkavesh.h"

#define TIMES 20
#define BESIDE ((size_t)64 << 20)
#define UNTOUCHED 0xA5
#define BEHIND 64
#define STATUSES 9

extern void *__libc_malloc(size_t);
extern void *__libc_calloc(size_t, size_t);
extern void *__libc_realloc(void *, size_t);
extern void __libc_free(void *);

// What is asked for by the call, now and at the most; and how much it may be. Nothing is counted where that is 0.
static size_t live, peak, most;

static int fits(size_t more) {
  if (!most) return 1;
  if (more > most || live > most - more) return 0;
  if (live + more > peak) peak = live + more;
  return 1;
}

static void *counted(void *block) {
  live += most && block ? malloc_usable_size(block) : 0;
  return block;
}

void *malloc(size_t size) { return fits(size) ? counted(__libc_malloc(size)) : NULL; }
void *calloc(size_t items, size_t size) { return fits(size && items > most / size ? most : items * size) ? counted(__libc_calloc(items, size)) : NULL; }

void free(void *block) {
  live -= most && block ? malloc_usable_size(block) : 0;
  __libc_free(block);
}

// The old block is there beside the new one for a while.
void *realloc(void *old, size_t size) {
  size_t before = most && old ? malloc_usable_size(old) : 0;
  if (!fits(size)) return NULL;
  void *block = counted(__libc_realloc(old, size));
  live -= block ? before : 0;
  return block;
}

struct bytes {
  uint8_t *at;
  size_t count;
};

static long counts[STATUSES], finds, number;
static size_t highest;

static void find(const char *why, uint32_t status) {
  printf("FIND %ld: %s, status %u\n", number, why, status);
  finds++;
}

static struct bytes some(size_t count) {
  struct bytes it = {malloc(count + 1), count};
  if (!it.at) exit(9);
  return it;
}

static struct bytes read_whole(FILE *file) {
  struct bytes it = some(1 << 16);
  size_t size = 0;
  for (size_t got; (got = fread(it.at + size, 1, it.count - size, file)) > 0;) {
    size += got;
    if (size == it.count && !(it.at = realloc(it.at, it.count *= 2))) exit(9);
  }
  it.count = size;
  return it;
}

static int is_untouched(const uint8_t *from, const uint8_t *to) {
  while (from < to && *from == UNTOUCHED) from++;
  return from == to;
}

// One call in this room, whose memory is counted; finds where it keeps some, or writes what it doesn't answer.
static uint32_t in_room(struct bytes module, uint32_t flags, struct bytes list, struct bytes *output, size_t *length) {
  memset(output->at, UNTOUCHED, output->count + BEHIND);
  live = peak = 0, most = TIMES * (module.count + list.count) + BESIDE;
  uint32_t status = mulkavesh_edit(module.at, module.count, flags, list.at, list.count, output->at, output->count, length);
  most = 0;
  if (peak > highest) highest = peak;
  if (live) find("memory is kept", status);
  size_t written = status == MULKAVESH_DONE ? *length : 0;
  if (written > output->count || !is_untouched(output->at + written, output->at + output->count + BEHIND)) find("other bytes are written", status);
  return status;
}

// The same in as much room as it wants; what is written stands in `output` then, which the caller gives back.
static uint32_t edited(struct bytes module, uint32_t flags, struct bytes list, struct bytes *output, size_t *length) {
  *output = some(module.count + list.count + BEHIND), output->count -= BEHIND;
  uint32_t status = in_room(module, flags, list, output, length);
  if (status != MULKAVESH_NO_ROOM) return status;
  if (*length <= output->count) find("ample room is none", status);
  free(output->at);
  *output = some(*length + BEHIND), output->count -= BEHIND;
  return in_room(module, flags, list, output, length);
}

// Where an output isn't accepted, or isn't settled though gc made it.
static void look_again(uint32_t flags, struct bytes output) {
  uint8_t told[8];
  size_t length;
  uint32_t status = mulkavesh_diagnose(output.at, output.count, flags & MULKAVESH_NO_LEGACY, told, sizeof told, &length);
  if (status || memcmp(told, "\0\0\0\0\0\0\0", 8)) find("what is written isn't accepted", status);
  if (!(flags & MULKAVESH_GC) || !(flags & MULKAVESH_NO_PRODUCERS)) return;
  struct bytes again = some(output.count);
  status = mulkavesh_gc(output.at, output.count, flags & ~(uint32_t)MULKAVESH_GC, output.at, 0, again.at, again.count, &length);
  if (status || length != output.count || memcmp(again.at, output.at, length)) find("what is written isn't settled", status);
  free(again.at);
}

// How many bytes the first edits of a list have, or more than all where they aren't so many.
static size_t behind(struct bytes list, size_t edits) {
  size_t at = 0;
  for (; edits && at < list.count; edits--) {
    size_t size = 0, shift = 0;
    do size |= (size_t)(list.at[++at] & 127) << shift, shift += 7;
    while (at < list.count && list.at[at] > 127 && shift < 35);
    at += 1 + size;
  }
  return edits ? list.count + 1 : at;
}

static int is_cause(size_t cause) {
  return cause == MULKAVESH_RULE_FUNCTION_TYPES || cause == MULKAVESH_RULE_LIMITS || (cause >= MULKAVESH_RULE_EXPORT_NAMES && cause <= MULKAVESH_CAUSE_NO_SPELLING);
}

// Where the edits in front of one that is refused can't be made.
static void look_before(struct bytes module, uint32_t flags, struct bytes list, size_t made) {
  struct bytes front = {list.at, behind(list, made)}, output;
  if (front.count > list.count) {
    find("more edits are made than there are", MULKAVESH_BAD_EDIT);
    return;
  }
  size_t length;
  uint32_t status = edited(module, flags, front, &output, &length);
  free(output.at);
  if (status != MULKAVESH_DONE && status != MULKAVESH_BAD_MODULE) find("edits that are made can't be made", status);
}

static void in_case(struct bytes module, uint32_t flags, struct bytes list) {
  struct bytes output;
  size_t length;
  uint32_t status = edited(module, flags, list, &output, &length);
  counts[status < STATUSES ? status : MULKAVESH_NO_ROOM]++;
  if (status == MULKAVESH_DONE) output.count = length, look_again(flags, output);
  else if (status == MULKAVESH_BAD_EDIT) look_before(module, flags, list, length);
  else if (status != MULKAVESH_BAD_MODULE || !is_cause(length)) find("it ends so", status);
  free(output.at);
}

static uint32_t word(const uint8_t *at) { return at[0] | (uint32_t)at[1] << 8 | (uint32_t)at[2] << 16 | (uint32_t)at[3] << 24; }

int main(int words, char **paths) {
  FILE *file = words == 2 ? fopen(paths[1], "rb") : NULL;
  if (!file) return 2;
  struct bytes module = read_whole(file), cases = read_whole(stdin);
  fclose(file);
  for (size_t at = 0; at < cases.count; number++) {
    struct bytes list = some(word(cases.at + at + 4));
    memcpy(list.at, cases.at + at + 8, list.count);
    in_case(module, word(cases.at + at), list);
    at += 8 + list.count;
    free(list.at);
  }
  for (int status = 0; status < STATUSES; status++) printf("%ld ", counts[status]);
  printf("%zu\n", highest);
  return finds > 0;
}
