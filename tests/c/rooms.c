// rooms FILE..: each call over each module in rooms of every length from none to one more than is wanted. Input, bytes and room end where no memory is: at
// a page that can't be touched, or, where it is compiled with IN_BLOCKS for AddressSanitizer, at the end of a block of their size. Each call has to answer as it
// does in ample room, and to leave what it doesn't write as it was. Prints the counts, and a line for each find.
#include <stdio.h>
#include <sys/mman.h>
#include <unistd.h>

#include "calls.h"

#define UNTOUCHED 0xA5
#define BYTES(text) (const uint8_t *)text, sizeof text - 1
#define NONE NULL, 0

static long finds, calls;

static void *checked(void *block) {
  if (!block || block == MAP_FAILED) {
    perror("rooms");
    exit(9);
  }
  return block;
}

// Bytes that end where no memory is; they are given back by `drop`.
#ifdef IN_BLOCKS
static uint8_t *take(size_t size) { return checked(malloc(size)); }
static void drop(uint8_t *bytes, size_t size) { (void)size, free(bytes); }
static void lock(uint8_t *bytes, size_t size) { (void)bytes, (void)size; }
#else
static size_t whole(size_t size) { return (size / 4096 + 1) * 4096; }
static uint8_t *take(size_t size) {
  uint8_t *block = checked(mmap(NULL, whole(size) + 4096, PROT_READ | PROT_WRITE, MAP_PRIVATE | MAP_ANONYMOUS, -1, 0));
  if (mprotect(block + whole(size), 4096, PROT_NONE)) checked(NULL);
  return block + whole(size) - size;
}
static void drop(uint8_t *bytes, size_t size) { munmap(bytes + size - whole(size), whole(size) + 4096); }
static void lock(uint8_t *bytes, size_t size) {
  if (mprotect(bytes + size - whole(size), whole(size), PROT_READ)) checked(NULL);
}
#endif

static uint8_t *read_file(const char *path, size_t *size) {
  FILE *file = checked(fopen(path, "rb"));
  fseek(file, 0, SEEK_END);
  *size = (size_t)ftell(file);
  rewind(file);
  uint8_t *bytes = take(*size);
  if (fread(bytes, 1, *size, file) != *size) checked(NULL);
  fclose(file);
  lock(bytes, *size);
  return bytes;
}

static void find(const char *path, const struct asked *asked, size_t room, const char *why) {
  printf("FIND %s: %s %u, with %zu and %zu bytes, room %zu: %s\n", path, asked->call, asked->flags, asked->count, asked->more_count, room, why);
  finds++;
}

static int are_untouched(const uint8_t *bytes, size_t count) {
  for (size_t i = 0; i < count; i++)
    if (bytes[i] != UNTOUCHED) return 0;
  return 1;
}

// One call in a room, which has to answer so. The length is that of the answer, or the number that is told where something isn't found.
static void in_room(const char *path, const struct asked *asked, const uint8_t *input, size_t size, size_t room, uint32_t wanted, const uint8_t *output, size_t length) {
  uint8_t *here = take(room);
  size_t told = 12345;
  memset(here, UNTOUCHED, room);
  uint32_t status = answer(asked, input, size, here, room, &told);
  if (wanted == MULKAVESH_DONE && room < length) wanted = MULKAVESH_NO_ROOM;
  size_t written = wanted == MULKAVESH_DONE ? length : 0;
  if (status != wanted) find(path, asked, room, "another status");
  else if (told != length) find(path, asked, room, "another length");
  else if (written && memcmp(here, output, written)) find(path, asked, room, "other bytes");
  else if (!are_untouched(here + written, room - written)) find(path, asked, room, "the rest of the room is written");
  drop(here, room);
  calls++;
}

// A call in rooms of every length, beside what it answers in ample room.
static void in_rooms(const char *path, const struct asked *asked, const uint8_t *input, size_t size) {
  // a function of a byte is told in eighteen
  size_t ample = 18 * size + 4096, length = 0;
  uint8_t *output = take(ample);
  uint32_t status = answer(asked, input, size, output, ample, &length);
  if (status == MULKAVESH_NO_ROOM) find(path, asked, ample, "ample room is none");
  size_t last = status == MULKAVESH_DONE ? length + 1 : 1;
  for (size_t room = 0; room <= last; room++) in_room(path, asked, input, size, room, status, output, length);
  drop(output, ample);
}

// A copy that ends where no memory is.
static const uint8_t *copy(const uint8_t *bytes, size_t count) {
  uint8_t *here = take(count);
  return count ? memcpy(here, bytes, count) : here;
}

static const struct asked all[] = {
    {"gc", 0, NONE, NONE}, {"gc", 7, NONE, NONE}, {"gc", 8, NONE, NONE}, {"gc", UINT32_MAX, NONE, NONE}, {"gc", 0, BYTES("\1\1\0\0\0*\0\2\0\0\0m*"), NONE},
    {"gc", 0, BYTES("\1\1\0\0\0*\1\4\0\0\0none"), NONE}, {"gc", 0, BYTES("\1"), NONE}, {"gc", 0, BYTES("\1\xFF\xFF\xFF\xFF"), NONE},
    {"report", 0, NONE, NONE}, {"report", 8, NONE, NONE}, {"report", 3, BYTES("\0\1\0\0\0*"), NONE},
    {"diagnose", 0, NONE, NONE}, {"diagnose", 4, NONE, NONE}, {"diagnose", 8, NONE, NONE},
    {"list", 0, NONE, NONE}, {"list", 8, NONE, NONE}, {"list", 0, BYTES("\0\1\0\0\0*"), NONE}, {"dropped", 0, NONE, NONE}, {"dropped", 0, BYTES("\0\1\0\0\0*"), NONE},
    {"exports", 0, NONE, NONE}, {"exports", 0, BYTES("\1\2\0\0\0*e"), NONE}, {"imports", 0, NONE, NONE}, {"imports", 0, BYTES("\0\1\0\0\0*"), NONE},
    {"why", 0, NONE, BYTES("0")}, {"why", 0, NONE, BYTES("5")}, {"why", 8, NONE, BYTES("0")}, {"why", 0, NONE, BYTES("4294967296")}, {"why", 0, NONE, NONE},
    {"why", 0, NONE, BYTES("memory")}, {"why", 0, NONE, BYTES("\xFF")}, {"why", 0, BYTES("\0\1\0\0\0*"), BYTES("1")}, {"why", 0, BYTES("\1\4\0\0\0none"), BYTES("1")},
    {"callers", 0, NONE, BYTES("0")}, {"callers", 0, NONE, BYTES("1")}, {"callers", 0, BYTES("\2"), BYTES("1")}, {"callers", 0, NONE, BYTES("\xFF")},
    {"sections", 0, NONE, NONE}, {"parts", 0, NONE, NONE}, {"read", 0, NONE, NONE}, {"read", 4, NONE, NONE}, {"read", 8, NONE, NONE},
    {"edit", 0, NONE, NONE}, {"edit", 8, NONE, NONE}, {"edit", 15, NONE, NONE}, {"edit", 16, NONE, NONE}, {"edit", 0, BYTES("\0\4\1nxy"), NONE},
    {"edit", 8, BYTES("\x07\5\1\1q\0\0\x11\5\x0A\0\0\0\x0B"), NONE}, {"edit", 0, BYTES("\x12\1\x08\x07\5\1\1q\0\x7F"), NONE},
    {"edit", 0, BYTES("\x07\5\1\1q\0\0\x07\5\1\1q\0\0"), NONE}, {"edit", 0, BYTES("\x07\x06\1\1q\0\0"), NONE}, {"edit", 0, BYTES("\x63"), NONE},
    {"strip", 0, NONE, NONE}, {"strip", 0, BYTES("\0\x0F\0\0\0target_features"), NONE}, {"strip", 0, BYTES("\0\1\0\0\0*"), NONE},
    {"strip", 0, BYTES("\0\2\0\0\0*s\1\4\0\0\0name"), NONE}, {"strip", 0, BYTES("\1\1\0\0\0*"), NONE}, {"strip", 0, BYTES("\0\0\0\0\0"), NONE},
    {"strip", 0, BYTES("\0\2\0\0\0*"), NONE}, {"strip", 0, BYTES("\2\0\0\0\0"), NONE}, {"strip", 0, BYTES("\0"), NONE}, {"strip", 0, BYTES("\0\xFF\xFF\xFF\xFF"), NONE},
    {"snip", 0, NONE, NONE}, {"snip", 0, BYTES("\0\1\0\0\0f"), NONE}, {"snip", 3, BYTES("\0\1\0\0\0*"), NONE}, {"snip", 0, BYTES("\0\1\0\0\0\xFF"), NONE},
    {"snip", 0, BYTES("\1\1\0\0\0f"), NONE}, {"snip", 8, BYTES("\0\1\0\0\0f"), NONE}, {"snip", 0, BYTES("\0\1\0\0\0001\0\1\0\0\0002"), NONE},
    {"stub", 0, BYTES("\0\3\0\0\0env"), NONE}, {"stub", 0, NONE, NONE}, {"stub", 0, BYTES("\0\1\0\0\0*"), BYTES("\0\1\0\0\0*\1\2\0\0\0f*")},
    {"stub", 0, BYTES("\0\1\0\0\0\xFF"), NONE}, {"stub", 0, BYTES("\0\1\0\0\0*"), BYTES("\0")}, {"stub", 8, BYTES("\0\1\0\0\0*"), NONE}};

int main(int count, char **paths) {
  for (int i = 1; i < count; i++) {
    size_t size;
    uint8_t *input = read_file(paths[i], &size);
    for (size_t which = 0; which < sizeof all / sizeof *all; which++) {
      struct asked asked = all[which];
      asked.bytes = copy(asked.bytes, asked.count), asked.more = copy(asked.more, asked.more_count);
      in_rooms(paths[i], &asked, input, size);
      drop((uint8_t *)asked.bytes, asked.count), drop((uint8_t *)asked.more, asked.more_count);
    }
    drop(input, size);
  }
  printf("%ld calls over %d modules in rooms of every length, %ld finds\n", calls, count - 1, finds);
  return finds > 0;
}
