// call CALL [FLAGS [BYTES [MORE]]] < IN > OUT: one call over standard input, whose answer goes to standard output and whose status is its own. BYTES, a list of
// NAMEs or of edits, and MORE, another list or a text, are in hexadecimal, or `@` and the path of a file that has them. A number that is told where something isn't
// found or an edit is refused goes to standard output, in decimal. It asks for no memory itself, so that each request which is refused is one of the library's.
// Status 90 to 94: what a call leaves isn't what the header says, or can't be written; 95: a file can't be read, or has too many bytes.
#include <fcntl.h>
#include <unistd.h>

#include "calls.h"

#define MOST ((size_t)256 << 20)
#define UNTOUCHED 0xA5
#define BEHIND 64

static uint8_t input[MOST], output[MOST], given[2][1 << 24];

static size_t read_all(int from, uint8_t *to, size_t most) {
  size_t size = 0;
  for (ssize_t got = 1; got > 0; size += got > 0 ? (size_t)got : 0) got = read(from, to + size, most - size);
  return size;
}

static size_t read_file(const char *path, uint8_t *to, size_t most) {
  int file = open(path, O_RDONLY);
  size_t size = file < 0 ? most : read_all(file, to, most);
  if (size == most) _exit(95);
  close(file);
  return size;
}

// Puts the bytes that the digits say, or those of a file, into one of the two places, and tells how many they are.
static size_t bytes_of(const char *digits, int which) {
  if (digits[0] == '@') return read_file(digits + 1, given[which], sizeof *given);
  size_t count = 0;
  for (; digits[0] && digits[1] && count < sizeof *given; digits += 2) {
    const char byte[] = {digits[0], digits[1], 0};
    given[which][count++] = (uint8_t)strtoul(byte, NULL, 16);
  }
  return count;
}

// What the words CALL, FLAGS, BYTES and MORE ask for; the last three may be left out.
static struct asked asked_by(int count, char **words) {
  uint32_t flags = count > 1 ? (uint32_t)strtoul(words[1], NULL, 10) : 0;
  struct asked asked = {words[0], flags, given[0], bytes_of(count > 2 ? words[2] : "", 0), given[1], bytes_of(count > 3 ? words[3] : "", 1)};
  return asked;
}

static int write_all(size_t size) {
  for (size_t done = 0; done < size;) {
    ssize_t put = write(1, output + done, size - done);
    if (put <= 0) return 0;
    done += (size_t)put;
  }
  return 1;
}

// Puts a number in decimal in front of the output, and tells how many digits it has.
static size_t digits_of(size_t number) {
  size_t count = 1, place = 1;
  for (size_t left = number; left > 9; left /= 10) count++;
  for (; place <= count; place++, number /= 10) output[count - place] = (uint8_t)('0' + number % 10);
  return count;
}

static int is_untouched(size_t from, size_t to) {
  while (from < to && output[from] == UNTOUCHED) from++;
  return from >= to;
}

int main(int count, char **words) {
  if (count < 2) return 2;
  struct asked asked = asked_by(count - 1, words + 1);
  size_t size = read_all(0, input, MOST), room = size + 256, length = 12345;
  memset(output, UNTOUCHED, room + BEHIND);
  uint32_t status = answer(&asked, input, size, output, room, &length);
  if (status == MULKAVESH_NO_ROOM) {
    if (length <= room || length + BEHIND > MOST || !is_untouched(0, room + BEHIND)) return 90;
    room = length;
    memset(output, UNTOUCHED, room + BEHIND);
    status = answer(&asked, input, size, output, room, &length);
    if (status == MULKAVESH_NO_ROOM) return 91;
  }
  if (status == NO_SUCH_CALL) return (int)status;
  if (status != MULKAVESH_DONE) {
    int is_told = status == MULKAVESH_NOT_FOUND || status == MULKAVESH_BAD_EDIT || status == MULKAVESH_BAD_MODULE;
    if (!is_untouched(0, room + BEHIND) || (length && !is_told)) return 92;
    return !length || write_all(digits_of(length)) ? (int)status : 94;
  }
  if (length > room || !is_untouched(length, room + BEHIND)) return 93;
  return write_all(length) ? 0 : 94;
}
