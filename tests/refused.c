// Lets one request for memory of a program fail: the one of the number REFUSED, counted from 1. Where that is 0, none fails, and the count of all
// goes to the descriptor TOLD at the end. tests/refused.py puts this before a program by LD_PRELOAD.
#include <errno.h>
#include <stddef.h>
#include <stdio.h>
#include <stdlib.h>
#include <unistd.h>

extern void *__libc_malloc(size_t);
extern void *__libc_calloc(size_t, size_t);
extern void *__libc_realloc(void *, size_t);

static long count, refused = -1;

static long number(const char *name) {
  const char *word = getenv(name);
  return word ? atol(word) : 0;
}

static int fails(void) {
  if (refused < 0) refused = number("REFUSED");
  if (++count != refused) return 0;
  errno = ENOMEM;
  return 1;
}

void *malloc(size_t size) { return fails() ? NULL : __libc_malloc(size); }
void *calloc(size_t items, size_t size) { return fails() ? NULL : __libc_calloc(items, size); }
void *realloc(void *old, size_t size) { return fails() ? NULL : __libc_realloc(old, size); }

__attribute__((destructor)) static void tell(void) {
  char text[32];
  if (refused == 0 && write((int)number("TOLD"), text, (size_t)snprintf(text, sizeof text, "%ld\n", count)) < 0) _exit(1);
}
