// One form for all calls: by its name, with flags, and bytes of two kinds where it takes them: first a list of NAMEs or of edits, and then another one or a text.
#ifndef CALLS_H
#define CALLS_H

#include <stdlib.h>
#include <string.h>

#include "mulkavesh.h"

struct asked {
  const char *call;
  uint32_t flags;
  const uint8_t *bytes;
  size_t count;
  const uint8_t *more;
  size_t more_count;
};

// What no call answers: there is no such call.
#define NO_SUCH_CALL 100u

// The calls that take a module and flags alone.
static uint32_t of_flags(const struct asked *it, const uint8_t *input, size_t size, uint8_t *output, size_t room, size_t *length) {
  if (!strcmp(it->call, "diagnose")) return mulkavesh_diagnose(input, size, it->flags, output, room, length);
  if (!strcmp(it->call, "sections")) return mulkavesh_sections(input, size, output, room, length);
  if (!strcmp(it->call, "parts")) return mulkavesh_parts(input, size, output, room, length);
  if (!strcmp(it->call, "read")) return mulkavesh_read(input, size, it->flags, output, room, length);
  return NO_SUCH_CALL;
}

// Those that take a choice of exports, and some a text; and one that takes a list of edits.
static uint32_t of_choice(const struct asked *it, const uint8_t *input, size_t size, uint8_t *output, size_t room, size_t *length) {
  static const struct {
    const char *call;
    uint32_t (*is)(const uint8_t *, size_t, uint32_t, const uint8_t *, size_t, uint8_t *, size_t, size_t *);
  } calls[] = {{"gc", mulkavesh_gc}, {"report", mulkavesh_report}, {"list", mulkavesh_list}, {"dropped", mulkavesh_dropped}, {"exports", mulkavesh_exports}, {"imports", mulkavesh_imports}, {"edit", mulkavesh_edit}};
  for (size_t i = 0; i < sizeof calls / sizeof *calls; i++)
    if (!strcmp(it->call, calls[i].call)) return calls[i].is(input, size, it->flags, it->bytes, it->count, output, room, length);
  if (!strcmp(it->call, "why")) return mulkavesh_why(input, size, it->flags, it->bytes, it->count, it->more, it->more_count, output, room, length);
  if (!strcmp(it->call, "callers")) return mulkavesh_callers(input, size, it->flags, it->bytes, it->count, it->more, it->more_count, output, room, length);
  return NO_SUCH_CALL;
}

static uint32_t answer(const struct asked *it, const uint8_t *input, size_t size, uint8_t *output, size_t room, size_t *length) {
  uint32_t status = of_flags(it, input, size, output, room, length);
  if (status != NO_SUCH_CALL) return status;
  if (!strcmp(it->call, "strip")) return mulkavesh_strip(input, size, it->bytes, it->count, output, room, length);
  if (!strcmp(it->call, "snip")) return mulkavesh_snip(input, size, it->flags, it->bytes, it->count, output, room, length);
  if (!strcmp(it->call, "stub")) return mulkavesh_stub(input, size, it->flags, it->bytes, it->count, it->more, it->more_count, output, room, length);
  return of_choice(it, input, size, output, room, length);
}

#endif
