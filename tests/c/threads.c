// threads FILE..: four threads at once, each of which makes calls over the modules again and again; each has to answer what one call answers alone. Prints the
// counts.
#include <pthread.h>
#include <stdio.h>

#include "calls.h"

#define THREADS 4
#define TURNS 40

struct module {
  uint8_t *input;
  size_t size;
  uint32_t status;
  uint8_t *output;
  size_t length;
};

static struct module modules[64];
static int count;
static const struct asked asked = {"gc", 0, NULL, 0, NULL, 0};

static uint8_t *some(size_t size) {
  uint8_t *bytes = malloc(size + 1);
  if (!bytes) exit(9);
  return bytes;
}

static void take(const char *path) {
  FILE *file = fopen(path, "rb");
  if (!file || count == 64) exit(9);
  struct module *it = &modules[count++];
  fseek(file, 0, SEEK_END);
  it->size = (size_t)ftell(file);
  rewind(file);
  it->input = some(it->size);
  it->output = some(it->size + 256);
  if (fread(it->input, 1, it->size, file) != it->size) exit(9);
  fclose(file);
  it->status = answer(&asked, it->input, it->size, it->output, it->size + 256, &it->length);
}

static void *work(void *finds) {
  for (int turn = 0; turn < TURNS; turn++)
    for (int i = 0; i < count; i++) {
      struct module *it = &modules[i];
      uint8_t *output = some(it->size + 256);
      size_t length = 0;
      uint32_t status = answer(&asked, it->input, it->size, output, it->size + 256, &length);
      if (status != it->status || length != it->length || memcmp(output, it->output, status ? 0 : length)) ++*(long *)finds;
      free(output);
    }
  return NULL;
}

int main(int words, char **paths) {
  for (int i = 1; i < words; i++) take(paths[i]);
  pthread_t threads[THREADS];
  long finds[THREADS] = {0}, all = 0;
  for (int i = 0; i < THREADS; i++)
    if (pthread_create(&threads[i], NULL, work, &finds[i])) return 9;
  for (int i = 0; i < THREADS; i++) {
    pthread_join(threads[i], NULL);
    all += finds[i];
  }
  for (int i = 0; i < count; i++) free(modules[i].input), free(modules[i].output);
  printf("%d calls in %d threads at once, %ld finds\n", THREADS * TURNS * count, THREADS, all);
  return all > 0;
}
