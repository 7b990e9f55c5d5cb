// Loaded before the C library by tools/try-refusals: the allocation with the number in REFUSED gets no memory, counted
// from 1 over calls of malloc and realloc; with REFUSED_ON set, so do all behind it. The program asks for memory in these
// two ways alone: its heap has two calls that give memory, one over malloc and one over realloc.
#define _GNU_SOURCE
#include <dlfcn.h>
#include <stdlib.h>

static long refused, refused_on, calls;
static void *(*library_malloc)(size_t);
static void *(*library_realloc)(void *, size_t);

__attribute__((constructor)) static void begin(void) {
  library_malloc = dlsym(RTLD_NEXT, "malloc");
  library_realloc = dlsym(RTLD_NEXT, "realloc");
  const char *number = getenv("REFUSED");
  refused_on = getenv("REFUSED_ON") != NULL;
  refused = number ? atol(number) : 0;
  calls = 0;
}

static int is_refused(void) {
  calls++;
  return refused > 0 && (refused_on ? calls >= refused : calls == refused);
}

void *malloc(size_t size) {
  if (!library_malloc) library_malloc = dlsym(RTLD_NEXT, "malloc");
  return is_refused() ? NULL : library_malloc(size);
}

void *realloc(void *old, size_t size) {
  if (!library_realloc) library_realloc = dlsym(RTLD_NEXT, "realloc");
  return is_refused() ? NULL : library_realloc(old, size);
}
