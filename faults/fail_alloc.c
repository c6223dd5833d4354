// A library to load before a program: the allocation whose number FAIL_ALLOC gives, from 1, finds no
// memory. Where TELL_ALLOCS is set, the number of allocations is written to standard error at the end.
#define _GNU_SOURCE
#include <dlfcn.h>
#include <errno.h>
#include <stdio.h>
#include <stdlib.h>
#include <unistd.h>

static long count;

static int fails(void) {
  const char *number = getenv("FAIL_ALLOC");
  count++;
  if (number == NULL || atol(number) != count) return 0;
  errno = ENOMEM;
  return 1;
}

void *malloc(size_t size) {
  static void *(*next)(size_t);
  if (next == NULL) next = (void *(*)(size_t))dlsym(RTLD_NEXT, "malloc");
  return fails() ? NULL : next(size);
}

void *realloc(void *block, size_t size) {
  static void *(*next)(void *, size_t);
  if (next == NULL) next = (void *(*)(void *, size_t))dlsym(RTLD_NEXT, "realloc");
  return fails() ? NULL : next(block, size);
}

__attribute__((destructor)) static void tell(void) {
  char text[32];
  if (getenv("TELL_ALLOCS") == NULL) return;
  int length = snprintf(text, sizeof text, "%ld\n", count);
  if (write(STDERR_FILENO, text, (size_t)length) != length) _exit(1);
}
