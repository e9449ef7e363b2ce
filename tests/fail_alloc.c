/* Loaded before the C library, it makes one allocation fail, and says so on standard error. The number of that allocation,
   from 1, is in FAIL_AT. It counts those of the program whose name is in FAIL_IN alone, or of each program where that is
   unset. With LINES_IN, a file, it writes there what the program writes on standard output, and before each such text how
   many there were until then. */
#define _GNU_SOURCE
#include <dlfcn.h>
#include <errno.h>
#include <fcntl.h>
#include <stdio.h>
#include <stdlib.h>
#include <string.h>
#include <unistd.h>

static const char said[] = "an allocation fails\n";

static unsigned long count;

static int is_meant(void) {
  const char *name = getenv("FAIL_IN");
  return !name || strcmp(name, program_invocation_short_name) == 0;
}

static int fails(void) {
  static unsigned long fail_at;
  if (count == 0) {
    const char *text = getenv("FAIL_AT");
    fail_at = text && is_meant() ? strtoul(text, NULL, 10) : 0;
  }
  /* threads allocate too */
  if (__atomic_add_fetch(&count, 1, __ATOMIC_RELAXED) != fail_at) return 0;
  if (write(2, said, sizeof said - 1) < 0) abort();
  errno = ENOMEM;
  return 1;
}

/* of one thread's text: what is written in pieces at once isn't told apart */
ssize_t write(int file, const void *text, size_t size) {
  static ssize_t (*real)(int, const void *, size_t);
  static int lines = -1;
  const char *path = getenv("LINES_IN");
  char number[32];
  if (!real) real = (ssize_t (*)(int, const void *, size_t))dlsym(RTLD_NEXT, "write");
  if (path && file == 1) {
    if (lines < 0) lines = open(path, O_WRONLY | O_CREAT | O_TRUNC | O_CLOEXEC, 0666);
    if (real(lines, number, (size_t)snprintf(number, sizeof number, "%lu ", count)) < 0) abort();
    if (real(lines, text, size) < 0) abort();
  }
  return real(file, text, size);
}

void *malloc(size_t size) {
  static void *(*real)(size_t);
  if (!real) real = (void *(*)(size_t))dlsym(RTLD_NEXT, "malloc");
  return fails() ? NULL : real(size);
}

void *realloc(void *old, size_t size) {
  static void *(*real)(void *, size_t);
  if (!real) real = (void *(*)(void *, size_t))dlsym(RTLD_NEXT, "realloc");
  return fails() ? NULL : real(old, size);
}
