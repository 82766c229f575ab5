/* Between a program and the C library: counts the growths of memory, and refuses those that the
   environment names, from REFUSE_FROM to REFUSE_TO, the first one 1. At the end it writes how many
   there were to the file that GROWTHS names. */
#include <errno.h>
#include <stddef.h>
#include <stdio.h>
#include <stdlib.h>
#include <sys/syscall.h>
#include <unistd.h>

extern void *__libc_malloc(size_t);
extern void *__libc_calloc(size_t, size_t);
extern void *__libc_realloc(void *, size_t);
extern void *__libc_memalign(size_t, size_t);

static long met, first, last;

__attribute__((constructor)) static void begin(void) {
  const char *from = getenv("REFUSE_FROM"), *to = getenv("REFUSE_TO");
  met = 0;
  first = from ? atol(from) : 0;
  last = to ? atol(to) : -1;
}

static void report(void) {
  const char *name = getenv("GROWTHS");
  FILE *file;
  long count = met;
  first = 0;
  last = -1;
  if (name && (file = fopen(name, "w"))) {
    fprintf(file, "%ld", count);
    fclose(file);
  }
}

__attribute__((destructor)) static void end(void) { report(); }

/* A program with threads ends by this, past all destructors. */
void _exit(int status) {
  report();
  syscall(SYS_exit_group, status);
  __builtin_unreachable();
}

static int refused(void) {
  long now = __atomic_add_fetch(&met, 1, __ATOMIC_SEQ_CST);
  if (now < first || last < now) return 0;
  errno = ENOMEM;
  return 1;
}

void *malloc(size_t size) { return refused() ? NULL : __libc_malloc(size); }

void *calloc(size_t count, size_t size) { return refused() ? NULL : __libc_calloc(count, size); }

void *realloc(void *old, size_t size) { return refused() ? NULL : __libc_realloc(old, size); }

void *aligned_alloc(size_t align, size_t size) {
  return refused() ? NULL : __libc_memalign(align, size);
}

int posix_memalign(void **out, size_t align, size_t size) {
  if (refused()) return ENOMEM;
  *out = __libc_memalign(align, size);
  return *out ? 0 : ENOMEM;
}
