/* Between a program and the C library: reads, writes to standard output, and writes to other files
   fail after so many bytes as the environment says (FAIL_READS, FAIL_OUTPUT, FAIL_FILES), each
   counted over all of its kind. */
#include <errno.h>
#include <stddef.h>
#include <stdlib.h>
#include <sys/syscall.h>
#include <sys/types.h>
#include <unistd.h>

static long left_of(const char *name) {
  const char *text = getenv(name);
  return text ? atol(text) : -1;
}

static long reads, output, files;
__attribute__((constructor)) static void begin(void) {
  reads = left_of("FAIL_READS");
  output = left_of("FAIL_OUTPUT");
  files = left_of("FAIL_FILES");
}

/* Does as much of a call as is left, none for no limit. */
static ssize_t limited(long number, int file, const void *bytes, size_t count, long *left) {
  if (left && *left == 0 && count) {
    errno = EIO;
    return -1;
  }
  if (left && *left > 0 && count > (size_t)*left) count = (size_t)*left;
  ssize_t done = syscall(number, file, bytes, count);
  if (left && *left > 0 && done > 0) *left -= done;
  return done;
}

ssize_t read(int file, void *bytes, size_t count) {
  return limited(SYS_read, file, bytes, count, &reads);
}

ssize_t write(int file, const void *bytes, size_t count) {
  return limited(SYS_write, file, bytes, count, file == 1 ? &output : file == 2 ? NULL : &files);
}
