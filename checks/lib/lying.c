/* A program that runs another one (REAL) and lies where memory or a file fails. It takes no memory,
   and reads and writes by system calls alone, so that what stands between a program and the C
   library doesn't meet it. LIE 1: a search that memory cut short is out of memory. LIE 2: where the
   program ends with status 5 a file `new` is left. LIE 3: where no pair is found yet, the figure is
   0. */
#include <fcntl.h>
#include <string.h>
#include <sys/syscall.h>
#include <sys/wait.h>
#include <unistd.h>

static char text[1 << 20];

static void put(int file, const char *bytes, long count) {
  if (syscall(SYS_write, file, bytes, count) != count) syscall(SYS_exit_group, 96);
}

int main(int count, char **words) {
  static const char told[] = "tdelay: out of memory\n", unfound[] = "between none ";
  char *line;
  int pipes[2], status;
  long length = 0, got;
  (void)count;
  if (pipe(pipes)) syscall(SYS_exit_group, 97);
  pid_t child = fork();
  if (child == 0) {
    dup2(pipes[1], 1);
    close(pipes[0]);
    close(pipes[1]);
    execv(REAL, words);
    syscall(SYS_exit_group, 98);
  }
  close(pipes[1]);
  while ((got = syscall(SYS_read, pipes[0], text + length, sizeof text - 1 - length)) > 0)
    length += got;
  waitpid(child, &status, 0);
  status = WIFEXITED(status) ? WEXITSTATUS(status) : 99;
  if (LIE == 1 && status == 3 && strstr(text, "cause memory")) {
    put(2, told, sizeof told - 1);
    status = 5;
  } else {
    if (LIE == 3 && (line = strstr(text, unfound))) line[sizeof unfound - 1] = '0';
    if (LIE == 2 && status == 5) put(open("new", O_WRONLY | O_CREAT | O_TRUNC, 0644), "x", 1);
    put(1, text, length);
  }
  syscall(SYS_exit_group, status);
  return 95;
}
