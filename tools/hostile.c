// Runs a program under limits: hostile MEMORY SECONDS REPORT PROGRAM [WORD..]. MEMORY is bytes of address space, SECONDS of
// processor time; REPORT is the descriptor to which its status (128 and the signal's number where one ended it), its
// processor time in microseconds and its peak memory in KiB go. It is small, since a child's peak counts what its parent
// held when it was made. It is built by tools/hostile, and no part of the program.
#include <stdio.h>
#include <stdlib.h>
#include <sys/resource.h>
#include <sys/wait.h>
#include <unistd.h>

static void limit(int what, const char *to) {
  struct rlimit it;
  it.rlim_cur = it.rlim_max = strtoull(to, NULL, 10);
  if (setrlimit(what, &it)) _exit(126);
}

static long microseconds(struct timeval it) {
  return it.tv_sec * 1000000L + it.tv_usec;
}

int main(int count, char **words) {
  struct rusage used;
  int status;
  if (count < 5) return 2;
  pid_t child = fork();
  if (child < 0) return 2;
  if (child == 0) {
    close(atoi(words[3]));
    limit(RLIMIT_AS, words[1]);
    limit(RLIMIT_CPU, words[2]);
    execv(words[4], words + 4);
    _exit(127);
  }
  if (wait4(child, &status, 0, &used) < 0) return 2;
  status = WIFEXITED(status) ? WEXITSTATUS(status) : 128 + WTERMSIG(status);
  dprintf(atoi(words[3]), "%d %ld %ld\n", status, microseconds(used.ru_utime) + microseconds(used.ru_stime), used.ru_maxrss);
  return 0;
}
