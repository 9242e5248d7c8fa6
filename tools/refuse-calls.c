// Stands before the C library's allocator, read and write, and refuses one call: REFUSE=KIND:N, where KIND is allocation,
// read, write (to the output) or tell (a write to the error output), and N counts the calls of that kind from 1. Under
// REFUSE=short each read and each write moves one byte at most. At the end the numbers of calls go to descriptor COUNTS.
// It is preloaded by tools/refuse-calls, and no part of the program.
#define _GNU_SOURCE
#include <errno.h>
#include <stdio.h>
#include <stdlib.h>
#include <string.h>
#include <sys/syscall.h>
#include <unistd.h>

extern void *__libc_malloc(size_t);
extern void *__libc_calloc(size_t, size_t);
extern void *__libc_realloc(void *, size_t);

enum { ALLOCATION, READ, WRITE, TELL, KINDS };

static const char *const names[KINDS] = {"allocation:", "read:", "write:", "tell:"};
static unsigned long made[KINDS], refused[KINDS];
static int moves_one;

static int is_refused(int kind, int with) {
  if (++made[kind] != refused[kind]) return 0;
  errno = with;
  return 1;
}

void *malloc(size_t size) {
  return is_refused(ALLOCATION, ENOMEM) ? NULL : __libc_malloc(size);
}

void *calloc(size_t count, size_t size) {
  return is_refused(ALLOCATION, ENOMEM) ? NULL : __libc_calloc(count, size);
}

void *realloc(void *old, size_t size) {
  return is_refused(ALLOCATION, ENOMEM) ? NULL : __libc_realloc(old, size);
}

ssize_t read(int from, void *to, size_t size) {
  if (is_refused(READ, EIO)) return -1;
  return syscall(SYS_read, from, to, moves_one && size > 1 ? 1 : size);
}

ssize_t write(int to, const void *from, size_t size) {
  if (is_refused(to == STDERR_FILENO ? TELL : WRITE, EIO)) return -1;
  return syscall(SYS_write, to, from, moves_one && size > 1 ? 1 : size);
}

__attribute__((constructor)) static void begin(void) {
  const char *wanted = getenv("REFUSE");
  memset(made, 0, sizeof made);
  if (!wanted) return;
  moves_one = !strcmp(wanted, "short");
  for (int kind = 0; kind < KINDS; kind++) {
    size_t length = strlen(names[kind]);
    if (!strncmp(wanted, names[kind], length)) refused[kind] = strtoul(wanted + length, NULL, 10);
  }
}

__attribute__((destructor)) static void end(void) {
  const char *counts = getenv("COUNTS");
  char text[100];
  if (!counts) return;
  int length = snprintf(text, sizeof text, "%lu %lu %lu %lu", made[ALLOCATION], made[READ], made[WRITE], made[TELL]);
  syscall(SYS_write, atoi(counts), text, length);
}
