// Stands between a program and the C library, by LD_PRELOAD, so that a request of the program fails.
// Requests of a kind are numbered from 1. The variable OUTSIDE says what happens:
//   count          nothing, but the number of requests for memory is told on standard error
//   memory N       request N for memory is refused
//   memories N     this one, and all after it. With a 1 behind N the number of requests is told here too
//   threads N      thread N, and all after it, can't be made
//   open N E       opening N of a file fails with error E; so do read and write. Where E is 0 a read
//                  finds the end of the file, and a write writes nothing
//   cut N          the file is cut off where read N begins
//   pieces         a read or a write moves 7 bytes at most, and each second one is interrupted
#define _GNU_SOURCE
#include <dlfcn.h>
#include <errno.h>
#include <fcntl.h>
#include <pthread.h>
#include <stdarg.h>
#include <stdio.h>
#include <stdlib.h>
#include <string.h>
#include <sys/syscall.h>
#include <unistd.h>

extern void *__libc_malloc(size_t size), *__libc_realloc(void *old, size_t size);

static char what[16];
static long at, error, requests, threads, opens, reads, writes;

static int is(const char *name) { return strcmp(what, name) == 0; }

__attribute__((constructor)) static void begin(void) {
  const char *said = getenv("OUTSIDE");
  if (said) sscanf(said, "%15s %ld %ld", what, &at, &error);
  if (is("pieces")) error = EINTR;
  requests = threads = opens = reads = writes = 0;
}

__attribute__((destructor)) static void end(void) {
  if (is("count") || ((is("memory") || is("memories")) && error)) dprintf(2, "%ld\n", requests);
}

// A program with threads ends by this call, and no destructor runs.
void _exit(int status) {
  end();
  for (;;) syscall(SYS_exit_group, status);
}

// Several threads may ask at once, so each has a number of its own.
static int refused(void) {
  long number = __atomic_add_fetch(&requests, 1, __ATOMIC_RELAXED);
  if (!(is("memory") && number == at) && !(is("memories") && number >= at)) return 0;
  errno = ENOMEM;
  return 1;
}

void *malloc(size_t size) { return refused() ? NULL : __libc_malloc(size); }

void *realloc(void *old, size_t size) { return refused() ? NULL : __libc_realloc(old, size); }

typedef void *work(void *);
typedef int make_thread(pthread_t *, const pthread_attr_t *, work *, void *);

int pthread_create(pthread_t *thread, const pthread_attr_t *how, work *does, void *given) {
  if (__atomic_add_fetch(&threads, 1, __ATOMIC_RELAXED) >= at && is("threads")) return EAGAIN;
  return ((make_thread *)dlsym(RTLD_NEXT, "pthread_create"))(thread, how, does, given);
}

// Whether this call, the nth of its name, fails.
static int fails(const char *name, long n) {
  return (is(name) && n == at) || (is("pieces") && n % 2 == 0);
}

// The answer of a call that fails.
static int failure(void) {
  errno = error;
  return error == 0 ? 0 : -1;
}

static size_t piece(size_t size) { return is("pieces") && size > 7 ? 7 : size; }

int open(const char *name, int flags, ...) {
  va_list rest;
  va_start(rest, flags);
  int mode = flags & O_CREAT ? va_arg(rest, int) : 0;
  va_end(rest);
  if (fails("open", ++opens)) return failure();
  return syscall(SYS_openat, AT_FDCWD, name, flags, mode);
}

ssize_t read(int file, void *bytes, size_t size) {
  char name[32];
  if (fails("read", ++reads)) return failure();
  snprintf(name, sizeof name, "/proc/self/fd/%d", file);
  if (is("cut") && reads == at && truncate(name, lseek(file, 0, SEEK_CUR)) != 0) abort();
  return syscall(SYS_read, file, bytes, piece(size));
}

ssize_t write(int file, const void *bytes, size_t size) {
  if (fails("write", ++writes)) return failure();
  return syscall(SYS_write, file, bytes, piece(size));
}
