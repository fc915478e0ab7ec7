// Stands before the C library (LD_PRELOAD) and lets one of its calls fail: the one that the environment names.
// FAULT_CALL is the function, FAULT_PLACE the number of the call among those of that function, from 1. FAULT_ERROR is
// the number of the error, or 0 for a read or write of one byte alone. FAULT_MARK is a file that gets a line where the
// fault came: the descriptor of a read or a write, and else -1.
// FAULT_FILES, as `a.csv:1:7 b.csv:1:8`, has names of files, each with the number of a file system and that of a file: by
// these the system then knows them.
#define _GNU_SOURCE
#include <dlfcn.h>
#include <errno.h>
#include <fcntl.h>
#include <pthread.h>
#include <stdarg.h>
#include <stdio.h>
#include <stdlib.h>
#include <string.h>
#include <sys/stat.h>
#include <sys/syscall.h>
#include <unistd.h>

static const char *call, *mark;
static long place, error, calls;

__attribute__((constructor)) static void start(void) {
  call = getenv("FAULT_CALL");
  mark = getenv("FAULT_MARK");
  if (!call || !mark) { call = ""; return; }
  place = atol(getenv("FAULT_PLACE"));
  error = atol(getenv("FAULT_ERROR"));
}

// Whether this call is the one that fails; the file then gets its line, by system calls of its own.
static int fails(const char *name, int descriptor) {
  if (!call || strcmp(call, name) != 0) return 0;
  if (__atomic_add_fetch(&calls, 1, __ATOMIC_SEQ_CST) != place) return 0;
  char line[32];
  int size = snprintf(line, sizeof line, "%d\n", descriptor);
  int file = syscall(SYS_openat, AT_FDCWD, mark, O_WRONLY | O_CREAT | O_APPEND, 0600);
  syscall(SYS_write, file, line, size);
  syscall(SYS_close, file);
  errno = error;
  return 1;
}

#define NEXT(name) ((__typeof__(&name))dlsym(RTLD_NEXT, #name))

void *malloc(size_t size) {
  static void *(*next)(size_t);
  if (!next) next = NEXT(malloc);
  return fails("malloc", -1) ? NULL : next(size);
}

void *realloc(void *block, size_t size) {
  static void *(*next)(void *, size_t);
  if (!next) next = NEXT(realloc);
  return fails("realloc", -1) ? NULL : next(block, size);
}

static ssize_t move(const char *name, long number, int descriptor, void *bytes, size_t size) {
  if (!fails(name, descriptor)) return syscall(number, descriptor, bytes, size);
  return error ? -1 : syscall(number, descriptor, bytes, size < 1 ? size : 1);
}

ssize_t read(int from, void *bytes, size_t size) { return move("read", SYS_read, from, bytes, size); }
ssize_t write(int to, const void *bytes, size_t size) { return move("write", SYS_write, to, (void *)bytes, size); }
ssize_t __write(int to, const void *bytes, size_t size) { return write(to, bytes, size); }

int open(const char *name, int flags, ...) {
  va_list rest;
  va_start(rest, flags);
  int mode = va_arg(rest, int);
  va_end(rest);
  return fails("open", -1) ? -1 : syscall(SYS_openat, AT_FDCWD, name, flags, mode);
}

int flock(int descriptor, int how) { return fails("flock", -1) ? -1 : syscall(SYS_flock, descriptor, how); }

int ftruncate(int descriptor, off_t size) {
  return fails("ftruncate", -1) ? -1 : syscall(SYS_ftruncate, descriptor, size);
}

int rename(const char *from, const char *to) {
  return fails("rename", -1) ? -1 : NEXT(rename)(from, to);
}

int statx(int folder, const char *restrict name, int flags, unsigned wanted, struct statx *restrict found) {
  static int (*next)(int, const char *restrict, int, unsigned, struct statx *restrict);
  if (!next) next = NEXT(statx);
  int result = next(folder, name, flags, wanted, found), fault = errno;
  const char *files = getenv("FAULT_FILES");
  char other[64];
  unsigned file_system;
  unsigned long file;
  int size;
  while (files && sscanf(files, " %63[^:]:%u:%lu%n", other, &file_system, &file, &size) == 3) {
    files += size;
    if (result == 0 && strcmp(name, other) == 0) {
      found->stx_dev_major = 0;
      found->stx_dev_minor = file_system;
      found->stx_ino = file;
    }
  }
  errno = fault;
  return result;
}

int pthread_create(pthread_t *thread, const pthread_attr_t *how, void *(*body)(void *), void *given) {
  if (fails("pthread_create", -1)) return error;
  return NEXT(pthread_create)(thread, how, body, given);
}
