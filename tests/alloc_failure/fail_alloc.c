/* Stands before the C library of a program: lets one call for memory fail, and counts these calls. What the program asks of
   files and sockets after that is written down.

   FAIL_ALLOC is the number of the call that fails, COUNT_ALLOC names the file that gets the count at the end, CALLS_AFTER the
   file that gets a line for each call on a device after the failed one: its kind, and its path or descriptor. Standard error is
   no device. */
#define _GNU_SOURCE
#include <dlfcn.h>
#include <errno.h>
#include <fcntl.h>
#include <stdarg.h>
#include <stdio.h>
#include <stdlib.h>
#include <sys/socket.h>
#include <sys/stat.h>
#include <sys/syscall.h>
#include <unistd.h>

#define NEXT(name) static typeof(&name) next; if (!next) next = (typeof(&name))dlsym(RTLD_NEXT, #name)

static long calls;
static int has_failed;

/* The call whose number FAIL_ALLOC gives. */
static int is_to_fail(void) {
  static long failing = -1;
  if (failing < 0) {
    const char *number = getenv("FAIL_ALLOC");
    failing = number ? atol(number) : 0;
  }
  if (__atomic_add_fetch(&calls, 1, __ATOMIC_RELAXED) != failing) return 0;
  has_failed = 1;
  errno = ENOMEM;
  return 1;
}

void *malloc(size_t size) {
  NEXT(malloc);
  return is_to_fail() ? NULL : next(size);
}

void *realloc(void *old, size_t size) {
  NEXT(realloc);
  return is_to_fail() ? NULL : next(old, size);
}

/* Writes a line into the file that a variable names, without a call that is written down. */
static void put(const char *variable, int flags, const char *line, int length) {
  const char *path = getenv(variable);
  int before = errno;
  int file = path ? (int)syscall(SYS_openat, AT_FDCWD, path, O_WRONLY | O_CREAT | O_CLOEXEC | flags, 0600) : -1;
  if (file >= 0 && syscall(SYS_write, file, line, (size_t)length) != length) abort();
  if (file >= 0) syscall(SYS_close, file);
  errno = before;
}

static void note(const char *kind, const char *path, int fd) {
  char line[4096];
  if (!has_failed || fd == STDERR_FILENO) return;
  put("CALLS_AFTER", O_APPEND, line, path ? snprintf(line, sizeof line, "%s %s\n", kind, path) : snprintf(line, sizeof line, "%s %d\n", kind, fd));
}

void _exit(int status) {
  char line[32];
  put("COUNT_ALLOC", O_TRUNC, line, snprintf(line, sizeof line, "%ld\n", calls));
  syscall(SYS_exit_group, status);
  __builtin_unreachable();
}

int open(const char *name, int flags, ...) {
  NEXT(open);
  va_list more;
  va_start(more, flags);
  mode_t mode = flags & O_CREAT ? va_arg(more, mode_t) : 0;
  va_end(more);
  if (flags & (O_CREAT | O_TRUNC)) note("open", name, -1);
  return next(name, flags, mode);
}

int openat(int folder, const char *name, int flags, ...) {
  NEXT(openat);
  va_list more;
  va_start(more, flags);
  mode_t mode = flags & O_CREAT ? va_arg(more, mode_t) : 0;
  va_end(more);
  if (flags & (O_CREAT | O_TRUNC)) note("open", name, -1);
  return next(folder, name, flags, mode);
}

ssize_t write(int fd, const void *bytes, size_t length) {
  NEXT(write);
  note("write", NULL, fd);
  return next(fd, bytes, length);
}

ssize_t pwrite(int fd, const void *bytes, size_t length, off_t at) {
  NEXT(pwrite);
  note("write", NULL, fd);
  return next(fd, bytes, length, at);
}

ssize_t read(int fd, void *bytes, size_t length) {
  NEXT(read);
  note("read", NULL, fd);
  return next(fd, bytes, length);
}

ssize_t pread(int fd, void *bytes, size_t length, off_t at) {
  NEXT(pread);
  note("read", NULL, fd);
  return next(fd, bytes, length, at);
}

ssize_t send(int fd, const void *bytes, size_t length, int flags) {
  NEXT(send);
  note("send", NULL, fd);
  return next(fd, bytes, length, flags);
}

ssize_t recv(int fd, void *bytes, size_t length, int flags) {
  NEXT(recv);
  note("recv", NULL, fd);
  return next(fd, bytes, length, flags);
}

int connect(int fd, const struct sockaddr *address, socklen_t length) {
  NEXT(connect);
  note("connect", NULL, fd);
  return next(fd, address, length);
}

int fsync(int fd) {
  NEXT(fsync);
  note("sync", NULL, fd);
  return next(fd);
}

int fdatasync(int fd) {
  NEXT(fdatasync);
  note("sync", NULL, fd);
  return next(fd);
}

int ftruncate(int fd, off_t length) {
  NEXT(ftruncate);
  note("truncate", NULL, fd);
  return next(fd, length);
}

int mkdir(const char *name, mode_t mode) {
  NEXT(mkdir);
  note("mkdir", name, -1);
  return next(name, mode);
}

int rename(const char *from, const char *to) {
  NEXT(rename);
  note("rename", from, -1);
  return next(from, to);
}

int unlink(const char *name) {
  NEXT(unlink);
  note("unlink", name, -1);
  return next(name);
}
