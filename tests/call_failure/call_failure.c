/* Stands before the C library of a program: counts its calls on what lies at a path or below it, or its writes to standard
   output, lets one of them fail, and writes all of them down.

   CALL_FAILURE_ON is an absolute path, or `stdout`. CALL_FAILURE_AT is the number of the call that fails, from 1; 0 is none.
   CALL_FAILURE_ERRNO is the error that it gives. With CALL_FAILURE_KIND only calls of that kind are counted. With
   CALL_FAILURE_MADE=1 the call is made before it is said to have failed; with CALL_FAILURE_UNMADE=1 one that changes a file is
   said to have been made, and isn't. CALL_FAILURE_LOG names the file that gets a line for each
   call: its number, its kind, its path, and `failed` or `made`. */
#define _GNU_SOURCE
#include <dirent.h>
#include <dlfcn.h>
#include <errno.h>
#include <fcntl.h>
#include <limits.h>
#include <stdarg.h>
#include <stdio.h>
#include <stdlib.h>
#include <string.h>
#include <sys/file.h>
#include <sys/stat.h>
#include <sys/syscall.h>
#include <unistd.h>

#define NEXT(name) static typeof(&name) next; if (!next) next = (typeof(&name))dlsym(RTLD_NEXT, #name)
/* Makes a call, or lets it fail. `told` is what it gives where it only says that it was made. */
#define ANSWER(fails, call, told) do { \
    if (!(fails)) return call; \
    if (has("CALL_FAILURE_MADE")) (void)!call; \
    if (has("CALL_FAILURE_UNMADE") && (told) >= 0) return told; \
    errno = number_in("CALL_FAILURE_ERRNO"); \
    return -1; \
  } while (0)

static int number_in(const char *name) {
  const char *number = getenv(name);
  return number ? atoi(number) : 0;
}

static int has(const char *name) { return number_in(name) == 1; }

/* Counts and writes down a call, and says whether it is to fail. */
static int counted(const char *kind, const char *path) {
  static int count, log = -1;
  const char *only = getenv("CALL_FAILURE_KIND"), *name = getenv("CALL_FAILURE_LOG");
  if (only && *only && strcmp(only, kind)) return 0;
  int before = errno, number = __atomic_add_fetch(&count, 1, __ATOMIC_RELAXED);
  int fails = number == number_in("CALL_FAILURE_AT");
  if (log < 0 && name) log = (int)syscall(SYS_openat, AT_FDCWD, name, O_WRONLY | O_CREAT | O_APPEND | O_CLOEXEC, 0644);
  char line[PATH_MAX + 64];
  int length = snprintf(line, sizeof line, "%d\t%s\t%s\t%s\n", number, kind, path, fails ? "failed" : "made");
  if (log >= 0 && syscall(SYS_write, log, line, (size_t)length) != length) abort();
  errno = before;
  return fails;
}

static int is_at(const char *path) {
  const char *root = getenv("CALL_FAILURE_ON");
  size_t length = root ? strlen(root) : 0;
  return length && !strncmp(path, root, length) && (path[length] == 0 || path[length] == '/');
}

/* Whether the call on a path, from a folder's descriptor on, is to fail. */
static int fails_on(const char *kind, int folder, const char *name) {
  char base[PATH_MAX] = "", link[64], path[2 * PATH_MAX];
  if (name[0] != '/') {
    int before = errno;
    snprintf(link, sizeof link, folder == AT_FDCWD ? "/proc/self/cwd" : "/proc/self/fd/%d", folder);
    ssize_t length = readlink(link, base, sizeof base - 1);
    errno = before;
    if (length < 0) return 0;
    base[length] = 0;
  }
  snprintf(path, sizeof path, "%s%s%s", base, name[0] && base[0] ? "/" : "", name);
  return is_at(path) && counted(kind, path);
}

static int fails(const char *kind, int fd) { return fails_on(kind, fd, ""); }

static int fails_at_output(int fd) {
  const char *on = getenv("CALL_FAILURE_ON");
  return fd == 1 && on && !strcmp(on, "stdout") && counted("write", "stdout");
}

int open(const char *name, int flags, ...) {
  NEXT(open);
  va_list more;
  va_start(more, flags);
  mode_t mode = flags & O_CREAT ? va_arg(more, mode_t) : 0;
  va_end(more);
  ANSWER(fails_on("open", AT_FDCWD, name), next(name, flags, mode), -1);
}

int openat(int folder, const char *name, int flags, ...) {
  NEXT(openat);
  va_list more;
  va_start(more, flags);
  mode_t mode = flags & O_CREAT ? va_arg(more, mode_t) : 0;
  va_end(more);
  ANSWER(fails_on("open", folder, name), next(folder, name, flags, mode), -1);
}

int statx(int folder, const char *restrict name, int flags, unsigned mask, struct statx *restrict found) {
  NEXT(statx);
  ANSWER(fails_on(name[0] ? "stat" : "fstat", folder, name), next(folder, name, flags, mask, found), -1);
}

ssize_t getdents64(int fd, void *entries, size_t length) {
  NEXT(getdents64);
  ANSWER(fails("list", fd), next(fd, entries, length), -1);
}

ssize_t read(int fd, void *bytes, size_t length) {
  NEXT(read);
  ANSWER(fails("read", fd), next(fd, bytes, length), -1);
}

ssize_t pread(int fd, void *bytes, size_t length, off_t at) {
  NEXT(pread);
  ANSWER(fails("read", fd), next(fd, bytes, length, at), -1);
}

ssize_t write(int fd, const void *bytes, size_t length) {
  NEXT(write);
  ANSWER(fails("write", fd) || fails_at_output(fd), next(fd, bytes, length), (ssize_t)length);
}

ssize_t pwrite(int fd, const void *bytes, size_t length, off_t at) {
  NEXT(pwrite);
  ANSWER(fails("write", fd), next(fd, bytes, length, at), (ssize_t)length);
}

int fsync(int fd) {
  NEXT(fsync);
  ANSWER(fails("sync", fd), next(fd), 0);
}

int fdatasync(int fd) {
  NEXT(fdatasync);
  ANSWER(fails("sync", fd), next(fd), 0);
}

int ftruncate(int fd, off_t length) {
  NEXT(ftruncate);
  ANSWER(fails("truncate", fd), next(fd, length), 0);
}

int flock(int fd, int how) {
  NEXT(flock);
  ANSWER(fails("lock", fd), next(fd, how), 0);
}

int fcntl(int fd, int command, ...) {
  NEXT(fcntl);
  va_list more;
  va_start(more, command);
  void *argument = va_arg(more, void *);
  va_end(more);
  int locks = command == F_SETLK || command == F_SETLKW || command == F_OFD_SETLK || command == F_OFD_SETLKW;
  ANSWER(locks && fails("lock", fd), next(fd, command, argument), 0);
}

int mkdir(const char *name, mode_t mode) {
  NEXT(mkdir);
  ANSWER(fails_on("mkdir", AT_FDCWD, name), next(name, mode), 0);
}

int rename(const char *from, const char *to) {
  NEXT(rename);
  ANSWER(fails_on("rename", AT_FDCWD, from), next(from, to), 0);
}

int unlink(const char *name) {
  NEXT(unlink);
  ANSWER(fails_on("unlink", AT_FDCWD, name), next(name), 0);
}
