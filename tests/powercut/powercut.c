/* Stands before the C library of a program: writes down, in their order, its calls that change files below a folder, and
   what it sends over sockets. A call that changes a file is written down behind it; one that sends before it, and behind it
   what the socket took.

   POWERCUT_LOG names the file that a line is written to for each call, POWERCUT_ROOT the folder, as absolute paths. */
#define _GNU_SOURCE
#include <dlfcn.h>
#include <errno.h>
#include <fcntl.h>
#include <limits.h>
#include <stdarg.h>
#include <stdio.h>
#include <stdlib.h>
#include <string.h>
#include <sys/socket.h>
#include <sys/stat.h>
#include <sys/syscall.h>
#include <unistd.h>

#define NEXT(name) static typeof(&name) next; if (!next) next = (typeof(&name))dlsym(RTLD_NEXT, #name)

/* One line with one call, so that lines of threads don't mix. */
static void put(const char *line, size_t length) {
  static int log = -1;
  if (log < 0) log = (int)syscall(SYS_openat, AT_FDCWD, getenv("POWERCUT_LOG"), O_WRONLY | O_CREAT | O_APPEND | O_CLOEXEC, 0644);
  if (syscall(SYS_write, log, line, length) != (ssize_t)length) abort();
}

/* The absolute path of a name, where it is below the folder, and no lock file, which holds nothing that a run reads. */
static int is_below(const char *name, char path[PATH_MAX]) {
  const char *root = getenv("POWERCUT_ROOT");
  char here[PATH_MAX];
  if (name[0] == '/') snprintf(path, PATH_MAX, "%s", name);
  else if (!getcwd(here, sizeof here) || snprintf(path, PATH_MAX, "%s/%s", here, name) >= PATH_MAX) abort();
  size_t length = strlen(path);
  if (length >= 6 && strcmp(path + length - 6, "/.lock") == 0) return 0;
  return strncmp(path, root, strlen(root)) == 0;
}

/* The path of what a descriptor is open on. */
static int is_open_below(int fd, char path[PATH_MAX]) {
  char link[64], name[PATH_MAX];
  snprintf(link, sizeof link, "/proc/self/fd/%d", fd);
  ssize_t length = readlink(link, name, sizeof name - 1);
  if (length < 0) return 0;
  name[length] = 0;
  return name[0] == '/' && is_below(name, path);
}

static void told(const char *call, const char *first, const char *second) {
  char line[2 * PATH_MAX + 32];
  put(line, (size_t)snprintf(line, sizeof line, "%s\t%s\t%s\n", call, first, second));
}

static void told_bytes(const char *call, const char *path, long long at, const void *bytes, size_t length) {
  char *line = malloc(PATH_MAX + 64 + 2 * length);
  if (!line) abort();
  size_t end = (size_t)sprintf(line, "%s\t%s\t%lld\t", call, path, at);
  for (size_t i = 0; i < length; i++) end += (size_t)sprintf(line + end, "%02x", ((const unsigned char *)bytes)[i]);
  line[end++] = '\n';
  put(line, end);
  free(line);
}

static int opened(const char *name, int flags, int is_new, int fd) {
  char path[PATH_MAX];
  if (fd >= 0 && (flags & (O_CREAT | O_TRUNC)) && is_below(name, path)) told(is_new ? "create" : "truncate", path, "");
  return fd;
}

int open(const char *name, int flags, ...) {
  NEXT(open);
  va_list more;
  va_start(more, flags);
  mode_t mode = flags & O_CREAT ? va_arg(more, mode_t) : 0;
  va_end(more);
  int is_new = (flags & O_CREAT) && access(name, F_OK);
  return opened(name, flags, is_new, next(name, flags, mode));
}

int openat(int folder, const char *name, int flags, ...) {
  NEXT(openat);
  va_list more;
  va_start(more, flags);
  mode_t mode = flags & O_CREAT ? va_arg(more, mode_t) : 0;
  va_end(more);
  int is_new = (flags & O_CREAT) && faccessat(folder, name, F_OK, 0);
  return opened(name, flags, is_new, next(folder, name, flags, mode));
}

ssize_t write(int fd, const void *bytes, size_t length) {
  NEXT(write);
  char path[PATH_MAX];
  int below = is_open_below(fd, path);
  long long at = below ? (long long)lseek(fd, 0, SEEK_CUR) : 0;
  ssize_t count = next(fd, bytes, length);
  if (below && count > 0) told_bytes("write", path, at, bytes, (size_t)count);
  return count;
}

ssize_t pwrite(int fd, const void *bytes, size_t length, off_t at) {
  NEXT(pwrite);
  char path[PATH_MAX];
  int below = is_open_below(fd, path);
  ssize_t count = next(fd, bytes, length, at);
  if (below && count > 0) told_bytes("write", path, (long long)at, bytes, (size_t)count);
  return count;
}

int fsync(int fd) {
  NEXT(fsync);
  char path[PATH_MAX];
  int outcome = next(fd);
  if (outcome == 0 && is_open_below(fd, path)) told("sync", path, "");
  return outcome;
}

int fdatasync(int fd) {
  NEXT(fdatasync);
  char path[PATH_MAX];
  int outcome = next(fd);
  if (outcome == 0 && is_open_below(fd, path)) told("datasync", path, "");
  return outcome;
}

int ftruncate(int fd, off_t length) {
  NEXT(ftruncate);
  char path[PATH_MAX], number[32];
  int outcome = next(fd, length);
  snprintf(number, sizeof number, "%lld", (long long)length);
  if (outcome == 0 && is_open_below(fd, path)) told("truncate", path, number);
  return outcome;
}

int rename(const char *from, const char *to) {
  NEXT(rename);
  char first[PATH_MAX], second[PATH_MAX];
  int outcome = next(from, to);
  if (outcome == 0 && is_below(from, first) && is_below(to, second)) told("rename", first, second);
  return outcome;
}

int unlink(const char *name) {
  NEXT(unlink);
  char path[PATH_MAX];
  int outcome = next(name);
  if (outcome == 0 && is_below(name, path)) told("unlink", path, "");
  return outcome;
}

int mkdir(const char *name, mode_t mode) {
  NEXT(mkdir);
  char path[PATH_MAX];
  int outcome = next(name, mode);
  if (outcome == 0 && is_below(name, path)) told("mkdir", path, "");
  return outcome;
}

ssize_t send(int fd, const void *bytes, size_t length, int flags) {
  NEXT(send);
  told_bytes("send", "", fd, bytes, length);
  ssize_t count = next(fd, bytes, length, flags);
  if (count > 0) told_bytes("took", "", fd, bytes, (size_t)count);
  return count;
}
