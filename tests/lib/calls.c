/* Loaded before the C library of a program, this counts its calls on files in one sequence. At one
   of the calls it stops the program, ends it, or lets the call fail. The environment says:

     CALLS=FILE            the calls are written there, one on a line, in their order: the name, the
                           path that it was given or that of its file, and its other arguments, with
                           tabs between
     AT=K                  before the K-th call, counted from 1, or each of several calls, with
                           commas between,
     SIGNAL=N              the program sends itself this signal
     FAIL=NAME:K-L:ERRNO   the K-th to the L-th call of this name fail so; of NAME@END only those
                           count whose path ends so. There may be several, with commas between
     HURRY=1               no time is slept
     NUMBER=N              random bytes all have this value
     LONGEST=N             no file is opened whose name in its folder has more bytes */
#define _GNU_SOURCE
#include <errno.h>
#include <fcntl.h>
#include <signal.h>
#include <stdarg.h>
#include <stdio.h>
#include <stdlib.h>
#include <string.h>
#include <sys/stat.h>
#include <sys/syscall.h>
#include <time.h>
#include <unistd.h>

enum { ORDERS = 4, PATH = 4096 };

static int calls = -1, is_ready, hurries;
static long at[ORDERS], number = -1, longest, count;
static int signal_sent, stops, orders;
static struct order {
  char name[32], end[64];
  long first, last, count;
  int error;
} failing[ORDERS];

static long number_of(const char *name, long usual) {
  const char *text = getenv(name);
  return text ? atol(text) : usual;
}

/* Calls before the program itself begins do not count. */
__attribute__((constructor)) static void begin(void) {
  const char *file = getenv("CALLS"), *fail = getenv("FAIL"), *stop = getenv("AT");
  hurries = getenv("HURRY") != NULL;
  for (; stop; stop = strchr(stop, ',') ? strchr(stop, ',') + 1 : NULL) {
    if (stops == ORDERS)
      abort();
    at[stops++] = atol(stop);
  }
  signal_sent = number_of("SIGNAL", 0);
  number = number_of("NUMBER", -1);
  longest = number_of("LONGEST", 0);
  for (; fail; fail = strchr(fail, ',') ? strchr(fail, ',') + 1 : NULL) {
    struct order *it = &failing[orders++];
    if (orders > ORDERS || sscanf(fail, "%31[^@:]", it->name) != 1)
      abort();
    fail += strlen(it->name);
    if (*fail == '@' && sscanf(fail++, "@%63[^:]", it->end) == 1)
      fail += strlen(it->end);
    if (sscanf(fail, ":%ld-%ld:%d", &it->first, &it->last, &it->error) != 3)
      abort();
  }
  if (file && (calls = syscall(SYS_openat, AT_FDCWD, file,
                               O_WRONLY | O_CREAT | O_APPEND | O_CLOEXEC, 0600)) < 0)
    abort();
  is_ready = 1;
}

/* Whether a call of this name, on this path, is one of those that fail, with its error set. */
static int is_failing(struct order *it, const char *name, const char *path) {
  size_t length = strlen(path), end = strlen(it->end);
  if (strcmp(name, it->name) != 0 || length < end || strcmp(path + length - end, it->end) != 0)
    return 0;
  it->count++;
  if (it->count < it->first || it->count > it->last)
    return 0;
  errno = it->error;
  return 1;
}

/* Notes a call on a path, and says whether it fails. */
static int fails_at(const char *name, const char *path, const char *more) {
  char line[2 * PATH + 64];
  int is_one = 0;
  if (!is_ready)
    return 0;
  count++;
  if (calls >= 0)
    syscall(SYS_write, calls, line, snprintf(line, sizeof line, "%s\t%s\t%s\n", name, path, more));
  for (int stop = 0; stop < stops; stop++)
    if (count == at[stop] && signal_sent)
      raise(signal_sent);
  for (int order = 0; order < orders; order++)
    is_one |= is_failing(&failing[order], name, path);
  return is_one;
}

/* The same of a call on a descriptor. */
static int fails(const char *name, int descriptor, const char *more) {
  char link[40], path[PATH];
  snprintf(link, sizeof link, "/proc/self/fd/%d", descriptor);
  ssize_t length = syscall(SYS_readlink, link, path, sizeof path - 1);
  path[length < 0 ? 0 : length] = 0;
  return fails_at(name, path, more);
}

/* The same with numbers of a call. */
static int fails_by(const char *name, int descriptor, const char *form, long one, long other) {
  char more[60];
  snprintf(more, sizeof more, form, one, other);
  return fails(name, descriptor, more);
}

static int is_too_long(const char *path) {
  const char *name = strrchr(path, '/');
  return longest && strlen(name ? name + 1 : path) > (size_t)longest;
}

int open(const char *path, int flags, ...) {
  va_list rest;
  va_start(rest, flags);
  mode_t mode = flags & O_CREAT ? va_arg(rest, mode_t) : 0;
  va_end(rest);
  char more[20] = "";
  if (flags & O_CREAT)
    snprintf(more, sizeof more, flags & O_EXCL ? "%o" : "%o over others", mode);
  if (fails_at(flags & O_CREAT ? "create" : "open", path, more))
    return -1;
  if (is_too_long(path)) {
    errno = ENAMETOOLONG;
    return -1;
  }
  return syscall(SYS_openat, AT_FDCWD, path, flags, mode);
}

int statx(int folder, const char *path, int flags, unsigned mask, struct statx *found) {
  const char *name = flags & AT_SYMLINK_NOFOLLOW ? "lstat" : "stat";
  if (*path ? fails_at(name, path, "") : fails("fstat", folder, ""))
    return -1;
  return syscall(SYS_statx, folder, path, flags, mask, found);
}

ssize_t readlink(const char *path, char *into, size_t size) {
  return fails_at("readlink", path, "") ? -1 : syscall(SYS_readlink, path, into, size);
}

int flock(int descriptor, int how) {
  return fails_by("flock", descriptor, "%lo", how, 0) ? -1 : syscall(SYS_flock, descriptor, how);
}

ssize_t read(int descriptor, void *into, size_t size) {
  return fails("read", descriptor, "") ? -1 : syscall(SYS_read, descriptor, into, size);
}

ssize_t write(int descriptor, const void *from, size_t size) {
  return fails("write", descriptor, "") ? -1 : syscall(SYS_write, descriptor, from, size);
}

ssize_t pwrite(int descriptor, const void *from, size_t size, off_t offset) {
  return fails("pwrite", descriptor, "")
             ? -1
             : syscall(SYS_pwrite64, descriptor, from, size, offset);
}

off_t lseek(int descriptor, off_t offset, int whence) {
  return fails("lseek", descriptor, "") ? -1 : syscall(SYS_lseek, descriptor, offset, whence);
}

int ftruncate(int descriptor, off_t length) {
  return fails("ftruncate", descriptor, "") ? -1 : syscall(SYS_ftruncate, descriptor, length);
}

int fchown(int descriptor, uid_t owner, gid_t group) {
  return fails_by("fchown", descriptor, "%ld:%ld", (int)owner, (int)group)
             ? -1
             : syscall(SYS_fchown, descriptor, owner, group);
}

int fchmod(int descriptor, mode_t mode) {
  return fails_by("fchmod", descriptor, "%lo", mode, 0)
             ? -1
             : syscall(SYS_fchmod, descriptor, mode);
}

int fsync(int descriptor) {
  return fails("fsync", descriptor, "") ? -1 : syscall(SYS_fsync, descriptor);
}

int rename(const char *from, const char *to) {
  return fails_at("rename", from, to) ? -1 : syscall(SYS_rename, from, to);
}

int link(const char *from, const char *to) {
  return fails_at("link", from, to) ? -1 : syscall(SYS_link, from, to);
}

int unlink(const char *path) {
  return fails_at("unlink", path, "") ? -1 : syscall(SYS_unlink, path);
}

int close(int descriptor) {
  return fails("close", descriptor, "") ? -1 : syscall(SYS_close, descriptor);
}

int getentropy(void *into, size_t size) {
  if (number < 0)
    return syscall(SYS_getrandom, into, size, 0) == (ssize_t)size ? 0 : -1;
  memset(into, number, size);
  return 0;
}

int nanosleep(const struct timespec *asked, struct timespec *left) {
  char more[40];
  snprintf(more, sizeof more, "%ld.%09ld", (long)asked->tv_sec, asked->tv_nsec);
  if (fails_at("sleep", "", more))
    return -1;
  return hurries ? 0 : syscall(SYS_nanosleep, asked, left);
}
