/* Loaded before the C library of a program, this lets the opening of a file whose name ends with
   slow.pub last six seconds, as its owner can by a lease, and that of one whose name ends with
   brief.pub last one second, puts a link to a device in the place of a file whose name ends with
   swapped.pub right before it is opened, and removes a file whose name ends with going right before
   it is looked at. The text in AGAIN is appended to a file whose name ends with again.pub right
   before it is opened. If NO_CLOCK is in the environment, no clock can be read. */
#define _GNU_SOURCE
#include <errno.h>
#include <fcntl.h>
#include <stdarg.h>
#include <stdlib.h>
#include <string.h>
#include <sys/stat.h>
#include <sys/syscall.h>
#include <time.h>
#include <unistd.h>

static int ends(const char *path, const char *with) {
  size_t length = strlen(path), end = strlen(with);
  return length >= end && strcmp(path + length - end, with) == 0;
}

static void append(const char *path, const char *text) {
  int file = text ? syscall(SYS_openat, AT_FDCWD, path, O_WRONLY | O_APPEND) : -1;
  if (file >= 0 && write(file, text, strlen(text)) >= 0)
    close(file);
}

int open(const char *path, int flags, ...) {
  va_list rest;
  va_start(rest, flags);
  mode_t mode = flags & O_CREAT ? va_arg(rest, mode_t) : 0;
  va_end(rest);
  if (ends(path, "slow.pub"))
    sleep(6);
  if (ends(path, "brief.pub"))
    sleep(1);
  if (ends(path, "again.pub"))
    append(path, getenv("AGAIN"));
  if (ends(path, "swapped.pub") && unlink(path) == 0 && symlink("/dev/zero", path) != 0)
    return -1;
  return syscall(SYS_openat, AT_FDCWD, path, flags, mode);
}

int statx(int folder, const char *path, int flags, unsigned mask, struct statx *found) {
  if (ends(path, "going"))
    unlink(path);
  return syscall(SYS_statx, folder, path, flags, mask, found);
}

int clock_gettime(clockid_t clock, struct timespec *time) {
  if (getenv("NO_CLOCK")) {
    errno = EINVAL;
    return -1;
  }
  return syscall(SYS_clock_gettime, clock, time);
}
