/* Loaded before the C library of a program, this makes its allocations, reads, writes and what it
   does to files fail in turn, as they do on a machine without memory, a disk that is full and one
   that is broken. The environment says what fails:

     MEMORY=K-L              the K-th to the L-th allocation (a growth of one counts too) is refused
     READ=K-L:HOW:PIECE      the same of reads, and WRITE of writes; HOW is the error's number, or 0
                             for a call that ends well and moves nothing, or -1 for one that moves
                             one byte. All other calls move at most PIECE bytes
     CREATE=K-L:HOW          the same of openings that may create a file, MODE of changes of a mode,
                             OWNER of those of an owner, SYNC of syncs, CLOSE of the closing of
                             files that were opened so, RENAME and REMOVE of those of a name, LINK
                             of a second name
     KILL=K                  the K-th write moves half of its bytes, and then the program is killed
     MOMENT=N                the clock shows N seconds since 1970, before it where N is negative
     REPORT=FILE             the counts of calls and of failed calls are written there at the end */
#define _GNU_SOURCE
#include <errno.h>
#include <fcntl.h>
#include <signal.h>
#include <stdarg.h>
#include <stdint.h>
#include <stdio.h>
#include <stdlib.h>
#include <string.h>
#include <sys/mman.h>
#include <sys/syscall.h>
#include <time.h>
#include <unistd.h>

enum { MEMORY, READ, WRITE, CREATE, MODE, OWNER, SYNC, CLOSE, RENAME, REMOVE, LINK, SORTS };
static const char *const names[SORTS] = {"MEMORY", "READ",  "WRITE",  "CREATE", "MODE", "OWNER",
                                         "SYNC",   "CLOSE", "RENAME", "REMOVE", "LINK"};

/* The numbers of calls and of failed calls, and the descriptor of the last call that failed. */
struct count {
  uint64_t called, failed, descriptor;
};

struct order {
  uint64_t first, last;
  long how;
  uint64_t piece;
};

static struct count own[SORTS];
static struct count *counts = own;
static struct order orders[SORTS] = {
    [READ] = {.piece = UINT64_MAX},
    [WRITE] = {.piece = UINT64_MAX},
};
static long moment;
static int has_moment, is_ready;
static uint64_t killed;
/* The descriptor of the file that was created last. */
static int created = -1;

void *__libc_malloc(size_t);
void *__libc_realloc(void *, size_t);

static void take(const char *name, struct order *order) {
  const char *text = getenv(name);
  if (text)
    sscanf(text, "%lu-%lu:%ld:%lu", &order->first, &order->last, &order->how, &order->piece);
}

/* Calls before the program itself begins do not count. */
__attribute__((constructor)) static void begin(void) {
  const char *file = getenv("REPORT"), *time = getenv("MOMENT"), *kill = getenv("KILL");
  for (int sort = 0; sort < SORTS; sort++)
    take(names[sort], &orders[sort]);
  if (time) {
    has_moment = 1;
    moment = atol(time);
  }
  if (kill)
    killed = atol(kill);
  if (file) {
    int report = open(file, O_RDWR);
    void *shared = mmap(NULL, sizeof own, PROT_READ | PROT_WRITE, MAP_SHARED, report, 0);
    if (report < 0 || shared == MAP_FAILED)
      abort();
    counts = shared;
    close(report);
  }
  is_ready = 1;
}

/* Counts a call, and says whether it is one of those that fail. */
static int fails(int sort, int descriptor) {
  if (!is_ready)
    return 0;
  struct count *count = &counts[sort];
  count->called++;
  if (count->called < orders[sort].first || count->called > orders[sort].last)
    return 0;
  count->failed++;
  count->descriptor = descriptor;
  return 1;
}

static void *refused(void) {
  errno = ENOMEM;
  return NULL;
}

void *malloc(size_t size) {
  return fails(MEMORY, 0) ? refused() : __libc_malloc(size);
}

/* A piece of memory that becomes smaller may be moved, so it may be refused. */
void *realloc(void *held, size_t size) {
  return fails(MEMORY, 0) ? refused() : __libc_realloc(held, size);
}

/* How many bytes a call of the sort moves at most, or -1 if it ends with an error, which is set. */
static ssize_t most(int sort, int descriptor, size_t size) {
  struct order *order = &orders[sort];
  if (!fails(sort, descriptor))
    return is_ready && size > order->piece ? order->piece : size;
  if (order->how > 0) {
    errno = order->how;
    return -1;
  }
  return order->how == 0 || size == 0 ? 0 : 1;
}

ssize_t read(int descriptor, void *into, size_t size) {
  ssize_t count = most(READ, descriptor, size);
  return count < 0 ? -1 : count == 0 && size ? 0 : syscall(SYS_read, descriptor, into, count);
}

ssize_t write(int descriptor, const void *from, size_t size) {
  ssize_t count = most(WRITE, descriptor, size);
  if (killed && counts[WRITE].called == killed) {
    syscall(SYS_write, descriptor, from, size / 2);
    raise(SIGKILL);
  }
  return count < 0 ? -1 : count == 0 && size ? 0 : syscall(SYS_write, descriptor, from, count);
}

/* Whether a call of the sort is one of those that fail, with its error set. */
static int ends(int sort, int descriptor) {
  if (!fails(sort, descriptor))
    return 0;
  errno = orders[sort].how;
  return 1;
}

int open(const char *path, int flags, ...) {
  va_list rest;
  va_start(rest, flags);
  mode_t mode = flags & O_CREAT ? va_arg(rest, mode_t) : 0;
  va_end(rest);
  if (flags & O_CREAT && ends(CREATE, 0))
    return -1;
  int descriptor = syscall(SYS_openat, AT_FDCWD, path, flags, mode);
  if (flags & O_CREAT && descriptor >= 0)
    created = descriptor;
  return descriptor;
}

int fchmod(int descriptor, mode_t mode) {
  return ends(MODE, descriptor) ? -1 : syscall(SYS_fchmod, descriptor, mode);
}

int fchown(int descriptor, uid_t owner, gid_t group) {
  return ends(OWNER, descriptor) ? -1 : syscall(SYS_fchown, descriptor, owner, group);
}

int fsync(int descriptor) {
  return ends(SYNC, descriptor) ? -1 : syscall(SYS_fsync, descriptor);
}

/* A file whose closing fails is closed, as on Linux. */
int close(int descriptor) {
  int is_created = is_ready && descriptor == created;
  int status = syscall(SYS_close, descriptor);
  if (!is_created)
    return status;
  created = -1;
  return ends(CLOSE, descriptor) ? -1 : status;
}

int rename(const char *from, const char *to) {
  return ends(RENAME, 0) ? -1 : syscall(SYS_rename, from, to);
}

int link(const char *from, const char *to) {
  return ends(LINK, 0) ? -1 : syscall(SYS_link, from, to);
}

int unlink(const char *path) {
  return ends(REMOVE, 0) ? -1 : syscall(SYS_unlink, path);
}

int clock_gettime(clockid_t clock, struct timespec *time) {
  if (!has_moment)
    return syscall(SYS_clock_gettime, clock, time);
  *time = (struct timespec){.tv_sec = moment};
  return 0;
}
