/* Loaded before the C library of a program, this counts the bytes that it holds, as they are asked
   for, its calls of read, and its looks at files. COUNTED=FILE: the bytes that are held, the most
   that were, and the numbers of calls are there as 64-bit numbers. */
#define _GNU_SOURCE
#include <fcntl.h>
#include <malloc.h>
#include <stdint.h>
#include <stdlib.h>
#include <sys/mman.h>
#include <sys/stat.h>
#include <sys/syscall.h>
#include <unistd.h>

void *__libc_malloc(size_t);
void *__libc_realloc(void *, size_t);
void __libc_free(void *);

struct count {
  uint64_t held, most, reads, looks;
};

static struct count own;
static struct count *count = &own;

__attribute__((constructor)) static void begin(void) {
  const char *file = getenv("COUNTED");
  int into = file ? open(file, O_RDWR) : -1;
  void *shared = mmap(NULL, sizeof own, PROT_READ | PROT_WRITE, MAP_SHARED, into, 0);
  if (shared == MAP_FAILED)
    abort();
  close(into);
  *(struct count *)shared = own;
  count = shared;
}

static void *add(void *block) {
  if (block)
    count->held += malloc_usable_size(block);
  if (count->held > count->most)
    count->most = count->held;
  return block;
}

void *malloc(size_t size) {
  return add(__libc_malloc(size));
}

void *realloc(void *block, size_t size) {
  size_t before = block ? malloc_usable_size(block) : 0;
  void *other = __libc_realloc(block, size);
  if (other || size == 0)
    count->held -= before;
  return add(other);
}

void free(void *block) {
  if (block)
    count->held -= malloc_usable_size(block);
  __libc_free(block);
}

ssize_t read(int file, void *bytes, size_t size) {
  count->reads++;
  return syscall(SYS_read, file, bytes, size);
}

int statx(int folder, const char *path, int flags, unsigned mask, struct statx *into) {
  count->looks++;
  return syscall(SYS_statx, folder, path, flags, mask, into);
}
