/* Loaded before the C library of a program, this searches each block of memory that is freed for
   byte strings that should not be in it any more. A block that grows is moved each time, so that
   its old place is freed. The environment says:

     SOUGHT=FILE   the byte strings, each after a byte with its length
     FOUND=FILE    how many blocks had each of them, and how many there were, as 64-bit numbers */
#define _GNU_SOURCE
#include <fcntl.h>
#include <malloc.h>
#include <stdint.h>
#include <stdlib.h>
#include <string.h>
#include <sys/mman.h>
#include <sys/syscall.h>
#include <unistd.h>

enum { ROOM = 1 << 16 };

void __libc_free(void *);

static unsigned char sought[ROOM];
static size_t size;
static uint64_t *found;

static int opened(const char *name, int flags) {
  const char *file = getenv(name);
  int descriptor = file ? open(file, flags) : -1;
  if (descriptor < 0)
    abort();
  return descriptor;
}

__attribute__((constructor)) static void begin(void) {
  int from = opened("SOUGHT", O_RDONLY), into = opened("FOUND", O_RDWR);
  ssize_t count = read(from, sought, ROOM);
  void *shared = mmap(NULL, ROOM, PROT_READ | PROT_WRITE, MAP_SHARED, into, 0);
  if (count < 0 || count == ROOM || shared == MAP_FAILED)
    abort();
  close(from);
  close(into);
  size = count;
  found = shared;
}

static void look(const void *block, size_t length) {
  if (!found)
    return;
  uint64_t *count = found;
  for (size_t at = 0; at < size; at += 1 + sought[at], count++)
    if (memmem(block, length, sought + at + 1, sought[at]))
      ++*count;
  ++*count;
}

void free(void *block) {
  if (block)
    look(block, malloc_usable_size(block));
  __libc_free(block);
}

void *realloc(void *block, size_t length) {
  void *other = malloc(length);
  if (!block || !other)
    return other;
  size_t held = malloc_usable_size(block);
  memcpy(other, block, held < length ? held : length);
  free(block);
  return other;
}

int munmap(void *block, size_t length) {
  look(block, length);
  return syscall(SYS_munmap, block, length);
}
