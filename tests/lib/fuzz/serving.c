/* Loaded before the C library of a program, this starts it once and lets it run many times: it
   waits where main would begin, and for each request a copy of the process runs main with the words
   of the request. So a run costs no start of a program and no linking. Where SERVE_LATE is in the
   environment it waits where main asks for the name of the host, as OpenSSH's ssh-keygen does once
   its cryptography is set up and before it reads its words; the words of a request are then as many
   as those of the process.

   A request on standard input is its length in four bytes of this machine, and texts that zero
   bytes end: the seconds of a processor that the run may take, the KiB of memory, the files of its
   standard output and standard error, and the words. Its answer on standard output is the status as
   a shell has it, in four bytes; a first answer says that it waits. */
#define _GNU_SOURCE
#include <dlfcn.h>
#include <fcntl.h>
#include <stdint.h>
#include <stdio.h>
#include <stdlib.h>
#include <string.h>
#include <sys/resource.h>
#include <sys/wait.h>
#include <unistd.h>

enum { REQUESTS = 0, ANSWERS = 1, MOST_BYTES = 65536, MOST_WORDS = 512, OWN = 4 };

static char request[MOST_BYTES];
static char *texts[MOST_WORDS + 1];
static char **own_words;
static int own_count, is_late, is_late_copy;

/* Whether all the bytes were there to read. */
static int is_read(void *into, size_t size) {
  char *at = into;
  while (size > 0) {
    ssize_t count = read(REQUESTS, at, size);
    if (count <= 0)
      return 0;
    at += count;
    size -= count;
  }
  return 1;
}

static void limit(int resource, rlim_t most) {
  struct rlimit both = {most, most};
  if (setrlimit(resource, &both) != 0)
    _exit(126);
}

/* The file becomes the descriptor. */
static void open_as(int descriptor, const char *name, int flags) {
  int file = open(name, flags, 0600);
  if (file < 0 || dup2(file, descriptor) < 0)
    _exit(126);
  close(file);
}

/* Makes this process, a copy, that of the request. */
static void begin(void) {
  open_as(0, "/dev/null", O_RDONLY);
  open_as(1, texts[2], O_WRONLY | O_CREAT | O_TRUNC);
  open_as(2, texts[3], O_WRONLY | O_CREAT | O_TRUNC);
  limit(RLIMIT_CORE, 0);
  limit(RLIMIT_CPU, atol(texts[0]));
  limit(RLIMIT_AS, (rlim_t)atol(texts[1]) << 10);
}

static void answer(int32_t status) {
  if (write(ANSWERS, &status, sizeof status) != sizeof status)
    _exit(126);
}

/* Gives the number of words in each copy that is to run main; the first process stays here. */
static int serve(void) {
  uint32_t size;
  answer(0);
  while (is_read(&size, sizeof size)) {
    if (size > MOST_BYTES || !is_read(request, size))
      break;
    int count = 0;
    for (char *at = request; at < request + size && count < MOST_WORDS; at += strlen(at) + 1)
      texts[count++] = at;
    texts[count] = NULL;
    pid_t copy = fork();
    if (copy == 0) {
      begin();
      return count - OWN;
    }
    int ended = 0;
    if (copy < 0 || waitpid(copy, &ended, 0) != copy)
      _exit(126);
    answer(WIFEXITED(ended) ? WEXITSTATUS(ended) : 128 + WTERMSIG(ended));
  }
  _exit(0);
}

typedef int main_type(int, char **, char **);
typedef void part(void);
typedef int start(main_type *, int, char **, part *, part *, part *, void *);

int __libc_start_main(main_type *main, int count, char **words, part *init, part *fini, part *last,
                      void *stack) {
  start *library = (start *)dlsym(RTLD_NEXT, "__libc_start_main");
  own_words = words;
  own_count = count;
  is_late = getenv("SERVE_LATE") != NULL;
  if (is_late)
    return library(main, count, words, init, fini, last, stack);
  count = serve();
  return library(main, count, texts + OWN, init, fini, last, stack);
}

int gethostname(char *name, size_t size) {
  if (is_late) {
    is_late = 0;
    if (serve() != own_count)
      _exit(126);
    memcpy(own_words, texts + OWN, own_count * sizeof *own_words);
    is_late_copy = 1;
  }
  int (*library)(char *, size_t) = (int (*)(char *, size_t))dlsym(RTLD_NEXT, "gethostname");
  return library(name, size);
}

/* OpenSSH's program takes longer to free its libraries' memory at the end than for most runs. */
void exit(int status) {
  fflush(NULL);
  if (is_late_copy)
    _exit(status);
  void (*library)(int) = (void (*)(int))dlsym(RTLD_NEXT, "exit");
  library(status);
  __builtin_unreachable();
}
