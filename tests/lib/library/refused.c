/* refused LIST OTHER LINE: each allocation of a call fails in turn. The call then answers that
 * there is no memory, what was held stays, and no block is left. It is linked with --wrap for
 * malloc, realloc and free. */
#include <krl.h>
#include <stdio.h>
#include <stdlib.h>

void *__real_malloc(size_t size), *__real_realloc(void *block, size_t size);
void __real_free(void *block);

/* How many allocations succeed before one fails; none fails if it is below zero. */
static long left = -1;
static long blocks;

static int fails(void) {
    return left >= 0 && left-- == 0;
}

void *__wrap_malloc(size_t size) {
    if (fails()) return NULL;
    blocks++;
    return __real_malloc(size);
}

void *__wrap_realloc(void *block, size_t size) {
    if (fails()) return NULL;
    blocks += !block;
    return __real_realloc(block, size);
}

void __wrap_free(void *block) {
    blocks -= !!block;
    __real_free(block);
}

typedef struct bytes {
    uint8_t *at;
    size_t length;
} bytes;

static bytes content(const char *name) {
    static uint8_t room[4][1 << 20];
    static int used;
    FILE *file = fopen(name, "rb");
    bytes read = {room[used++], 0};
    if (!file) exit(255);
    read.length = fread(read.at, 1, sizeof room[0], file);
    fclose(file);
    return read;
}

static krl handle;
static bytes list, other, line, blob;

static int32_t load_other(void) {
    return krl_load(&handle, other.at, other.length);
}

static int32_t ask(void) {
    return krl_ask_line(&handle, line.at, line.length);
}

static int32_t check(void) {
    return krl_check_line(other.at, other.length, line.at, line.length);
}

static int32_t check_any(void) {
    return krl_check_any(line.at, line.length, blob.at, blob.length);
}

static int32_t why(void) {
    return krl_why(other.at, other.length, blob.at, blob.length);
}

/* Fails each allocation of a call in turn. How many there are, or -1 where one of them does
 * harm. */
static long sweep(int32_t (*call)(void), int32_t wanted, int32_t held) {
    for (long at = 0;; at++) {
        long before = blocks;
        left = at;
        int32_t answer = call();
        left = -1;
        if (answer == wanted) return at;
        if (answer != KRL_NO_MEMORY || blocks != before || ask() != held) return -1;
    }
}

int main(int argc, char **argv) {
    static _Alignas(16) uint8_t place[4096];
    if (argc != 5 || krl_size() > sizeof place) return 255;
    list = content(argv[1]), other = content(argv[2]), line = content(argv[3]);
    blob = content(argv[4]);
    line.length -= line.length && line.at[line.length - 1] == '\n';
    handle.at = place;
    krl_init(place);
    if (ask() != KRL_NOT_LOADED || krl_load(&handle, list.at, list.length) != KRL_OK) return 254;

    int32_t held = ask();
    long asks = sweep(ask, held, held), checks = sweep(check, check(), held);
    long plains = sweep(check_any, KRL_REVOKED, held);
    long whys = sweep(why, why(), held), loads = sweep(load_other, KRL_OK, held);
    krl_unload(&handle);
    printf("%ld allocations of a question, %ld of a check, %ld of a plain list, %ld of a reading, "
           "%ld of the reasons\n",
           asks, checks, plains, loads, whys);
    return asks <= 0 || checks <= 0 || plains <= 0 || loads <= 0 || whys <= 0 || blocks != 0 ||
           ask() != KRL_NOT_LOADED;
}
