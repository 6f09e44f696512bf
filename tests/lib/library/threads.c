/* threads ROUNDS LIST LINE..: eight threads ask the same bytes and the same handle at the same
 * time, for this number of rounds, and compare the answers with those of one thread. */
#include <krl.h>
#include <pthread.h>
#include <stdio.h>
#include <stdlib.h>

enum { THREADS = 8, LINES = 16, ROOM = 1 << 16 };

typedef struct bytes {
    uint8_t at[ROOM];
    size_t length;
} bytes;

static bytes list, lines[LINES];
static int32_t answers[LINES];
static int count, rounds;
static krl handle;

static void read_into(bytes *into, const char *name) {
    FILE *file = fopen(name, "rb");
    if (!file) exit(255);
    into->length = fread(into->at, 1, ROOM, file);
    into->length -= into->length && into->at[into->length - 1] == '\n';
    fclose(file);
}

static int32_t answer_of(int which) {
    return krl_check_line(list.at, list.length, lines[which].at, lines[which].length);
}

static int32_t held_answer_of(int which) {
    return krl_ask_line(&handle, lines[which].at, lines[which].length);
}

static void *ask(void *wrong) {
    for (int at = 0; at < rounds; at++) {
        *(long *)wrong += answer_of(at % count) != answers[at % count];
        *(long *)wrong += held_answer_of(at % count) != answers[at % count];
    }
    return NULL;
}

int main(int argc, char **argv) {
    pthread_t threads[THREADS];
    long wrong[THREADS] = {0}, all = 0;
    if (argc < 4 || argc - 3 > LINES) return 255;
    rounds = atoi(argv[1]);
    FILE *file = fopen(argv[2], "rb");
    if (!file) return 255;
    list.length = fread(list.at, 1, ROOM, file);
    fclose(file);
    handle.at = malloc(krl_size());
    if (!handle.at) return 255;
    krl_init(handle.at);
    if (krl_load(&handle, list.at, list.length) != KRL_OK) return 255;
    for (count = 0; count < argc - 3; count++) {
        read_into(&lines[count], argv[count + 3]);
        answers[count] = answer_of(count);
    }
    for (int at = 0; at < THREADS; at++) pthread_create(&threads[at], NULL, ask, &wrong[at]);
    for (int at = 0; at < THREADS; at++) pthread_join(threads[at], NULL), all += wrong[at];
    krl_unload(&handle);
    free(handle.at);
    printf("%ld of %d answers differ\n", all, 2 * THREADS * rounds);
    return all != 0;
}
