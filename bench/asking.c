/* asking LIST LINE: the time and memory that libkrl takes to ask a list about the key of a line.
 *
 * It prints the microseconds of a check and the KiB that it took besides the list's own bytes, the
 * microseconds of reading the list into a place and the KiB that this took at most, and the
 * microseconds of a query of the list in the place. Times are the least of several. */
#define _POSIX_C_SOURCE 200809L
#include <krl.h>
#include <stdio.h>
#include <stdlib.h>
#include <time.h>

enum { ROOM = 1 << 25 };

static uint8_t *list, line[1 << 17];
static size_t length, line_length;
static krl handle;

static int32_t check(void) {
    return krl_check_line(list, length, line, line_length);
}

static int32_t load(void) {
    return krl_load(&handle, list, length);
}

static int32_t ask(void) {
    return krl_ask_line(&handle, line, line_length);
}

static double now(clockid_t clock) {
    struct timespec at;
    clock_gettime(clock, &at);
    return (double)at.tv_sec * 1e6 + (double)at.tv_nsec / 1e3;
}

/* The microseconds of a call, where it is made so often. */
static double taken(int32_t (*call)(void), int count) {
    double before = now(CLOCK_PROCESS_CPUTIME_ID);
    for (int at = 0; at < count; at++)
        if (call() < 0) exit(255);
    return (now(CLOCK_PROCESS_CPUTIME_ID) - before) / count;
}

/* The least microseconds of a call, in half a second of calls or in three rounds. A round has a
 * thousand calls where they are short. */
static double least(int32_t (*call)(void)) {
    int count = taken(call, 1) < 1000 ? 1000 : 1;
    double begun = now(CLOCK_MONOTONIC), least = taken(call, count);
    for (int at = 1; at < 3 || now(CLOCK_MONOTONIC) < begun + 5e5; at++) {
        double other = taken(call, count);
        if (other < least) least = other;
    }
    return least;
}

/* The most memory that the process had so far, in KiB, without that of the one that started it. */
static long most(void) {
    char row[256];
    long found = -1;
    FILE *file = fopen("/proc/self/status", "r");
    while (file && found < 0 && fgets(row, sizeof row, file)) sscanf(row, "VmHWM: %ld", &found);
    if (found < 0) exit(255);
    fclose(file);
    return found;
}

static size_t content(const char *name, uint8_t *into, size_t room) {
    FILE *file = fopen(name, "rb");
    size_t read = file ? fread(into, 1, room, file) : 0;
    if (!file || read == room) exit(255);
    fclose(file);
    return read;
}

int main(int argc, char **argv) {
    list = malloc(ROOM), handle.at = malloc(krl_size());
    if (argc != 3 || !list || !handle.at) return 255;
    length = content(argv[1], list, ROOM);
    line_length = content(argv[2], line, sizeof line);
    line_length -= line_length && line[line_length - 1] == '\n';
    krl_init(handle.at);

    most(); /* takes the memory that it needs itself */
    long before = most();
    check();
    long checking = most() - before;
    load();
    long held = most() - before;
    double checked = least(check), loaded = least(load), asked = least(ask);
    krl_unload(&handle);
    printf("%.2f %ld %.2f %ld %.2f\n", checked, checking, loaded, held, asked);
}
