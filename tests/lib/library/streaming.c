/* streaming LIST BLOB: queries a list by each call that streams it. The status is 0 where each
   answers 0. */
#include <krl.h>
#include <stdio.h>
#include <stdlib.h>

enum { ROOM = 1 << 21 };

static uint8_t *bytes_of(const char *name, size_t *length) {
    uint8_t *room = malloc(ROOM);
    FILE *file = fopen(name, "rb");
    if (!room || !file) exit(255);
    *length = fread(room, 1, ROOM, file);
    fclose(file);
    return room;
}

int main(int argc, char **argv) {
    if (argc != 3) return 255;
    size_t list_length, blob_length;
    uint8_t *list = bytes_of(argv[1], &list_length);
    uint8_t *blob = bytes_of(argv[2], &blob_length);
    int is_wrong = krl_check(list, list_length, blob, blob_length)
        || krl_check_any(list, list_length, blob, blob_length)
        || krl_why(list, list_length, blob, blob_length);
    free(list);
    free(blob);
    return is_wrong;
}
