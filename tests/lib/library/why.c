/* Prints why a list revokes a blob: why LIST BLOB. */
#include <inttypes.h>
#include <krl.h>
#include <stdio.h>

static size_t content(const char *name, uint8_t *room, size_t size) {
    FILE *file = fopen(name, "rb");
    size_t count = file ? fread(room, 1, size, file) : 0;
    if (file) fclose(file);
    return count;
}

int main(int argc, char **argv) {
    static uint8_t list[65536], blob[65536];
    if (argc != 3) return 255;
    size_t list_length = content(argv[1], list, sizeof list);
    size_t blob_length = content(argv[2], blob, sizeof blob);
    printf("%" PRId32 "\n", krl_why(list, list_length, blob, blob_length));
    return 0;
}
