/* loading LIST ANSWER: reads a list. The status is 0 where krl_load gives this answer. */
#include <krl.h>
#include <stdio.h>
#include <stdlib.h>

enum { ROOM = 1 << 21 };

int main(int argc, char **argv) {
    uint8_t *list = malloc(ROOM);
    krl handle = {malloc(krl_size())};
    FILE *file = argc == 3 ? fopen(argv[1], "rb") : NULL;
    if (!list || !handle.at || !file) return 255;
    size_t length = fread(list, 1, ROOM, file);
    krl_init(handle.at);
    int32_t answer = krl_load(&handle, list, length);
    krl_unload(&handle);
    fclose(file);
    free(handle.at);
    free(list);
    return answer != atol(argv[2]);
}
