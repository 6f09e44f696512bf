/* Asks a key revocation list about each key of an authorized_keys file.
 *
 *   cc -o revoked revoked.c $(pkg-config --cflags --libs krl)
 *   ./revoked revoked.krl ~/.ssh/authorized_keys
 *
 * It ends with 0 where no key is revoked, with 1 where one is, with 255 where that is not known. */
#define _POSIX_C_SOURCE 200809L
#include <krl.h>
#include <stdio.h>
#include <stdlib.h>
#include <string.h>

int main(int argc, char **argv) {
    FILE *list = argc == 3 ? fopen(argv[1], "rb") : NULL;
    FILE *keys = argc == 3 ? fopen(argv[2], "r") : NULL;
    krl revoked = {malloc(krl_size())};
    char *content = NULL, *line = NULL, words[65];
    size_t length = 0, read = 65536, room = 0;
    ssize_t size;
    int status = 0;
    if (!list || !keys || !revoked.at) return 255;

    while (read == 65536) { /* the whole list: a piece more, as long as pieces are full */
        if (!(content = realloc(content, length + 65536))) return 255;
        length += read = fread(content + length, 1, 65536, list);
    }
    krl_init(revoked.at);
    int32_t loaded = ferror(list) ? KRL_NOT_LOADED : krl_load(&revoked, (uint8_t *)content, length);
    krl_fault_text(loaded, words, sizeof words);
    if (loaded != KRL_OK) status = 255, fprintf(stderr, "%s: %s\n", argv[1], words);
    for (int number = 1; loaded == KRL_OK && (size = getline(&line, &room, keys)) > 0; number++) {
        if (line[size - 1] == '\n') size--;
        if (strchr("#\n\r", line[strspn(line, " \t")])) continue; /* a comment, or nothing */
        int32_t answer = krl_ask_line(&revoked, (uint8_t *)line, (size_t)size);
        krl_fault_text(answer, words, sizeof words);
        printf("line %d: %s\n", number, words);
        if (answer != KRL_OK && status != 255) status = answer == KRL_REVOKED ? 1 : 255;
    }
    if (ferror(keys)) status = 255;
    krl_unload(&revoked);
    free(revoked.at), free(content), free(line), fclose(list), fclose(keys);
    return status;
}
