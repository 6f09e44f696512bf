/* nulls: the calls of krl.h over stubs in place of the proved functions, with null pointers where
 * there are no bytes. Prints each call whose stub gets one. */
#include "../../../library/entry.c"
#include <stdbool.h>
#include <stdio.h>

static bool was_null;

static int32_t seen(const void *one, const void *other) {
    was_null = !one || !other;
    return 0;
}

int32_t proved_krl_check(const uint8_t *list, size_t list_length,
                         const uint8_t *blob, size_t blob_length) {
    return (void)list_length, (void)blob_length, seen(list, blob);
}

int32_t proved_krl_check_any(const uint8_t *list, size_t list_length,
                             const uint8_t *blob, size_t blob_length) {
    return (void)list_length, (void)blob_length, seen(list, blob);
}

int32_t proved_krl_check_line(const uint8_t *list, size_t list_length,
                              const uint8_t *line, size_t line_length) {
    return (void)list_length, (void)line_length, seen(list, line);
}

int32_t proved_krl_why(const uint8_t *list, size_t list_length,
                       const uint8_t *blob, size_t blob_length) {
    return (void)list_length, (void)blob_length, seen(list, blob);
}

int32_t proved_krl_load(krl *handle, const uint8_t *list, size_t list_length) {
    return (void)list_length, seen(handle, list);
}

int32_t proved_krl_ask(const void *at, const uint8_t *blob, size_t blob_length) {
    return (void)at, (void)blob_length, seen(blob, blob);
}

int32_t proved_krl_ask_line(const void *at, const uint8_t *line, size_t line_length) {
    return (void)at, (void)line_length, seen(line, line);
}

size_t proved_krl_fault_text(int32_t answer, char *buffer, size_t size) {
    return (void)answer, (void)size, (size_t)seen(buffer, buffer);
}

static void judge(const char *call) {
    if (was_null) printf("%s\n", call);
    was_null = true;
}

int main(void) {
    static const uint8_t some[1];
    krl handle = {NULL};
    for (int at = 1; at < 4; at++) {
        const uint8_t *one = at & 1 ? NULL : some, *other = at & 2 ? NULL : some;
        size_t one_length = !!one, other_length = !!other;
        was_null = true;
        krl_check(one, one_length, other, other_length), judge("krl_check");
        krl_check_any(one, one_length, other, other_length), judge("krl_check_any");
        krl_check_line(one, one_length, other, other_length), judge("krl_check_line");
        krl_why(one, one_length, other, other_length), judge("krl_why");
    }
    krl_load(&handle, NULL, 0), judge("krl_load");
    krl_ask(&handle, NULL, 0), judge("krl_ask");
    krl_ask_line(&handle, NULL, 0), judge("krl_ask_line");
    krl_fault_text(0, NULL, 0), judge("krl_fault_text");
    return 0;
}
