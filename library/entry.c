/* The calls of krl.h that take bytes. Each one calls a proved function.
 *
 * The proved functions never get a null pointer, whatever the length. If a length is 0 they get
 * another address, and read and write nothing there. A query takes the memory itself, which it only
 * reads, and not the struct with its address: many threads may ask at the same time. */
#include "krl.h"

int32_t proved_krl_check(const uint8_t *, size_t, const uint8_t *, size_t);
int32_t proved_krl_check_any(const uint8_t *, size_t, const uint8_t *, size_t);
int32_t proved_krl_check_line(const uint8_t *, size_t, const uint8_t *, size_t);
int32_t proved_krl_why(const uint8_t *, size_t, const uint8_t *, size_t);
int32_t proved_krl_load(krl *, const uint8_t *, size_t);
int32_t proved_krl_ask(const void *, const uint8_t *, size_t);
int32_t proved_krl_ask_line(const void *, const uint8_t *, size_t);
size_t proved_krl_fault_text(int32_t, char *, size_t);

static uint8_t nothing[1];

static const uint8_t *bytes(const uint8_t *at, size_t length) {
    return length ? at : nothing;
}

int32_t krl_check(const uint8_t *list, size_t list_length,
                  const uint8_t *blob, size_t blob_length) {
    return proved_krl_check(bytes(list, list_length), list_length,
                            bytes(blob, blob_length), blob_length);
}

int32_t krl_check_any(const uint8_t *list, size_t list_length,
                      const uint8_t *blob, size_t blob_length) {
    return proved_krl_check_any(bytes(list, list_length), list_length,
                                bytes(blob, blob_length), blob_length);
}

int32_t krl_check_line(const uint8_t *list, size_t list_length,
                       const uint8_t *line, size_t line_length) {
    return proved_krl_check_line(bytes(list, list_length), list_length,
                                 bytes(line, line_length), line_length);
}

int32_t krl_why(const uint8_t *list, size_t list_length,
                const uint8_t *blob, size_t blob_length) {
    return proved_krl_why(bytes(list, list_length), list_length,
                          bytes(blob, blob_length), blob_length);
}

int32_t krl_load(krl *handle, const uint8_t *list, size_t list_length) {
    return proved_krl_load(handle, bytes(list, list_length), list_length);
}

int32_t krl_ask(const krl *handle, const uint8_t *blob, size_t blob_length) {
    return proved_krl_ask(handle->at, bytes(blob, blob_length), blob_length);
}

int32_t krl_ask_line(const krl *handle, const uint8_t *line, size_t line_length) {
    return proved_krl_ask_line(handle->at, bytes(line, line_length), line_length);
}

size_t krl_fault_text(int32_t answer, char *buffer, size_t size) {
    return proved_krl_fault_text(answer, size ? buffer : (char *)nothing, size);
}
