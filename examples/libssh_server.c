/* A server that lets in the keys of an authorized_keys file, but none that a list revokes.
 *
 *   cc -o libssh_server libssh_server.c $(pkg-config --cflags --libs libssh krl)
 *   ./libssh_server PORT HOST_KEY authorized_keys revoked.krl
 *
 * It listens on the loopback, and answers "let in" to a client that asks it to run a command. Your
 * own server with libssh needs the code before the comment "The server", which decides about the
 * key. */
#define _GNU_SOURCE
#include <krl.h>
#include <libssh/callbacks.h>
#include <libssh/server.h>
#include <stdbool.h>
#include <stdio.h>
#include <stdlib.h>
#include <string.h>

static const char *allowed, *revoked;

/* The words for the reasons of krl_why, from its lowest bit on. */
static const char *const reasons[] = {
    "its key", "the SHA-1 of its key", "the SHA-256 of its key",
    "its authority", "the SHA-1 of its authority", "the SHA-256 of its authority",
    "its serial number", "its serial number under all authorities",
    "its key ID", "its key ID under all authorities",
};

/* Says in the log whom the list does not let in, by which key, and why. A client may send any bytes
 * as the name of a user. */
static void report(const char *user, ssh_key key, int32_t answer, int32_t why) {
    unsigned char *hash = NULL;
    size_t length = 0;
    char *fingerprint = NULL, words[65];
    const char *before = " by ";
    if (ssh_get_publickey_hash(key, SSH_PUBLICKEY_HASH_SHA256, &hash, &length) == SSH_OK)
        fingerprint = ssh_get_fingerprint_hash(SSH_PUBLICKEY_HASH_SHA256, hash, length);
    krl_fault_text(answer, words, sizeof words);
    fprintf(stderr, "%s: user ", revoked);
    for (; *user; user++) fputc(*user > ' ' && *user <= '~' ? *user : '?', stderr);
    fprintf(stderr, ", key %s: %s", fingerprint ? fingerprint : "unknown", words);
    if (answer == KRL_REVOKED && why < 0) fputs(" by a line of a plain list", stderr);
    for (int at = 0; answer == KRL_REVOKED && why > 0 && at < 10; at++)
        if (why >> at & 1) fprintf(stderr, "%s%s", before, reasons[at]), before = ", ";
    fputc('\n', stderr);
    ssh_string_free_char(fingerprint);
    ssh_clean_pubkey_hash(&hash);
}

/* Writes the bytes of base64, which libssh made, over the text, and returns how many they are. */
static size_t decode(char *text) {
    static const char digits[] = "ABCDEFGHIJKLMNOPQRSTUVWXYZabcdefghijklmnopqrstuvwxyz0123456789+/";
    const char *digit;
    size_t length = 0;
    uint32_t bits = 0;
    int count = 0;
    for (const char *at = text; *at && (digit = strchr(digits, *at)); at++) {
        bits = bits << 6 | (uint32_t)(digit - digits);
        count += 6;
        if (count >= 8) text[length++] = (char)(bits >> (count -= 8));
    }
    return length;
}

/* Whether the list, a KRL or a plain file of keys, does not revoke a key, of which the base64 is
 * decoded in its place. The list is read at each login, so a new one takes effect immediately. If
 * the list cannot be read, nobody is let in. */
static bool is_not_revoked(const char *user, ssh_key key, char *base64) {
    FILE *file = fopen(revoked, "rb");
    uint8_t *list = NULL, *longer;
    size_t length = 0, size = 0;
    int32_t answer = KRL_NO_MEMORY, why = 0;
    const uint8_t *blob = (const uint8_t *)base64;
    const size_t blob_length = decode(base64);
    if (!file) return perror(revoked), false;
    while (!feof(file) && !ferror(file) && (longer = realloc(list, size += 1 << 16))) {
        list = longer;
        length += fread(list + length, 1, size - length, file);
    }
    if (feof(file)) answer = krl_check_any(list, length, blob, blob_length);
    if (answer == KRL_REVOKED) why = krl_why(list, length, blob, blob_length);
    if (answer != KRL_OK) report(user, key, answer, why);
    free(list);
    fclose(file);
    return answer == KRL_OK;
}

/* Whether a line of the file begins with this one, a type and a key. Lines with options are
 * skipped, since this server knows none. */
static bool is_allowed(const char *line) {
    FILE *file = fopen(allowed, "r");
    size_t length = strlen(line), room = 0;
    char *found = NULL;
    bool is_there = false;
    while (file && !is_there && getline(&found, &room, file) > 0)
        is_there = !strncmp(found, line, length) && strchr(" \t\r\n", found[length]);
    free(found);
    if (file) fclose(file);
    return is_there;
}

/* libssh calls this when a client offers a key, and again when the client has signed with it. */
static int offers_key(ssh_session session, const char *user, ssh_key key, char state, void *given) {
    char *base64 = NULL, *line = NULL;
    int answer = SSH_AUTH_DENIED;
    (void)session, (void)given;
    if ((state == SSH_PUBLICKEY_STATE_NONE || state == SSH_PUBLICKEY_STATE_VALID) &&
        ssh_pki_export_pubkey_base64(key, &base64) == SSH_OK &&
        asprintf(&line, "%s %s", ssh_key_type_to_char(ssh_key_type(key)), base64) > 0) {
        if (is_allowed(line) && is_not_revoked(user, key, base64)) answer = SSH_AUTH_SUCCESS;
        free(line);
    }
    ssh_string_free_char(base64);
    return answer;
}

/* The server: one client at a time. */
typedef struct client {
    ssh_channel channel;
    struct ssh_channel_callbacks_struct calls;
    bool is_asking;
} client;

static int asks(ssh_session session, ssh_channel channel, const char *command, void *given) {
    (void)session, (void)channel, (void)command;
    ((client *)given)->is_asking = true;
    return SSH_OK;
}

static ssh_channel opens_channel(ssh_session session, void *given) {
    client *it = given;
    it->calls.userdata = it;
    it->calls.channel_exec_request_function = asks;
    ssh_callbacks_init(&it->calls);
    it->channel = ssh_channel_new(session);
    if (it->channel) ssh_set_channel_callbacks(it->channel, &it->calls);
    return it->channel;
}

static void serve(ssh_session session) {
    client it = {0};
    struct ssh_server_callbacks_struct calls = {
        .userdata = &it,
        .auth_pubkey_function = offers_key,
        .channel_open_request_session_function = opens_channel,
    };
    ssh_event event = ssh_event_new();
    ssh_callbacks_init(&calls);
    ssh_set_server_callbacks(session, &calls);
    ssh_set_auth_methods(session, SSH_AUTH_METHOD_PUBLICKEY);
    if (ssh_handle_key_exchange(session) == SSH_OK) ssh_event_add_session(event, session);
    while (!it.is_asking && ssh_is_connected(session) && ssh_event_dopoll(event, 10000) == SSH_OK) {
    }
    if (it.is_asking) {
        ssh_channel_write(it.channel, "let in\n", 7);
        ssh_channel_request_send_exit_status(it.channel, 0);
        ssh_channel_send_eof(it.channel);
        ssh_channel_close(it.channel);
        while (ssh_is_connected(session) && ssh_event_dopoll(event, 10000) == SSH_OK) {
        }
    }
    ssh_event_free(event);
}

int main(int argc, char **argv) {
    ssh_bind server = ssh_bind_new();
    if (argc != 5 || !server) return 255;
    allowed = argv[3], revoked = argv[4];
    ssh_bind_options_set(server, SSH_BIND_OPTIONS_BINDADDR, "127.0.0.1");
    ssh_bind_options_set(server, SSH_BIND_OPTIONS_BINDPORT_STR, argv[1]);
    ssh_bind_options_set(server, SSH_BIND_OPTIONS_HOSTKEY, argv[2]);
    if (ssh_bind_listen(server) != SSH_OK) {
        fprintf(stderr, "%s\n", ssh_get_error(server));
        return 255;
    }
    for (;;) {
        ssh_session session = ssh_new();
        if (session && ssh_bind_accept(server, session) == SSH_OK) serve(session);
        ssh_disconnect(session);
        ssh_free(session);
    }
}
