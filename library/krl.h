/* krl.h: whether an OpenSSH key revocation list (KRL) revokes a key or a certificate.
 *
 * A RevokedKeys file of sshd can be a KRL or a plain list, a file of public keys. krl_check_any
 * takes both. The other calls read KRLs alone: they answer -101 for a plain list, as for anything
 * else that is no KRL, or -103 if the file has fewer than 8 bytes.
 *
 * Fail closed: let a key in if krl_check, krl_check_any, krl_check_line, krl_ask or krl_ask_line
 * answers KRL_OK for it, and in no other case. KRL_OK of krl_load says only that the list was read.
 *
 * The calls do not check the signatures of a list, of a certificate or of a login, whether a
 * certificate's authority is trusted, or whether the certificate is valid now. Check these too.
 *
 * The calls read only the bytes that they are given, which may be any bytes. They keep no state
 * of their own, print nothing, never end the process, and take memory from malloc alone. They
 * may run at the same time in any threads, also over the same bytes, as long as nobody writes
 * these bytes meanwhile. Many threads may ask one handle (struct krl, below) at the same time;
 * krl_load and krl_unload need it alone. Call none of them from a signal handler, nor in the
 * forked child of a process with threads before it calls exec, since they call malloc.
 *
 * A pointer to bytes may be null if its length is 0. No other pointer may be null.
 *
 * The promises hold for a program that keeps these rules. A program that breaks a rule, for
 * example by a wrong length, or by bytes or memory that change while a call runs, may crash or
 * get a wrong answer, also KRL_OK for a revoked key.
 */
#ifndef KRL_H
#define KRL_H

#include <stddef.h>
#include <stdint.h>

#define KRL_VERSION_MAJOR 1
#define KRL_VERSION_MINOR 0
#define KRL_VERSION_PATCH 0

#ifdef __cplusplus
extern "C" {
#endif

/* The answers. Below zero there is no answer, and the number says why. */
#define KRL_OK 0           /* the list does not revoke the key; of krl_load: the list was read */
#define KRL_REVOKED 1      /* the list revokes it */
#define KRL_NO_MEMORY (-1) /* malloc gave none: the same call may succeed later */
#define KRL_NOT_LOADED (-2) /* no list was read into the handle */

/* -101 to -118: the list is refused. -101 to -115 are its first fault, by the last two digits;
 * -113 and -114 are never answered. */
#define KRL_LIST_MAGIC (-101) /* no KRL */
#define KRL_LIST_FORMAT_VERSION (-102) /* not format version 1 */
#define KRL_LIST_ENDS_EARLY (-103) /* truncated, in its header or within a section */
#define KRL_LIST_UNKNOWN_SECTION (-104) /* it may revoke the key, so the list is refused */
#define KRL_LIST_UNKNOWN_CERT_SECTION (-105)
#define KRL_LIST_LENGTH (-106) /* a length does not fit what it is the length of */
#define KRL_LIST_RANGE_REVERSED (-107)
#define KRL_LIST_BITMAP_NEGATIVE (-108)
#define KRL_LIST_BITMAP_WRAPS (-109)
#define KRL_LIST_HASH_LENGTH (-110)
#define KRL_LIST_AFTER_SIGNATURE (-111)
#define KRL_LIST_TOO_LONG (-112) /* more than 67,108,864 bytes */
#define KRL_LIST_CRITICAL_EXTENSION (-115)

/* The list has no fault, but the authority of one of its sections is neither empty, for all
 * authorities, nor a key in its one spelling that OpenSSH accepts. OpenSSH may take it for a key, and
 * so revoke certificates that a comparison of bytes does not find, or refuse the list. So let nobody
 * in.
 *
 * OpenSSH accepts no RSA or DSA key with a number of more than 16,384 bits, and no RSA key of fewer
 * than 1,024 bits. The point of an ECDSA key must be on its curve, and each of its two coordinates
 * must have more than half as many bits as the order of the curve, and be below the order less
 * one. */
#define KRL_LIST_AUTHORITY (-116)

/* A line of a plain list is neither empty nor a comment nor a key. sshd refuses every key while
 * its list has such a line. */
#define KRL_LIST_LINE (-117)

/* The list has no fault, but one of its key IDs has a zero byte. OpenSSH ends the key ID there, and
 * so revokes other certificates, or refuses the list. So let nobody in. */
#define KRL_LIST_KEY_ID (-118)

/* -201 to -203: the line has no key. */
#define KRL_LINE_NO_KEY (-201)
#define KRL_LINE_BASE64 (-202)
#define KRL_LINE_WORD_DIFFERS (-203) /* the line names another type than the key has */

/* -302 to -313: the blob is no plain key, -401 to -410: no certificate. -503 to -513: the key of
 * the certificate is no key, -602 to -613: the key of its authority is no key. The last two digits
 * of the number say the key's fault: 02 its type is not known, 03 another curve than its type says,
 * 04 its point has another form, 05 a length, 06 a number, 07 bytes after it, 08 more than
 * 65,536 bytes, and of a field: 11 it ends early, 12 a negative number, 13 a number with a
 * needless zero byte. -402, -502 and -507 are never answered: the type of a certificate is known
 * before it is read, and other fields follow its key. */
#define KRL_CERT_KEY_ID (-410) /* a certificate whose key ID has a zero byte, as above */
#define KRL_IS_LIST_FAULT(answer) ((answer) <= -101 && (answer) >= -118)
#define KRL_IS_KEY_FAULT(answer) ((answer) <= -201)

/* Whether a list revokes the key of a blob.
 *
 * list: the whole content of the file. The call keeps in memory only what the query needs.
 * blob: a public key or a certificate as SSH sends it (RFC 4253, section 6.6, and
 *     PROTOCOL.certkeys). For a certificate the call looks up its plain key, its key ID, its
 *     serial number and its authority's key.
 *
 * If both the list and the blob have a fault, the call reports that of the list. */
int32_t krl_check(const uint8_t *list, size_t list_length,
                  const uint8_t *blob, size_t blob_length);

/* The same for a list that is a KRL or a plain list, as the RevokedKeys file of sshd: a list that
 * begins with the 8 bytes of the magic of a KRL is one, and every other list is a plain list, also
 * an empty one.
 *
 * Each line of a plain list is empty, a comment, or a key as in a .pub file, with nothing before
 * it. It revokes this key and each certificate of it; the key of an authority also revokes each
 * certificate of that authority. The line of a certificate is as the line of its plain key. The
 * line of an RSA key of fewer than 1,024 bits revokes nothing. If any other text is on a line, also
 * any other key that OpenSSH does not accept (KRL_LIST_AUTHORITY), the answer is KRL_LIST_LINE for
 * every key. A few lines that sshd reads get it too: base64 with a carriage return in it, a key
 * under the name of its signatures, numbers with a needless zero byte.
 *
 * The signature of a certificate on the list is not checked, nor are its authority and its
 * principals: sshd refuses every key for a list with a wrong one, and the call does not. It keeps
 * all keys of a plain list in memory while it runs.
 *
 * A list without a key, also one of no bytes, revokes nobody. If a file could not be read to its
 * end, do not call with a part of it. */
int32_t krl_check_any(const uint8_t *list, size_t list_length,
                      const uint8_t *blob, size_t blob_length);

/* krl_check for the key of a line, as in a .pub or an authorized_keys file: options or none, the
 * name of the type, the key in base64, and a comment or none. The line has no line feed. */
int32_t krl_check_line(const uint8_t *list, size_t list_length,
                       const uint8_t *line, size_t line_length);

/* Why a list revokes the key of a blob: the sum of the numbers below for all reasons that hold, so
 * KRL_OK if it does not revoke the key. A number below zero is that of krl_check: there is no
 * answer. Ask krl_check or krl_ask whether to let a key in, and this call for the text of a log. */
int32_t krl_why(const uint8_t *list, size_t list_length,
                const uint8_t *blob, size_t blob_length);

/* The reasons. An entry of the list is the key, or a hash of it. The key of a certificate is its
 * plain key. */
#define KRL_WHY_KEY 1
#define KRL_WHY_KEY_SHA1 2
#define KRL_WHY_KEY_SHA256 4
/* It is the key of the certificate's authority, or a hash of it. */
#define KRL_WHY_AUTHORITY 8
#define KRL_WHY_AUTHORITY_SHA1 16
#define KRL_WHY_AUTHORITY_SHA256 32
/* It names the certificate's serial number, under its authority or under all authorities. */
#define KRL_WHY_SERIAL 64
#define KRL_WHY_SERIAL_OF_ALL 128
/* It is the certificate's key ID, under its authority or under all authorities. */
#define KRL_WHY_KEY_ID 256
#define KRL_WHY_KEY_ID_OF_ALL 512

/* A list that is read once and asked often.
 *
 * Its memory is krl_size() bytes at a multiple of 16, as malloc returns them. From krl_init on they
 * belong to the library: do not read, write, copy or move them until krl_unload. You may copy and
 * move the struct, which has their address.
 *
 * krl_ask and krl_ask_line change nothing, so any number of threads may ask one list at the same
 * time. While krl_init, krl_load or krl_unload runs, no other call may get its memory: guard it by
 * a lock for readers and writers, or load a new list into other memory. */
typedef struct krl {
    void *at;
} krl;

/* How many bytes of memory a list needs. Always call it: another version of the library may have
 * another number. */
size_t krl_size(void);

/* Makes the memory ready, without a list. Calls no malloc. */
void krl_init(void *at);

/* Reads a list: KRL_OK if the handle has it now, or why not. If the list is refused, the handle
 * keeps the list that it had before. After the call the library does not use the list's bytes: you
 * may free or change them. */
int32_t krl_load(krl *handle, const uint8_t *list, size_t list_length);

/* As krl_check and krl_check_line, for the list of the handle: KRL_NOT_LOADED if it has none. They
 * only read its memory. */
int32_t krl_ask(const krl *handle, const uint8_t *blob, size_t blob_length);
int32_t krl_ask_line(const krl *handle, const uint8_t *line, size_t line_length);

/* Frees what the list took from malloc. The memory is then as krl_init leaves it, and you may free
 * it. */
void krl_unload(krl *handle);

/* The words for an answer of any call but krl_why, and for an answer of krl_why below zero. For a
 * fault they are those that krl-keygen prints, such as "krl 3 EndsEarly", "line 2 Base64" and
 * "subject 1 Key, key 4 Point". The other answers have the words "ok", "revoked", "no memory",
 * "no list is loaded", "an authority of the list is no key in its one spelling" and "a line of the
 * plain list is no key". A number that has no words gets "unknown answer".
 *
 * The call writes them as snprintf does: as many bytes as leave room for a zero byte, and that
 * byte; nothing if the size is 0. The result is the length of the words, whatever the size: if it
 * is not below the size, the words were truncated. No words are longer than 64 bytes. The call
 * takes no memory and cannot fail. */
size_t krl_fault_text(int32_t answer, char *buffer, size_t size);

#ifdef __cplusplus
}
#endif
#endif
