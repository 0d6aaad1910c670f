/* The host's verification keys, from a key file.
 *
 * A key file is text with one line a key, its fields parted by blanks:
 *
 *     ISSUER KEY-ID ALGORITHM PUBLIC-KEY VALID-FROM [VALID-UNTIL]
 *
 * ALGORITHM is ed25519 or ecdsa-p256-sha256. PUBLIC-KEY is the key's bytes in hex, or pem:PATH with a path that is meant from the key file's
 * folder. The times are seconds since 1970; without VALID-UNTIL the key has no end. In ISSUER, KEY-ID and PATH a % and two hex digits stand
 * for a byte, such as %20 for a blank. Lines of blanks only and lines that begin with # are passed over. Two lines with one issuer, key id and
 * algorithm are an error, since it would be open which of them counts.
 */
#ifndef HOST_KEYS_H
#define HOST_KEYS_H

#include <openssl/evp.h>
#include <stdbool.h>
#include <stddef.h>
#include <stdint.h>

/* The longest issuer id and key id that a descriptor may have. */
enum { ISSUER_MAX_LEN = 128, KEY_ID_MAX_LEN = 64 };

/* A verification key. */
typedef struct verification_key {
    uint8_t issuer[ISSUER_MAX_LEN];
    size_t issuer_len;
    uint8_t key_id[KEY_ID_MAX_LEN];
    size_t key_id_len;
    uint64_t algorithm;
    EVP_PKEY *public_key;
    uint64_t valid_from;
    bool has_valid_until;
    uint64_t valid_until;
} verification_key;

/* The keys of a key file, in its order. */
typedef struct key_list {
    verification_key *keys;
    size_t count;
} key_list;

/* Reads a key file; answers false, and has told why and in which line, where it cannot be read. */
bool keys_read(const char *path, key_list *list);

/* Frees the keys. */
void keys_free(key_list *list);

/* Finds the key of an issuer under a key id for an algorithm, or null. */
const verification_key *keys_find(const key_list *list, const uint8_t *issuer, size_t issuer_len, const uint8_t *key_id, size_t key_id_len,
                                  uint64_t algorithm);

#endif
