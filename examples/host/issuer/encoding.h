/* A tiny writer of CBOR in deterministic encoding (RFC 8949, section 4.2.1): shortest heads, definite lengths. Whoever writes a map writes its
 * keys in their order. */
#ifndef HOST_ENCODING_H
#define HOST_ENCODING_H

#include <stdbool.h>
#include <stddef.h>
#include <stdint.h>

/* The most bytes that a descriptor may have. */
enum { ENCODING_MAX_LEN = 32768 };

/* The bytes written so far. After a write that had no room, `full` is true and the bytes are of no use. */
typedef struct encoding {
    uint8_t bytes[ENCODING_MAX_LEN];
    size_t len;
    bool full;
} encoding;

/* Writes an unsigned integer. */
void put_unsigned(encoding *out, uint64_t number);

/* Writes a byte string. */
void put_bytes(encoding *out, const uint8_t *bytes, size_t len);

/* Writes a text. */
void put_text(encoding *out, const char *text);

/* Writes the head of an array of so many items. */
void put_array(encoding *out, uint64_t count);

/* Writes the head of a map of so many pairs. */
void put_map(encoding *out, uint64_t pairs);

/* Writes what another encoding has. */
void put_encoding(encoding *out, const encoding *other);

#endif
