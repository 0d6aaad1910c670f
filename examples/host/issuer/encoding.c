/* A tiny writer of CBOR in deterministic encoding. */
#include "encoding.h"

#include <string.h>

#include "cap.h"

/* Writes bytes as they are. */
static void put_raw(encoding *out, const uint8_t *bytes, size_t len) {
    if (out->full || len > ENCODING_MAX_LEN - out->len) {
        out->full = true;
        return;
    }
    memcpy(out->bytes + out->len, bytes, len);
    out->len += len;
}

/* Writes one byte and then a number in `width` bytes, big-endian. */
static void put_wide_head(encoding *out, uint8_t first, uint64_t number, size_t width) {
    uint8_t head[9];
    head[0] = first;
    for (size_t place = width; place > 0; place--) {
        head[place] = (uint8_t)(number & 0xff);
        number >>= 8;
    }
    put_raw(out, head, width + 1);
}

/* Writes the head of an item of a kind with its number, length or count, in the shortest form. */
static void put_head(encoding *out, enum cap_kind kind, uint64_t number) {
    uint8_t major = (uint8_t)((unsigned)kind << 5);
    if (number < 24) {
        put_wide_head(out, (uint8_t)(major | number), 0, 0);
    } else if (number <= UINT8_MAX) {
        put_wide_head(out, major | 24, number, 1);
    } else if (number <= UINT16_MAX) {
        put_wide_head(out, major | 25, number, 2);
    } else if (number <= UINT32_MAX) {
        put_wide_head(out, major | 26, number, 4);
    } else {
        put_wide_head(out, major | 27, number, 8);
    }
}

/* Writes an unsigned integer. */
void put_unsigned(encoding *out, uint64_t number) {
    put_head(out, CAP_UNSIGNED, number);
}

/* Writes a byte string. */
void put_bytes(encoding *out, const uint8_t *bytes, size_t len) {
    put_head(out, CAP_BYTE_STRING, len);
    put_raw(out, bytes, len);
}

/* Writes a text. */
void put_text(encoding *out, const char *text) {
    size_t len = strlen(text);
    put_head(out, CAP_TEXT, len);
    put_raw(out, (const uint8_t *)text, len);
}

/* Writes the head of an array of so many items. */
void put_array(encoding *out, uint64_t count) {
    put_head(out, CAP_ARRAY, count);
}

/* Writes the head of a map of so many pairs. */
void put_map(encoding *out, uint64_t pairs) {
    put_head(out, CAP_MAP, pairs);
}

/* Writes what another encoding has. */
void put_encoding(encoding *out, const encoding *other) {
    out->full = out->full || other->full;
    put_raw(out, other->bytes, other->len);
}
