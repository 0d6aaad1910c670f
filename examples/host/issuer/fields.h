/* The fields of a descriptor, and how they are encoded. */
#ifndef HOST_FIELDS_H
#define HOST_FIELDS_H

#include <stddef.h>
#include <stdint.h>

#include "encoding.h"

/* A pair of metadata or of a constraint; with a null key there is none. One pair is enough for the example. */
typedef struct pair_fields {
    const char *key;
    const char *value;
} pair_fields;

/* A grant. */
typedef struct grant_fields {
    const char *pattern;
    uint64_t mask; /* the modes as a mask, 1 for read, 2 for write, 4 for execute, 8 for configure */
    pair_fields constraint;
} grant_fields;

/* The payload of a descriptor. */
typedef struct payload_fields {
    const char *id; /* a UUID text */
    const char *issuer;
    const char *grantor; /* null for none */
    const char *fay;
    const char *terminal;
    uint64_t issued_at;
    uint64_t not_before;
    uint64_t not_after;
    pair_fields metadata;
    const grant_fields *grants;
    size_t grant_count;
} payload_fields;

/* The signature of a descriptor. */
typedef struct signature_fields {
    const char *key_id;
    uint64_t algorithm;
    const uint8_t *value;
    size_t value_len;
} signature_fields;

/* Encodes the payload alone, which is what gets signed. */
void encode_payload(encoding *out, const payload_fields *payload);

/* Encodes the whole descriptor from its encoded payload and its signature. */
void encode_descriptor(encoding *out, const encoding *payload, const signature_fields *signature);

#endif
