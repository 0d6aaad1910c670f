/* What the descriptors of the example say, and who signs them. */
#ifndef HOST_SAMPLES_H
#define HOST_SAMPLES_H

#include <stdbool.h>
#include <stddef.h>
#include <stdint.h>

#include "fields.h"

/* A signer: a key of an issuer. */
typedef struct signer {
    const char *issuer;
    const char *key_id;
    uint64_t algorithm;
    uint64_t valid_from;
    bool has_valid_until;
    uint64_t valid_until;
    bool listed;          /* whether the terminal's key file has the key */
    const char *pem_name; /* the PEM file of the public key; null where the key file has it in hex */
} signer;

/* The signers by their places. */
enum { LAB_KEY, STAFF_KEY, GUEST_KEY, STRANGER_KEY, SIGNER_COUNT };
extern const signer signers[SIGNER_COUNT];

/* A descriptor of the example. */
typedef struct sample {
    const char *file_name;
    size_t signer;
    payload_fields payload;
    const payload_fields *signed_instead; /* the payload that the signature is of, where the signature is a bad one; else null */
} sample;

/* The descriptors. */
extern const sample samples[];
extern const size_t sample_count;

#endif
