/* What the host says to the gate about a descriptor's signature: its verdict, and the window of the key. */
#ifndef HOST_JUDGEMENT_H
#define HOST_JUDGEMENT_H

#include <stdbool.h>
#include <stddef.h>
#include <stdint.h>

#include "keys.h"

/* The verdict on a signature and the window of its key, as cap_submit and cap_request take them. */
typedef struct judgement {
    uint64_t verdict; /* one of cap_verdict */
    uint64_t valid_from;
    bool has_valid_until;
    uint64_t valid_until;
} judgement;

/* Judges the signature of a descriptor: looks the key up by issuer, key id and algorithm, and checks the signature over the payload part.
 * Bytes that don't read as a descriptor have no key; the gate refuses them before it looks at the verdict. */
judgement judge_signature(const key_list *keys, const uint8_t *descriptor, size_t len);

/* Prints which key a descriptor names and what the verdict is; nothing for bytes that don't read. */
void print_judgement(const judgement *judged, const uint8_t *descriptor, size_t len);

#endif
