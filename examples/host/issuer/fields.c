/* The fields of a descriptor, and how they are encoded. Map keys stand in bytewise order of their encodings, so shorter keys come first. */
#include "fields.h"

#include "arguments.h"
#include "words.h"

/* Writes a key and its text, unless there is none. */
static void put_text_entry(encoding *out, const char *key, const char *text) {
    if (text != NULL) {
        put_text(out, key);
        put_text(out, text);
    }
}

/* Writes a key and its number. */
static void put_number_entry(encoding *out, const char *key, uint64_t number) {
    put_text(out, key);
    put_unsigned(out, number);
}

/* Writes a key and a map of one pair, unless there is none. */
static void put_pair_entry(encoding *out, const char *key, pair_fields pair) {
    if (pair.key != NULL) {
        put_text(out, key);
        put_map(out, 1);
        put_text_entry(out, pair.key, pair.value);
    }
}

/* Writes the modes of a mask, lowest first. */
static void put_modes(encoding *out, uint64_t mask) {
    uint64_t count = 0;
    for (uint64_t mode = 0; mode < MODE_COUNT; mode++) {
        count += mask >> mode & 1;
    }
    put_array(out, count);
    for (uint64_t mode = 0; mode < MODE_COUNT; mode++) {
        if ((mask >> mode & 1) != 0) {
            put_text(out, mode_name(mode));
        }
    }
}

/* Writes a grant. */
static void put_grant(encoding *out, const grant_fields *grant) {
    put_map(out, grant->constraint.key != NULL ? 3 : 2);
    put_text(out, "modes");
    put_modes(out, grant->mask);
    put_pair_entry(out, "constraints", grant->constraint);
    put_text_entry(out, "resource_pattern", grant->pattern);
}

/* Writes the grants. */
static void put_grants(encoding *out, const payload_fields *payload) {
    put_text(out, "grants");
    put_array(out, payload->grant_count);
    for (size_t place = 0; place < payload->grant_count; place++) {
        put_grant(out, &payload->grants[place]);
    }
}

/* Writes the descriptor id, 16 bytes; a text that is no UUID text makes the encoding of no use. */
static void put_descriptor_id(encoding *out, const char *text) {
    uint8_t id[ID_LEN];
    if (!parse_id(text, id)) {
        out->full = true;
        return;
    }
    put_text(out, "descriptor_id");
    put_bytes(out, id, ID_LEN);
}

/* Encodes the payload alone. */
void encode_payload(encoding *out, const payload_fields *payload) {
    uint64_t optional = (uint64_t)(payload->metadata.key != NULL) + (uint64_t)(payload->grantor != NULL);
    put_map(out, 8 + optional);
    put_grants(out, payload);
    put_pair_entry(out, "metadata", payload->metadata);
    put_number_entry(out, "issued_at", payload->issued_at);
    put_text_entry(out, "issuer_id", payload->issuer);
    put_number_entry(out, "not_after", payload->not_after);
    put_text_entry(out, "grantor_id", payload->grantor);
    put_number_entry(out, "not_before", payload->not_before);
    put_text_entry(out, "terminal_id", payload->terminal);
    put_descriptor_id(out, payload->id);
    put_text_entry(out, "subject_fay_id", payload->fay);
}

/* Writes the signature's map. */
static void put_signature(encoding *out, const signature_fields *signature) {
    put_map(out, 3);
    put_text_entry(out, "key_id", signature->key_id);
    put_text_entry(out, "algorithm", algorithm_name(signature->algorithm));
    put_text(out, "signature_value");
    put_bytes(out, signature->value, signature->value_len);
}

/* Encodes the whole descriptor. */
void encode_descriptor(encoding *out, const encoding *payload, const signature_fields *signature) {
    put_map(out, 3);
    put_text(out, "payload");
    put_encoding(out, payload);
    put_number_entry(out, "version", 1);
    put_text(out, "signature");
    put_signature(out, signature);
}
