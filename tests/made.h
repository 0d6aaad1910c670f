/* Descriptors and lease tables for the test of the calls, made byte by byte. */
#ifndef TESTS_MADE_H
#define TESTS_MADE_H

#include <stddef.h>
#include <stdint.h>
#include <string.h>

/* ---- writing CBOR */

typedef struct bytes {
    uint8_t at[32768];
    size_t len;
} bytes;

static void put(bytes *b, const void *s, size_t n) {
    memcpy(b->at + b->len, s, n);
    b->len += n;
}

static void head(bytes *b, unsigned major, unsigned n) {
    uint8_t h[5] = {(uint8_t)(major << 5), (uint8_t)(n >> 24), (uint8_t)(n >> 16), (uint8_t)(n >> 8), (uint8_t)n};
    if (n < 24) {
        h[0] |= (uint8_t)n;
        put(b, h, 1);
    } else if (n < 256) {
        h[0] |= 24;
        put(b, h, 1);
        put(b, h + 4, 1);
    } else if (n < 65536) {
        h[0] |= 25;
        put(b, h, 1);
        put(b, h + 3, 2);
    } else {
        h[0] |= 26;
        put(b, h, 5);
    }
}

/* A string of a major type; where its content starts. */
static size_t string(bytes *b, unsigned major, const void *s, size_t n) {
    head(b, major, (unsigned)n);
    put(b, s, n);
    return b->len - n;
}

static size_t text(bytes *b, const char *s) { return string(b, 3, s, strlen(s)); }

/* ---- descriptors */

#define T "terminal:00000000-0000-7000-8000-000000000001"
#define OTHER_T "terminal:00000000-0000-7000-8000-000000000002"
#define FAY "fay:01927b34-7e21-7c4d-a89f-1234567890ab"
#define OTHER_FAY "fay:01927b34-7e21-7c4d-a89f-1234567890ac"

/* The 16 bytes of the descriptor id with a number below 16, a UUID of version 7: each byte has the number, one the version too, and one the variant. */
#define ID(n) (n), (n), (n), (n), (n), (n), 0x70 | (n), (n), 0x80 | (n), (n), (n), (n), (n), (n), (n), (n)

static const char *const modes[] = {"read", "write", "execute", "configure"};

typedef struct grant {
    const char *modes; /* digits */
    const char *pattern;
    unsigned constraints; /* how many pairs; 0: absent */
} grant;

/* What to write. */
typedef struct fields {
    grant grants[4]; /* up to one without a pattern */
    unsigned pairs;  /* of metadata; 0: absent */
    const char *grantor;
    unsigned issued_at, not_before, not_after;
    uint8_t id; /* its number */
    unsigned algorithm, signature_len;
} fields;

/* Where it was put. */
typedef struct places {
    size_t payload, payload_len, id, issuer, grantor, fay, terminal, metadata, key_id, signature;
    size_t pattern[4], modes[4], constraints[4];
} places;

/* A map of some pairs. */
static void pairs(bytes *b, unsigned n) {
    static const char *const keys[] = {"a", "b", "c", "d"};
    head(b, 5, n);
    for (unsigned i = 0; i < n; i++) {
        text(b, keys[i]);
        text(b, "value");
    }
}

static void put_grant(bytes *b, const grant *g, size_t i, places *at) {
    head(b, 5, g->constraints != 0 ? 3 : 2);
    text(b, "modes");
    at->modes[i] = b->len;
    head(b, 4, (unsigned)strlen(g->modes));
    for (const char *m = g->modes; *m != 0; m++) {
        text(b, modes[*m - '0']);
    }
    if (g->constraints != 0) {
        text(b, "constraints");
        at->constraints[i] = b->len;
        pairs(b, g->constraints);
    }
    text(b, "resource_pattern");
    at->pattern[i] = text(b, g->pattern);
}

static void put_grants(bytes *b, const fields *f, places *at) {
    unsigned n = 0;
    while (n < 4 && f->grants[n].pattern != NULL) {
        n++;
    }
    text(b, "grants");
    head(b, 4, n);
    for (unsigned i = 0; i < n; i++) {
        put_grant(b, &f->grants[i], i, at);
    }
}

static void put_payload(bytes *b, const fields *f, places *at) {
    const uint8_t id[16] = {ID(f->id)};
    at->payload = b->len;
    head(b, 5, 8 + (f->pairs != 0) + (f->grantor != NULL));
    put_grants(b, f, at);
    if (f->pairs != 0) {
        text(b, "metadata");
        at->metadata = b->len;
        pairs(b, f->pairs);
    }
    text(b, "issued_at");
    head(b, 0, f->issued_at);
    text(b, "issuer_id");
    at->issuer = text(b, "university");
    text(b, "not_after");
    head(b, 0, f->not_after);
    if (f->grantor != NULL) {
        text(b, "grantor_id");
        at->grantor = text(b, f->grantor);
    }
    text(b, "not_before");
    head(b, 0, f->not_before);
    text(b, "terminal_id");
    at->terminal = text(b, T);
    text(b, "descriptor_id");
    at->id = string(b, 2, id, 16);
    text(b, "subject_fay_id");
    at->fay = text(b, FAY);
    at->payload_len = b->len - at->payload;
}

static places make(bytes *b, const fields *f) {
    static const char *const algorithms[] = {"ed25519", "ecdsa-p256-sha256"};
    static const uint8_t signature[72] = {0};
    places at;
    memset(&at, 0, sizeof at);
    b->len = 0;
    head(b, 5, 3);
    text(b, "payload");
    put_payload(b, f, &at);
    text(b, "version");
    head(b, 0, 1);
    text(b, "signature");
    head(b, 5, 3);
    text(b, "key_id");
    at.key_id = text(b, "key-1");
    text(b, "algorithm");
    text(b, algorithms[f->algorithm]);
    text(b, "signature_value");
    at.signature = string(b, 2, signature, f->signature_len);
    return at;
}

/* ---- lease tables */

/* A row of the lease table. */
typedef struct lease {
    uint8_t id, revoked;
    uint64_t last_sync_ms, ttl, grace, skew_ms, tolerance_ms;
} lease;

static void put_number(bytes *b, uint64_t n) {
    for (int shift = 56; shift >= 0; shift -= 8) {
        uint8_t byte = (uint8_t)(n >> shift);
        put(b, &byte, 1);
    }
}

static void put_lease(bytes *b, const lease *l) {
    const uint8_t start[24] = {ID(l->id), l->revoked};
    put(b, start, sizeof start);
    put_number(b, l->last_sync_ms);
    put_number(b, l->ttl);
    put_number(b, l->grace);
    put_number(b, l->skew_ms);
    put_number(b, l->tolerance_ms);
}

#endif
