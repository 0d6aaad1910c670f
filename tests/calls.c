/* Each call of include/cap.h with known input: every field of every answer is compared, by its name in the header. The descriptors are made by
 * made.h, a small writer that notes where it puts what; the values are all different, so that two fields of the header cannot be exchanged unnoticed.
 * The calls on images other than requests are in stores.h, and the ids that a submission takes in ids.h. */
#include "cap.h"
#include "ids.h"
#include "made.h"
#include "same.h"
#include "stores.h"

#include <stdio.h>
#include <string.h>

/* ---- the calls */

static void item(const char *name, const char *s, size_t n, uint64_t place, cap_item expected) {
    what = name;
    cap_item i = cap_item_read((const uint8_t *)s, n, place);
    SAME(i, answer, expected.answer);
    SAME(i, kind, expected.kind);
    SAME(i, number, expected.number);
    SAME(i, content_at, expected.content_at);
    SAME(i, content_len, expected.content_len);
    SAME(i, next, expected.next);
}

static void items(void) {
    item("item 24", "\x18\x18", 2, 0, (cap_item){.answer = 0, .kind = 0, .number = 24, .content_at = 0, .content_len = 0, .next = 2});
    item("byte string at 3", "...\x43" "abc.", 8, 3, (cap_item){.answer = 0, .kind = 2, .number = 3, .content_at = 4, .content_len = 3, .next = 7});
    item("text", "\x62hi", 3, 0, (cap_item){.answer = 0, .kind = 3, .number = 2, .content_at = 1, .content_len = 2, .next = 3});
    item("array", "\x83", 1, 0, (cap_item){.answer = 0, .kind = 4, .number = 3, .content_at = 0, .content_len = 0, .next = 1});
    item("map", "\xa2", 1, 0, (cap_item){.answer = 0, .kind = 5, .number = 2, .content_at = 0, .content_len = 0, .next = 1});
    item("23 in two bytes", "\x18\x17", 2, 0, (cap_item){.answer = 1});
    item("past the end", "\x17", 1, 1, (cap_item){.answer = 1});
    item("no bytes", (const char *)CAP_EMPTY, 0, 0, (cap_item){.answer = 1});
}

static void descriptor(const char *name, const uint8_t *s, size_t n, cap_descriptor expected) {
    what = name;
    cap_descriptor d = cap_descriptor_read(s, n);
    SAME(d, answer, expected.answer);
    SAME(d, payload_at, expected.payload_at);
    SAME(d, payload_len, expected.payload_len);
    SAME(d, issued_at, expected.issued_at);
    SAME(d, not_before, expected.not_before);
    SAME(d, not_after, expected.not_after);
    SAME(d, id_at, expected.id_at);
    SAME(d, issuer_at, expected.issuer_at);
    SAME(d, issuer_len, expected.issuer_len);
    SAME(d, grantor_at, expected.grantor_at);
    SAME(d, grantor_len, expected.grantor_len);
    SAME(d, fay_at, expected.fay_at);
    SAME(d, terminal_at, expected.terminal_at);
    SAME(d, grants, expected.grants);
    SAME(d, metadata_at, expected.metadata_at);
    SAME(d, metadata_pairs, expected.metadata_pairs);
    SAME(d, constraint_pairs, expected.constraint_pairs);
    SAME(d, mask, expected.mask);
    SAME(d, key_id_at, expected.key_id_at);
    SAME(d, key_id_len, expected.key_id_len);
    SAME(d, algorithm, expected.algorithm);
    SAME(d, signature_at, expected.signature_at);
    SAME(d, signature_len, expected.signature_len);
}

static void one_grant(const char *name, const uint8_t *s, size_t n, uint64_t index, cap_grant expected) {
    what = name;
    cap_grant g = cap_grant_at(s, n, index);
    SAME(g, found, expected.found);
    SAME(g, pattern_at, expected.pattern_at);
    SAME(g, pattern_len, expected.pattern_len);
    SAME(g, mask, expected.mask);
    SAME(g, modes_at, expected.modes_at);
    SAME(g, constraints_at, expected.constraints_at);
    SAME(g, constraint_pairs, expected.constraint_pairs);
}

static const fields every_field = {
    .grants = {{"0", T "/door", 0}, {"31", T "/furnace/*", 4}},
    .pairs = 3,
    .grantor = "laboratory-7",
    .issued_at = 1000,
    .not_before = 2000,
    .not_after = 3000,
    .id = 7,
    .algorithm = 1,
    .signature_len = 70,
};

static void descriptors(void) {
    static bytes b;
    fields f = every_field;
    places at = make(&b, &f);
    descriptor("a descriptor with every field", b.at, b.len,
               (cap_descriptor){.answer = 0,
                                .payload_at = at.payload,
                                .payload_len = at.payload_len,
                                .issued_at = 1000,
                                .not_before = 2000,
                                .not_after = 3000,
                                .id_at = at.id,
                                .issuer_at = at.issuer,
                                .issuer_len = 10,
                                .grantor_at = at.grantor,
                                .grantor_len = 12,
                                .fay_at = at.fay,
                                .terminal_at = at.terminal,
                                .grants = 2,
                                .metadata_at = at.metadata,
                                .metadata_pairs = 3,
                                .constraint_pairs = 4,
                                .mask = 11,
                                .key_id_at = at.key_id,
                                .key_id_len = 5,
                                .algorithm = 1,
                                .signature_at = at.signature,
                                .signature_len = 70});
    descriptor("a byte short", b.at, b.len - 1, (cap_descriptor){.answer = 1});
    one_grant("grant 0", b.at, b.len, 0,
              (cap_grant){.found = 1, .pattern_at = at.pattern[0], .pattern_len = 50, .mask = 1, .modes_at = at.modes[0], .constraints_at = 0, .constraint_pairs = 0});
    one_grant("grant 1", b.at, b.len, 1,
              (cap_grant){.found = 1,
                          .pattern_at = at.pattern[1],
                          .pattern_len = 55,
                          .mask = 10,
                          .modes_at = at.modes[1],
                          .constraints_at = at.constraints[1],
                          .constraint_pairs = 4});
    one_grant("past the last grant", b.at, b.len, 2, (cap_grant){.found = 0});
    f.not_after = f.not_before + 7776001;
    make(&b, &f);
    descriptor("valid for over 90 days", b.at, b.len, (cap_descriptor){.answer = 2});
}

static void matched(const char *pattern, const char *resource, cap_matching expected) {
    what = pattern;
    cap_matching m = cap_match((const uint8_t *)pattern, strlen(pattern), (const uint8_t *)resource, strlen(resource));
    SAME(m, answer, expected.answer);
    SAME(m, yes, expected.yes);
    SAME(m, names, expected.names);
}

/* The terminal id, so many levels "n", and the end. */
static const char *long_text(char *out, size_t levels, const char *end) {
    strcpy(out, T);
    while (levels-- > 0) {
        strcat(out, "/n");
    }
    return strcat(out, end);
}

static void matchings(void) {
    char pattern[300], path[300];
    matched(T "/d/*", T "/d/a", (cap_matching){.answer = 0, .yes = 1, .names = 1});
    matched(T "/d/*", T "/d/a/b", (cap_matching){.answer = 0});
    matched(T "/d/**", T "/d/a/b", (cap_matching){.answer = 0, .yes = 1, .names = 1});
    matched(T "/d/a/b", T "/d/a/b", (cap_matching){.answer = 0, .yes = 1, .names = 3});
    matched(T "/*/a/*/b/**", T "/d/a/b/b/a/b", (cap_matching){.answer = 0, .yes = 1, .names = 2});
    matched(T "/*", T "/d", (cap_matching){.answer = 0, .yes = 1, .names = 0});
    matched(T "/**", T "/d/a/b", (cap_matching){.answer = 0, .yes = 1, .names = 0});
    matched(T "/d/a/b", T "/d/a/c", (cap_matching){.answer = 0});
    matched(T "/d/a", OTHER_T "/d/a", (cap_matching){.answer = 0});
    matched(long_text(pattern, 100, ""), long_text(path, 100, ""), (cap_matching){.answer = 0, .yes = 1, .names = 100});
    matched(long_text(pattern, 98, "/*/n"), path, (cap_matching){.answer = 0, .yes = 1, .names = 99});
    matched(long_text(pattern, 99, "/m"), path, (cap_matching){.answer = 0});
    matched(T "/cam*", T "/camera", (cap_matching){.answer = 15});
    matched(T "/d/a/*", T "/d/a/*", (cap_matching){.answer = 15});
    matched(T "/d", "", (cap_matching){.answer = 15});
}

/* A request: what differs from one that is granted. */
typedef struct asked {
    const char *name;
    uint8_t id;
    const char *fay, *terminal, *resource;
    uint64_t mode, now_ms;
    size_t revoked_len;
    uint64_t verdict, valid_from, has_valid_until, valid_until;
    cap_decision expected;
} asked;

/* The revocation list, of which a request takes so many bytes as it says: another id, then id 7 from 2501 on, then id 7 from 2500 on. */
static const uint8_t revoked[] = {
    ID(9), 0, 0, 0, 0, 0, 0, 0, 0,
    ID(7), 0, 0, 0, 0, 0, 0, 2501 / 256, 2501 % 256,
    ID(7), 0, 0, 0, 0, 0, 0, 2500 / 256, 2500 % 256,
};

/* Makes the request with these 16 bytes as the id, whatever number it has. */
static void decided_under(uint8_t *image, size_t n, const uint8_t *id, const asked *q, const uint8_t *leases, size_t leases_len) {
    what = q->name;
    cap_decision d = cap_request(image, n, id, 16, (const uint8_t *)q->fay, strlen(q->fay), (const uint8_t *)q->terminal, strlen(q->terminal),
                                 (const uint8_t *)q->resource, strlen(q->resource), q->mode, q->now_ms, 77, revoked, q->revoked_len, leases, leases_len,
                                 q->verdict, q->valid_from, q->has_valid_until, q->valid_until);
    SAME(d, answer, q->expected.answer);
    SAME(d, grant, q->expected.grant);
    SAME(d, mask, q->expected.mask);
    SAME(d, session_end, q->expected.session_end);
    same_margin(d.margin, q->expected.margin);
}

/* Makes the request with the id that has its number. */
static void decided(uint8_t *image, size_t n, const asked *q, const uint8_t *leases, size_t leases_len) {
    const uint8_t id[16] = {ID(q->id)};
    decided_under(image, n, id, q, leases, leases_len);
}

static void requests(void) {
    static uint8_t image[4096];
    static bytes b;
    make(&b, &stored);
    cap_image_new(image, sizeof image);
    submitted("stored for requests", image, sizeof image, &b, 2500, 0, 0, 0, 0, 0);
    const asked all[] = {
        {"granted", 7, FAY, T, T "/a/b", 2, 2500999, 24, 0, 2500, 0, 0, {.answer = 0, .grant = 1, .mask = 6, .session_end = 2577}},
        {"revoked from the next second on", 7, FAY, T, T "/a/b", 2, 2500999, 48, 0, 0, 0, 0, {.answer = 0, .grant = 1, .mask = 6, .session_end = 2577}},
        {"granted up to not_after", 7, FAY, T, T "/door", 0, 2999999, 0, 0, 0, 1, 2999, {.answer = 0, .grant = 0, .mask = 1, .session_end = 3000}},
        {"mode 4", 7, FAY, T, T "/a/b", 4, 2500000, 0, 0, 0, 0, 0, {.answer = 15}},
        {"a clock above 2^53", 7, FAY, T, T "/a/b", 2, ((uint64_t)1 << 53) + 1, 0, 0, 0, 0, 0, {.answer = 15}},
        {"a list of 25 bytes", 7, FAY, T, T "/a/b", 2, 2500000, 25, 0, 0, 0, 0, {.answer = 15}},
        {"not held", 8, FAY, T, T "/a/b", 2, 2500000, 0, 0, 0, 0, 0, {.answer = 7}},
        {"revoked from now on", 7, FAY, T, T "/a/b", 2, 2500000, 72, 0, 0, 0, 0, {.answer = 8}},
        {"revoked and expired", 7, FAY, T, T "/a/b", 2, 3000000, 48, 0, 0, 0, 0, {.answer = 8}},
        {"not yet valid", 7, FAY, T, T "/a/b", 2, 1999999, 0, 0, 0, 0, 0, {.answer = 9}},
        {"expired", 7, OTHER_FAY, T, T "/a/b", 2, 3000000, 0, 0, 0, 0, 0, {.answer = 10}},
        {"another subject", 7, OTHER_FAY, OTHER_T, T "/a/b", 2, 2500000, 0, 0, 0, 0, 0, {.answer = 11}},
        {"another terminal", 7, FAY, OTHER_T, T "/b", 2, 2500000, 0, 0, 0, 0, 0, {.answer = 12}},
        {"no grant of the mode", 7, FAY, T, T "/a/b", 3, 2500000, 0, 2, 0, 0, 0, {.answer = 13}},
        {"no such key", 7, FAY, T, T "/a/b", 2, 2500000, 0, 2, 0, 0, 0, {.answer = 14}},
        {"the key is over", 7, FAY, T, T "/a/b", 2, 2500000, 0, 1, 0, 1, 2499, {.answer = 14}},
        {"bad signature", 7, FAY, T, T "/a/b", 2, 2500000, 0, 1, 0, 1, 2500, {.answer = 4}},
    };
    for (size_t i = 0; i < sizeof all / sizeof all[0]; i++) {
        decided(image, sizeof image, &all[i], CAP_EMPTY, 0);
    }
    asked q = all[0];
    q.name = "bad image";
    q.expected = (cap_decision){.answer = 16};
    decided(image, 8 + 39, &q, CAP_EMPTY, 0);
}

/* The stored descriptor is asked for at a clock, and the answer is compared; so is the moment at which it was last used after it, and that no other byte of the
 * image changes. */
static void used(const char *name, uint8_t *image, size_t n, uint64_t mode, uint64_t now_ms, uint64_t answer, uint64_t moment) {
    static uint8_t expected[4096];
    asked q = {name, 7, FAY, T, T "/a/b", mode, now_ms, 0, 0, 0, 0, 0, {.answer = answer}};
    if (answer == CAP_DONE) {
        q.expected = (cap_decision){.answer = 0, .grant = 1, .mask = 6, .session_end = now_ms / 1000 + 77};
    }
    memcpy(expected, image, n);
    for (int place = 0; place < 8; place++) {
        expected[MOMENT_AT + place] = (uint8_t)(moment >> (56 - 8 * place));
    }
    decided(image, n, &q, CAP_EMPTY, 0);
    same("the image after it", memcmp(image, expected, n) == 0, 1);
}

/* A request that is granted raises the last-used moment of the row, in an image of edition 2; no other request changes a byte. */
static void uses(void) {
    static uint8_t image[4096], before[4096];
    static bytes b, old;
    places at = make(&b, &stored);
    put_first_edition(&old, &b, at.id, 7);
    cap_image_new(image, sizeof image);
    submitted("stored to be used", image, sizeof image, &b, 2300, 0, 0, 0, 0, 0);
    used("granted in the second in which it was stored", image, sizeof image, 2, 2300999, 0, 2300);
    used("granted later", image, sizeof image, 2, 2557123, 0, 2557);
    used("granted by an earlier clock", image, sizeof image, 2, 2400000, 0, 2557);
    used("refused later", image, sizeof image, 3, 2600000, 13, 2557);
    used("malformed", image, sizeof image, 4, 2600000, 15, 2557);
    memcpy(before, old.at, old.len);
    asked q = {"granted on an image of edition 1", 7, FAY, T, T "/a/b", 2, 2500000, 0, 0, 0, 0, 0, {.answer = 0, .grant = 1, .mask = 6, .session_end = 2577}};
    decided(old.at, old.len, &q, CAP_EMPTY, 0);
    same("the image is unchanged", memcmp(old.at, before, old.len) == 0, 1);
}

/* The descriptor from before, whose id is of version 4, is found in the image, and a request for it is granted. */
static void still_held(uint8_t *image, size_t n, const uint8_t *id, size_t body_at, size_t body_len) {
    asked q = {"request for one of version 4", 0, FAY, T, T "/a/b", 2, 2500000, 0, 0, 0, 0, 0, {.answer = 0, .grant = 1, .mask = 6, .session_end = 2577}};
    found_under("one of version 4", image, n, id, 16, (cap_stored){.answer = 0, .body_at = body_at, .body_len = body_len});
    decided_under(image, n, id, &q, CAP_EMPTY, 0);
}

/* A descriptor from before stays as it is in both editions, and after another was stored; submitted again it is refused. */
static void from_before(void) {
    static uint8_t image[4096];
    static bytes b, old;
    fields f = stored;
    uint8_t id[16];
    const id_change version_4 = {"of version 4", VERSION_BYTE, 0x47, 1};
    size_t id_at = make_changed(&b, &f, DESCRIPTOR_ID, &version_4), n = b.len;
    memcpy(id, b.at + id_at, 16);
    put_first_edition(&old, &b, id_at, 7);
    still_held(old.at, old.len, id, HEADER + FIRST_ROW, n);
    upgraded("of one of version 4", old.at, old.len, image, sizeof image, (cap_written){.answer = 0, .len = HEADER + ROW + n});
    still_held(image, sizeof image, id, HEADER + ROW, n);
    what = "one of version 4, submitted again";
    tried("answer", image, sizeof image, &b, 0, 1);
    f.not_after = 3001;
    make_changed(&b, &f, DESCRIPTOR_ID, &version_4);
    tried("answer of other bytes under its id", image, sizeof image, &b, 0, 1);
    make(&b, &f);
    tried("answer of one of version 7", image, sizeof image, &b, 0, 0);
    still_held(image, sizeof image, id, HEADER + 2 * ROW, n);
}

/* A request at a clock with a table of two rows: another id, then this lease. */
typedef struct leased {
    const char *name;
    lease row;
    uint64_t now_ms, verdict;
    cap_decision expected;
} leased;

static void check_leased(uint8_t *image, size_t n, const leased *q) {
    static bytes table;
    const lease other = {9, 1, 1, 2, 3, 4, 5};
    asked a = {q->name, 7, FAY, T, T "/a/b", 2, q->now_ms, 0, q->verdict, 0, 0, 0, q->expected};
    table.len = 0;
    put_lease(&table, &other);
    put_lease(&table, &q->row);
    what = "two rows";
    same("length", table.len, 2 * CAP_LEASE_ROW);
    decided(image, n, &a, table.at, table.len);
    a.name = "the same with a byte more";
    a.expected = (cap_decision){.answer = 15};
    decided(image, n, &a, table.at, table.len + 1);
}

/* The lease: not too early from 2299989 ms on, active up to 2400013, stale up to 2450013. Each number is another, so that none can be exchanged unnoticed. */
#define LEASE 2300000, 100, 50, 11, 13

static void leases(void) {
    static uint8_t image[4096];
    static bytes b;
    make(&b, &stored);
    cap_image_new(image, sizeof image);
    submitted("stored for leases", image, sizeof image, &b, 2500, 0, 0, 0, 0, 0);
    const leased all[] = {
        {"a lease with a margin", {7, 0, LEASE}, 2300001, 0, {.answer = 0, .grant = 1, .mask = 6, .session_end = 2377, .margin = 100012}},
        {"the earliest millisecond", {7, 0, LEASE}, 2299989, 0, {.answer = 0, .grant = 1, .mask = 6, .session_end = 2376, .margin = 100024}},
        {"too early: future", {7, 0, LEASE}, 2299988, 0, {.answer = 23}},
        {"the last active millisecond", {7, 0, LEASE}, 2400013, 0, {.answer = 0, .grant = 1, .mask = 6, .session_end = 2477, .margin = 0}},
        {"one more: stale", {7, 0, LEASE}, 2400014, 0, {.answer = 24, .margin = -1}},
        {"the last stale millisecond", {7, 0, LEASE}, 2450013, 0, {.answer = 24, .margin = -50000}},
        {"one more: expired", {7, 0, LEASE}, 2450014, 0, {.answer = 25}},
        {"a lease that is revoked", {7, 1, LEASE}, 2300001, 0, {.answer = 26}},
        {"revoked and too early", {7, 1, LEASE}, 2299988, 0, {.answer = 26}},
        {"stale, and a bad signature", {7, 0, LEASE}, 2400014, 1, {.answer = 4}},
        {"a flag of 2", {7, 2, LEASE}, 2300001, 0, {.answer = 15}},
        {"a ttl of 2^32", {7, 0, 2300000, (uint64_t)1 << 32, 50, 11, 13}, 2300001, 0, {.answer = 15}},
        {"another id", {8, 1, LEASE}, 2300001, 0, {.answer = 0, .grant = 1, .mask = 6, .session_end = 2377, .margin = 0}},
        {"the other id twice", {9, 0, LEASE}, 2300001, 0, {.answer = 15}},
    };
    for (size_t i = 0; i < sizeof all / sizeof all[0]; i++) {
        check_leased(image, sizeof image, &all[i]);
    }
}

/* Grants of which several serve: a broad one, two that name two levels, and between them one that names three and has a constraint pair. */
static const grant broad_first[4] = {{"0123", T "/**", 0}, {"01", T "/lab/*/on", 0}, {"012", T "/lab/door/on", 1}, {"02", T "/lab/door/*", 0}};

/* A request that is granted, and the grant that it must name. */
typedef struct named {
    const char *name;
    uint8_t id;
    const char *resource;
    uint64_t mode, grant, mask;
} named;

static void check_named(uint8_t *image, size_t n, const named *q) {
    asked a = {q->name, q->id, FAY, T, q->resource, q->mode, 2500000, 0, 0, 0, 0, 0, {.answer = 0, .grant = q->grant, .mask = q->mask, .session_end = 2577}};
    decided(image, n, &a, CAP_EMPTY, 0);
}

/* Of the grants that serve the one with most levels matched by equal names is named, and the first of those. */
static void named_grants(void) {
    static uint8_t image[4096];
    static bytes b;
    fields f = stored;
    memcpy(f.grants, broad_first, sizeof f.grants);
    f.id = 5;
    make(&b, &f);
    cap_image_new(image, sizeof image);
    submitted("stored, the broad grant first", image, sizeof image, &b, 2500, 0, 0, 0, 0, 0);
    f.grants[0] = broad_first[3];
    f.grants[2].constraints = 0;
    f.grants[3] = broad_first[0];
    f.id = 6;
    make(&b, &f);
    submitted("stored, the broad grant last, no constraint", image, sizeof image, &b, 2500, 0, 0, 0, 0, 0);
    const named all[] = {
        {"two names twice, the first; the one with three has a constraint", 5, T "/lab/door/on", 0, 1, 3},
        {"two names, the others lack the mode", 5, T "/lab/door/on", 2, 3, 5},
        {"no name, the others lack the mode", 5, T "/lab/door/on", 3, 0, 15},
        {"no name, the others don't match", 5, T "/lab/door", 0, 0, 15},
        {"two names, in the last place", 5, T "/lab/door/off", 0, 3, 5},
        {"three names", 6, T "/lab/door/on", 0, 2, 7},
        {"two names before no name", 6, T "/lab/door/off", 2, 0, 5},
        {"two names, the one with three doesn't match", 6, T "/lab/window/on", 1, 1, 3},
        {"no name, in the last place", 6, T "/lab/door/on", 3, 3, 15},
    };
    for (size_t i = 0; i < sizeof all / sizeof all[0]; i++) {
        check_named(image, sizeof image, &all[i]);
    }
}

static void narrowed(const char *name, const bytes *parent, const bytes *child, cap_narrowing expected) {
    what = name;
    cap_narrowing n = cap_narrow(parent->at, parent->len, child->at, child->len);
    SAME(n, answer, expected.answer);
    SAME(n, grant, expected.grant);
    SAME(n, mode, expected.mode);
    SAME(n, levels, expected.levels);
}

static void narrowings(void) {
    static bytes parent, child, none;
    fields p = stored, c = stored;
    p.grants[0] = (grant){"012", T "/a/*", 0};
    p.grants[1] = (grant){"0312", T "/a/*/*", 0};
    c.grants[0] = (grant){"02", T "/a/b", 0};
    c.grants[1] = (grant){"2", T "/a/**", 0};
    make(&parent, &p);
    make(&child, &c);
    narrowed("a child that escapes", &parent, &child, (cap_narrowing){.answer = 20, .grant = 1, .mode = 2, .levels = 3});
    narrowed("the parent under itself", &parent, &parent, (cap_narrowing){.answer = 0});
    narrowed("no parent", &none, &child, (cap_narrowing){.answer = 21});
    narrowed("no child", &parent, &none, (cap_narrowing){.answer = 1});
    c.not_after = 3001;
    make(&child, &c);
    narrowed("a child that lasts longer", &parent, &child, (cap_narrowing){.answer = 18});
    c.grants[0].constraints = 1;
    make(&child, &c);
    narrowed("a child with a constraint", &parent, &child, (cap_narrowing){.answer = 19});
    c.not_after = c.not_before + 7776001;
    make(&child, &c);
    narrowed("a child valid for over 90 days", &parent, &child, (cap_narrowing){.answer = 2});
}

int main(void) {
    items();
    descriptors();
    matchings();
    images();
    removals();
    upgrades();
    ids();
    requests();
    uses();
    from_before();
    leases();
    named_grants();
    narrowings();
    printf("calls: %u values of the header's calls compared, %u differ\n", compared, different);
    return different != 0;
}
