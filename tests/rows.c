/* is_revoked_in of the crate revocation_slice, called from C: known answers, written here by hand, and random lists, on which it is compared with a plain
 * loop. A slice of rows is passed as a pointer and a count of rows, the id as a pointer and a length; the answer is a bool. */
#include <stdbool.h>
#include <stddef.h>
#include <stdint.h>
#include <stdio.h>
#include <string.h>

struct revocation {
    uint8_t id[16];
    uint64_t moment;
};

extern bool is_revoked_in(const struct revocation *rows, size_t count, const uint8_t *id, size_t id_len, uint64_t clock);

/* The same as a plain loop. */
static bool plain(const struct revocation *rows, size_t count, const uint8_t *id, size_t id_len, uint64_t clock) {
    bool found = false;
    for (size_t i = 0; i < count; i++) {
        found = found || (id_len == 16 && memcmp(rows[i].id, id, 16) == 0 && rows[i].moment <= clock);
    }
    return found;
}

static const char *shown(bool answer) { return answer ? "revoked" : "not revoked"; }

/* ---- known answers */

#define NOW 1000
#define MOST UINT64_MAX
#define MANY 40

/* An id, others that differ from it in one byte, and zeros; each with a byte more, for the length 17. */
static const uint8_t id_a[17] = {1, 2, 3, 4, 5, 6, 7, 8, 9, 10, 11, 12, 13, 14, 15, 16, 17};
static const uint8_t other_first[17] = {0, 2, 3, 4, 5, 6, 7, 8, 9, 10, 11, 12, 13, 14, 15, 16, 17};
static const uint8_t other_last[17] = {1, 2, 3, 4, 5, 6, 7, 8, 9, 10, 11, 12, 13, 14, 15, 17, 17};
static const uint8_t zeros[17] = {0};

/* A row by its id and its moment; without an id, no row. */
typedef struct row {
    const uint8_t *id;
    uint64_t moment;
} row;

/* A list: rows, with some rows of the id of zeros and the moment 0 before and after them. Whether it revokes the first bytes of an id. */
typedef struct known {
    const char *name;
    row rows[2];
    size_t before, after;
    const uint8_t *id;
    size_t id_len;
    uint64_t clock;
    bool expected;
} known;

static const known all[] = {
    {.name = "an empty list", .id = id_a, .id_len = 16, .clock = NOW, .expected = false},
    {.name = "an empty list at the last moment", .id = id_a, .id_len = 16, .clock = MOST, .expected = false},
    {.name = "a moment before now", .rows = {{id_a, NOW - 1}}, .id = id_a, .id_len = 16, .clock = NOW, .expected = true},
    {.name = "the moment now", .rows = {{id_a, NOW}}, .id = id_a, .id_len = 16, .clock = NOW, .expected = true},
    {.name = "a moment after now", .rows = {{id_a, NOW + 1}}, .id = id_a, .id_len = 16, .clock = NOW, .expected = false},
    {.name = "twice, the later first", .rows = {{id_a, NOW + 1}, {id_a, NOW}}, .id = id_a, .id_len = 16, .clock = NOW, .expected = true},
    {.name = "twice, the earlier first", .rows = {{id_a, NOW}, {id_a, NOW + 1}}, .id = id_a, .id_len = 16, .clock = NOW, .expected = true},
    {.name = "twice, both later", .rows = {{id_a, NOW + 2}, {id_a, NOW + 1}}, .id = id_a, .id_len = 16, .clock = NOW, .expected = false},
    {.name = "twice, both earlier", .rows = {{id_a, NOW - 1}, {id_a, NOW}}, .id = id_a, .id_len = 16, .clock = NOW, .expected = true},
    {.name = "the moment 0", .rows = {{id_a, 0}}, .id = id_a, .id_len = 16, .clock = NOW, .expected = true},
    {.name = "the moment 0 at 0", .rows = {{id_a, 0}}, .id = id_a, .id_len = 16, .clock = 0, .expected = true},
    {.name = "the moment 1 at 0", .rows = {{id_a, 1}}, .id = id_a, .id_len = 16, .clock = 0, .expected = false},
    {.name = "the last moment at it", .rows = {{id_a, MOST}}, .id = id_a, .id_len = 16, .clock = MOST, .expected = true},
    {.name = "the last moment, one before", .rows = {{id_a, MOST}}, .id = id_a, .id_len = 16, .clock = MOST - 1, .expected = false},
    {.name = "a moment of 33 bits", .rows = {{id_a, UINT64_C(1) << 32}}, .id = id_a, .id_len = 16, .clock = NOW, .expected = false},
    {.name = "a clock of 33 bits", .rows = {{id_a, NOW}}, .id = id_a, .id_len = 16, .clock = UINT64_C(1) << 32, .expected = true},
    {.name = "a moment of 64 bits", .rows = {{id_a, UINT64_C(1) << 63}}, .id = id_a, .id_len = 16, .clock = NOW, .expected = false},
    {.name = "a clock of 64 bits", .rows = {{id_a, NOW}}, .id = id_a, .id_len = 16, .clock = UINT64_C(1) << 63, .expected = true},
    {.name = "an id of 15 bytes", .rows = {{id_a, NOW}}, .id = id_a, .id_len = 15, .clock = NOW, .expected = false},
    {.name = "an id of 17 bytes", .rows = {{id_a, NOW}}, .id = id_a, .id_len = 17, .clock = NOW, .expected = false},
    {.name = "an id of no bytes", .rows = {{id_a, NOW}}, .id = id_a, .id_len = 0, .clock = NOW, .expected = false},
    {.name = "an id of 15 zeros", .rows = {{zeros, 0}}, .id = zeros, .id_len = 15, .clock = NOW, .expected = false},
    {.name = "an id of 17 zeros", .rows = {{zeros, 0}}, .id = zeros, .id_len = 17, .clock = NOW, .expected = false},
    {.name = "another first byte", .rows = {{other_first, NOW}}, .id = id_a, .id_len = 16, .clock = NOW, .expected = false},
    {.name = "another last byte", .rows = {{other_last, NOW}}, .id = id_a, .id_len = 16, .clock = NOW, .expected = false},
    {.name = "another id's moment is over, its own is not",
     .rows = {{other_last, NOW}, {id_a, NOW + 1}},
     .id = id_a,
     .id_len = 16,
     .clock = NOW,
     .expected = false},
    {.name = "its own moment is over, another id's is not",
     .rows = {{other_first, NOW + 1}, {id_a, NOW}},
     .id = id_a,
     .id_len = 16,
     .clock = NOW,
     .expected = true},
    {.name = "the last of many", .rows = {{id_a, NOW}}, .before = MANY, .id = id_a, .id_len = 16, .clock = NOW, .expected = true},
    {.name = "the first of many", .rows = {{id_a, NOW}}, .after = MANY, .id = id_a, .id_len = 16, .clock = NOW, .expected = true},
    {.name = "amid many", .rows = {{id_a, NOW}}, .before = MANY, .after = MANY, .id = id_a, .id_len = 16, .clock = NOW, .expected = true},
    {.name = "none of many", .before = MANY, .id = id_a, .id_len = 16, .clock = NOW, .expected = false},
    {.name = "the last of many, later", .rows = {{id_a, NOW + 1}}, .before = MANY, .id = id_a, .id_len = 16, .clock = NOW, .expected = false},
};

#define KNOWN (sizeof all / sizeof all[0])

static size_t put(struct revocation *rows, size_t count, const uint8_t *id, uint64_t moment) {
    memcpy(rows[count].id, id, 16);
    rows[count].moment = moment;
    return count + 1;
}

static bool known_answers(void) {
    for (size_t k = 0; k < KNOWN; k++) {
        const known *q = &all[k];
        struct revocation rows[2 + 2 * MANY];
        size_t count = 0;
        while (count < q->before) {
            count = put(rows, count, zeros, 0);
        }
        for (size_t i = 0; i < 2 && q->rows[i].id != NULL; i++) {
            count = put(rows, count, q->rows[i].id, q->rows[i].moment);
        }
        for (size_t i = 0; i < q->after; i++) {
            count = put(rows, count, zeros, 0);
        }
        bool answer = is_revoked_in(rows, count, q->id, q->id_len, q->clock);
        bool loop = plain(rows, count, q->id, q->id_len, q->clock);
        if (answer != q->expected || loop != q->expected) {
            printf("rows: %s: %s, and the plain loop says %s; expected: %s\n", q->name, shown(answer), shown(loop), shown(q->expected));
            return false;
        }
    }
    return true;
}

/* ---- random lists */

#define LISTS 100000
#define LONGEST 40

static uint64_t state = 88172645463325252u;

/* A number below n, the same ones in every run. */
static size_t below(size_t n) {
    state ^= state << 13;
    state ^= state >> 7;
    state ^= state << 17;
    return (size_t)((state >> 16) % n);
}

static bool random_lists(void) {
    static const uint8_t *const ids[] = {id_a, other_first, other_last, zeros};
    static const size_t lengths[] = {16, 16, 16, 16, 16, 15, 17, 0};
    static const uint64_t moments[] = {0, 1, NOW - 1, NOW, NOW + 1, UINT64_C(1) << 32, UINT64_C(1) << 63, MOST - 1, MOST};
    for (unsigned k = 0; k < LISTS; k++) {
        struct revocation rows[LONGEST];
        size_t count = 0, longest = below(LONGEST + 1);
        /* of fewer ids and of later moments in some lists, so that the long ones do not all revoke */
        size_t some = 1 + below(4), early = below(9);
        while (count < longest) {
            count = put(rows, count, ids[below(some)], moments[early + below(9 - early)]);
        }
        const uint8_t *id = ids[below(4)];
        size_t id_len = lengths[below(8)];
        uint64_t clock = moments[below(9)];
        bool answer = is_revoked_in(rows, count, id, id_len, clock);
        if (answer != plain(rows, count, id, id_len, clock)) {
            printf("rows: random list %u of %zu rows, an id of %zu bytes at %llu: %s, and the plain loop says %s\n", k, count, id_len,
                   (unsigned long long)clock, shown(answer), shown(!answer));
            return false;
        }
    }
    return true;
}

int main(void) {
    if (!known_answers() || !random_lists()) {
        return 1;
    }
    printf("rows: %zu known answers and %d random lists, no difference\n", KNOWN, LISTS);
    return 0;
}
