/* The calls on images other than requests, for the test of the calls: new images, lookups, submissions, what is removed from a full image, and the upgrade. */
#ifndef TESTS_STORES_H
#define TESTS_STORES_H

#include "cap.h"
#include "made.h"
#include "same.h"

#include <string.h>

/* The descriptor that is stored: read on the door, write and execute on what is below a. */
static const fields stored = {
    .grants = {{"0", T "/door", 0}, {"12", T "/a/**", 0}},
    .issued_at = 1000,
    .not_before = 2000,
    .not_after = 3000,
    .id = 7,
    .signature_len = 64,
};

/* The length of an image's header and of its rows, and where the last-used moment of the first row stands. */
enum { HEADER = 8, FIRST_ROW = 32, ROW = 40, MOMENT_AT = HEADER + 32 };

/* Writes an image of edition 1 of one body, whose id stands at the place. */
static void put_first_edition(bytes *out, const bytes *body, size_t id_at, uint8_t mask) {
    uint8_t start[HEADER + FIRST_ROW] = {0, 1, 0, 1, 0, 1, 0, 0};
    memcpy(start + HEADER, body->at + id_at, 16);
    start[HEADER + 19] = sizeof start;
    start[HEADER + 22] = (uint8_t)(body->len >> 8);
    start[HEADER + 23] = (uint8_t)body->len;
    start[HEADER + 24] = mask;
    out->len = 0;
    put(out, start, sizeof start);
    put(out, body->at, body->len);
}

/* Looks an id up. */
static void found_under(const char *name, const uint8_t *image, size_t n, const uint8_t *id, size_t id_len, cap_stored expected) {
    what = name;
    cap_stored s = cap_image_find(image, n, id, id_len);
    SAME(s, answer, expected.answer);
    SAME(s, body_at, expected.body_at);
    SAME(s, body_len, expected.body_len);
}

/* Looks the id with the number up, which is passed with so many bytes. */
static void found(const char *name, const uint8_t *image, size_t n, size_t id_len, uint8_t id, cap_stored expected) {
    const uint8_t key[17] = {ID(id)};
    found_under(name, image, n, key, id_len, expected);
}

static void submitted(const char *name, uint8_t *image, size_t n, const bytes *b, uint64_t now, uint64_t verdict, uint64_t from, uint64_t has, uint64_t until,
                      uint64_t expected) {
    what = name;
    same("answer", cap_submit(image, n, b->at, b->len, now, verdict, from, has, until), expected);
}

static void images(void) {
    static uint8_t image[4096];
    static bytes b, c;
    fields f = stored;
    what = "a new image";
    same("answer of 7 bytes", cap_image_new(image, 7), 17);
    same("answer of 8 bytes", cap_image_new(image, 8), 0);
    same("its bytes", memcmp(image, "\0\2\0\1\0\0\0\0", 8) == 0, 1);
    make(&b, &f);
    found("an id of 17 bytes", image, sizeof image, 17, 7, (cap_stored){.answer = 15});
    found("bytes that are no image", b.at, b.len, 16, 7, (cap_stored){.answer = 16});
    found("an id that is not held", image, sizeof image, 16, 7, (cap_stored){.answer = 7});
    submitted("a verdict of 3", image, sizeof image, &b, 2500, 3, 0, 0, 0, 15);
    submitted("no image", b.at, b.len, &c, 2500, 0, 0, 0, 0, 16);
    submitted("no bytes", image, sizeof image, &c, 2500, 0, 0, 0, 0, 1);
    submitted("a descriptor", image, sizeof image, &b, 2500, 0, 0, 0, 0, 0);
    found("the body that was stored", image, sizeof image, 16, 7, (cap_stored){.answer = 0, .body_at = HEADER + ROW, .body_len = b.len});
    submitted("the same bytes", image, sizeof image, &b, 2600, 0, 0, 0, 0, 0);
    same("the moment at which it was stored", memcmp(image + MOMENT_AT, "\0\0\0\0\0\0\x09\xc4", 8) == 0, 1);
    f.not_after = 3001;
    make(&b, &f);
    submitted("other bytes under the id", image, sizeof image, &b, 2500, 0, 0, 0, 0, 5);
    f.id = 8;
    make(&b, &f);
    submitted("no such key", image, sizeof image, &b, 2500, 2, 0, 0, 0, 3);
    submitted("before the key's window", image, sizeof image, &b, 2500, 0, 2501, 0, 0, 14);
    submitted("after the key's window", image, sizeof image, &b, 2500, 0, 0, 9, 2499, 14);
    submitted("at the end of the key's window, bad signature", image, sizeof image, &b, 2500, 1, 0, 9, 2500, 4);
    submitted("no room", image, HEADER + 2 * ROW + 2 * b.len - 1, &b, 2500, 0, 0, 0, 0, 6);
    f.not_before = 90000;
    f.not_after = 90001;
    make(&b, &f);
    submitted("a day and a second ahead", image, sizeof image, &b, 3599, 0, 0, 0, 0, 2);
    submitted("a day ahead", image, sizeof image, &b, 3600, 0, 0, 0, 0, 0);
}

/* An image that is full: an expired descriptor makes room for another, one that is not expired does not. */
static void removals(void) {
    static uint8_t image[4096], before[4096];
    static bytes b;
    fields f = stored;
    f.not_after = 2600;
    make(&b, &f);
    size_t n = HEADER + 2 * (ROW + b.len);
    cap_image_new(image, n);
    submitted("one that expires at 2600", image, n, &b, 2500, 0, 0, 0, 0, 0);
    f.id = 8;
    f.not_after = 3000;
    make(&b, &f);
    submitted("one that fills the image", image, n, &b, 2400, 0, 0, 0, 0, 0);
    f.id = 9;
    make(&b, &f);
    memcpy(before, image, n);
    submitted("a third, and none is expired", image, n, &b, 2599, 0, 0, 0, 0, 6);
    same("the image is unchanged", memcmp(image, before, n) == 0, 1);
    submitted("a third, and the first is expired", image, n, &b, 2600, 0, 0, 0, 0, 0);
    found("the first is gone", image, n, 16, 7, (cap_stored){.answer = 7});
    found("the second is the first now", image, n, 16, 8, (cap_stored){.answer = 0, .body_at = HEADER + 2 * ROW, .body_len = b.len});
    found("the third is the second", image, n, 16, 9, (cap_stored){.answer = 0, .body_at = HEADER + 2 * ROW + b.len, .body_len = b.len});
}

static void upgraded(const char *name, const uint8_t *old, size_t old_len, uint8_t *image, size_t n, cap_written expected) {
    what = name;
    cap_written w = cap_image_upgrade(old, old_len, image, n);
    SAME(w, answer, expected.answer);
    SAME(w, len, expected.len);
}

/* An image of edition 1 is looked in, refused by a submission, and made one of edition 2. */
static void upgrades(void) {
    static uint8_t image[4096], before[4096];
    static bytes b, old;
    places at = make(&b, &stored);
    put_first_edition(&old, &b, at.id, 7);
    size_t n = HEADER + ROW + b.len;
    memset(image, 0xee, sizeof image);
    memcpy(before, image, sizeof image);
    found("in an image of edition 1", old.at, old.len, 16, 7, (cap_stored){.answer = 0, .body_at = HEADER + FIRST_ROW, .body_len = b.len});
    submitted("to an image of edition 1", old.at, old.len, &b, 2500, 0, 0, 0, 0, 16);
    upgraded("to a buffer that is a byte too short", old.at, old.len, image, n - 1, (cap_written){.answer = 17});
    upgraded("of no bytes", CAP_EMPTY, 0, image, sizeof image, (cap_written){.answer = 16});
    upgraded("of a descriptor", b.at, b.len, image, 7, (cap_written){.answer = 16});
    same("the buffer is unchanged", memcmp(image, before, sizeof image) == 0, 1);
    upgraded("to a buffer that is long enough", old.at, old.len, image, n, (cap_written){.answer = 0, .len = n});
    same("the moment of the row", memcmp(image + MOMENT_AT, "\0\0\0\0\0\0\0", 8) == 0, 1);
    same("the bytes after it are unchanged", memcmp(image + n, before + n, sizeof image - n) == 0, 1);
    found("in the image of edition 2", image, n, 16, 7, (cap_stored){.answer = 0, .body_at = HEADER + ROW, .body_len = b.len});
    upgraded("of an image of edition 2", image, n, before, sizeof before, (cap_written){.answer = 16});
    submitted("to the image of edition 2", image, n, &b, 2500, 0, 0, 0, 0, 0);
}

#endif
