/* Which ids a submission takes, for the test of the calls: one byte of an id of a right descriptor is changed, and it is submitted. */
#ifndef TESTS_IDS_H
#define TESTS_IDS_H

#include "cap.h"
#include "made.h"
#include "same.h"
#include "stores.h"

#include <stdio.h>
#include <string.h>

/* The ids of a descriptor: 16 bytes, and two texts that end with the 36 characters of a UUID. */
enum which_id { DESCRIPTOR_ID, FAY_ID, TERMINAL_ID };
static const char *const id_names[] = {[DESCRIPTOR_ID] = "descriptor id", [FAY_ID] = "fay id", [TERMINAL_ID] = "terminal id"};

/* A change of an id: the byte at the place, of the 16 or of the 36 characters, becomes this one. Then what a submission answers. */
typedef struct id_change {
    const char *name;
    size_t place;
    uint8_t byte;
    uint64_t answer;
} id_change;

/* The places of the version and of the variant in the 16 bytes, and in the 36 characters; the last character. */
enum { VERSION_BYTE = 6, VARIANT_BYTE = 8, VERSION_DIGIT = 14, VARIANT_DIGIT = 19, LAST_DIGIT = 35 };

/* Changes of a descriptor id. */
static const id_change byte_changes[] = {
    {"of version 4", VERSION_BYTE, 0x47, 1},
    {"of version 6", VERSION_BYTE, 0x67, 1},
    {"of version 8", VERSION_BYTE, 0x87, 1},
    {"of version 7, with other bits after it", VERSION_BYTE, 0x78, 0},
    {"of variant 00", VARIANT_BYTE, 0x3f, 1},
    {"of variant 01", VARIANT_BYTE, 0x7f, 1},
    {"of variant 11", VARIANT_BYTE, 0xc0, 1},
    {"of variant 10, with other bits after it", VARIANT_BYTE, 0xbf, 0},
};

/* Changes of a fay id and of a terminal id. */
static const id_change text_changes[] = {
    {"of version 4", VERSION_DIGIT, '4', 1},
    {"of version 6", VERSION_DIGIT, '6', 1},
    {"of version 8", VERSION_DIGIT, '8', 1},
    {"of variant 00", VARIANT_DIGIT, '3', 1},
    {"of variant 01", VARIANT_DIGIT, '7', 1},
    {"of variant 11", VARIANT_DIGIT, 'c', 1},
    {"of variant 10, with other bits after it", VARIANT_DIGIT, 'b', 0},
    {"with the variant's digit in upper case", VARIANT_DIGIT, 'B', 1},
    {"with the first digit in upper case", 0, 'A', 1},
    {"with the first digit in lower case", 0, 'a', 0},
    {"with the last digit in upper case", LAST_DIGIT, 'F', 1},
    {"with the last digit in lower case", LAST_DIGIT, 'f', 0},
};

/* Changes an id of a descriptor; a terminal id also at the beginning of each pattern. */
static void change_id(bytes *b, const places *at, enum which_id which, const id_change *c) {
    if (which == DESCRIPTOR_ID) {
        b->at[at->id + c->place] = c->byte;
    } else if (which == FAY_ID) {
        b->at[at->fay + strlen("fay:") + c->place] = c->byte;
    } else {
        b->at[at->terminal + strlen("terminal:") + c->place] = c->byte;
        for (size_t i = 0; i < 4 && at->pattern[i] != 0; i++) {
            b->at[at->pattern[i] + strlen("terminal:") + c->place] = c->byte;
        }
    }
}

/* Makes a descriptor and changes an id of it; where its descriptor id stands. */
static size_t make_changed(bytes *b, const fields *f, enum which_id which, const id_change *c) {
    places at = make(b, f);
    change_id(b, &at, which, c);
    return at.id;
}

/* Submits the descriptor at 2500, and compares the answer and whether the image has changed. */
static void tried(const char *field, uint8_t *image, size_t n, const bytes *b, uint64_t verdict, uint64_t expected) {
    static uint8_t before[4096];
    memcpy(before, image, n);
    same(field, cap_submit(image, n, b->at, b->len, 2500, verdict, 0, 0, 0), expected);
    same("the image is unchanged", memcmp(image, before, n) == 0, expected != CAP_DONE);
}

/* A descriptor with a changed id: 15 and 16 come before what the id is answered, and 2 comes after it. */
static void check_change(enum which_id which, const id_change *c) {
    static uint8_t image[4096], no_image[8];
    static bytes b;
    static char name[80];
    fields f = stored;
    uint64_t late = c->answer == CAP_DONE ? CAP_VALIDITY_OUT_OF_RANGE : c->answer;
    snprintf(name, sizeof name, "%s %s", id_names[which], c->name);
    what = name;
    cap_image_new(image, sizeof image);
    make_changed(&b, &f, which, c);
    tried("answer with a verdict of 3", image, sizeof image, &b, 3, 15);
    tried("answer without an image", no_image, sizeof no_image, &b, 0, 16);
    f.not_after = f.not_before + 7776001;
    make_changed(&b, &f, which, c);
    tried("answer of one valid for over 90 days", image, sizeof image, &b, 0, late);
    f.not_before = 2500 + 86401;
    f.not_after = f.not_before + 1;
    make_changed(&b, &f, which, c);
    tried("answer of one that begins a day and a second ahead", image, sizeof image, &b, 0, late);
    make_changed(&b, &stored, which, c);
    tried("answer", image, sizeof image, &b, 0, c->answer);
}

static void ids(void) {
    for (size_t i = 0; i < sizeof byte_changes / sizeof byte_changes[0]; i++) {
        check_change(DESCRIPTOR_ID, &byte_changes[i]);
    }
    for (size_t i = 0; i < sizeof text_changes / sizeof text_changes[0]; i++) {
        check_change(FAY_ID, &text_changes[i]);
        check_change(TERMINAL_ID, &text_changes[i]);
    }
}

#endif
