/* The command `submit`: a descriptor file is submitted to the image file. */
#include <stdint.h>
#include <stdio.h>

#include "arguments.h"
#include "cap.h"
#include "commands.h"
#include "files.h"
#include "image_file.h"
#include "judgement.h"
#include "keys.h"
#include "words.h"

/* What a submission is about. */
typedef struct submission {
    image_file stored;
    key_list keys;
    file_bytes descriptor;
    uint64_t now;
} submission;

/* Says whether the image holds a descriptor under the id of this one. */
static bool id_is_held(const submission *s) {
    cap_descriptor read = cap_descriptor_read(s->descriptor.bytes, s->descriptor.len);
    return read.answer == CAP_DONE &&
           cap_image_find(s->stored.image.bytes, s->stored.image.len, s->descriptor.bytes + read.id_at, ID_LEN).answer == CAP_DONE;
}

/* Prints how to go on with an image that takes no submission: where a lookup finds it sound it is of edition 1. */
static void print_upgrade_hint(const submission *s) {
    static const uint8_t any_id[ID_LEN] = {0};
    if (cap_image_find(s->stored.image.bytes, s->stored.image.len, any_id, ID_LEN).answer != CAP_BAD_IMAGE) {
        puts("  hint: the image is of edition 1, which is for requests only; `host upgrade IMAGE SIZE` turns it into one of edition 2");
    }
}

/* Prints how to go on with a descriptor that was refused as if it didn't read: where it does, one of its ids is the reason. */
static void print_id_hint(const submission *s) {
    const uint8_t *descriptor = s->descriptor.bytes;
    cap_descriptor read = cap_descriptor_read(descriptor, s->descriptor.len);
    if (read.answer == CAP_INVALID_STRUCTURE) {
        return;
    }
    puts("  hint: the descriptor reads, so one of its ids isn't a UUID of version 7 (RFC 9562) in lower case; ask the issuer for a new descriptor");
    if (read.answer == CAP_DONE) {
        printf("  id: ");
        print_id(descriptor + read.id_at);
        putchar('\n');
        print_labelled_text("fay", descriptor + read.fay_at, FAY_LEN);
        print_labelled_text("terminal", descriptor + read.terminal_at, TERMINAL_LEN);
    }
}

/* Prints the first line of a submission that the gate took. */
static void print_taken(const submission *s, const char *taken) {
    cap_descriptor read = cap_descriptor_read(s->descriptor.bytes, s->descriptor.len);
    printf("%s: descriptor ", taken);
    print_id(s->descriptor.bytes + read.id_at);
    putchar('\n');
}

/* Prints what a refused submission was about, beyond the gate's own words. */
static void print_submission_refusal(const submission *s, uint64_t answer, const judgement *judged) {
    print_refusal(ASKED_SUBMISSION, answer);
    if (answer == CAP_UNKNOWN_ISSUER || answer == CAP_VERIFICATION_KEY_INVALID || answer == CAP_INVALID_SIGNATURE) {
        print_judgement(judged, s->descriptor.bytes, s->descriptor.len);
    }
    if (answer == CAP_VERIFICATION_KEY_INVALID || answer == CAP_VALIDITY_OUT_OF_RANGE) {
        print_labelled_moment("now", s->now);
    }
    if (answer == CAP_BAD_IMAGE) {
        print_upgrade_hint(s);
    }
    if (answer == CAP_INVALID_STRUCTURE) {
        print_id_hint(s);
    }
}

/* Submits the descriptor to the image in memory, and replaces the image file where the image has changed. */
static int decide_submission(submission *s) {
    bool held = id_is_held(s);
    judgement judged = judge_signature(&s->keys, s->descriptor.bytes, s->descriptor.len);
    uint64_t answer = cap_submit(s->stored.image.bytes, s->stored.image.len, s->descriptor.bytes, s->descriptor.len, s->now, judged.verdict,
                                 judged.valid_from, judged.has_valid_until, judged.valid_until);
    if (answer != CAP_DONE) {
        print_submission_refusal(s, answer, &judged);
        return ENDED_REFUSED;
    }
    if (!image_save(&s->stored)) {
        return ENDED_WITH_ERROR;
    }
    print_taken(s, held ? "held already" : "stored");
    print_judgement(&judged, s->descriptor.bytes, s->descriptor.len);
    print_removed(&s->stored);
    return ENDED_WELL;
}

/* Submits a descriptor file to the image file; the image's lock is held, so that no other change of the image gets lost. */
int command_submit(char **arguments, int count) {
    submission s = {0};
    const char *clock_text = count > 3 ? arguments[3] : "now";
    int ended = ENDED_WITH_ERROR;
    if (!parse_clock(clock_text, &s.now)) {
        tell_bad_argument("NOW", clock_text);
        return ENDED_WITH_ERROR;
    }
    if (keys_read(arguments[1], &s.keys) && file_read(arguments[2], &s.descriptor) && image_open(arguments[0], &s.stored)) {
        ended = decide_submission(&s);
    }
    image_close(&s.stored);
    file_free(&s.descriptor);
    keys_free(&s.keys);
    return ended;
}
