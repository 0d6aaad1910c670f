/* The command `request`: a request for a stored descriptor is decided. */
#include <inttypes.h>
#include <stdio.h>
#include <string.h>

#include "arguments.h"
#include "cap.h"
#include "commands.h"
#include "image_file.h"
#include "judgement.h"
#include "keys.h"
#include "leases.h"
#include "leasing.h"
#include "numbers.h"
#include "revocations.h"
#include "serving.h"
#include "show.h"
#include "words.h"

/* What a request is about. */
typedef struct request {
    image_file stored;
    key_list keys;
    revocation_list revoked;
    lease_table leases;
    uint8_t id[ID_LEN];
    const char *fay;
    const char *terminal;
    const char *resource;
    uint64_t mode;
    uint64_t now_ms;
    uint64_t session_length;
    const uint8_t *body; /* the stored descriptor, a part of the image; empty where none is found */
    size_t body_len;
} request;

/* Finds the stored descriptor under the request's id; without one the body stays empty, and the gate says why. */
static void find_body(request *r) {
    const file_bytes *image = &r->stored.image;
    cap_stored found = cap_image_find(image->bytes, image->len, r->id, ID_LEN);
    r->body = image->bytes + found.body_at;
    r->body_len = (size_t)found.body_len;
}

/* Asks the gate to decide the request with the host's judgement of the signature. The body stays where it is: a grant changes a moment of the image alone. */
static cap_decision ask_gate(request *r, const judgement *judged) {
    return cap_request(r->stored.image.bytes, r->stored.image.len, r->id, ID_LEN, (const uint8_t *)r->fay, strlen(r->fay), (const uint8_t *)r->terminal,
                       strlen(r->terminal), (const uint8_t *)r->resource, strlen(r->resource), r->mode, r->now_ms, r->session_length,
                       r->revoked.bytes, r->revoked.len, r->leases.rows.bytes, r->leases.rows.len, judged->verdict, judged->valid_from, judged->has_valid_until,
                       judged->valid_until);
}

/* Prints a granted request: the grant that the gate names, its pattern and modes, why it is this one, the session's end, and what is left of the lease. */
static void print_granted(const request *r, cap_decision decision) {
    printf("granted: %s of ", mode_name(r->mode));
    print_text((const uint8_t *)r->resource, strlen(r->resource));
    printf("\n  grant %" PRIu64 "\n", decision.grant);
    show_grant(r->body, r->body_len, decision.grant);
    print_why_named(r->body, r->body_len, r->resource, r->mode, decision.grant);
    print_labelled_moment("session end", decision.session_end);
    print_lease(&r->leases, r->id, decision, r->now_ms);
}

/* Prints what the stored descriptor and its key say to the step that failed. */
static void print_reason(const request *r, uint64_t answer, const judgement *judged) {
    cap_descriptor read = cap_descriptor_read(r->body, r->body_len);
    switch (answer) {
    case CAP_DESCRIPTOR_NOT_YET_VALID: print_labelled_moment("not before", read.not_before); break;
    case CAP_DESCRIPTOR_EXPIRED: print_labelled_moment("not after", read.not_after); break;
    case CAP_SUBJECT_MISMATCH: print_labelled_text("descriptor's fay", r->body + read.fay_at, FAY_LEN); break;
    case CAP_TERMINAL_MISMATCH: print_labelled_text("descriptor's terminal", r->body + read.terminal_at, TERMINAL_LEN); break;
    case CAP_VERIFICATION_KEY_INVALID:
    case CAP_INVALID_SIGNATURE: print_judgement(judged, r->body, r->body_len); break;
    default: break;
    }
}

/* Says whether a refusal of a request came from the clock in seconds. */
static bool seconds_decided(uint64_t answer) {
    return answer == CAP_DESCRIPTOR_REVOKED || answer == CAP_DESCRIPTOR_NOT_YET_VALID || answer == CAP_DESCRIPTOR_EXPIRED ||
           answer == CAP_VERIFICATION_KEY_INVALID;
}

/* Says whether it came from the clock in milliseconds. */
static bool milliseconds_decided(uint64_t answer) {
    return answer == CAP_LEASE_FUTURE || answer == CAP_LEASE_STALE || answer == CAP_LEASE_EXPIRED;
}

/* Prints a refused request, with what was compared in the step that failed. */
static void print_request_refusal(const request *r, cap_decision decision, const judgement *judged) {
    print_refusal(ASKED_REQUEST, decision.answer);
    print_reason(r, decision.answer, judged);
    print_lease(&r->leases, r->id, decision, r->now_ms);
    if (seconds_decided(decision.answer)) {
        print_labelled_moment("now", r->now_ms / SECOND_MS);
    }
    if (milliseconds_decided(decision.answer)) {
        print_labelled_moment_ms("now", r->now_ms);
    }
}

/* Replaces the image file where the gate has raised the moment at which the descriptor was last used. Where that fails the error is told, and the request is
 * granted all the same: what is lost is only in which order expired descriptors are removed. */
static void save_use(const request *r) {
    if (image_changed(&r->stored) && image_save(&r->stored)) {
        print_labelled_moment("last used, written", r->now_ms / SECOND_MS);
    }
}

/* Judges the stored descriptor's signature, has the gate decide, and prints the decision. */
static int decide_request(request *r) {
    find_body(r);
    judgement judged = judge_signature(&r->keys, r->body, r->body_len);
    cap_decision decision = ask_gate(r, &judged);
    if (decision.answer != CAP_DONE) {
        print_request_refusal(r, decision, &judged);
        return ENDED_REFUSED;
    }
    print_granted(r, decision);
    print_judgement(&judged, r->body, r->body_len);
    save_use(r);
    return ENDED_WELL;
}

/* Reads the arguments of a request that aren't files. */
static bool read_request_arguments(char **arguments, request *r) {
    r->fay = arguments[3];
    r->terminal = arguments[4];
    r->resource = arguments[5];
    if (!parse_id(arguments[2], r->id)) {
        return tell_bad_argument("ID", arguments[2]);
    }
    if (!parse_mode(arguments[6], &r->mode)) {
        return tell_bad_argument("MODE", arguments[6]);
    }
    if (!parse_clock_ms(arguments[7], &r->now_ms)) {
        return tell_bad_argument("NOW", arguments[7]);
    }
    return parse_number(arguments[8], &r->session_length) || tell_bad_argument("SESSION", arguments[8]);
}

/* The path of a file that may be left out, or null: there are fewer arguments, or it is a hyphen. */
static const char *optional_path(char **arguments, int count, int place) {
    return count > place && strcmp(arguments[place], "-") != 0 ? arguments[place] : NULL;
}

/* Decides a request for a stored descriptor; the image is read once, so that all steps see the same bytes, and its lock is held, so that no submission gets
 * lost when a moment is written. */
int command_request(char **arguments, int count) {
    request r = {0};
    int ended = ENDED_WITH_ERROR;
    if (read_request_arguments(arguments, &r) && keys_read(arguments[1], &r.keys) &&
        revocations_read(optional_path(arguments, count, 9), &r.revoked) && leases_read(optional_path(arguments, count, 10), &r.leases) &&
        image_open(arguments[0], &r.stored)) {
        ended = decide_request(&r);
    }
    leases_free(&r.leases);
    revocations_free(&r.revoked);
    keys_free(&r.keys);
    image_close(&r.stored);
    return ended;
}
