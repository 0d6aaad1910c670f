/* The gate's numbers in words. */
#define _POSIX_C_SOURCE 200809L

#include "words.h"

#include <inttypes.h>
#include <stdbool.h>
#include <stdio.h>
#include <time.h>

#include "arguments.h"
#include "cap.h"
#include "numbers.h"

/* The last second of the year 9999. */
#define LAST_DATE UINT64_C(253402300799)

/* How many seconds the larger units have. */
enum { MINUTE = 60, HOUR = 60 * MINUTE, DAY = 24 * HOUR };

/* An answer in words. */
typedef struct answer_words {
    const char *name;
    const char *meaning;
} answer_words;

/* Every answer, at the place of its number; places of no answer are empty. */
static const answer_words answers[] = {
    [CAP_DONE] = {"done", "done"},
    [CAP_INVALID_STRUCTURE] = {"E_INVALID_STRUCTURE", "the bytes aren't the deterministic encoding of an allowed descriptor"},
    [CAP_VALIDITY_OUT_OF_RANGE] = {"E_VALIDITY_OUT_OF_RANGE", "the descriptor is valid for over 90 days, or begins over a day ahead"},
    [CAP_UNKNOWN_ISSUER] = {"E_UNKNOWN_ISSUER", "no key is known under this id for this issuer and algorithm"},
    [CAP_INVALID_SIGNATURE] = {"E_INVALID_SIGNATURE", "the signature isn't the key's signature of the payload"},
    [CAP_DUPLICATE_DESCRIPTOR_ID] = {"E_DUPLICATE_DESCRIPTOR_ID", "other bytes are held under this id"},
    [CAP_STORAGE_FULL] = {"E_STORAGE_FULL", "1,024 descriptors are held, or this one doesn't fit into the image, also without the expired ones"},
    [CAP_DESCRIPTOR_NOT_FOUND] = {"E_DESCRIPTOR_NOT_FOUND", "no descriptor is held under this id"},
    [CAP_DESCRIPTOR_REVOKED] = {"E_DESCRIPTOR_REVOKED", "a row of the revocation list has the id, and its moment is not after now"},
    [CAP_DESCRIPTOR_NOT_YET_VALID] = {"E_DESCRIPTOR_NOT_YET_VALID", "the descriptor isn't valid yet"},
    [CAP_DESCRIPTOR_EXPIRED] = {"E_DESCRIPTOR_EXPIRED", "the descriptor isn't valid any more"},
    [CAP_SUBJECT_MISMATCH] = {"E_SUBJECT_MISMATCH", "the descriptor is for another fay"},
    [CAP_TERMINAL_MISMATCH] = {"E_TERMINAL_MISMATCH", "the descriptor is for another terminal"},
    [CAP_AUTHORIZATION_INSUFFICIENT] = {"E_AUTHORIZATION_INSUFFICIENT", "no grant has the mode, a matching pattern and no constraint"},
    [CAP_VERIFICATION_KEY_INVALID] = {"E_VERIFICATION_KEY_INVALID", "no key is known, or the clock is outside the key's window"},
    [CAP_MALFORMED_ARGUMENTS] = {"malformed arguments", "an id, the resource, a number or the lease table isn't of the form that the gate asks for"},
    [CAP_BAD_IMAGE] = {"bad image", "the file isn't a sound image of an edition that this command takes"},
    [CAP_OUTPUT_TOO_SHORT] = {"output too short", "the image needs more bytes"},
    [CAP_PERIOD_NOT_INSIDE] = {"period not inside", "the child is valid at a moment at which the parent isn't"},
    [CAP_CONSTRAINT_PRESENT] = {"constraint present", "a grant of the parent or of the child has a constraint"},
    [CAP_GRANT_NOT_COVERED] = {"grant not covered", "a grant of the child admits a path that the parent doesn't admit"},
    [CAP_PARENT_UNREAD] = {"parent doesn't read", "the parent isn't an allowed descriptor"},
    [CAP_LEASE_FUTURE] = {"lease future", "the clock is before the last sync by more than the skew"},
    [CAP_LEASE_STALE] = {"lease stale", "the ttl is over, and the grace is not: sync and ask again"},
    [CAP_LEASE_EXPIRED] = {"lease expired", "the grace is over too"},
    [CAP_LEASE_REVOKED] = {"lease revoked", "the lease of the descriptor is revoked"},
};

/* The names of the modes, at the places of their numbers. */
static const char *const modes[MODE_COUNT] = {
    [CAP_READ] = "read",
    [CAP_WRITE] = "write",
    [CAP_EXECUTE] = "execute",
    [CAP_CONFIGURE] = "configure",
};

/* The name of a mode, or "unknown mode". */
const char *mode_name(uint64_t mode) {
    return mode < MODE_COUNT ? modes[mode] : "unknown mode";
}

/* The name of a signature algorithm, or "unknown algorithm". */
const char *algorithm_name(uint64_t algorithm) {
    switch (algorithm) {
    case CAP_ED25519: return "ed25519";
    case CAP_ECDSA_P256_SHA256: return "ecdsa-p256-sha256";
    default: return "unknown algorithm";
    }
}

/* The words of an answer; no answer of the gate is outside the table. */
static answer_words words_of(uint64_t answer) {
    static const answer_words unknown = {"unknown answer", "the gate gave a number that isn't in its table"};
    bool known = answer < sizeof answers / sizeof answers[0] && answers[answer].name != NULL;
    return known ? answers[answer] : unknown;
}

/* The published name of an answer. */
const char *answer_name(uint64_t answer) {
    return words_of(answer).name;
}

/* The step of submission that a refusal stands for, in the order of the steps. */
static const char *submission_step(uint64_t answer) {
    switch (answer) {
    case CAP_MALFORMED_ARGUMENTS: return "before all steps: arguments";
    case CAP_BAD_IMAGE: return "before all steps: the image";
    case CAP_INVALID_STRUCTURE:
    case CAP_VALIDITY_OUT_OF_RANGE: return "1, structural validation";
    case CAP_UNKNOWN_ISSUER:
    case CAP_VERIFICATION_KEY_INVALID:
    case CAP_INVALID_SIGNATURE: return "2, signature validation";
    case CAP_DUPLICATE_DESCRIPTOR_ID: return "3, deduplication check";
    case CAP_STORAGE_FULL: return "4, storage";
    default: return "no step of submission";
    }
}

/* The step of a request that a refusal stands for, in the order of the steps. */
static const char *request_step(uint64_t answer) {
    switch (answer) {
    case CAP_MALFORMED_ARGUMENTS: return "before all steps: arguments";
    case CAP_BAD_IMAGE: return "before all steps: the image";
    case CAP_DESCRIPTOR_NOT_FOUND: return "1, credential existence";
    case CAP_DESCRIPTOR_REVOKED: return "2, revocation status";
    case CAP_DESCRIPTOR_NOT_YET_VALID:
    case CAP_DESCRIPTOR_EXPIRED: return "3, validity period";
    case CAP_SUBJECT_MISMATCH: return "4, subject match";
    case CAP_TERMINAL_MISMATCH: return "5, terminal match";
    case CAP_AUTHORIZATION_INSUFFICIENT: return "6, resource and mode match";
    case CAP_VERIFICATION_KEY_INVALID:
    case CAP_INVALID_SIGNATURE: return "7, signature validation";
    case CAP_LEASE_REVOKED:
    case CAP_LEASE_FUTURE:
    case CAP_LEASE_STALE:
    case CAP_LEASE_EXPIRED: return "8, lease state";
    default: return "no step of a request";
    }
}

/* The step of narrowing that a refusal stands for, in the order of the steps. */
static const char *narrowing_step(uint64_t answer) {
    switch (answer) {
    case CAP_PARENT_UNREAD: return "1, reading of the parent";
    case CAP_INVALID_STRUCTURE:
    case CAP_VALIDITY_OUT_OF_RANGE: return "2, reading of the child";
    case CAP_CONSTRAINT_PRESENT: return "3, constraints";
    case CAP_PERIOD_NOT_INSIDE: return "4, period";
    case CAP_GRANT_NOT_COVERED: return "5, grants";
    default: return "no step of narrowing";
    }
}

/* The step that a refusal stands for in the call that it came from. */
static const char *step_of(enum asked_call call, uint64_t answer) {
    switch (call) {
    case ASKED_SUBMISSION: return submission_step(answer);
    case ASKED_REQUEST: return request_step(answer);
    case ASKED_NARROWING: return narrowing_step(answer);
    case ASKED_READING: return "reading";
    case ASKED_UPGRADE: return "upgrade";
    default: return "new image";
    }
}

/* What a refusal says in the call that it came from; a submission asks more of a descriptor than that it reads. */
static const char *meaning_of(enum asked_call call, uint64_t answer) {
    if (call == ASKED_SUBMISSION && answer == CAP_INVALID_STRUCTURE) {
        return "the bytes aren't the deterministic encoding of an allowed descriptor, or one of its ids isn't a UUID of version 7 in lower case";
    }
    return words_of(answer).meaning;
}

/* Prints a refusal with its name, its number, the step that it stands for, and what it says. */
void print_refusal(enum asked_call call, uint64_t answer) {
    printf("refused: %s (%" PRIu64 ")\n", answer_name(answer), answer);
    printf("  step: %s\n", step_of(call, answer));
    printf("  why: %s\n", meaning_of(call, answer));
}

/* Prints the names of the modes in a mask, lowest first. */
void print_modes(uint64_t mask) {
    const char *between = "";
    for (uint64_t mode = 0; mode < MODE_COUNT; mode++) {
        if ((mask >> mode & 1) != 0) {
            printf("%s%s", between, mode_name(mode));
            between = ", ";
        }
    }
}

/* Writes a moment as a date and a time of day; answers false where its year has more than four digits. */
static bool date_text(uint64_t seconds, char text[32]) {
    struct tm date;
    time_t moment = (time_t)seconds;
    return seconds <= LAST_DATE && gmtime_r(&moment, &date) != NULL && strftime(text, 32, "%Y-%m-%d %H:%M:%S", &date) > 0;
}

/* Prints a moment in seconds, and as a date where it has one of four digits. */
void print_moment(uint64_t seconds) {
    char text[32];
    printf("%" PRIu64, seconds);
    if (date_text(seconds, text)) {
        printf(" (%s UTC)", text);
    }
}

/* Prints a moment in milliseconds, and as a date where it has one of four digits. */
void print_moment_ms(uint64_t milliseconds) {
    uint64_t seconds = milliseconds / SECOND_MS, rest = milliseconds % SECOND_MS;
    char text[32];
    printf("%" PRIu64 ".%03" PRIu64, seconds, rest);
    if (date_text(seconds, text)) {
        printf(" (%s.%03" PRIu64 " UTC)", text, rest);
    }
}

/* Prints a length of time, from its largest unit that isn't 0 on. */
void print_duration(uint64_t milliseconds) {
    uint64_t seconds = milliseconds / SECOND_MS;
    if (seconds >= DAY) {
        printf("%" PRIu64 " d ", seconds / DAY);
    }
    if (seconds >= HOUR) {
        printf("%" PRIu64 " h ", seconds % DAY / HOUR);
    }
    if (seconds >= MINUTE) {
        printf("%" PRIu64 " min ", seconds % HOUR / MINUTE);
    }
    printf("%" PRIu64 ".%03" PRIu64 " s", seconds % MINUTE, milliseconds % SECOND_MS);
}

/* Prints 16 bytes as a UUID text. */
void print_id(const uint8_t *id) {
    for (int place = 0; place < ID_LEN; place++) {
        const char *between = place == 4 || place == 6 || place == 8 || place == 10 ? "-" : "";
        printf("%s%02x", between, id[place]);
    }
}

/* Prints a text between quotes, so that no text can steer the screen or look like another line. */
void print_text(const uint8_t *text, size_t len) {
    putchar('"');
    for (size_t place = 0; place < len; place++) {
        uint8_t byte = text[place];
        if (byte < 0x20 || byte > 0x7e || byte == '"' || byte == '\\') {
            printf("\\x%02x", byte);
        } else {
            putchar(byte);
        }
    }
    putchar('"');
}

/* Prints a line with a label and a moment. */
void print_labelled_moment(const char *label, uint64_t seconds) {
    printf("  %s: ", label);
    print_moment(seconds);
    putchar('\n');
}

/* Prints a line with a label and a moment in milliseconds. */
void print_labelled_moment_ms(const char *label, uint64_t milliseconds) {
    printf("  %s: ", label);
    print_moment_ms(milliseconds);
    putchar('\n');
}

/* Prints a line with a label and a text. */
void print_labelled_text(const char *label, const uint8_t *text, size_t len) {
    printf("  %s: ", label);
    print_text(text, len);
    putchar('\n');
}
