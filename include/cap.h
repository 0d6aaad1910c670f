/* The gate of the Control Authority Protocol: reading of items and descriptors, matching, the stored image, submission, requests and narrowing.
 *
 * Link libcap.a. Every function takes any bytes and any numbers, ends, and answers; none allocates, keeps a pointer or uses a global.
 * A slice is a pointer and a length. An empty slice is passed with any pointer that is not null, as CAP_EMPTY: a slice of the library is a reference, which the
 * compiler may take to be no null pointer, whatever its length. Where one slice of a call is mutable, no other slice of that call overlaps it: copy a body out of
 * an image before submitting it again, and an id before asking for it.
 * A refusal changes no byte, and its other numbers are 0, except narrowing's for CAP_GRANT_NOT_COVERED and a request's margin for CAP_LEASE_STALE.
 * Times are seconds since 1970, and lengths of time seconds. A parameter whose name ends in _ms has milliseconds; so have the margin of a decision, and
 * those numbers of a lease of which it is said.
 * A place or a length counts bytes of the slice that was passed; `grant` and `index` count grants from 0. `has_...` is 0 for absent, anything
 * else for present; what it marks as absent is not looked at.
 */
#ifndef CAP_H
#define CAP_H

#include <stddef.h>
#include <stdint.h>

#ifdef __cplusplus
extern "C" {
#endif

/* A pointer for an empty slice. */
#define CAP_EMPTY ((const uint8_t *)"")

/* The answers of the calls, by the numbers of the published table; `found` of cap_grant_at is none of them. */
enum cap_answer {
    CAP_DONE = 0,                        /* done, granted, accepted */
    CAP_INVALID_STRUCTURE = 1,           /* E_INVALID_STRUCTURE: not the deterministic encoding of an allowed item or descriptor; in a submission also an id that is no UUID of version 7 */
    CAP_VALIDITY_OUT_OF_RANGE = 2,       /* E_VALIDITY_OUT_OF_RANGE: valid for over 90 days, or beginning over a day ahead */
    CAP_UNKNOWN_ISSUER = 3,              /* E_UNKNOWN_ISSUER: the host has no such key */
    CAP_INVALID_SIGNATURE = 4,           /* E_INVALID_SIGNATURE: the host found the signature bad */
    CAP_DUPLICATE_DESCRIPTOR_ID = 5,     /* E_DUPLICATE_DESCRIPTOR_ID: other bytes are held under the id */
    CAP_STORAGE_FULL = 6,                /* E_STORAGE_FULL: 1,024 rows are held, or the larger image exceeds the buffer, also without the expired ones */
    CAP_DESCRIPTOR_NOT_FOUND = 7,        /* E_DESCRIPTOR_NOT_FOUND: the id is not held */
    CAP_DESCRIPTOR_REVOKED = 8,          /* E_DESCRIPTOR_REVOKED: a row of the revocation list has the id, and its moment is not after now */
    CAP_DESCRIPTOR_NOT_YET_VALID = 9,    /* E_DESCRIPTOR_NOT_YET_VALID: now < not_before */
    CAP_DESCRIPTOR_EXPIRED = 10,         /* E_DESCRIPTOR_EXPIRED: now >= not_after */
    CAP_SUBJECT_MISMATCH = 11,           /* E_SUBJECT_MISMATCH: another fay */
    CAP_TERMINAL_MISMATCH = 12,          /* E_TERMINAL_MISMATCH: another terminal */
    CAP_AUTHORIZATION_INSUFFICIENT = 13, /* E_AUTHORIZATION_INSUFFICIENT: no grant has the mode, a matching pattern and no constraint */
    CAP_VERIFICATION_KEY_INVALID = 14,   /* E_VERIFICATION_KEY_INVALID: the clock is outside the key's window; in a request also that the host has no such key (verdict 2) */
    CAP_MALFORMED_ARGUMENTS = 15,        /* malformed arguments */
    CAP_BAD_IMAGE = 16,                  /* bad image, also one of an unknown edition; in a submission also one of edition 1, in an upgrade any other */
    CAP_OUTPUT_TOO_SHORT = 17,           /* output too short: the buffer has no room for the image that is to be written */
    CAP_PERIOD_NOT_INSIDE = 18,          /* period not inside the parent's */
    CAP_CONSTRAINT_PRESENT = 19,         /* constraint present in parent or child */
    CAP_GRANT_NOT_COVERED = 20,          /* grant not covered by the parent */
    CAP_PARENT_UNREAD = 21,              /* parent doesn't read */
    CAP_LEASE_FUTURE = 23,               /* lease future: the clock is before the last sync by more than the skew; check the clock */
    CAP_LEASE_STALE = 24,                /* lease stale: sync and ask again; the ttl is over, the grace is not */
    CAP_LEASE_EXPIRED = 25,              /* lease expired: the grace is over too; a new descriptor is needed */
    CAP_LEASE_REVOKED = 26               /* lease revoked: the flag of the lease is 1 */
};

/* The modes by their numbers, which never change; in a mask they are 1, 2, 4 and 8. */
enum cap_mode { CAP_READ = 0, CAP_WRITE = 1, CAP_EXECUTE = 2, CAP_CONFIGURE = 3 };

/* The host's verdict on a signature. */
enum cap_verdict { CAP_SIGNATURE_GOOD = 0, CAP_SIGNATURE_BAD = 1, CAP_NO_SUCH_KEY = 2 };

/* The kinds of items, by CBOR's major types. */
enum cap_kind { CAP_UNSIGNED = 0, CAP_BYTE_STRING = 2, CAP_TEXT = 3, CAP_ARRAY = 4, CAP_MAP = 5 };

/* The signature algorithms. */
enum cap_algorithm { CAP_ED25519 = 0, CAP_ECDSA_P256_SHA256 = 1 };

/* The length of a row of the lease table, in bytes. */
#define CAP_LEASE_ROW 64

/* An item. */
typedef struct cap_item {
    uint64_t answer;      /* 0 or 1 */
    uint64_t kind;        /* one of cap_kind */
    uint64_t number;      /* the value; a string's length; an array's or a map's count, of a map of pairs */
    uint64_t content_at;  /* where a string's content starts; 0 where there is no string */
    uint64_t content_len; /* how many bytes it has */
    uint64_t next;        /* the place after the item; of an array or a map, after its head */
} cap_item;

/* A descriptor. */
typedef struct cap_descriptor {
    uint64_t answer;           /* 0, 1 or 2 */
    uint64_t payload_at;       /* the payload, which the signature covers */
    uint64_t payload_len;      /* its length */
    uint64_t issued_at;        /* seconds */
    uint64_t not_before;       /* seconds: the first moment of validity */
    uint64_t not_after;        /* seconds: the moment at which validity has ended */
    uint64_t id_at;            /* the descriptor id, 16 bytes */
    uint64_t issuer_at;        /* the issuer id */
    uint64_t issuer_len;       /* its length */
    uint64_t grantor_at;       /* the grantor id; 0 where it is absent */
    uint64_t grantor_len;      /* its length; 0 where it is absent */
    uint64_t fay_at;           /* the subject's fay id, 40 bytes */
    uint64_t terminal_at;      /* the terminal id, 45 bytes */
    uint64_t grants;           /* how many grants there are */
    uint64_t metadata_at;      /* the head of the metadata map; 0 where it is absent */
    uint64_t metadata_pairs;   /* how many pairs it has */
    uint64_t constraint_pairs; /* how many constraint pairs all grants have */
    uint64_t mask;             /* the union of the grants' masks */
    uint64_t key_id_at;        /* the id of the key that signed */
    uint64_t key_id_len;       /* its length */
    uint64_t algorithm;        /* one of cap_algorithm */
    uint64_t signature_at;     /* the signature */
    uint64_t signature_len;    /* its length */
} cap_descriptor;

/* A grant. */
typedef struct cap_grant {
    uint64_t found;            /* 1, or 0 and zeros past the last grant and where the bytes don't read */
    uint64_t pattern_at;       /* the resource pattern */
    uint64_t pattern_len;      /* its length */
    uint64_t mask;             /* its modes */
    uint64_t modes_at;         /* the head of the array of modes */
    uint64_t constraints_at;   /* the head of the constraints map; 0 where it is absent */
    uint64_t constraint_pairs; /* how many pairs it has */
} cap_grant;

/* What matching answers. */
typedef struct cap_matching {
    uint64_t answer; /* 0 or 15 */
    uint64_t yes;    /* 1 where the pattern matches the resource id, else 0 */
    uint64_t names;  /* with yes 1: how many levels were matched by equal names; the terminal id is no level, "*" and "**" count 0. Else 0 */
} cap_matching;

/* What a lookup answers. */
typedef struct cap_stored {
    uint64_t answer;   /* 0, 15, 16 or 7, the first of these that applies */
    uint64_t body_at;  /* where the body lies in the image */
    uint64_t body_len; /* its length */
} cap_stored;

/* What a call answers that writes to a lent buffer. */
typedef struct cap_written {
    uint64_t answer; /* 0, or the first number that applies */
    uint64_t len;    /* with 0: how many bytes were written at the start of the buffer; those after them stay. Else 0 */
} cap_written;

/* What a request answers. */
typedef struct cap_decision {
    uint64_t answer;      /* 0, or the number of the first step that fails */
    uint64_t grant;       /* of the grants that serve the one with most levels matched by equal names, the first of those */
    uint64_t mask;        /* its modes */
    uint64_t session_end; /* seconds: the smaller of not_after and now + session_length, now being now_ms / 1000 rounded down */
    int64_t margin;       /* milliseconds that are left of the lease, 0 at the last active one: with answer 0 where the lease table has a row with the id;
                           * with 24, where it is negative. Else 0 */
} cap_decision;

/* What narrowing answers. */
typedef struct cap_narrowing {
    uint64_t answer; /* 0, 21, 1, 2, 19, 18 or 20, the first of these that applies */
    uint64_t grant;  /* with 20: the child's first grant by which a path escapes */
    uint64_t mode;   /* with 20: the lowest mode in which one does */
    uint64_t levels; /* with 20: the fewest names that the grant's "**" takes in one */
} cap_narrowing;

/* Reads the item at the place. */
cap_item cap_item_read(const uint8_t *bytes, size_t bytes_len, uint64_t place);

/* Reads the bytes as a descriptor. */
cap_descriptor cap_descriptor_read(const uint8_t *bytes, size_t bytes_len);

/* Reads the grant with the index of a descriptor. */
cap_grant cap_grant_at(const uint8_t *bytes, size_t bytes_len, uint64_t index);

/* Matches a pattern and a resource id, and counts the levels that were matched by equal names. */
cap_matching cap_match(const uint8_t *pattern, size_t pattern_len, const uint8_t *resource, size_t resource_len);

/* Makes a new image of no bodies, of edition 2: 0 or 17. It has 8 bytes; those after them stay. */
uint64_t cap_image_new(uint8_t *image, size_t image_len);

/* Looks for the body with the id in the image, which is of edition 1 or 2. */
cap_stored cap_image_find(const uint8_t *image, size_t image_len, const uint8_t *id, size_t id_len);

/* Makes an image of edition 2 of one of edition 1, in a second buffer: the same bodies in the same order, each last used at the moment 0. It has 8 bytes more for
 * each body. 16 where `old` is anything but a sound image of edition 1, then 17 where `image` is too short. */
cap_written cap_image_upgrade(const uint8_t *old, size_t old_len, uint8_t *image, size_t image_len);

/* Submits a descriptor to the image, which is of edition 2; one of edition 1 is answered 16. 0, or the number of the first step that fails. On 0 the image holds the
 * descriptor, and where it did not hold it before, it was last used at the moment `now`.
 * Only ids that are UUIDs of version 7 with RFC 9562's variant enter: the descriptor id, and those of the fay id and the terminal id, whose hexadecimal digits are lower case. Any
 * other is answered 1, before 2 and before the question whether the id is held: bytes with other ids that are held from before are answered 1 when they are submitted again, and stay
 * held. No other call asks for this: a held descriptor with other ids is found, decided and upgraded as before.
 * Where it does not fit (1,024 rows are held, or the larger image exceeds the buffer) the submission removes expired descriptors (now >= not_after) from the image:
 * the least recently used first, the earlier row on a tie, one after the other and only until it fits. One that is not expired is never removed. Where it would not
 * fit without all expired ones either, the answer is 6 and nothing changes. After a removal bodies lie at other places than before. */
uint64_t cap_submit(uint8_t *image, size_t image_len, const uint8_t *descriptor, size_t descriptor_len, uint64_t now, uint64_t verdict,
                    uint64_t valid_from, uint64_t has_valid_until, uint64_t valid_until);

/* Decides a request for the stored descriptor with the id. The image is of edition 1 or 2. Where the request is granted (0) and the image is of edition 2,
 * the moment at which the descriptor was last used is raised to now, if now is larger: those 8 bytes of the image change, and no other. Every other answer,
 * and any on an image of edition 1, changes nothing.
 * A grant serves where it has the mode, a pattern that matches the resource id and no constraint pair; of those that serve the decision has the one with
 * most `names` (cap_matching), the first of them on a tie.
 * `now_ms` is the clock in milliseconds, at most 2^53. All steps but those of the lease go by the clock in seconds, now = now_ms / 1000, rounded down.
 * `revoked` is the revocation list: rows of 24 bytes in any order, each a descriptor id (16), then the moment from which on it is revoked, in seconds,
 * big-endian (8). An id may recur. A length that is no multiple of 24 is answered 15.
 * `leases` is the lease table: rows of CAP_LEASE_ROW bytes, whose numbers are big-endian:
 *     at 0    descriptor id, 16 bytes
 *     at 16   1 where the lease is revoked, else 0; then seven bytes 0
 *     at 24   L, last sync, in milliseconds, at most 2^53
 *     at 32   T, ttl, in seconds, below 2^32
 *     at 40   G, grace, in seconds, below 2^32
 *     at 48   D, future skew, in milliseconds, at most 86,400,000
 *     at 56   E, tolerance, in milliseconds, at most 86,400,000
 * A table with another length, a row of any id that is not so, or two rows with one id is answered 15; so is a now_ms above 2^53, with any table. Rows in
 * ascending order of id (bytewise) are checked in one pass; any order is allowed and gets the same answer, but with many thousand rows in another order
 * the time may grow with the square of their number.
 * The steps of the lease come last, for the row with the id that is asked for. With N = now_ms: 26 where it is revoked; 23 where N < L - D; granted where
 * N <= L + 1000 T + E; 24 where N <= L + 1000 T + 1000 G + E; else 25. The margin is L + 1000 T + E - N. An id without a row is decided without these steps.
 * A list or a table without rows is passed as any empty slice, as CAP_EMPTY. */
cap_decision cap_request(uint8_t *image, size_t image_len, const uint8_t *id, size_t id_len, const uint8_t *fay, size_t fay_len,
                         const uint8_t *terminal, size_t terminal_len, const uint8_t *resource, size_t resource_len, uint64_t mode, uint64_t now_ms,
                         uint64_t session_length, const uint8_t *revoked, size_t revoked_len, const uint8_t *leases, size_t leases_len, uint64_t verdict,
                         uint64_t valid_from, uint64_t has_valid_until, uint64_t valid_until);

/* Narrows the child descriptor under the parent. */
cap_narrowing cap_narrow(const uint8_t *parent, size_t parent_len, const uint8_t *child, size_t child_len);

#ifdef __cplusplus
}
#endif

#endif
