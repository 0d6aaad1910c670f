/* What the host says to the gate about a descriptor's signature. */
#include "judgement.h"

#include <stdio.h>

#include "cap.h"
#include "public_key.h"
#include "words.h"

/* Judges the signature of a descriptor by the key that its issuer, key id and algorithm name. */
judgement judge_signature(const key_list *keys, const uint8_t *descriptor, size_t len) {
    judgement judged = {CAP_NO_SUCH_KEY, 0, false, 0};
    cap_descriptor read = cap_descriptor_read(descriptor, len);
    if (read.answer != CAP_DONE) {
        return judged;
    }
    const verification_key *key = keys_find(keys, descriptor + read.issuer_at, (size_t)read.issuer_len, descriptor + read.key_id_at,
                                            (size_t)read.key_id_len, read.algorithm);
    if (key == NULL) {
        return judged;
    }
    bool good = signature_is_good(key->public_key, read.algorithm, descriptor + read.payload_at, (size_t)read.payload_len,
                                  descriptor + read.signature_at, (size_t)read.signature_len);
    judged.verdict = good ? CAP_SIGNATURE_GOOD : CAP_SIGNATURE_BAD;
    judged.valid_from = key->valid_from;
    judged.has_valid_until = key->has_valid_until;
    judged.valid_until = key->valid_until;
    return judged;
}

/* Prints the window of a key. */
static void print_window(const judgement *judged) {
    printf("  key window: from ");
    print_moment(judged->valid_from);
    if (judged->has_valid_until) {
        printf(" until ");
        print_moment(judged->valid_until);
    }
    putchar('\n');
}

/* Prints which key a descriptor names, what the verdict is, and the window of the key where there is one. */
void print_judgement(const judgement *judged, const uint8_t *descriptor, size_t len) {
    static const char *const verdicts[] = {
        [CAP_SIGNATURE_GOOD] = "signature good",
        [CAP_SIGNATURE_BAD] = "signature bad",
        [CAP_NO_SUCH_KEY] = "no such key",
    };
    cap_descriptor read = cap_descriptor_read(descriptor, len);
    if (read.answer != CAP_DONE) {
        return;
    }
    printf("  key: ");
    print_text(descriptor + read.key_id_at, (size_t)read.key_id_len);
    printf(" of issuer ");
    print_text(descriptor + read.issuer_at, (size_t)read.issuer_len);
    printf(" for %s: %s\n", algorithm_name(read.algorithm), verdicts[judged->verdict]);
    if (judged->verdict != CAP_NO_SUCH_KEY) {
        print_window(judged);
    }
}
