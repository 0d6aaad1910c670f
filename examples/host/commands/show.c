/* What a descriptor says, in words, and the command `show`. */
#include "show.h"

#include <inttypes.h>
#include <stdio.h>

#include "arguments.h"
#include "cap.h"
#include "commands.h"
#include "files.h"
#include "words.h"

/* Prints the pairs of a map, metadata or constraints, by walking its items from its head. */
static void show_pairs(const char *label, const uint8_t *descriptor, size_t len, uint64_t head_at) {
    cap_item head = cap_item_read(descriptor, len, head_at);
    uint64_t place = head.next;
    for (uint64_t pair = 0; pair < head.number; pair++) {
        cap_item key = cap_item_read(descriptor, len, place);
        cap_item value = cap_item_read(descriptor, len, key.next);
        printf("  %s: ", label);
        print_text(descriptor + key.content_at, (size_t)key.content_len);
        printf(" = ");
        print_text(descriptor + value.content_at, (size_t)value.content_len);
        putchar('\n');
        place = value.next;
    }
}

/* Prints the pattern and the modes of a grant. */
void show_grant(const uint8_t *descriptor, size_t len, uint64_t index) {
    cap_grant grant = cap_grant_at(descriptor, len, index);
    if (!grant.found) {
        return;
    }
    print_labelled_text("  pattern", descriptor + grant.pattern_at, (size_t)grant.pattern_len);
    printf("    modes: ");
    print_modes(grant.mask);
    putchar('\n');
}

/* Prints all grants with their constraints. */
static void show_grants(const uint8_t *descriptor, size_t len) {
    cap_grant grant = cap_grant_at(descriptor, len, 0);
    for (uint64_t index = 0; grant.found; index++) {
        printf("  grant %" PRIu64 "\n", index);
        show_grant(descriptor, len, index);
        if (grant.constraint_pairs > 0) {
            show_pairs("  constraint", descriptor, len, grant.constraints_at);
        }
        grant = cap_grant_at(descriptor, len, index + 1);
    }
}

/* Prints a descriptor that reads, field by field and grant by grant. */
static void show_descriptor(const uint8_t *descriptor, size_t len) {
    cap_descriptor read = cap_descriptor_read(descriptor, len);
    printf("descriptor ");
    print_id(descriptor + read.id_at);
    putchar('\n');
    print_labelled_text("issuer", descriptor + read.issuer_at, (size_t)read.issuer_len);
    if (read.grantor_at != 0) {
        print_labelled_text("grantor", descriptor + read.grantor_at, (size_t)read.grantor_len);
    }
    print_labelled_text("fay", descriptor + read.fay_at, FAY_LEN);
    print_labelled_text("terminal", descriptor + read.terminal_at, TERMINAL_LEN);
    print_labelled_moment("issued at", read.issued_at);
    print_labelled_moment("not before", read.not_before);
    print_labelled_moment("not after", read.not_after);
    if (read.metadata_at != 0) {
        show_pairs("metadata", descriptor, len, read.metadata_at);
    }
    show_grants(descriptor, len);
    printf("  signature: %s, %" PRIu64 " bytes\n", algorithm_name(read.algorithm), read.signature_len);
    print_labelled_text("key", descriptor + read.key_id_at, (size_t)read.key_id_len);
}

/* Prints what a descriptor file says, or why it isn't one. */
int command_show(char **arguments, int count) {
    file_bytes file;
    (void)count;
    if (!file_read(arguments[0], &file)) {
        return ENDED_WITH_ERROR;
    }
    uint64_t answer = cap_descriptor_read(file.bytes, file.len).answer;
    if (answer == CAP_DONE) {
        show_descriptor(file.bytes, file.len);
    } else {
        print_refusal(ASKED_READING, answer);
    }
    file_free(&file);
    return answer == CAP_DONE ? ENDED_WELL : ENDED_REFUSED;
}
