/* The command `narrow`: a child's descriptor file under a parent's. */
#include <inttypes.h>
#include <stdio.h>

#include "cap.h"
#include "commands.h"
#include "files.h"
#include "show.h"
#include "words.h"

/* Prints how a child escapes its parent: by which grant, in which mode, and with how many names for its "**". */
static void print_escape(const file_bytes *child, cap_narrowing narrowing) {
    printf("  child's grant %" PRIu64 "\n", narrowing.grant);
    show_grant(child->bytes, child->len, narrowing.grant);
    printf("  escapes in mode: %s\n", mode_name(narrowing.mode));
    printf("  levels: %" PRIu64 " (the fewest names that its \"**\" takes in a path that escapes", narrowing.levels);
    printf("%s)\n", narrowing.levels == 0 ? "; it has none" : "");
}

/* Narrows the child under the parent and prints the answer. */
static int decide_narrowing(const file_bytes *parent, const file_bytes *child) {
    cap_narrowing narrowing = cap_narrow(parent->bytes, parent->len, child->bytes, child->len);
    if (narrowing.answer == CAP_DONE) {
        puts("accepted: every moment, path and mode that the child admits, the parent admits");
        return ENDED_WELL;
    }
    print_refusal(ASKED_NARROWING, narrowing.answer);
    if (narrowing.answer == CAP_GRANT_NOT_COVERED) {
        print_escape(child, narrowing);
    }
    return ENDED_REFUSED;
}

/* Narrows a child's descriptor file under a parent's. */
int command_narrow(char **arguments, int count) {
    file_bytes parent = {0};
    file_bytes child = {0};
    int ended = ENDED_WITH_ERROR;
    (void)count;
    if (file_read(arguments[0], &parent) && file_read(arguments[1], &child)) {
        ended = decide_narrowing(&parent, &child);
    }
    file_free(&child);
    file_free(&parent);
    return ended;
}
