/* Which grants of a descriptor serve a request, to say why the gate names one of them. The gate has decided; here is only counted. */
#include "serving.h"

#include <inttypes.h>
#include <stdbool.h>
#include <stdio.h>
#include <string.h>

#include "cap.h"

/* Matches the pattern of a grant. */
static cap_matching match_grant(const uint8_t *descriptor, cap_grant grant, const char *resource) {
    return cap_match(descriptor + grant.pattern_at, (size_t)grant.pattern_len, (const uint8_t *)resource, strlen(resource));
}

/* Says whether a grant serves: it has the mode, its pattern matches, and it has no constraint pair. */
static bool grant_serves(cap_grant grant, uint64_t mode, cap_matching matched) {
    return (grant.mask >> mode & 1) == 1 && matched.yes == 1 && grant.constraint_pairs == 0;
}

/* Prints how many levels the named grant matches by equal names, how many grants serve, and how many of those match as many. */
void print_why_named(const uint8_t *descriptor, size_t len, const char *resource, uint64_t mode, uint64_t named) {
    uint64_t names = match_grant(descriptor, cap_grant_at(descriptor, len, named), resource).names;
    uint64_t serving = 0, as_many = 0;
    cap_grant grant = cap_grant_at(descriptor, len, 0);
    for (uint64_t index = 0; grant.found; index++) {
        cap_matching matched = match_grant(descriptor, grant, resource);
        if (grant_serves(grant, mode, matched)) {
            serving++;
            as_many += matched.names == names;
        }
        grant = cap_grant_at(descriptor, len, index + 1);
    }
    printf("    levels matched by equal names: %" PRIu64 "\n  grants that serve: %" PRIu64, names, serving);
    if (as_many > 1) {
        printf(", of which %" PRIu64 " have most such levels, this one first", as_many);
    } else if (serving > 1) {
        printf(", of which this one has most such levels");
    }
    putchar('\n');
}
