/* What the lease of a descriptor says to a decision, in words. The gate has decided; here is only said by how much. A lease that the gate has gone by has
 * numbers within their limits, so that no sum here wraps. */
#include "leasing.h"

#include <stdio.h>

#include "numbers.h"
#include "words.h"

/* Prints for how long a lease is active yet; the margin of a granted request is that. */
static void print_active(cap_decision decision) {
    printf("  lease: active for another ");
    print_duration((uint64_t)decision.margin);
    putchar('\n');
}

/* Prints for how long a lease has been stale, which the margin says as a negative number, and how much of the grace is left. */
static void print_stale(const lease *of, cap_decision decision) {
    uint64_t stale_ms = (uint64_t)-decision.margin;
    printf("  lease: stale for ");
    print_duration(stale_ms);
    printf("; sync within ");
    print_duration(SECOND_MS * of->grace - stale_ms);
    printf(" and ask again\n");
}

/* Prints how long ago a lease expired. */
static void print_expired(const lease *of, uint64_t now_ms) {
    printf("  lease: expired ");
    print_duration(now_ms - (of->last_sync_ms + SECOND_MS * of->ttl + SECOND_MS * of->grace + of->tolerance_ms));
    printf(" ago; a new descriptor is needed\n");
}

/* Prints by how much the clock is behind the last sync. */
static void print_future(const lease *of, uint64_t now_ms) {
    printf("  lease: the last sync is ");
    print_duration(of->last_sync_ms - now_ms);
    printf(" ahead of the clock, and ");
    print_duration(of->skew_ms);
    printf(" are allowed; check the clock\n");
}

/* Prints what a lease says to the decision. */
static void print_of(const lease *of, cap_decision decision, uint64_t now_ms) {
    switch (decision.answer) {
    case CAP_DONE: print_active(decision); break;
    case CAP_LEASE_FUTURE: print_future(of, now_ms); break;
    case CAP_LEASE_STALE: print_stale(of, decision); break;
    case CAP_LEASE_EXPIRED: print_expired(of, now_ms); break;
    case CAP_LEASE_REVOKED: printf("  lease: revoked\n"); break;
    default: break;
    }
}

/* Prints a line on the lease of the id. */
void print_lease(const lease_table *leases, const uint8_t *id, cap_decision decision, uint64_t now_ms) {
    lease of;
    if (leases_find(leases, id, &of)) {
        print_of(&of, decision, now_ms);
    } else if (leases->given && decision.answer == CAP_DONE) {
        printf("  lease: none\n");
    }
}
