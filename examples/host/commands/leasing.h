/* What the lease of a descriptor says to a decision, in words. */
#ifndef HOST_LEASING_H
#define HOST_LEASING_H

#include <stdint.h>

#include "cap.h"
#include "leases.h"

/* Prints a line on the lease of the id, for a decision that the gate has made at the clock: for how long it is active yet, or why it is refused. Where
 * the id has no lease it says so. Where another step has refused the request, or no lease file is given, it prints nothing. */
void print_lease(const lease_table *leases, const uint8_t *id, cap_decision decision, uint64_t now_ms);

#endif
