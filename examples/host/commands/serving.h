/* Which grants of a descriptor serve a request. */
#ifndef HOST_SERVING_H
#define HOST_SERVING_H

#include <stddef.h>
#include <stdint.h>

/* Prints why the gate names this grant of the descriptor for a request that it granted: how many levels of the resource id the grant's pattern
 * matches by equal names, how many grants serve, and whether others match as many. */
void print_why_named(const uint8_t *descriptor, size_t len, const char *resource, uint64_t mode, uint64_t named);

#endif
