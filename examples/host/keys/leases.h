/* The host's lease table, from a lease file.
 *
 * A lease file is text with one line a lease, its fields parted by blanks:
 *
 *     ID STATUS LAST-SYNC TTL GRACE SKEW TOLERANCE
 *
 * ID is a descriptor id, a UUID text. STATUS is live or revoked. LAST-SYNC is the moment of the last sync, in milliseconds since 1970. TTL and
 * GRACE are seconds; SKEW and TOLERANCE are milliseconds. Lines of blanks only and lines that begin with # are passed over. Which numbers are
 * allowed, and that no id has two lines, is for the gate to check.
 */
#ifndef HOST_LEASES_H
#define HOST_LEASES_H

#include <stdbool.h>
#include <stdint.h>

#include "rows.h"

/* The table as the gate takes it: rows of CAP_LEASE_ROW bytes, in ascending order of their ids, in which the gate checks them fastest. `given` says
 * whether there is a lease file, be it without a lease. */
typedef struct lease_table {
    bool given;
    row_bytes rows;
} lease_table;

/* The numbers of a lease. */
typedef struct lease {
    bool revoked;
    uint64_t last_sync_ms;
    uint64_t ttl;
    uint64_t grace;
    uint64_t skew_ms;
    uint64_t tolerance_ms;
} lease;

/* Reads a lease file, or makes an empty table where the path is null; answers false, and has told why, where it cannot. */
bool leases_read(const char *path, lease_table *table);

/* Frees the table. */
void leases_free(lease_table *table);

/* Finds the lease of a descriptor id; answers false where the table has none. */
bool leases_find(const lease_table *table, const uint8_t *id, lease *found);

#endif
