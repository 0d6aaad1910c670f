/* The host's revocation list, from a revocation file.
 *
 * A revocation file is text with one line a row, its fields parted by blanks:
 *
 *     ID [MOMENT]
 *
 * ID is a descriptor id, a UUID text. MOMENT is that from which on it is revoked, in seconds since 1970; without MOMENT it is revoked from the
 * start. An id may stand in several lines. Lines of blanks only and lines that begin with # are passed over.
 */
#ifndef HOST_REVOCATIONS_H
#define HOST_REVOCATIONS_H

#include <stdbool.h>

#include "rows.h"

/* The list as the gate takes it: rows of 24 bytes. */
typedef row_bytes revocation_list;

/* Reads a revocation file, or makes an empty list where the path is null; answers false, and has told why, where it cannot. */
bool revocations_read(const char *path, revocation_list *list);

/* Frees the list. */
void revocations_free(revocation_list *list);

#endif
