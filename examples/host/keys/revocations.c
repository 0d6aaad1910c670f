/* The host's revocation list, from a revocation file. */
#include "revocations.h"

#include "arguments.h"
#include "numbers.h"

/* The most fields of a line, and the length of a row: a descriptor id and a moment. */
enum { FIELDS_MAX = 2, ROW_LEN = ID_LEN + NUMBER_LEN };

/* Makes a row from the fields of a line; answers what is wrong, or null. */
static const char *row_from_fields(char *const fields[], size_t count, uint8_t *row) {
    uint64_t moment = 0;
    if (count > FIELDS_MAX) {
        return "a revocation has 1 or 2 fields";
    }
    if (!parse_id(fields[0], row)) {
        return "the descriptor id isn't a UUID text";
    }
    if (count == FIELDS_MAX && !parse_number(fields[1], &moment)) {
        return "the moment isn't a number of seconds";
    }
    put_number(row + ID_LEN, moment);
    return NULL;
}

/* Reads a revocation file, or makes an empty list. */
bool revocations_read(const char *path, revocation_list *list) {
    static const row_form form = {"cannot keep the revocation list", ROW_LEN, FIELDS_MAX, row_from_fields};
    return rows_read(path, &form, list);
}

/* Frees the list. */
void revocations_free(revocation_list *list) {
    rows_free(list);
}
