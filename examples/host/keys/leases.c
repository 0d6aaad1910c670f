/* The host's lease table, from a lease file. */
#include "leases.h"

#include <stdlib.h>
#include <string.h>

#include "arguments.h"
#include "cap.h"
#include "numbers.h"

/* How many fields a line has, how many of them are numbers, and where a row has its flag and its numbers. */
enum { FIELDS = 7, NUMBERS = 5, FLAG_AT = ID_LEN, NUMBERS_AT = ID_LEN + 8 };

/* Reads a status by its name. */
static bool parse_status(const char *text, uint8_t *revoked) {
    *revoked = strcmp(text, "revoked") == 0;
    return *revoked || strcmp(text, "live") == 0;
}

/* Makes a row from the fields of a line; answers what is wrong, or null. */
static const char *row_from_fields(char *const fields[], size_t count, uint8_t *row) {
    static const char *const wrong[NUMBERS] = {
        "the last sync isn't a number of milliseconds",
        "the ttl isn't a number of seconds",
        "the grace isn't a number of seconds",
        "the skew isn't a number of milliseconds",
        "the tolerance isn't a number of milliseconds",
    };
    memset(row, 0, CAP_LEASE_ROW);
    if (count != FIELDS) {
        return "a lease has 7 fields";
    }
    if (!parse_id(fields[0], row)) {
        return "the descriptor id isn't a UUID text";
    }
    if (!parse_status(fields[1], &row[FLAG_AT])) {
        return "the status is neither live nor revoked";
    }
    for (size_t place = 0; place < NUMBERS; place++) {
        uint64_t number;
        if (!parse_number(fields[2 + place], &number)) {
            return wrong[place];
        }
        put_number(row + NUMBERS_AT + NUMBER_LEN * place, number);
    }
    return NULL;
}

/* Compares two rows by their ids. */
static int compare_ids(const void *one, const void *other) {
    return memcmp(one, other, ID_LEN);
}

/* Reads a lease file, or makes an empty table. */
bool leases_read(const char *path, lease_table *table) {
    static const row_form form = {"cannot keep the lease table", CAP_LEASE_ROW, FIELDS, row_from_fields};
    table->given = path != NULL;
    if (!rows_read(path, &form, &table->rows)) {
        return false;
    }
    qsort(table->rows.bytes, table->rows.len / CAP_LEASE_ROW, CAP_LEASE_ROW, compare_ids);
    return true;
}

/* Frees the table. */
void leases_free(lease_table *table) {
    rows_free(&table->rows);
}

/* Finds the lease of a descriptor id. */
bool leases_find(const lease_table *table, const uint8_t *id, lease *found) {
    const uint8_t *row = bsearch(id, table->rows.bytes, table->rows.len / CAP_LEASE_ROW, CAP_LEASE_ROW, compare_ids);
    if (row == NULL) {
        return false;
    }
    const uint8_t *numbers = row + NUMBERS_AT;
    found->revoked = row[FLAG_AT] != 0;
    found->last_sync_ms = get_number(numbers);
    found->ttl = get_number(numbers + NUMBER_LEN);
    found->grace = get_number(numbers + 2 * NUMBER_LEN);
    found->skew_ms = get_number(numbers + 3 * NUMBER_LEN);
    found->tolerance_ms = get_number(numbers + 4 * NUMBER_LEN);
    return true;
}
