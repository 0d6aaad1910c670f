/* Rows of bytes, back to back, as the gate takes a list or a table, from a text file with a line for each row. */
#ifndef HOST_ROWS_H
#define HOST_ROWS_H

#include <stdbool.h>
#include <stddef.h>
#include <stdint.h>

/* The rows. `bytes` is never null after a successful read. */
typedef struct row_bytes {
    uint8_t *bytes;
    size_t len;
} row_bytes;

/* Makes a row from the fields of a line; answers what is wrong, or null. */
typedef const char *row_maker(char *const fields[], size_t count, uint8_t *row);

/* What is told where they cannot be kept, the length of a row, the most fields of a line, at most ROW_FIELDS, and how a line becomes a row. */
enum { ROW_FIELDS = 7 };
typedef struct row_form {
    const char *failure;
    size_t row_len;
    size_t fields;
    row_maker *make;
} row_form;

/* Reads the rows of a file, or makes none where the path is null; answers false, and has told why, where it cannot. */
bool rows_read(const char *path, const row_form *form, row_bytes *rows);

/* Frees the rows. */
void rows_free(row_bytes *rows);

#endif
