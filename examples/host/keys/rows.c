/* Rows of bytes from a text file. */
#include "rows.h"

#include <stdlib.h>

#include "files.h"
#include "lines.h"

/* Where the lines of a file go. */
typedef struct row_taker {
    const row_form *form;
    row_bytes *rows;
} row_taker;

/* Takes one line; answers what is wrong, or null. */
static const char *take_line(void *taker, const char *path, char *line) {
    const row_taker *to = taker;
    char *fields[ROW_FIELDS];
    (void)path;
    uint8_t *longer = realloc(to->rows->bytes, to->rows->len + to->form->row_len);
    if (longer == NULL) {
        return "no memory";
    }
    to->rows->bytes = longer;
    const char *wrong = to->form->make(fields, cut_fields(line, fields, to->form->fields), longer + to->rows->len);
    if (wrong == NULL) {
        to->rows->len += to->form->row_len;
    }
    return wrong;
}

/* Reads the rows of a file, or makes none. */
bool rows_read(const char *path, const row_form *form, row_bytes *rows) {
    row_taker taker = {form, rows};
    rows->len = 0;
    rows->bytes = malloc(form->row_len);
    if (rows->bytes == NULL) {
        tell_error(form->failure, path == NULL ? "an empty one" : path, "no memory");
        return false;
    }
    if (path != NULL && !lines_read(path, take_line, &taker)) {
        rows_free(rows);
        return false;
    }
    return true;
}

/* Frees the rows. */
void rows_free(row_bytes *rows) {
    free(rows->bytes);
    rows->bytes = NULL;
    rows->len = 0;
}
