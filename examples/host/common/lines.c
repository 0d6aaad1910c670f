/* Text files that have one entry a line. */
#define _POSIX_C_SOURCE 200809L

#include "lines.h"

#include <stdio.h>
#include <string.h>

#include "files.h"

/* Tells what is wrong with a line of a file. */
static void tell_line_error(const char *path, unsigned long number, const char *wrong) {
    fprintf(stderr, "error: %s: line %lu: %s\n", path, number, wrong);
}

/* Makes the file's bytes a text that ends with a zero, which read files have room for; answers false where a zero is inside. */
static bool end_text(const char *path, file_bytes *file) {
    if (memchr(file->bytes, '\0', file->len) != NULL) {
        tell_error("cannot read", path, "the file isn't text");
        return false;
    }
    file->bytes[file->len] = '\0';
    return true;
}

/* Cuts the line off that the text begins with, in place, and answers what follows it, or null after the last line. */
static char *cut_line(char *text) {
    char *end = strchr(text, '\n');
    if (end != NULL) {
        *end = '\0';
    }
    size_t len = strlen(text);
    if (len > 0 && text[len - 1] == '\r') {
        text[len - 1] = '\0';
    }
    return end == NULL ? NULL : end + 1;
}

/* Says whether a line has nothing for the taker: only blanks, or a # first. */
static bool is_passed_over(const char *line) {
    return line[strspn(line, " \t")] == '\0' || *line == '#';
}

/* Hands each line of a text to the taker. */
static bool take_lines(const char *path, char *text, line_taker *take, void *taker) {
    unsigned long number = 0;
    while (text != NULL) {
        char *line = text;
        text = cut_line(line);
        number++;
        if (is_passed_over(line)) {
            continue;
        }
        const char *wrong = take(taker, path, line);
        if (wrong != NULL) {
            tell_line_error(path, number, wrong);
            return false;
        }
    }
    return true;
}

/* Hands each line of a file to the taker. */
bool lines_read(const char *path, line_taker *take, void *taker) {
    file_bytes file;
    if (!file_read(path, &file)) {
        return false;
    }
    bool taken = end_text(path, &file) && take_lines(path, (char *)file.bytes, take, taker);
    file_free(&file);
    return taken;
}

/* Cuts a line into its fields. */
size_t cut_fields(char *line, char *fields[], size_t most) {
    size_t count = 0;
    char *rest = NULL;
    for (char *field = strtok_r(line, " \t", &rest); field != NULL; field = strtok_r(NULL, " \t", &rest)) {
        if (count == most) {
            return most + 1;
        }
        fields[count++] = field;
    }
    return count;
}
