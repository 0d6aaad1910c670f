/* Text files that have one entry a line: key files, revocation files and lease files. */
#ifndef HOST_LINES_H
#define HOST_LINES_H

#include <stdbool.h>
#include <stddef.h>

/* Takes one line, which it may change, of the file with the path; answers what is wrong with it, or null. */
typedef const char *line_taker(void *taker, const char *path, char *line);

/* Hands each line to the taker, but for those of blanks only and those that begin with #; answers false at the first that is wrong, and has
 * told the file, the line and what is wrong. */
bool lines_read(const char *path, line_taker *take, void *taker);

/* Cuts a line into its fields, which blanks part, in place; answers how many there are, or one more than `most` where there are more. */
size_t cut_fields(char *line, char *fields[], size_t most);

#endif
