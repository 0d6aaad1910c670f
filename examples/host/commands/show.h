/* A grant in words. */
#ifndef HOST_SHOW_H
#define HOST_SHOW_H

#include <stddef.h>
#include <stdint.h>

/* Prints the pattern and the modes of the descriptor's grant with the index, each on a line of its own; nothing past the last grant. */
void show_grant(const uint8_t *descriptor, size_t len, uint64_t index);

#endif
