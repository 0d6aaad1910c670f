/* Numbers in network byte order, and the unit of times. */
#ifndef HOST_NUMBERS_H
#define HOST_NUMBERS_H

#include <stdint.h>

/* The length of a number in a row of the revocation list and of the lease table. */
enum { NUMBER_LEN = 8 };

/* How many milliseconds a second has. A name that ends in _ms has milliseconds, all other times are seconds. */
enum { SECOND_MS = 1000 };

/* Writes a number, big-endian. */
void put_number(uint8_t bytes[NUMBER_LEN], uint64_t number);

/* Reads a number, big-endian. */
uint64_t get_number(const uint8_t bytes[NUMBER_LEN]);

#endif
