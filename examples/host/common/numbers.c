/* Numbers in network byte order. */
#include "numbers.h"

#include <stddef.h>

/* Writes a number, big-endian. */
void put_number(uint8_t bytes[NUMBER_LEN], uint64_t number) {
    for (size_t place = NUMBER_LEN; place > 0; place--) {
        bytes[place - 1] = (uint8_t)(number & 0xff);
        number >>= 8;
    }
}

/* Reads a number, big-endian. */
uint64_t get_number(const uint8_t bytes[NUMBER_LEN]) {
    uint64_t number = 0;
    for (size_t place = 0; place < NUMBER_LEN; place++) {
        number = number << 8 | bytes[place];
    }
    return number;
}
