/* Texts to values: numbers, clocks, hex, descriptor ids and modes, as arguments and the host's text files spell them.
 *
 * Each parse function answers false, and tells nothing, where the text isn't a spelling of such a value.
 */
#ifndef HOST_ARGUMENTS_H
#define HOST_ARGUMENTS_H

#include <stdbool.h>
#include <stddef.h>
#include <stdint.h>

/* The length of a descriptor id, of the UUID text that spells it, of a fay id and of a terminal id. */
enum { ID_LEN = 16, ID_TEXT_LEN = 36, FAY_LEN = 40, TERMINAL_LEN = 45 };

/* Tells an argument that isn't of its form, and answers false. */
bool tell_bad_argument(const char *name, const char *text);

/* Reads a whole number of decimal digits below 2^64. */
bool parse_number(const char *text, uint64_t *number);

/* Reads a clock in seconds: seconds since 1970, or the word "now" for the system's clock. */
bool parse_clock(const char *text, uint64_t *seconds);

/* Reads a clock in milliseconds: seconds since 1970, which a point and three digits of milliseconds may follow, or the word "now" for the system's
 * clock. */
bool parse_clock_ms(const char *text, uint64_t *milliseconds);

/* Reads an even number of hex digits into at most `room` bytes. */
bool parse_hex(const char *text, uint8_t *bytes, size_t room, size_t *len);

/* Reads a descriptor id, a UUID text of 36 characters. */
bool parse_id(const char *text, uint8_t id[ID_LEN]);

/* Reads a mode by its name. */
bool parse_mode(const char *text, uint64_t *mode);

/* Reads two hex digits as a byte. */
bool parse_hex_byte(const char *text, uint8_t *byte);

#endif
