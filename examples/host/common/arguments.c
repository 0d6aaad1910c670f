/* Texts to values: numbers, clocks, hex, descriptor ids and modes. */
#define _POSIX_C_SOURCE 200809L

#include "arguments.h"

#include <string.h>
#include <time.h>

#include "files.h"
#include "numbers.h"
#include "words.h"

/* Tells an argument that isn't of its form. */
bool tell_bad_argument(const char *name, const char *text) {
    tell_error("bad argument", name, text);
    return false;
}

/* How many digits the milliseconds of a second are written with. */
enum { MS_DIGITS = 3 };

/* Reads so many decimal digits as a number below 2^64. */
static bool parse_digits(const char *text, size_t len, uint64_t *number) {
    uint64_t value = 0;
    if (len == 0) {
        return false;
    }
    for (size_t place = 0; place < len; place++) {
        if (text[place] < '0' || text[place] > '9') {
            return false;
        }
        uint64_t digit = (uint64_t)(text[place] - '0');
        if (value > (UINT64_MAX - digit) / 10) {
            return false;
        }
        value = value * 10 + digit;
    }
    *number = value;
    return true;
}

/* Reads a whole number of decimal digits below 2^64. */
bool parse_number(const char *text, uint64_t *number) {
    return parse_digits(text, strlen(text), number);
}

/* Reads the system's clock in milliseconds. */
static bool system_clock_ms(uint64_t *milliseconds) {
    struct timespec moment;
    if (clock_gettime(CLOCK_REALTIME, &moment) != 0 || moment.tv_sec < 0) {
        return false;
    }
    *milliseconds = (uint64_t)moment.tv_sec * SECOND_MS + (uint64_t)moment.tv_nsec / 1000000;
    return true;
}

/* Reads a clock in seconds: seconds since 1970, or the word "now". */
bool parse_clock(const char *text, uint64_t *seconds) {
    if (strcmp(text, "now") != 0) {
        return parse_number(text, seconds);
    }
    uint64_t milliseconds;
    if (!system_clock_ms(&milliseconds)) {
        return false;
    }
    *seconds = milliseconds / SECOND_MS;
    return true;
}

/* Reads a clock in milliseconds: seconds since 1970, which a point and three digits may follow, or the word "now". */
bool parse_clock_ms(const char *text, uint64_t *milliseconds) {
    uint64_t seconds, rest = 0;
    if (strcmp(text, "now") == 0) {
        return system_clock_ms(milliseconds);
    }
    size_t len = strcspn(text, ".");
    if (!parse_digits(text, len, &seconds)) {
        return false;
    }
    if (text[len] == '.' && (strlen(text + len + 1) != MS_DIGITS || !parse_number(text + len + 1, &rest))) {
        return false;
    }
    if (seconds > (UINT64_MAX - rest) / SECOND_MS) {
        return false;
    }
    *milliseconds = seconds * SECOND_MS + rest;
    return true;
}

/* The value of a hex digit, or -1. */
static int hex_digit(char character) {
    if (character >= '0' && character <= '9') {
        return character - '0';
    }
    if (character >= 'a' && character <= 'f') {
        return character - 'a' + 10;
    }
    if (character >= 'A' && character <= 'F') {
        return character - 'A' + 10;
    }
    return -1;
}

/* Reads two hex digits as a byte. */
bool parse_hex_byte(const char *text, uint8_t *byte) {
    int high = hex_digit(text[0]);
    int low = high < 0 ? -1 : hex_digit(text[1]);
    if (low < 0) {
        return false;
    }
    *byte = (uint8_t)(high * 16 + low);
    return true;
}

/* Reads an even number of hex digits into at most `room` bytes. */
bool parse_hex(const char *text, uint8_t *bytes, size_t room, size_t *len) {
    size_t count = 0;
    for (; *text != '\0'; text += 2) {
        if (count == room || !parse_hex_byte(text, &bytes[count])) {
            return false;
        }
        count++;
    }
    *len = count;
    return true;
}

/* Says whether a UUID text has a hyphen at this place. */
static bool hyphen_at(size_t place) {
    return place == 8 || place == 13 || place == 18 || place == 23;
}

/* Reads a descriptor id, a UUID text of 36 characters. */
bool parse_id(const char *text, uint8_t id[ID_LEN]) {
    size_t count = 0;
    if (strlen(text) != ID_TEXT_LEN) {
        return false;
    }
    for (size_t place = 0; place < ID_TEXT_LEN;) {
        if (hyphen_at(place)) {
            if (text[place] != '-') {
                return false;
            }
            place++;
            continue;
        }
        if (!parse_hex_byte(text + place, &id[count])) {
            return false;
        }
        count++;
        place += 2;
    }
    return true;
}

/* Reads a mode by its name. */
bool parse_mode(const char *text, uint64_t *mode) {
    for (uint64_t number = 0; number < MODE_COUNT; number++) {
        if (strcmp(text, mode_name(number)) == 0) {
            *mode = number;
            return true;
        }
    }
    return false;
}
