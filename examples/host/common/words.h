/* The gate's numbers in words: answers with their names, meanings and steps, modes, times, ids and texts. */
#ifndef HOST_WORDS_H
#define HOST_WORDS_H

#include <stddef.h>
#include <stdint.h>

/* How many modes there are. */
enum { MODE_COUNT = 4 };

/* The call that an answer came from; the same answer stands for other steps in other calls. */
enum asked_call { ASKED_NEW_IMAGE, ASKED_UPGRADE, ASKED_READING, ASKED_SUBMISSION, ASKED_REQUEST, ASKED_NARROWING };

/* The name of a mode, or "unknown mode". */
const char *mode_name(uint64_t mode);

/* The name of a signature algorithm, or "unknown algorithm". */
const char *algorithm_name(uint64_t algorithm);

/* The published name of an answer. */
const char *answer_name(uint64_t answer);

/* Prints a refusal with its name, its number, the step of the call that it stands for, and what it says. */
void print_refusal(enum asked_call call, uint64_t answer);

/* Prints the names of the modes in a mask. */
void print_modes(uint64_t mask);

/* Prints a moment in seconds, and as a date where it has one of four digits. */
void print_moment(uint64_t seconds);

/* Prints a moment in milliseconds, as seconds with three digits more, and as a date where it has one of four digits. */
void print_moment_ms(uint64_t milliseconds);

/* Prints a length of time, from its largest unit that isn't 0 on: days, hours, minutes, and seconds with three digits more. */
void print_duration(uint64_t milliseconds);

/* Prints 16 bytes as a UUID text. */
void print_id(const uint8_t *id);

/* Prints a text between quotes; every byte that isn't printable ASCII, and every quote and backslash, as \xNN. */
void print_text(const uint8_t *text, size_t len);

/* Prints a line of its own, two blanks in, with a label and a moment. */
void print_labelled_moment(const char *label, uint64_t seconds);

/* Prints a line of its own, two blanks in, with a label and a moment in milliseconds. */
void print_labelled_moment_ms(const char *label, uint64_t milliseconds);

/* Prints a line of its own, two blanks in, with a label and a text. */
void print_labelled_text(const char *label, const uint8_t *text, size_t len);

#endif
