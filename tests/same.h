/* Comparing what was answered with what is expected, for the test of the calls. */
#ifndef TESTS_SAME_H
#define TESTS_SAME_H

#include <stdint.h>
#include <stdio.h>

static const char *what = "";
static unsigned compared, different;

static void same(const char *field, uint64_t found, uint64_t expected) {
    compared++;
    if (found != expected) {
        different++;
        printf("%s: %s is %llu, expected %llu\n", what, field, (unsigned long long)found, (unsigned long long)expected);
    }
}

#define SAME(answer, field, expected) same(#field, (answer).field, expected)

static void same_margin(int64_t found, int64_t expected) {
    compared++;
    if (found != expected) {
        different++;
        printf("%s: margin is %lld, expected %lld\n", what, (long long)found, (long long)expected);
    }
}

#endif
