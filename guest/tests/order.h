/* In which order threads come by: each leaves its letter. */
#ifndef ORDER_H
#define ORDER_H

#include <pthread.h>

#include "expect.h"

static char letters[32];
static int letter_count = 0;

static void pass(char letter)
{
    letters[letter_count] = letter;
    letter_count++;
}

/* The letters since the last time are those expected. */
static void expect_order(const char *what, const char *expected)
{
    letters[letter_count] = 0;
    if (strlen(expected) != (size_t)letter_count || memcmp(letters, expected, (size_t)letter_count) != 0) {
        printf("%s\n", letters);
    }
    expect(what, memcmp(letters, expected, strlen(expected) + 1), 0);
    letter_count = 0;
}

#endif
