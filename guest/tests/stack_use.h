/* How much of its stack a thread uses. */
#ifndef STACK_USE_H
#define STACK_USE_H

#include <pthread.h>
#include <stddef.h>

#include "expect.h"

/* Runs a routine in a thread of its own, and returns how many bytes of its stack were written. */
static int stack_used_by(void *(*routine)(void *))
{
    static _Alignas(16) unsigned char stack[2048];
    const unsigned char untouched = 0xA5;
    pthread_attr_t attributes;
    pthread_t thread = 0;
    size_t left = 0;
    memset(stack, untouched, sizeof stack);
    pthread_attr_init(&attributes);
    pthread_attr_setstack(&attributes, stack, sizeof stack);
    expect("create", pthread_create(&thread, &attributes, routine, NULL), 0);
    pthread_join(thread, NULL);
    while (left < sizeof stack && stack[left] == untouched) {
        left++;
    }
    return (int)(sizeof stack - left);
}

/* A routine needs no more stack than the page says. */
static void expect_stack(const char *what, void *(*routine)(void *), int most)
{
    int used = stack_used_by(routine);
    if (used > most) {
        printf("%d bytes: ", used);
    }
    expect(what, used <= most, 1);
}

#endif
