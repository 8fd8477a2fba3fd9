/* The kernel's calls, as docs/GUEST_ABI.md numbers them: of the library alone. */
#ifndef CALL_H
#define CALL_H

#include "numbers.h"

enum call_number {
    CALL_EXIT = 0,
    CALL_CONSOLE_PUT = 1,
    CALL_CONSOLE_GET = 2,
    CALL_CLOCK_GETTIME = 3,
    CALL_CLOCK_NANOSLEEP = 4,
    CALL_CREATE = 10,
    CALL_PTHREAD_EXIT = 11,
    CALL_JOIN = 12,
    CALL_DETACH = 13,
    CALL_SELF = 14,
    CALL_YIELD = 15,
    CALL_SETSCHEDPARAM = 16,
    CALL_GETSCHEDPARAM = 17,
    CALL_SETSCHEDPRIO = 18,
    CALL_MUTEX_INIT = 20,
    CALL_MUTEX_DESTROY = 21,
    CALL_MUTEX_LOCK = 22,
    CALL_MUTEX_TRYLOCK = 23,
    CALL_MUTEX_TIMEDLOCK = 24,
    CALL_MUTEX_UNLOCK = 25,
    CALL_MUTEX_CONSISTENT = 26,
    CALL_COND_INIT = 30,
    CALL_COND_DESTROY = 31,
    CALL_COND_WAIT = 32,
    CALL_COND_TIMEDWAIT = 33,
    CALL_COND_SIGNAL = 34,
    CALL_COND_BROADCAST = 35,
    CALL_CANCEL = 40,
    CALL_SETCANCELSTATE = 41,
    CALL_SETCANCELTYPE = 42,
    CALL_TESTCANCEL = 43,
    CALL_CLEANUP_PUSH = 44,
    CALL_CLEANUP_POP = 45,
    CALL_KEY_CREATE = 50,
    CALL_KEY_DELETE = 51,
    CALL_SETSPECIFIC = 52,
    CALL_GETSPECIFIC = 53,
};

/* What a call returns. */
struct reply {
    int error;           /* 0, or the number of an error, as <errno.h> of the library at hand has it */
    unsigned int first;  /* the values, where there is no error; else as they were */
    unsigned int second;
};

/* Makes a call with the arguments a0 to a3. Those that it does not name are ignored. */
static inline struct reply call(enum call_number number, unsigned int a0, unsigned int a1, unsigned int a2,
                                unsigned int a3)
{
    register unsigned int in_a0 __asm__("a0") = a0;
    register unsigned int in_a1 __asm__("a1") = a1;
    register unsigned int in_a2 __asm__("a2") = a2;
    register unsigned int in_a3 __asm__("a3") = a3;
    register unsigned int in_a7 __asm__("a7") = number;
    __asm__ volatile("ecall" : "+r"(in_a0), "+r"(in_a1), "+r"(in_a2) : "r"(in_a3), "r"(in_a7) : "memory");
    return (struct reply){in_a0 == 0 ? 0 : error_number(in_a0), in_a1, in_a2};
}

/* Makes a call that names no argument but a0. */
static inline struct reply call_with(enum call_number number, unsigned int a0)
{
    register unsigned int in_a0 __asm__("a0") = a0;
    register unsigned int out_a1 __asm__("a1");
    register unsigned int out_a2 __asm__("a2");
    register unsigned int in_a7 __asm__("a7") = number;
    __asm__ volatile("ecall" : "+r"(in_a0), "=r"(out_a1), "=r"(out_a2) : "r"(in_a7) : "memory");
    return (struct reply){in_a0 == 0 ? 0 : error_number(in_a0), out_a1, out_a2};
}

#endif
