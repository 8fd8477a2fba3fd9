/* Jumps out of functions. POSIX.1-2017: <setjmp.h>, without signals' masks. */
#ifndef SETJMP_H
#define SETJMP_H

#ifdef __cplusplus
extern "C" {
#endif

/* The registers that a function leaves as they are: ra, sp, s0 to s11. */
typedef unsigned int jmp_buf[14];

/* Keeps the caller's place, and returns 0; a longjmp to it returns another value from there. No call.
 * POSIX.1-2017: setjmp. */
int setjmp(jmp_buf here) __attribute__((__returns_twice__));
#define setjmp(here) setjmp(here)

/* Goes on at the place that setjmp kept, which returns `value`, or 1 where that is 0. The function that called setjmp
 * must not have returned, and the caller must be the same thread. No call. POSIX.1-2017: longjmp. */
void longjmp(jmp_buf there, int value) __attribute__((__noreturn__));

#ifdef __cplusplus
}
#endif

#endif
