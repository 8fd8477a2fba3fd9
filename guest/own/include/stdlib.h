/* Memory, sorting and the end of the program. POSIX.1-2017: <stdlib.h>, of which there is what stands here. */
#ifndef STDLIB_H
#define STDLIB_H

#include <stddef.h>

#ifdef __cplusplus
extern "C" {
#endif

#define EXIT_SUCCESS 0
#define EXIT_FAILURE 1

/* Calls what atexit was given, the last first, then destructors, and halts the partition as `exit N`, N being the low 8
 * bits of `status`. No cleanup handler and no destructor of a key is called. Does not return. Call 0.
 * POSIX.1-2017: exit. */
void exit(int status) __attribute__((__noreturn__));

/* Has `routine` called by exit, and returns 0. There is room for 32; -1 where it is used up.
 * POSIX.1-2017: atexit. */
int atexit(void (*routine)(void));

/* Halts the partition as `fault break`: the profile has no signals. Does not return. EBREAK.
 * POSIX.1-2017: abort. */
void abort(void) __attribute__((__noreturn__));

/* Returns the address of `size` bytes of the heap, a multiple of 16. The heap is an array in the program's bss:
 * `--heap` of guest/build says its size, else 16384 bytes. 16 bytes go for each piece besides. The calls of malloc,
 * calloc, realloc and free lock a mutex of the partition's pool, of protocol INHERIT, which is set up before main;
 * where the pool is full there, several threads must not call them at a time. They are no cancellation points.
 * Errors (NULL, errno): ENOMEM there is no piece of that size. POSIX.1-2017: malloc. */
void *malloc(size_t size);

/* As malloc of `count` times `size` bytes, all 0.
 * Errors (NULL, errno): ENOMEM; also where the product is no size. POSIX.1-2017: calloc. */
void *calloc(size_t count, size_t size);

/* Makes a piece from malloc, calloc or realloc have `size` bytes, perhaps at another address, which it returns; of its
 * bytes the first stay, as many as both sizes have. NULL for `old` is malloc. A size of 0 frees it and returns NULL.
 * Errors (NULL, errno): ENOMEM; the old piece stays. POSIX.1-2017: realloc. */
void *realloc(void *old, size_t size);

/* Gives a piece back; NULL is none. An address that is none ends in abort. POSIX.1-2017: free. */
void free(void *piece);

/* Puts `count` elements of `size` bytes in an order in which `compare` returns no number above 0 for neighbours. Equal
 * elements come in any order. It takes some n log n comparisons whatever stands there, and no stack that grows with n.
 * POSIX.1-2017: qsort. */
void qsort(void *elements, size_t count, size_t size, int (*compare)(const void *, const void *));

#ifdef __cplusplus
}
#endif

#endif
