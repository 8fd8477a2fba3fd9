/* The partition's console, byte by byte, as the kernel has it. POSIX has no such calls: they are this project's. */
#ifndef CONSOLE_H
#define CONSOLE_H

#ifdef __cplusplus
extern "C" {
#endif

/* Puts the low 8 bits of `byte` at the end of the output and returns 0. A cancellation point.
 * Errors: EAGAIN the output is full. Call 1. */
int console_put(int byte);

/* Takes the oldest byte of the input into *byte and returns 0; waits for one where there is none. A cancellation point.
 * Errors: none. Call 2. */
int console_get(unsigned char *byte);

#ifdef __cplusplus
}
#endif

#endif
