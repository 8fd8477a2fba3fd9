/* Text on the console and in memory. POSIX.1-2017: <stdio.h>, of which the profile has what stands here.
 *
 * A call's bytes stand together in the output, as if stdout were locked (flockfile): the functions lock one mutex of
 * the partition's pool, of default attributes, which is set up at their first use. Where the pool is full they go on
 * without it. They are no cancellation points, getchar aside; POSIX.1-2017 XSH 2.9.5 leaves both open. */
#ifndef STDIO_H
#define STDIO_H

#include <stdarg.h>
#include <stddef.h>

#ifdef __cplusplus
extern "C" {
#endif

#define EOF (-1)

/* Puts the low 8 bits of `character` on the console and returns them.
 * Errors (EOF, errno): EAGAIN the output is full. Calls 1, 22, 25, 41. POSIX.1-2017: putchar. */
int putchar(int character);

/* Puts `text` and a newline on the console and returns 0.
 * Errors (EOF, errno): EAGAIN the output is full; what went before stays. Calls 1, 22, 25, 41. POSIX.1-2017: puts. */
int puts(const char *text);

/* Puts `format` on the console, with the next argument in the place of each conversion, and returns how many bytes
 * went. A conversion is a percent sign, flags (- 0 # + and a space), a width, a full stop and a precision, a length and
 * a letter. Width and precision may be *, and are then the next argument. The lengths are l, z and t, each a word as an
 * int is, and h and hh, which do not cut an argument that is too great for them. The letters are d and i, u, x and X,
 * s, c, and p, which is %#x. %% is a percent sign. Another conversion, those of 64 bits and of floating point among
 * them, is put as it stands, and takes no argument.
 * Errors (-1, errno): EAGAIN the output is full; what went before stays. Calls 1, 22, 25, 41. POSIX.1-2017: printf. */
int printf(const char *__restrict format, ...) __attribute__((__format__(__printf__, 1, 2)));

/* As printf, with the arguments from a list. POSIX.1-2017: vprintf. */
int vprintf(const char *__restrict format, va_list arguments) __attribute__((__format__(__printf__, 1, 0)));

/* Puts the text of a format as printf has it into the array at `to`, as much as `room` bytes hold with a 0 behind it,
 * and returns how many bytes the whole text has, without the 0. Nothing is written where `room` is 0. No calls.
 * Errors: none. POSIX.1-2017: snprintf. */
int snprintf(char *__restrict to, size_t room, const char *__restrict format, ...)
    __attribute__((__format__(__printf__, 3, 4)));

/* As snprintf, with the arguments from a list. POSIX.1-2017: vsnprintf. */
int vsnprintf(char *__restrict to, size_t room, const char *__restrict format, va_list arguments)
    __attribute__((__format__(__printf__, 3, 0)));

/* As snprintf, with as much room as it takes. POSIX.1-2017: sprintf. */
int sprintf(char *__restrict to, const char *__restrict format, ...) __attribute__((__format__(__printf__, 2, 3)));

/* As sprintf, with the arguments from a list. POSIX.1-2017: vsprintf. */
int vsprintf(char *__restrict to, const char *__restrict format, va_list arguments)
    __attribute__((__format__(__printf__, 2, 0)));

/* Takes the oldest byte of the input, waits for one where there is none, and returns it, 0 to 255. The input has no
 * end, so EOF is never returned. A cancellation point. Errors: none. Call 2. POSIX.1-2017: getchar. */
int getchar(void);

#ifdef __cplusplus
}
#endif

#endif
