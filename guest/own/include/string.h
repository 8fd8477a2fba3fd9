/* Bytes and texts in memory. POSIX.1-2017: <string.h>, of which there is what stands here. No calls, no errors. */
#ifndef STRING_H
#define STRING_H

#include <stddef.h>

#ifdef __cplusplus
extern "C" {
#endif

/* Copies `length` bytes from `from` to `to`, which do not overlap, and returns `to`. POSIX.1-2017: memcpy. */
void *memcpy(void *__restrict to, const void *__restrict from, size_t length);

/* Copies `length` bytes from `from` to `to`, which may overlap, and returns `to`. POSIX.1-2017: memmove. */
void *memmove(void *to, const void *from, size_t length);

/* Sets `length` bytes at `to` to the low 8 bits of `byte`, and returns `to`. POSIX.1-2017: memset. */
void *memset(void *to, int byte, size_t length);

/* Compares `length` bytes: 0 where all are equal, else below or above 0 as the first that differs is less or greater at
 * `left`. POSIX.1-2017: memcmp. */
int memcmp(const void *left, const void *right, size_t length);

/* Returns where the first byte that is the low 8 bits of `byte` stands among `length`; NULL where none does.
 * POSIX.1-2017: memchr. */
void *memchr(const void *bytes, int byte, size_t length);

/* How many bytes stand at `text` before the first 0. POSIX.1-2017: strlen. */
size_t strlen(const char *text);

/* Compares two texts, as memcmp does, with the 0 behind each. POSIX.1-2017: strcmp. */
int strcmp(const char *left, const char *right);

/* As strcmp, of the first `length` bytes at most. POSIX.1-2017: strncmp. */
int strncmp(const char *left, const char *right, size_t length);

/* Copies a text with the 0 behind it to `to`, which does not overlap it, and returns `to`. POSIX.1-2017: strcpy. */
char *strcpy(char *__restrict to, const char *__restrict from);

/* Writes `length` bytes at `to`: those of a text, then zeros; no 0 stands behind a text that is as long or longer.
 * Returns `to`. POSIX.1-2017: strncpy. */
char *strncpy(char *__restrict to, const char *__restrict from, size_t length);

/* Returns where a byte stands first in a text, the 0 behind it being of the text; NULL where it does not.
 * POSIX.1-2017: strchr. */
char *strchr(const char *text, int byte);

/* As strchr, where it stands last. POSIX.1-2017: strrchr. */
char *strrchr(const char *text, int byte);

#ifdef __cplusplus
}
#endif

#endif
