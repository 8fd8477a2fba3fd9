/* Texts in memory. */
#include <string.h>

void *memchr(const void *bytes, int byte, size_t length)
{
    const unsigned char *at = bytes;
    for (size_t i = 0; i < length; i++) {
        if (at[i] == (unsigned char)byte) {
            return (void *)(at + i);
        }
    }
    return NULL;
}

size_t strlen(const char *text)
{
    size_t length = 0;
    while (text[length] != 0) {
        length++;
    }
    return length;
}

int strcmp(const char *left, const char *right)
{
    while (*left != 0 && *left == *right) {
        left++;
        right++;
    }
    return (unsigned char)*left - (unsigned char)*right;
}

int strncmp(const char *left, const char *right, size_t length)
{
    for (; length > 0; length--) {
        if (*left == 0 || *left != *right) {
            return (unsigned char)*left - (unsigned char)*right;
        }
        left++;
        right++;
    }
    return 0;
}

char *strcpy(char *restrict to, const char *restrict from)
{
    size_t i = 0;
    do {
        to[i] = from[i];
        i++;
    } while (from[i - 1] != 0);
    return to;
}

char *strncpy(char *restrict to, const char *restrict from, size_t length)
{
    size_t i = 0;
    for (; i < length && from[i] != 0; i++) {
        to[i] = from[i];
    }
    for (; i < length; i++) {
        to[i] = 0;
    }
    return to;
}

char *strchr(const char *text, int byte)
{
    for (;; text++) {
        if (*text == (char)byte) {
            return (char *)text;
        }
        if (*text == 0) {
            return NULL;
        }
    }
}

char *strrchr(const char *text, int byte)
{
    const char *last = NULL;
    for (;; text++) {
        if (*text == (char)byte) {
            last = text;
        }
        if (*text == 0) {
            return (char *)last;
        }
    }
}
