/* Formats in memory. */
#include <limits.h>
#include <stdio.h>

#include "format.h"

/* An array that a text goes into; what has no room is counted. */
struct array {
    struct sink sink;
    char *to;
    size_t room; /* bytes that are left, of them one for the 0 behind the text */
    int length;
};

static void put(struct sink *sink, int byte)
{
    struct array *array = (struct array *)sink;
    if (array->room > 1) {
        *array->to = (char)byte;
        array->to++;
        array->room--;
    }
    array->length++;
}

int vsnprintf(char *restrict to, size_t room, const char *restrict format, va_list arguments)
{
    struct array array = {{put}, to, room, 0};
    put_format(&array.sink, format, &arguments);
    if (room > 0) {
        *array.to = 0;
    }
    return array.length;
}

int vsprintf(char *restrict to, const char *restrict format, va_list arguments)
{
    return vsnprintf(to, INT_MAX, format, arguments);
}

int snprintf(char *restrict to, size_t room, const char *restrict format, ...)
{
    va_list arguments;
    va_start(arguments, format);
    int length = vsnprintf(to, room, format, arguments);
    va_end(arguments);
    return length;
}

int sprintf(char *restrict to, const char *restrict format, ...)
{
    va_list arguments;
    va_start(arguments, format);
    int length = vsprintf(to, format, arguments);
    va_end(arguments);
    return length;
}
