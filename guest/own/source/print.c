/* Formats on the console. */
#include <stdio.h>

#include "text.h"

int vprintf(const char *restrict format, va_list arguments)
{
    struct text text;
    begin_text(&text);
    put_format(&text.sink, format, &arguments);
    return end_text(&text);
}

int printf(const char *restrict format, ...)
{
    va_list arguments;
    va_start(arguments, format);
    int length = vprintf(format, arguments);
    va_end(arguments);
    return length;
}
