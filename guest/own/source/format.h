/* The text of a format: of the library alone. */
#ifndef FORMAT_H
#define FORMAT_H

#include <stdarg.h>

/* Where a text goes, byte by byte. What it goes into begins with this. */
struct sink {
    void (*put)(struct sink *sink, int byte);
};

/* Puts the text of a format and its arguments, as printf of <stdio.h> has it, into a sink. */
void put_format(struct sink *sink, const char *format, va_list *arguments);

#endif
