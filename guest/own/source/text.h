/* A text on its way to the console: of the library alone. */
#ifndef TEXT_H
#define TEXT_H

#include "format.h"

/* From begin_text to end_text it has the console for itself. */
struct text {
    struct sink sink;
    int length;        /* how many bytes went out */
    int error;         /* that of the first byte refused, or 0 */
    int cancel_state;  /* the calling thread's before: it is DISABLE until the end, so that the mutex is unlocked */
};

void begin_text(struct text *text);

/* Returns how many bytes went out, or -1 with errno where one was refused. */
int end_text(const struct text *text);

/* Puts a byte, where none was refused before. */
void put_byte(struct sink *text, int byte);

#endif
