/* Text on the console, save formats. */
#include "text.h"

#include <console.h>
#include <errno.h>
#include <pthread.h>
#include <stdio.h>

static pthread_mutex_t console = PTHREAD_MUTEX_INITIALIZER;

void begin_text(struct text *text)
{
    *text = (struct text){.sink = {put_byte}};
    pthread_setcancelstate(PTHREAD_CANCEL_DISABLE, &text->cancel_state);
    pthread_mutex_lock(&console); /* ENOMEM where the partition's pool is full: it goes on without */
}

int end_text(const struct text *text)
{
    pthread_mutex_unlock(&console);
    pthread_setcancelstate(text->cancel_state, NULL);
    if (text->error != 0) {
        errno = text->error;
        return -1;
    }
    return text->length;
}

void put_byte(struct sink *sink, int byte)
{
    struct text *text = (struct text *)sink;
    if (text->error == 0) {
        text->error = console_put(byte);
        text->length += text->error == 0;
    }
}

int putchar(int character)
{
    struct text text;
    begin_text(&text);
    put_byte(&text.sink, character);
    return end_text(&text) < 0 ? EOF : (unsigned char)character;
}

int puts(const char *string)
{
    struct text text;
    begin_text(&text);
    for (; *string != 0; string++) {
        put_byte(&text.sink, *string);
    }
    put_byte(&text.sink, '\n');
    return end_text(&text) < 0 ? EOF : 0;
}

int getchar(void)
{
    unsigned char byte = 0;
    console_get(&byte);
    return byte;
}
