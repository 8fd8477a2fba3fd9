/* The console as stdin, stdout and stderr, byte by byte, without a buffer. */
#include <console.h>
#include <errno.h>
#include <stdio.h>

enum { END_OF_INPUT = 4 }; /* ASCII EOT, as terminals have it: the console's input has no end of its own */

static int put(char byte, FILE *stream)
{
    (void)stream;
    int error = console_put(byte);
    if (error != 0) {
        errno = error;
        return _FDEV_ERR;
    }
    return 0;
}

/* A cancellation point, as POSIX has it for reading. */
static int get(FILE *stream)
{
    (void)stream;
    unsigned char byte = 0;
    console_get(&byte);
    return byte == END_OF_INPUT ? _FDEV_EOF : byte;
}

static FILE input = FDEV_SETUP_STREAM(NULL, get, NULL, _FDEV_SETUP_READ);
static FILE output = FDEV_SETUP_STREAM(put, NULL, NULL, _FDEV_SETUP_WRITE);
static FILE errors = FDEV_SETUP_STREAM(put, NULL, NULL, _FDEV_SETUP_WRITE);

FILE *const stdin = &input;
FILE *const stdout = &output;
FILE *const stderr = &errors;
