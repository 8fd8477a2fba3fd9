/* What a call puts on the console stands together: guest/build has the linker call these where a program, or picolibc
 * itself, calls the functions of those names (--wrap), which put byte by byte. They are no cancellation points. */
#include "../../source/locks.h"

#include <stdarg.h>
#include <stdio.h>

static pthread_mutex_t lock; /* of stdout and stderr, which are one console */

static void set_up(void)
{
    set_up_lock(&lock);
}

CALL_BEFORE_MAIN(set_up);

/* Whether a call must be whole: other streams are arrays of snprintf's. */
static int is_console(const FILE *stream)
{
    return stream == stdout || stream == stderr;
}

/* Begins a call, and returns the caller's cancellation state: it is DISABLE until the end, so that the lock is left. */
static int begin(void)
{
    int state = PTHREAD_CANCEL_ENABLE;
    pthread_setcancelstate(PTHREAD_CANCEL_DISABLE, &state);
    pthread_mutex_lock(&lock);
    return state;
}

static void end(int state)
{
    pthread_mutex_unlock(&lock);
    pthread_setcancelstate(state, NULL);
}

int __real_vfprintf(FILE *stream, const char *format, va_list arguments);
int __real_puts(const char *text);
int __real_fputs(const char *text, FILE *stream);
int __real_fputc(int byte, FILE *stream);
size_t __real_fwrite(const void *from, size_t size, size_t count, FILE *stream);

int __wrap_vfprintf(FILE *stream, const char *format, va_list arguments);
int __wrap_puts(const char *text);
int __wrap_fputs(const char *text, FILE *stream);
int __wrap_fputc(int byte, FILE *stream);
int __wrap_putc(int byte, FILE *stream);
size_t __wrap_fwrite(const void *from, size_t size, size_t count, FILE *stream);

int __wrap_vfprintf(FILE *stream, const char *format, va_list arguments)
{
    if (!is_console(stream)) {
        return __real_vfprintf(stream, format, arguments);
    }
    int state = begin();
    int length = __real_vfprintf(stream, format, arguments);
    end(state);
    return length;
}

int __wrap_puts(const char *text)
{
    int state = begin();
    int answer = __real_puts(text);
    end(state);
    return answer;
}

int __wrap_fputs(const char *text, FILE *stream)
{
    int state = begin();
    int answer = __real_fputs(text, stream);
    end(state);
    return answer;
}

int __wrap_fputc(int byte, FILE *stream)
{
    int state = begin();
    int answer = __real_fputc(byte, stream);
    end(state);
    return answer;
}

/* picolibc has both names for one function. */
int __wrap_putc(int byte, FILE *stream)
{
    return __wrap_fputc(byte, stream);
}

size_t __wrap_fwrite(const void *from, size_t size, size_t count, FILE *stream)
{
    int state = begin();
    size_t answer = __real_fwrite(from, size, count, stream);
    end(state);
    return answer;
}
