/* The end of the program with what it asked for. */
#include <stdlib.h>
#include <unistd.h>

typedef void (*routine)(void);

/* The destructors of the program, a list that the link makes (image.ld). */
extern const routine __fini_array_start[];
extern const routine __fini_array_end[];

/* Calls what atexit was given; not in a program that does not use it. */
extern void call_exit_handlers(void) __attribute__((weak));

void exit(int status)
{
    if (call_exit_handlers != NULL) {
        call_exit_handlers();
    }
    for (const routine *it = __fini_array_end; it != __fini_array_start; it--) {
        it[-1]();
    }
    _exit(status);
}
