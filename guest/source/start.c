/* Where the program begins, at the image's entry. The kernel starts main's thread here with sp the end of memory, ra
 * the return gate, and 0 in every other register. */
#include <stddef.h>
#include <stdlib.h>

#include "thread_local.h"

typedef void (*routine)(void);

/* Lists that the link makes (image.ld), one behind the other: what the libraries set up, then the constructors. */
extern const routine __preinit_array_start[];
extern const routine __init_array_end[];

/* The words of main, NULL behind the last. A program may define them, its own name first; else the link says that there
 * are none. */
extern char *guest_words[];

int main(int count, char **words);
void _start(void) __attribute__((noreturn, section(".entry")));

static int count_of(char **words)
{
    int count = 0;
    while (words[count] != NULL) {
        count++;
    }
    return count;
}

void _start(void)
{
    if (begin_thread_locals != NULL) {
        begin_thread_locals();
    }
    for (const routine *it = __preinit_array_start; it != __init_array_end; it++) {
        (*it)();
    }
    exit(main(count_of(guest_words), guest_words));
}
