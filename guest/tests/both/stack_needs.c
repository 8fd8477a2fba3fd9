/* The stack that functions of the libraries need, at most what guest/README.md says. */
#include <stdlib.h>

#include "../stack_use.h"

#ifdef __PICOLIBC__
enum { BEGIN = 96, PUTS = 128, PRINTF = 256, SNPRINTF = 272, HEAP = 128 };
#else
enum { BEGIN = 16, PUTS = 96, PRINTF = 272, SNPRINTF = 288, HEAP = 64 };
#endif

static void *begin(void *argument)
{
    return argument;
}

static void *put(void *argument)
{
    puts("put");
    return argument;
}

static void *print(void *argument)
{
    printf("%s %d %x\n", "printed", -12345, 0xFFFFFFFFU);
    return argument;
}

static void *print_to(void *argument)
{
    char text[16];
    snprintf(text, sizeof text, "%d", 12345);
    return argument;
}

static void *take_and_give(void *argument)
{
    char *volatile piece = malloc(20);
    piece = realloc(piece, 200);
    free(piece);
    return argument;
}

int main(void)
{
    expect_stack("the begin of a thread", begin, BEGIN);
    expect_stack("puts", put, PUTS);
    expect_stack("printf of integers", print, PRINTF);
    expect_stack("snprintf of integers", print_to, SNPRINTF);
    expect_stack("malloc, realloc and free", take_and_give, HEAP);
    return tell();
}
