/* Assertions: one that holds, one that NDEBUG leaves out, and one that does not hold. */
#define NDEBUG
#include <assert.h>
#include <stdio.h>

static int calls = 0;

static void left_out(void)
{
    assert(++calls == 0);
}

#undef NDEBUG
#include <assert.h>

int main(void)
{
    static_assert(sizeof(int) == 4, "words");
    left_out();
    assert(calls == 0);
    puts("so far");
    assert(calls == 1 && "never called");
    puts("not here");
}
