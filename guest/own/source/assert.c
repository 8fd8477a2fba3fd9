/* Assertions. */
#include <assert.h>
#include <stdio.h>
#include <stdlib.h>

void assertion_failed(const char *expression, const char *file, int line, const char *function)
{
    printf("%s:%d: %s: %s does not hold\n", file, line, function, expression);
    abort();
}
