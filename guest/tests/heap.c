/* The heap of the own library, of 2048 bytes. */
#include <errno.h>
#include <stdint.h>
#include <stdlib.h>

#include "expect.h"

enum { HEAP = 2048, HEAD = 16 };

static int is_aligned(const void *piece)
{
    return (uintptr_t)piece % _Alignof(max_align_t) == 0;
}

static void pieces(void)
{
    char *a = malloc(1);
    char *b = malloc(100);
    char *c = malloc(0);
    expect("pieces", a != NULL && b != NULL && c != NULL, 1);
    expect("aligned", is_aligned(a) && is_aligned(b) && is_aligned(c), 1);
    expect("apart", b >= a + 1 && c >= b + 100, 1);
    memset(b, 0x55, 100);
    free(a);
    expect("first fit", malloc(16) == a, 1);
    free(b);
    char *d = calloc(25, 4);
    expect("calloc takes its place", d == b, 1);
    int others = 0;
    for (int i = 0; i < 100; i++) {
        others += d[i] != 0;
    }
    expect("all 0", others, 0);
    free(NULL);
    free(a);
    free(c);
    free(d);
}

static void all(void)
{
    char *whole = malloc(HEAP - HEAD);
    expect("the whole heap in one piece", whole != NULL, 1);
    errno = 0;
    expect("no more", malloc(1) == NULL, 1);
    expect("its error", errno, ENOMEM);
    free(whole);
    errno = 0;
    expect("more than there is", malloc(HEAP) == NULL, 1);
    expect("its error", errno, ENOMEM);
    expect("no size", malloc(SIZE_MAX) == NULL, 1);
    errno = 0;
    expect("a product that is no size", calloc(SIZE_MAX / 2, 3) == NULL, 1);
    expect("its error", errno, ENOMEM);
    int count = 0;
    void *last = NULL;
    for (void *it = malloc(16); it != NULL; it = malloc(16)) {
        *(void **)it = last;
        last = it;
        count++;
    }
    expect("pieces with their heads", count, HEAP / (16 + HEAD));
    while (last != NULL) {
        void *before = *(void **)last;
        free(last);
        last = before;
    }
    whole = malloc(HEAP - HEAD);
    expect("joined again", whole != NULL, 1);
    free(whole);
}

static void longer_and_shorter(void)
{
    char *a = realloc(NULL, 20);
    expect("realloc of none", a != NULL, 1);
    strcpy(a, "twenty bytes or so.");
    expect("longer where it stands", realloc(a, 200) == a, 1);
    char *b = malloc(16);
    char *c = realloc(a, 400);
    expect("longer elsewhere", c != NULL && c != a, 1);
    expect("what stood there", strcmp(c, "twenty bytes or so."), 0);
    expect("its old place is free", malloc(100) == a, 1);
    expect("shorter", realloc(c, 4) == c, 1);
    expect("the rest is free", malloc(300) != NULL, 1);
    errno = 0;
    expect("too long", realloc(c, HEAP) == NULL, 1);
    expect("its error", errno, ENOMEM);
    expect("it stays", memcmp(c, "twen", 4), 0);
    expect("of 0", realloc(b, 0) == NULL, 1);
}

int main(void)
{
    pieces();
    all();
    longer_and_shorter();
    return tell();
}
