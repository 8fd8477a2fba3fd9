/* What the guests of this folder have in common: each compares answers with those that POSIX.1-2017, or
 * docs/GUEST_ABI.md where POSIX is open, says. An answer that is another is put on the console; at the end stand how
 * many there were. Threads that may preempt one another do not call expect side by side, since nothing guards the
 * numbers. */
#ifndef EXPECT_H
#define EXPECT_H

#include <stdio.h>
#include <string.h>

static int right = 0;
static int wrong = 0;

static void expect(const char *what, int answer, int expected)
{
    if (answer == expected) {
        right++;
    } else {
        wrong++;
        printf("%s: %d, not %d\n", what, answer, expected);
    }
}

/* What the guest exits with: 0 where all was right. */
static int tell(void)
{
    printf("%d right, %d wrong\n", right, wrong);
    return wrong == 0 ? 0 : 1;
}

#endif
