/* Text: putchar, puts and printf, each line whole, and a full output. The section has room for 340 bytes. */
#include <errno.h>
#include <limits.h>
#include <pthread.h>

#include "expect.h"

/* Puts three lines; a turn of round robin is shorter than a line. */
static void *put_lines(void *line)
{
    for (int i = 0; i < 3; i++) {
        puts(line);
    }
    return NULL;
}

static void whole_lines(void)
{
    pthread_attr_t attributes;
    pthread_t threads[2];
    pthread_attr_init(&attributes);
    pthread_attr_setinheritsched(&attributes, PTHREAD_EXPLICIT_SCHED);
    pthread_attr_setschedpolicy(&attributes, SCHED_RR);
    pthread_create(&threads[0], &attributes, put_lines, "aaaaaaaaaaaa");
    pthread_create(&threads[1], &attributes, put_lines, "bbbbbbbbbbbb");
    pthread_join(threads[0], NULL);
    pthread_join(threads[1], NULL);
}

int main(void)
{
    expect("putchar", putchar('c'), 'c');
    expect("putchar of a newline", putchar('\n'), '\n');
    expect("puts", puts("a line") >= 0, 1);
    expect("signed", printf("%d %i %d %d\n", 0, -1, INT_MAX, INT_MIN), 28);
    expect("unsigned", printf("%u %u\n", 0U, UINT_MAX), 13);
    expect("hexadecimal", printf("%x %x %x\n", 0U, 0xc0ffeeU, UINT_MAX), 18);
    expect("text and letter", printf("[%s] [%s] [%c] 100%%\n", "text", "", 'x'), 19);
    whole_lines();
    tell();
    errno = 0;
    while (putchar('.') != EOF) {
    }
    expect("putchar with a full output", errno, EAGAIN);
    errno = 0;
    expect("puts with a full output", puts("no room"), EOF);
    expect("its error", errno, EAGAIN);
    errno = 0;
    expect("printf with a full output", printf("%d", 5), -1);
    expect("its error", errno, EAGAIN);
    return wrong;
}
