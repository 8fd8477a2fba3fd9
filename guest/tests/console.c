/* Console input: abc at tick 20000, then 255, 0 and x at tick 40000. */
#include <console.h>
#include <errno.h>
#include <pthread.h>

#include "create.h"

static unsigned char got[128];

/* Waits for a byte, and passes. */
static void *get_and_pass(void *letter)
{
    console_get(&got[(int)letter]);
    pass((char)(uintptr_t)letter);
    return NULL;
}

int main(void)
{
    pthread_t threads[3];
    unsigned char byte = 0;
    threads[0] = create_at(SCHED_FIFO, 17, get_and_pass, 'l');
    threads[1] = create_at(SCHED_FIFO, 19, get_and_pass, 'h');
    threads[2] = create_at(SCHED_FIFO, 17, get_and_pass, 'm');
    for (int i = 0; i < 3; i++) {
        pthread_join(threads[i], NULL);
    }
    expect_order("by priority, then by the time of waiting", "hlm");
    expect("the first byte", got['h'], 'a');
    expect("the second", got['l'], 'b');
    expect("the third", got['m'], 'c');
    expect("a byte above 127 is no EOF", getchar(), 255);
    expect("a byte 0", console_get(&byte), 0);
    expect("its value", byte, 0);
    expect("a byte out of the ring", getchar(), 'x');
    expect("put", console_put(0x100 + 'p'), 0);
    expect("the low 8 bits are answered", putchar(0x100 + '\n'), '\n');
    return tell();
}
