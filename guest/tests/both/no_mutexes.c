/* A section without mutexes: the libraries have no locks. A program with one thread goes on; where a lock is needed it is
 * refused, or the program stops. */
#include <errno.h>
#include <pthread.h>
#include <stdatomic.h>
#include <stdlib.h>

#include "../expect.h"

static _Thread_local volatile int mine = 3;
static _Atomic int number = 4;

static void *work(void *argument)
{
    return argument;
}

int main(void)
{
    pthread_t thread = 0;
    pthread_mutex_t mutex = PTHREAD_MUTEX_INITIALIZER;
    expect("no mutex", pthread_mutex_lock(&mutex), ENOMEM);
    char *piece = malloc(10);
    expect("a heap", piece != NULL, 1);
    free(piece);
    mine = mine + 1;
    expect("a thread-local variable", mine, 4);
    expect("a thread that would need one", pthread_create(&thread, NULL, work, NULL), EAGAIN);
    tell();
    number++; /* an atomic operation stops the program: fault break */
    puts("not here");
    return 0;
}
