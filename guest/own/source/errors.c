/* A place for each thread's error number. */
#include <errno.h>
#include <pthread.h>

enum { THREAD_NUMBERS = 33 }; /* 1 to 32; 0 is no thread's */

int *thread_errno(void)
{
    static int numbers[THREAD_NUMBERS];
    return &numbers[pthread_self()];
}
