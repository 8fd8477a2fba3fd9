/* A worker takes pieces and packs them, under a robust mutex. It dies with the mutex between the two; a second one
 * takes its place, is told of it, makes good what was left, and does the rest. */
#include <errno.h>
#include <pthread.h>
#include <stdio.h>

enum { PIECES = 5 };

static pthread_mutex_t mutex;
static int taken = 0; /* under the mutex; both are equal while nobody owns it */
static int packed = 0;

/* Locks the mutex; after an owner's death the last piece taken is put back. */
static void lock_whole(void)
{
    if (pthread_mutex_lock(&mutex) == EOWNERDEAD) {
        printf("the owner died: %d taken, %d packed\n", taken, packed);
        taken = packed;
        pthread_mutex_consistent(&mutex);
    }
}

/* Packs up to PIECES; dies once it has taken the piece `last`. */
static void *work(void *last)
{
    lock_whole();
    while (packed < PIECES) {
        taken++;
        if (taken == (int)last) {
            pthread_exit((void *)1);
        }
        packed++;
        printf("piece %d\n", packed);
        pthread_mutex_unlock(&mutex);
        lock_whole();
    }
    pthread_mutex_unlock(&mutex);
    return NULL;
}

/* Starts a worker and tells how it ended. */
static void employ(const char *name, int last)
{
    pthread_t worker;
    void *result;
    pthread_create(&worker, NULL, work, (void *)last);
    pthread_join(worker, &result);
    printf("the %s worker ended with %d\n", name, (int)result);
}

int main(void)
{
    pthread_mutexattr_t attributes;
    pthread_mutexattr_init(&attributes);
    pthread_mutexattr_setrobust(&attributes, PTHREAD_MUTEX_ROBUST);
    pthread_mutex_init(&mutex, &attributes);
    employ("first", 3);
    employ("second", 0);
    return 0;
}
