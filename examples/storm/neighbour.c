/* A neighbour that storms: it uses up its threads, mutexes, condition variables, keys and output, leaves its input,
 * wakes all its threads at the ticks at which the control loop's periods begin, and broadcasts without end. */
#include <console.h>
#include <pthread.h>
#include <time.h>

static pthread_cond_t condition = PTHREAD_COND_INITIALIZER;

/* Sleeps until each begin of a period of 20000 ticks. */
static void *wake_often(void *unused)
{
    struct timespec begin = {0, 0};
    for (;;) {
        begin.tv_nsec += 20000000;
        clock_nanosleep(CLOCK_MONOTONIC, TIMER_ABSTIME, &begin, NULL);
    }
    return unused;
}

static void use_up(void)
{
    pthread_t thread;
    pthread_key_t key;
    pthread_mutex_t mutex;
    pthread_cond_t another;
    while (pthread_create(&thread, NULL, wake_often, NULL) == 0) {
    }
    while (pthread_key_create(&key, NULL) == 0) {
    }
    while (pthread_mutex_init(&mutex, NULL) == 0) {
    }
    while (pthread_cond_init(&another, NULL) == 0) {
    }
    while (console_put('!') == 0) {
    }
}

int main(void)
{
    pthread_cond_broadcast(&condition); /* sets it up, before all are used up */
    use_up();
    for (;;) {
        pthread_cond_broadcast(&condition);
    }
}
