/* Five philosophers at a round table, a fork between each two; to eat takes both. The first byte of input says which
 * fork a philosopher takes first: 0 the left one, 1 that of the lower number. */
#include <pthread.h>
#include <stdbool.h>
#include <stdio.h>

enum {
    SEATS = 5,
    MEALS = 2,
};

static pthread_mutex_t forks[SEATS] = {
    PTHREAD_MUTEX_INITIALIZER, PTHREAD_MUTEX_INITIALIZER, PTHREAD_MUTEX_INITIALIZER,
    PTHREAD_MUTEX_INITIALIZER, PTHREAD_MUTEX_INITIALIZER,
};
static bool is_by_order;

static void *dine(void *argument)
{
    int seat = (int)argument;
    int first = seat;
    int second = (seat + 1) % SEATS;
    if (is_by_order && second < first) {
        first = second;
        second = seat;
    }
    for (int meal = 0; meal < MEALS; meal++) {
        pthread_mutex_lock(&forks[first]);
        printf("%d takes fork %d\n", seat, first);
        sched_yield(); /* the others come to the table too */
        pthread_mutex_lock(&forks[second]);
        printf("%d eats\n", seat);
        pthread_mutex_unlock(&forks[second]);
        pthread_mutex_unlock(&forks[first]);
    }
    return NULL;
}

int main(void)
{
    pthread_t philosophers[SEATS];
    is_by_order = getchar() != 0;
    for (int seat = 0; seat < SEATS; seat++) {
        pthread_create(&philosophers[seat], NULL, dine, (void *)seat);
    }
    for (int seat = 0; seat < SEATS; seat++) {
        pthread_join(philosophers[seat], NULL);
    }
    puts("all have eaten");
    return 0;
}
