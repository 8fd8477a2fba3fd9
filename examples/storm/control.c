/* A control loop: each period begins at its tick, by absolute sleeping. It puts how late it read the clock then. */
#include <stdio.h>
#include <time.h>

enum {
    PERIODS = 5,
    PERIOD = 20000000, /* nanoseconds: 20000 ticks */
};

int main(void)
{
    struct timespec begin = {0, 0};
    for (int period = 1; period <= PERIODS; period++) {
        struct timespec now;
        begin.tv_nsec += PERIOD;
        clock_nanosleep(CLOCK_MONOTONIC, TIMER_ABSTIME, &begin, NULL);
        clock_gettime(CLOCK_MONOTONIC, &now);
        printf("period %d: %d ns late\n", period, (int)(now.tv_nsec - begin.tv_nsec));
    }
    return 0;
}
