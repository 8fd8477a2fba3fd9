/* The policies and priorities that the kernel has: of the library alone. */
#ifndef PRIORITIES_H
#define PRIORITIES_H

#include <sched.h>
#include <stdbool.h>

enum {
    PRIORITY_MIN = 1,
    PRIORITY_OF_MAIN = 16,
    PRIORITY_MAX = 32,
};

static inline bool is_policy(int policy)
{
    return policy == SCHED_FIFO || policy == SCHED_RR;
}

static inline bool is_priority(int priority)
{
    return priority >= PRIORITY_MIN && priority <= PRIORITY_MAX;
}

#endif
