/* Threads of a policy and a priority of their own. */
#ifndef CREATE_H
#define CREATE_H

#include "order.h"

/* Creates a thread of a policy and a priority; its argument is its letter. */
static pthread_t create_at(int policy, int priority, void *(*routine)(void *), char letter)
{
    pthread_attr_t attributes;
    pthread_attr_init(&attributes);
    pthread_attr_setinheritsched(&attributes, PTHREAD_EXPLICIT_SCHED);
    pthread_attr_setschedpolicy(&attributes, policy);
    pthread_attr_setschedparam(&attributes, &(struct sched_param){.sched_priority = priority});
    pthread_t thread = 0;
    expect("create at a priority", pthread_create(&thread, &attributes, routine, (void *)(uintptr_t)letter), 0);
    return thread;
}

#endif
