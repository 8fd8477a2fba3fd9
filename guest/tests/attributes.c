/* The attributes of threads, mutexes and condition variables. */
#include <errno.h>
#include <limits.h>
#include <pthread.h>

#include "expect.h"

static char stack[1024] __attribute__((aligned(16)));

/* Stores the address of something on its stack. */
static void *leave_address(void *place)
{
    char here = 0;
    *(volatile uintptr_t *)place = (uintptr_t)&here;
    return NULL;
}

static void defaults_of_threads(void)
{
    pthread_attr_t attributes;
    struct sched_param parameters;
    int value = -1;
    void *lowest = &attributes;
    size_t size = 1;
    expect("init", pthread_attr_init(&attributes), 0);
    pthread_attr_getdetachstate(&attributes, &value);
    expect("detach state", value, PTHREAD_CREATE_JOINABLE);
    pthread_attr_getinheritsched(&attributes, &value);
    expect("inherit", value, PTHREAD_INHERIT_SCHED);
    pthread_attr_getschedpolicy(&attributes, &value);
    expect("policy", value, SCHED_FIFO);
    pthread_attr_getschedparam(&attributes, &parameters);
    expect("priority", parameters.sched_priority, 16);
    pthread_attr_getscope(&attributes, &value);
    expect("scope", value, PTHREAD_SCOPE_PROCESS);
    pthread_attr_getstack(&attributes, &lowest, &size);
    expect("stack", lowest == NULL && size == 0, 1);
}

static void values_of_threads(void)
{
    pthread_attr_t attributes;
    struct sched_param parameters = {.sched_priority = 20};
    int value = -1;
    pthread_attr_init(&attributes);
    expect("set detached", pthread_attr_setdetachstate(&attributes, PTHREAD_CREATE_DETACHED), 0);
    pthread_attr_getdetachstate(&attributes, &value);
    expect("detached", value, PTHREAD_CREATE_DETACHED);
    expect("set another state", pthread_attr_setdetachstate(&attributes, 2), EINVAL);
    expect("set explicit", pthread_attr_setinheritsched(&attributes, PTHREAD_EXPLICIT_SCHED), 0);
    pthread_attr_getinheritsched(&attributes, &value);
    expect("explicit", value, PTHREAD_EXPLICIT_SCHED);
    expect("set another way", pthread_attr_setinheritsched(&attributes, 2), EINVAL);
    expect("set round robin", pthread_attr_setschedpolicy(&attributes, SCHED_RR), 0);
    pthread_attr_getschedpolicy(&attributes, &value);
    expect("round robin", value, SCHED_RR);
    expect("set another policy", pthread_attr_setschedpolicy(&attributes, 0), ENOTSUP);
    expect("set priority 20", pthread_attr_setschedparam(&attributes, &parameters), 0);
    parameters.sched_priority = 33;
    expect("set priority 33", pthread_attr_setschedparam(&attributes, &parameters), EINVAL);
    parameters.sched_priority = 0;
    expect("set priority 0", pthread_attr_setschedparam(&attributes, &parameters), EINVAL);
    pthread_attr_getschedparam(&attributes, &parameters);
    expect("priority 20", parameters.sched_priority, 20);
    expect("set scope process", pthread_attr_setscope(&attributes, PTHREAD_SCOPE_PROCESS), 0);
    expect("set scope system", pthread_attr_setscope(&attributes, PTHREAD_SCOPE_SYSTEM), ENOTSUP);
    expect("set another scope", pthread_attr_setscope(&attributes, 2), EINVAL);
}

static void stacks(void)
{
    pthread_attr_t attributes;
    pthread_t thread = 0;
    volatile uintptr_t address = 0;
    void *lowest = NULL;
    size_t size = 0;
    pthread_attr_init(&attributes);
    expect("a small stack", pthread_attr_setstack(&attributes, stack, PTHREAD_STACK_MIN - 16), EINVAL);
    expect("an odd address", pthread_attr_setstack(&attributes, stack + 8, 512), EINVAL);
    expect("an odd size", pthread_attr_setstack(&attributes, stack, 520), EINVAL);
    expect("set stack", pthread_attr_setstack(&attributes, stack, sizeof stack), 0);
    pthread_attr_getstack(&attributes, &lowest, &size);
    expect("stack set", lowest == stack && size == sizeof stack, 1);
    expect("create with it", pthread_create(&thread, &attributes, leave_address, (void *)&address), 0);
    pthread_join(thread, NULL);
    expect("it is used", address >= (uintptr_t)stack && address < (uintptr_t)stack + sizeof stack, 1);
}

static void threads_by_attributes(void)
{
    pthread_attr_t attributes;
    struct sched_param parameters = {.sched_priority = 10};
    pthread_t thread = 0;
    volatile uintptr_t address = 0;
    int policy = 0;
    pthread_attr_init(&attributes);
    pthread_attr_setschedpolicy(&attributes, SCHED_RR);
    pthread_attr_setschedparam(&attributes, &parameters);
    pthread_create(&thread, &attributes, leave_address, (void *)&address);
    pthread_getschedparam(thread, &policy, &parameters);
    expect("the creator's policy", policy, SCHED_FIFO);
    expect("the creator's priority", parameters.sched_priority, 16);
    pthread_join(thread, NULL);
    pthread_attr_setinheritsched(&attributes, PTHREAD_EXPLICIT_SCHED);
    pthread_create(&thread, &attributes, leave_address, (void *)&address);
    pthread_getschedparam(thread, &policy, &parameters);
    expect("its own policy", policy, SCHED_RR);
    expect("its own priority", parameters.sched_priority, 10);
    pthread_join(thread, NULL);
    pthread_attr_setdetachstate(&attributes, PTHREAD_CREATE_DETACHED);
    pthread_create(&thread, &attributes, leave_address, (void *)&address);
    expect("join of one created detached", pthread_join(thread, NULL), EINVAL);
    expect("destroy", pthread_attr_destroy(&attributes), 0);
    expect("create by none", pthread_create(&thread, &attributes, leave_address, (void *)&address), EINVAL);
}

static void defaults_of_mutexes(void)
{
    pthread_mutexattr_t attributes;
    int value = -1;
    expect("init of a mutex's", pthread_mutexattr_init(&attributes), 0);
    pthread_mutexattr_gettype(&attributes, &value);
    expect("type", value, PTHREAD_MUTEX_DEFAULT);
    pthread_mutexattr_getprotocol(&attributes, &value);
    expect("protocol", value, PTHREAD_PRIO_NONE);
    pthread_mutexattr_getprioceiling(&attributes, &value);
    expect("ceiling", value, 32);
    pthread_mutexattr_getrobust(&attributes, &value);
    expect("robust", value, PTHREAD_MUTEX_STALLED);
}

static void values_of_mutexes(void)
{
    pthread_mutexattr_t attributes;
    pthread_mutex_t mutex;
    int value = -1;
    pthread_mutexattr_init(&attributes);
    expect("set recursive", pthread_mutexattr_settype(&attributes, PTHREAD_MUTEX_RECURSIVE), 0);
    expect("set another type", pthread_mutexattr_settype(&attributes, 3), EINVAL);
    pthread_mutexattr_gettype(&attributes, &value);
    expect("recursive", value, PTHREAD_MUTEX_RECURSIVE);
    expect("set protect", pthread_mutexattr_setprotocol(&attributes, PTHREAD_PRIO_PROTECT), 0);
    expect("set another protocol", pthread_mutexattr_setprotocol(&attributes, 3), ENOTSUP);
    pthread_mutexattr_getprotocol(&attributes, &value);
    expect("protect", value, PTHREAD_PRIO_PROTECT);
    expect("set ceiling 20", pthread_mutexattr_setprioceiling(&attributes, 20), 0);
    expect("set ceiling 0", pthread_mutexattr_setprioceiling(&attributes, 0), EINVAL);
    expect("set ceiling 33", pthread_mutexattr_setprioceiling(&attributes, 33), EINVAL);
    pthread_mutexattr_getprioceiling(&attributes, &value);
    expect("ceiling 20", value, 20);
    expect("set robust", pthread_mutexattr_setrobust(&attributes, PTHREAD_MUTEX_ROBUST), 0);
    expect("set another robustness", pthread_mutexattr_setrobust(&attributes, 2), EINVAL);
    pthread_mutexattr_getrobust(&attributes, &value);
    expect("robust", value, PTHREAD_MUTEX_ROBUST);
    expect("a mutex of them", pthread_mutex_init(&mutex, &attributes), 0);
    pthread_mutex_destroy(&mutex);
    expect("destroy of a mutex's", pthread_mutexattr_destroy(&attributes), 0);
    expect("a mutex of none", pthread_mutex_init(&mutex, &attributes), EINVAL);
}

static void conditions(void)
{
    pthread_condattr_t attributes;
    pthread_cond_t condition;
    expect("init of a condition variable's", pthread_condattr_init(&attributes), 0);
    expect("a condition variable of them", pthread_cond_init(&condition, &attributes), 0);
    expect("destroy of a condition variable's", pthread_condattr_destroy(&attributes), 0);
    expect("the condition variable stays", pthread_cond_destroy(&condition), 0);
}

int main(void)
{
    defaults_of_threads();
    values_of_threads();
    stacks();
    threads_by_attributes();
    defaults_of_mutexes();
    values_of_mutexes();
    conditions();
    return tell();
}
