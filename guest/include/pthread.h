/* Threads, mutexes, condition variables, cancellation and keys. POSIX.1-2017: <pthread.h>, of which the profile has
 * what stands here. Every function returns 0 or the number of an error, save where it is said; errno stays. Where a
 * call of the kernel is named, it tests its arguments in the order of docs/GUEST_ABI.md. A pointer that does not lie in
 * memory, which POSIX leaves undefined, is EFAULT where the kernel reads it. */
#ifndef PTHREAD_H
#define PTHREAD_H

#include <sched.h>
#include <sys/types.h>
#include <time.h>

#ifdef __cplusplus
extern "C" {
#endif

#define PTHREAD_CREATE_JOINABLE 0
#define PTHREAD_CREATE_DETACHED 1
#define PTHREAD_INHERIT_SCHED 0
#define PTHREAD_EXPLICIT_SCHED 1
#define PTHREAD_SCOPE_PROCESS 0
#define PTHREAD_SCOPE_SYSTEM 1

#define PTHREAD_MUTEX_NORMAL 0
#define PTHREAD_MUTEX_ERRORCHECK 1
#define PTHREAD_MUTEX_RECURSIVE 2
#define PTHREAD_MUTEX_DEFAULT PTHREAD_MUTEX_NORMAL
#define PTHREAD_MUTEX_STALLED 0
#define PTHREAD_MUTEX_ROBUST 1
#define PTHREAD_PRIO_NONE 0
#define PTHREAD_PRIO_INHERIT 1
#define PTHREAD_PRIO_PROTECT 2

#define PTHREAD_CANCEL_ENABLE 0
#define PTHREAD_CANCEL_DISABLE 1
#define PTHREAD_CANCEL_DEFERRED 0
#define PTHREAD_CANCEL_ASYNCHRONOUS 1
#define PTHREAD_CANCELED ((void *)0xFFFFFFFF)

#define PTHREAD_MUTEX_INITIALIZER {0}
#define PTHREAD_COND_INITIALIZER {0}

/* ---- Threads ---- */

/* Starts a thread that calls routine(argument), and stores its number at *thread. It takes the least number that is
 * free. A return of the routine is pthread_exit with its result. `attributes` NULL stands for the default ones.
 * Errors: EAGAIN all of the section's `threads` are in use; EINVAL or ENOTSUP the attributes are none.
 * Call 10. POSIX.1-2017: pthread_create. */
int pthread_create(pthread_t *__restrict thread, const pthread_attr_t *__restrict attributes, void *(*routine)(void *),
                   void *__restrict argument);

/* Ends the calling thread with `result`: its cleanup handlers are called, the last pushed first, then the destructors
 * of its keys. Does not return. Where it was the last thread, the partition halts as `exit 0`. Call 11.
 * POSIX.1-2017: pthread_exit. */
void pthread_exit(void *result) __attribute__((__noreturn__));

/* Waits until a thread has ended, stores its result at *result where that is not NULL, and frees its number. The result
 * of a cancelled thread is PTHREAD_CANCELED. A cancellation point; a joiner that is cancelled leaves the thread
 * joinable.
 * Errors: ESRCH no such thread; EDEADLK it is the caller; EINVAL it is detached, or another thread joins it.
 * Call 12. POSIX.1-2017: pthread_join. */
int pthread_join(pthread_t thread, void **result);

/* Lets a thread's number be free as soon as it ends, or now where it has ended.
 * Errors: ESRCH no such thread; EINVAL it is detached already, or a thread joins it.
 * Call 13. POSIX.1-2017: pthread_detach. */
int pthread_detach(pthread_t thread);

/* Returns the calling thread's number. Call 14. POSIX.1-2017: pthread_self. */
pthread_t pthread_self(void);

/* Returns whether both are the same thread: 0 where not. No call. POSIX.1-2017: pthread_equal. */
int pthread_equal(pthread_t left, pthread_t right);

/* Sets a thread's policy and priority. A running or ready thread goes to the tail of its priority's list; an owner of a
 * mutex with a protocol stays in its place.
 * Errors: ESRCH no such thread; ENOTSUP another policy than SCHED_FIFO and SCHED_RR; EINVAL a priority other than 1 to
 * 32.
 * Call 16. POSIX.1-2017: pthread_setschedparam. */
int pthread_setschedparam(pthread_t thread, int policy, const struct sched_param *parameters);

/* Stores a thread's policy at *policy and its priority at parameters->sched_priority. What it gains from mutexes is not
 * told. Errors: ESRCH no such thread. Call 17. POSIX.1-2017: pthread_getschedparam. */
int pthread_getschedparam(pthread_t thread, int *__restrict policy, struct sched_param *__restrict parameters);

/* Sets a thread's priority. A running or ready thread goes to the tail of its new priority's list where it rose, to the
 * head where it fell; an owner of a mutex with a protocol never goes to the tail.
 * Errors: ESRCH no such thread; EINVAL a priority other than 1 to 32. Call 18. POSIX.1-2017: pthread_setschedprio. */
int pthread_setschedprio(pthread_t thread, int priority);

/* ---- Attributes of threads: no calls ---- */

/* Sets the default attributes: joinable, INHERIT_SCHED, SCHED_FIFO, priority 16 (that of main), the default stack.
 * Errors: none. POSIX.1-2017: pthread_attr_init. */
int pthread_attr_init(pthread_attr_t *attributes);

/* Makes the attributes such that pthread_create returns EINVAL. Errors: none. POSIX.1-2017: pthread_attr_destroy. */
int pthread_attr_destroy(pthread_attr_t *attributes);

/* Stores whether a thread will be detached. Errors: none. POSIX.1-2017: pthread_attr_getdetachstate. */
int pthread_attr_getdetachstate(const pthread_attr_t *attributes, int *state);

/* Sets whether a thread will be detached: PTHREAD_CREATE_JOINABLE or PTHREAD_CREATE_DETACHED.
 * Errors: EINVAL another state. POSIX.1-2017: pthread_attr_setdetachstate. */
int pthread_attr_setdetachstate(pthread_attr_t *attributes, int state);

/* Stores where policy and priority come from. Errors: none. POSIX.1-2017: pthread_attr_getinheritsched. */
int pthread_attr_getinheritsched(const pthread_attr_t *__restrict attributes, int *__restrict inherit);

/* Sets where policy and priority come from: PTHREAD_INHERIT_SCHED the creator, PTHREAD_EXPLICIT_SCHED the attributes.
 * Errors: EINVAL another value. POSIX.1-2017: pthread_attr_setinheritsched. */
int pthread_attr_setinheritsched(pthread_attr_t *attributes, int inherit);

/* Stores the priority. Errors: none. POSIX.1-2017: pthread_attr_getschedparam. */
int pthread_attr_getschedparam(const pthread_attr_t *__restrict attributes, struct sched_param *__restrict parameters);

/* Sets the priority. Errors: EINVAL a priority other than 1 to 32. POSIX.1-2017: pthread_attr_setschedparam. */
int pthread_attr_setschedparam(pthread_attr_t *__restrict attributes, const struct sched_param *__restrict parameters);

/* Stores the policy. Errors: none. POSIX.1-2017: pthread_attr_getschedpolicy. */
int pthread_attr_getschedpolicy(const pthread_attr_t *__restrict attributes, int *__restrict policy);

/* Sets the policy. Errors: ENOTSUP another than SCHED_FIFO and SCHED_RR. POSIX.1-2017: pthread_attr_setschedpolicy. */
int pthread_attr_setschedpolicy(pthread_attr_t *attributes, int policy);

/* Stores PTHREAD_SCOPE_PROCESS: a thread contends with those of its partition alone, whose windows are fixed.
 * Errors: none. POSIX.1-2017: pthread_attr_getscope. */
int pthread_attr_getscope(const pthread_attr_t *__restrict attributes, int *__restrict scope);

/* Sets the scope, which is PTHREAD_SCOPE_PROCESS.
 * Errors: ENOTSUP PTHREAD_SCOPE_SYSTEM; EINVAL another value. POSIX.1-2017: pthread_attr_setscope. */
int pthread_attr_setscope(pthread_attr_t *attributes, int scope);

/* Stores the lowest byte and the size of the stack set before; NULL and 0 for the default stack, whose size the
 * partition's section says. Errors: none. POSIX.1-2017: pthread_attr_getstack. */
int pthread_attr_getstack(const pthread_attr_t *__restrict attributes, void **__restrict lowest,
                          size_t *__restrict size);

/* Sets the stack: its lowest byte and its size. One thread at a time may have it.
 * Errors: EINVAL fewer bytes than PTHREAD_STACK_MIN, or an address or size that is not a multiple of 16.
 * POSIX.1-2017: pthread_attr_setstack. */
int pthread_attr_setstack(pthread_attr_t *attributes, void *lowest, size_t size);

/* ---- Mutexes ---- */

/* Makes *mutex a new mutex, free. `attributes` NULL stands for the default ones.
 * Errors: ENOMEM all of the section's `mutexes` are in use; EINVAL the attributes are none.
 * Call 20. POSIX.1-2017: pthread_mutex_init. */
int pthread_mutex_init(pthread_mutex_t *__restrict mutex, const pthread_mutexattr_t *__restrict attributes);

/* Ends a mutex; pthread_mutex_init may make *mutex a mutex again.
 * Errors: EBUSY it is locked, or a waiter on a condition variable is to have it again; EINVAL it is no mutex.
 * Call 21. POSIX.1-2017: pthread_mutex_destroy. */
int pthread_mutex_destroy(pthread_mutex_t *mutex);

/* Locks a mutex; waits for it where another thread owns it, and for good where the caller owns it and it is NORMAL. No
 * cancellation point.
 * Errors: EDEADLK the caller owns it, ERRORCHECK; EAGAIN a RECURSIVE one is locked 65535 times; EINVAL it is no mutex,
 * or the caller's priority is above its ceiling; ENOMEM it is from the initialiser and all of the section's `mutexes`
 * are in use; EOWNERDEAD its owner ended with it: the caller owns it now; ENOTRECOVERABLE it was not made consistent.
 * Call 22. POSIX.1-2017: pthread_mutex_lock. */
int pthread_mutex_lock(pthread_mutex_t *mutex);

/* Locks a mutex that is free, or a RECURSIVE one of the caller's own.
 * Errors: EBUSY it is locked otherwise; EAGAIN, EINVAL, ENOMEM, EOWNERDEAD and ENOTRECOVERABLE as pthread_mutex_lock.
 * Call 23. POSIX.1-2017: pthread_mutex_trylock. */
int pthread_mutex_trylock(pthread_mutex_t *mutex);

/* Locks a mutex; waits until the time *deadline of CLOCK_REALTIME at most, which is looked at only where it must wait.
 * Errors: ETIMEDOUT the time has come; EINVAL nanoseconds below 0 or above 999999999; EFAULT, whether it must wait or
 * not; else as pthread_mutex_lock. Call 24. POSIX.1-2017: pthread_mutex_timedlock. */
int pthread_mutex_timedlock(pthread_mutex_t *__restrict mutex, const struct timespec *__restrict deadline);

/* Unlocks a mutex once. It goes to the waiter of greatest priority, among equals the one that waits longest. A robust
 * one whose owner ended, and that was not made consistent, can never be locked again.
 * Errors: EPERM the caller does not own it, for every type; EINVAL it is no mutex; ENOMEM as pthread_mutex_lock.
 * Call 25. POSIX.1-2017: pthread_mutex_unlock. */
int pthread_mutex_unlock(pthread_mutex_t *mutex);

/* Says that what a robust mutex guards is whole again, after EOWNERDEAD.
 * Errors: EINVAL it is not robust, or its owner did not end with it; EPERM the caller does not own it; ENOMEM as
 * pthread_mutex_lock. Call 26. POSIX.1-2017: pthread_mutex_consistent. */
int pthread_mutex_consistent(pthread_mutex_t *mutex);

/* ---- Attributes of mutexes: no calls ---- */

/* Sets the default attributes: PTHREAD_MUTEX_DEFAULT, PTHREAD_PRIO_NONE, ceiling 32, PTHREAD_MUTEX_STALLED.
 * Errors: none. POSIX.1-2017: pthread_mutexattr_init. */
int pthread_mutexattr_init(pthread_mutexattr_t *attributes);

/* Makes the attributes such that pthread_mutex_init returns EINVAL. Errors: none.
 * POSIX.1-2017: pthread_mutexattr_destroy. */
int pthread_mutexattr_destroy(pthread_mutexattr_t *attributes);

/* Stores the type. Errors: none. POSIX.1-2017: pthread_mutexattr_gettype. */
int pthread_mutexattr_gettype(const pthread_mutexattr_t *__restrict attributes, int *__restrict type);

/* Sets the type: PTHREAD_MUTEX_NORMAL, PTHREAD_MUTEX_ERRORCHECK, PTHREAD_MUTEX_RECURSIVE or PTHREAD_MUTEX_DEFAULT.
 * Errors: EINVAL another type. POSIX.1-2017: pthread_mutexattr_settype. */
int pthread_mutexattr_settype(pthread_mutexattr_t *attributes, int type);

/* Stores the protocol. Errors: none. POSIX.1-2017: pthread_mutexattr_getprotocol. */
int pthread_mutexattr_getprotocol(const pthread_mutexattr_t *__restrict attributes, int *__restrict protocol);

/* Sets the protocol: PTHREAD_PRIO_NONE, PTHREAD_PRIO_INHERIT or PTHREAD_PRIO_PROTECT.
 * Errors: ENOTSUP another protocol. POSIX.1-2017: pthread_mutexattr_setprotocol. */
int pthread_mutexattr_setprotocol(pthread_mutexattr_t *attributes, int protocol);

/* Stores the ceiling. Errors: none. POSIX.1-2017: pthread_mutexattr_getprioceiling. */
int pthread_mutexattr_getprioceiling(const pthread_mutexattr_t *__restrict attributes, int *__restrict ceiling);

/* Sets the ceiling, which PTHREAD_PRIO_PROTECT alone uses. Errors: EINVAL another than 1 to 32.
 * POSIX.1-2017: pthread_mutexattr_setprioceiling. */
int pthread_mutexattr_setprioceiling(pthread_mutexattr_t *attributes, int ceiling);

/* Stores whether the mutex is robust. Errors: none. POSIX.1-2017: pthread_mutexattr_getrobust. */
int pthread_mutexattr_getrobust(const pthread_mutexattr_t *__restrict attributes, int *__restrict robust);

/* Sets whether the mutex is robust: PTHREAD_MUTEX_STALLED or PTHREAD_MUTEX_ROBUST.
 * Errors: EINVAL another value. POSIX.1-2017: pthread_mutexattr_setrobust. */
int pthread_mutexattr_setrobust(pthread_mutexattr_t *attributes, int robust);

/* ---- Condition variables ---- */

/* Makes *condition a new condition variable. `attributes` is not looked at.
 * Errors: ENOMEM all of the section's `conds` are in use. Call 30. POSIX.1-2017: pthread_cond_init. */
int pthread_cond_init(pthread_cond_t *__restrict condition, const pthread_condattr_t *__restrict attributes);

/* Ends a condition variable; pthread_cond_init may make *condition one again.
 * Errors: EBUSY a thread waits on it; EINVAL it is none. Call 31. POSIX.1-2017: pthread_cond_destroy. */
int pthread_cond_destroy(pthread_cond_t *condition);

/* Unlocks the mutex and waits for a signal, as one action, and has the mutex again when it returns, save after
 * ENOTRECOVERABLE. A cancellation point; the handlers of a thread cancelled there have the mutex.
 * Errors: EPERM the caller does not own the mutex; EINVAL one of both is none, or other waiters name another mutex;
 * ENOMEM one of both is from its initialiser and there is no room for it; EOWNERDEAD, ENOTRECOVERABLE as
 * pthread_mutex_lock.
 * Call 32. POSIX.1-2017: pthread_cond_wait. */
int pthread_cond_wait(pthread_cond_t *__restrict condition, pthread_mutex_t *__restrict mutex);

/* As pthread_cond_wait, until the time *deadline of CLOCK_REALTIME at most.
 * Errors: ETIMEDOUT the time has come: the caller has the mutex; EINVAL nanoseconds below 0 or above 999999999; else as
 * pthread_cond_wait. Call 33. POSIX.1-2017: pthread_cond_timedwait. */
int pthread_cond_timedwait(pthread_cond_t *__restrict condition, pthread_mutex_t *__restrict mutex,
                           const struct timespec *__restrict deadline);

/* Ends the wait of one waiter: of that of greatest priority, among equals of that which waits longest.
 * Errors: EINVAL it is no condition variable; ENOMEM it is from the initialiser and there is no room for it.
 * Call 34. POSIX.1-2017: pthread_cond_signal. */
int pthread_cond_signal(pthread_cond_t *condition);

/* Ends the wait of every waiter. Errors: as pthread_cond_signal. Call 35. POSIX.1-2017: pthread_cond_broadcast. */
int pthread_cond_broadcast(pthread_cond_t *condition);

/* Sets the default attributes: there are none. Errors: none. No call. POSIX.1-2017: pthread_condattr_init. */
int pthread_condattr_init(pthread_condattr_t *attributes);

/* Ends the attributes. Errors: none. No call. POSIX.1-2017: pthread_condattr_destroy. */
int pthread_condattr_destroy(pthread_condattr_t *attributes);

/* ---- Cancellation ---- */

/* Asks that a thread ends; it does not wait for that. Cancellation points are pthread_join, pthread_cond_wait,
 * pthread_cond_timedwait, pthread_testcancel, clock_nanosleep, console_put, console_get and getchar.
 * Errors: ESRCH no such thread. Call 40. POSIX.1-2017: pthread_cancel. */
int pthread_cancel(pthread_t thread);

/* Sets whether requests act on the calling thread, and stores the old state at *old where that is not NULL.
 * Errors: EINVAL another state than PTHREAD_CANCEL_ENABLE and PTHREAD_CANCEL_DISABLE.
 * Call 41. POSIX.1-2017: pthread_setcancelstate. */
int pthread_setcancelstate(int state, int *old);

/* Sets when requests act on the calling thread, and stores the old type at *old where that is not NULL.
 * Errors: EINVAL another type than PTHREAD_CANCEL_DEFERRED and PTHREAD_CANCEL_ASYNCHRONOUS.
 * Call 42. POSIX.1-2017: pthread_setcanceltype. */
int pthread_setcanceltype(int type, int *old);

/* A cancellation point and nothing else. Call 43. POSIX.1-2017: pthread_testcancel. */
void pthread_testcancel(void);

/* The functions behind pthread_cleanup_push and pthread_cleanup_pop. The 17th handler of a thread has no room in the
 * kernel, which pthread_cleanup_push cannot return: it stops the partition as abort does. */
void push_cleanup_handler(void (*routine)(void *), void *argument);
void pop_cleanup_handler(int execute);

/* Pushes a handler, which a cancellation or pthread_exit calls with `argument`. It opens a block that its
 * pthread_cleanup_pop closes. At most 16 stand at a time: the next one stops the partition as abort does. Call 44.
 * POSIX.1-2017: pthread_cleanup_push. */
#define pthread_cleanup_push(routine, argument) \
    {                                           \
        push_cleanup_handler((routine), (argument));

/* Takes off the last handler, and calls it where `execute` is not 0. Call 45. POSIX.1-2017: pthread_cleanup_pop. */
#define pthread_cleanup_pop(execute) \
    pop_cleanup_handler(execute);    \
    }

/* ---- Keys ---- */

/* Stores at *key a new key, whose value is NULL in every thread. Its destructor, where that is not NULL, is called with
 * a thread's value at that thread's end, where the value is not NULL.
 * Errors: EAGAIN all of the section's `keys` are in use. Call 50. POSIX.1-2017: pthread_key_create. */
int pthread_key_create(pthread_key_t *key, void (*destructor)(void *));

/* Ends a key. Its values are dropped, no destructor is called.
 * Errors: EINVAL no such key. Call 51. POSIX.1-2017: pthread_key_delete. */
int pthread_key_delete(pthread_key_t key);

/* Sets the calling thread's value of a key.
 * Errors: EINVAL no such key. Call 52. POSIX.1-2017: pthread_setspecific. */
int pthread_setspecific(pthread_key_t key, const void *value);

/* Returns the calling thread's value of a key; NULL where there is no such key. Call 53.
 * POSIX.1-2017: pthread_getspecific. */
void *pthread_getspecific(pthread_key_t key);

#ifdef __cplusplus
}
#endif

#endif
