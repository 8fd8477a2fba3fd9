/* picolibc's locks (its <sys/lock.h>, "retargetable locking") over mutexes of the kernel's. The one that picolibc has
 * itself, of malloc, exit and the time's zone, is set up before main. Where the partition's pool is full there, it is
 * none; only a program with one thread may go on so. */
#include "../../source/locks.h"

#include <stdlib.h>
#include <sys/lock.h>

struct __lock {
    pthread_mutex_t mutex;
};

struct __lock __lock___libc_recursive_mutex;

static void set_up(void)
{
    set_up_lock(&__lock___libc_recursive_mutex.mutex);
}

CALL_BEFORE_MAIN(set_up);

/* NULL where there is no memory: picolibc gives it back to the functions below, where it is no lock. */
void __retarget_lock_init(_LOCK_T *lock)
{
    *lock = malloc(sizeof(struct __lock));
    if (*lock != NULL) {
        set_up_lock(&(*lock)->mutex);
    }
}

void __retarget_lock_init_recursive(_LOCK_T *lock)
{
    __retarget_lock_init(lock);
}

void __retarget_lock_close(_LOCK_T lock)
{
    if (lock != NULL) {
        pthread_mutex_destroy(&lock->mutex);
        free(lock);
    }
}

void __retarget_lock_close_recursive(_LOCK_T lock)
{
    __retarget_lock_close(lock);
}

void __retarget_lock_acquire(_LOCK_T lock)
{
    if (lock != NULL) {
        pthread_mutex_lock(&lock->mutex);
    }
}

void __retarget_lock_acquire_recursive(_LOCK_T lock)
{
    __retarget_lock_acquire(lock);
}

/* Returns 1 where the caller has the lock, else 0. */
int __retarget_lock_try_acquire(_LOCK_T lock)
{
    return lock != NULL && pthread_mutex_trylock(&lock->mutex) == 0;
}

int __retarget_lock_try_acquire_recursive(_LOCK_T lock)
{
    return __retarget_lock_try_acquire(lock);
}

void __retarget_lock_release(_LOCK_T lock)
{
    if (lock != NULL) {
        pthread_mutex_unlock(&lock->mutex);
    }
}

void __retarget_lock_release_recursive(_LOCK_T lock)
{
    __retarget_lock_release(lock);
}
