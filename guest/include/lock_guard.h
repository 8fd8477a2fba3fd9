/* Locks in C++: a mutex that is locked from a place in a block to the block's end. This project's own, in the manner of
 * std::lock_guard, which no library at hand has. */
#ifndef LOCK_GUARD_H
#define LOCK_GUARD_H

#ifndef __cplusplus
#error "lock_guard.h is for C++"
#endif

#include <pthread.h>

/* Has a mutex locked while it lives. There are no exceptions, so the result of pthread_mutex_lock is kept. */
class lock_guard {
  public:
    explicit lock_guard(pthread_mutex_t &mutex) : mutex(mutex), result(pthread_mutex_lock(&mutex)) {}

    /* Unlocks where the caller got the mutex, with EOWNERDEAD too. */
    ~lock_guard()
    {
        pthread_mutex_unlock(&mutex); /* EPERM where the caller does not own it, which changes nothing */
    }

    lock_guard(const lock_guard &) = delete;
    lock_guard &operator=(const lock_guard &) = delete;

    /* The result of pthread_mutex_lock: 0, or an error's number. */
    int error() const
    {
        return result;
    }

  private:
    pthread_mutex_t &mutex;
    const int result;
};

#endif
