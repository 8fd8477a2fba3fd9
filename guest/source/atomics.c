/* Atomic operations, which the compiler calls by these names (the GCC manual, "__atomic Builtins" and "__sync
 * Builtins"): of 1, 2, 4 and 8 bytes, and of any number.
 *
 * Each is made under one lock, loads of 1, 2 and 4 bytes aside, which are one instruction. That there is one processor
 * is not enough: a thread can be preempted between the load and the store of an operation, and a thread of the same or
 * a greater priority would run in between. So stores take the lock too; a store that did not could fall between them
 * and be lost. The lock is a mutex of the kernel's and not a word that is tried again and again, since a thread of
 * greater priority would try for ever; it is INHERIT, so that a thread that waits for it waits for one operation at
 * most. The thread in an operation cannot be cancelled. Every operation is sequentially consistent, whatever order is
 * asked for: one processor carries out the instructions of all threads one after the other. */
#include <pthread.h>
#include <stdbool.h>
#include <stdint.h>
#include <stdlib.h>
#include <string.h>

#include "locks.h"

static pthread_mutex_t lock;

static void set_up(void)
{
    set_up_lock(&lock);
}

CALL_BEFORE_MAIN(set_up);

/* Begins an operation, and returns the caller's cancellation state. Without the lock no operation is atomic: where the
 * partition's pool had no room for it the program stops. */
static int begin(void)
{
    int state = PTHREAD_CANCEL_ENABLE;
    pthread_setcancelstate(PTHREAD_CANCEL_DISABLE, &state);
    if (pthread_mutex_lock(&lock) != 0) {
        abort();
    }
    return state;
}

static void end(int state)
{
    pthread_mutex_unlock(&lock);
    pthread_setcancelstate(state, NULL);
}

/* The names of the compiler's builtins have types of their own to it, so functions have others and their names are
 * given to the assembler. */
#define NAMED(name) __asm__(#name)

#define LOAD(bits, bytes)                                                                          \
    uint##bits##_t load_##bytes(const volatile uint##bits##_t *at, int order) NAMED(__atomic_load_##bytes); \
    uint##bits##_t load_##bytes(const volatile uint##bits##_t *at, int order)                      \
    {                                                                                              \
        (void)order;                                                                               \
        return *at;                                                                                \
    }

LOAD(8, 1)
LOAD(16, 2)
LOAD(32, 4)

uint64_t load_8(const volatile uint64_t *at, int order) NAMED(__atomic_load_8);
uint64_t load_8(const volatile uint64_t *at, int order)
{
    (void)order;
    int state = begin();
    uint64_t value = *at;
    end(state);
    return value;
}

#define STORE(type, bytes)                                                                                        \
    void store_##bytes(volatile type *at, type value, int order) NAMED(__atomic_store_##bytes);                   \
    void store_##bytes(volatile type *at, type value, int order)                                                  \
    {                                                                                                             \
        (void)order;                                                                                              \
        int state = begin();                                                                                      \
        *at = value;                                                                                              \
        end(state);                                                                                               \
    }

/* One that gives back the old value, by one of the names that the compiler has for it. */
#define CHANGE(type, function, name, value_after)                     \
    type function(volatile type *at, type value, int order) NAMED(name); \
    type function(volatile type *at, type value, int order)           \
    {                                                                 \
        (void)order;                                                  \
        int state = begin();                                          \
        type old = *at;                                               \
        *at = (type)(value_after);                                    \
        end(state);                                                   \
        return old;                                                   \
    }

/* One that gives back the new value. */
#define CHANGE_AND_FETCH(type, function, name, value_after)      \
    type function(volatile type *at, type value) NAMED(name);    \
    type function(volatile type *at, type value)                 \
    {                                                            \
        int state = begin();                                     \
        type old = *at;                                          \
        type after = (type)(value_after);                        \
        *at = after;                                             \
        end(state);                                              \
        return after;                                            \
    }

#define COMPARE_EXCHANGE(type, bytes)                                                                     \
    bool compare_exchange_##bytes(volatile type *at, type *expected, type desired, int order, int other)  \
        NAMED(__atomic_compare_exchange_##bytes);                                                         \
    bool compare_exchange_##bytes(volatile type *at, type *expected, type desired, int order, int other)  \
    {                                                                                                     \
        (void)order;                                                                                      \
        (void)other;                                                                                      \
        int state = begin();                                                                              \
        type old = *at;                                                                                   \
        bool is_equal = old == *expected;                                                                 \
        if (is_equal) {                                                                                   \
            *at = desired;                                                                                \
        }                                                                                                 \
        end(state);                                                                                       \
        if (!is_equal) {                                                                                  \
            *expected = old;                                                                              \
        }                                                                                                 \
        return is_equal;                                                                                  \
    }                                                                                                     \
    type value_swap_##bytes(volatile type *at, type expected, type desired)                               \
        NAMED(__sync_val_compare_and_swap_##bytes);                                                       \
    type value_swap_##bytes(volatile type *at, type expected, type desired)                               \
    {                                                                                                     \
        compare_exchange_##bytes(at, &expected, desired, 0, 0);                                           \
        return expected;                                                                                  \
    }                                                                                                     \
    bool bool_swap_##bytes(volatile type *at, type expected, type desired)                                \
        NAMED(__sync_bool_compare_and_swap_##bytes);                                                      \
    bool bool_swap_##bytes(volatile type *at, type expected, type desired)                                \
    {                                                                                                     \
        return compare_exchange_##bytes(at, &expected, desired, 0, 0);                                    \
    }

/* An operation by each of its names. */
#define OPERATION(type, bytes, name, value_after)                                                      \
    CHANGE(type, fetch_##name##_##bytes, __atomic_fetch_##name##_##bytes, value_after)                 \
    CHANGE(type, sync_fetch_##name##_##bytes, __sync_fetch_and_##name##_##bytes, value_after)          \
    CHANGE_AND_FETCH(type, sync_##name##_fetch_##bytes, __sync_##name##_and_fetch_##bytes, value_after)

#define OPERATIONS(type, bytes)                                                              \
    STORE(type, bytes)                                                                       \
    CHANGE(type, exchange_##bytes, __atomic_exchange_##bytes, value)                         \
    CHANGE(type, test_and_set_##bytes, __sync_lock_test_and_set_##bytes, value)              \
    COMPARE_EXCHANGE(type, bytes)                                                            \
    OPERATION(type, bytes, add, old + value)                                                 \
    OPERATION(type, bytes, sub, old - value)                                                 \
    OPERATION(type, bytes, and, old & value)                                                 \
    OPERATION(type, bytes, or, old | value)                                                  \
    OPERATION(type, bytes, xor, old ^ value)                                                 \
    OPERATION(type, bytes, nand, ~(old & value))

OPERATIONS(uint8_t, 1)
OPERATIONS(uint16_t, 2)
OPERATIONS(uint32_t, 4)
OPERATIONS(uint64_t, 8)

/* Those of other sizes. */
void load_any(size_t size, const void *at, void *value, int order) NAMED(__atomic_load);
void load_any(size_t size, const void *at, void *value, int order)
{
    (void)order;
    int state = begin();
    memcpy(value, at, size);
    end(state);
}

void store_any(size_t size, void *at, const void *value, int order) NAMED(__atomic_store);
void store_any(size_t size, void *at, const void *value, int order)
{
    (void)order;
    int state = begin();
    memcpy(at, value, size);
    end(state);
}

void exchange_any(size_t size, void *at, const void *value, void *old, int order) NAMED(__atomic_exchange);
void exchange_any(size_t size, void *at, const void *value, void *old, int order)
{
    (void)order;
    int state = begin();
    memcpy(old, at, size);
    memcpy(at, value, size);
    end(state);
}

bool compare_exchange_any(size_t size, void *at, void *expected, const void *desired, int order, int other)
    NAMED(__atomic_compare_exchange);
bool compare_exchange_any(size_t size, void *at, void *expected, const void *desired, int order, int other)
{
    (void)order;
    (void)other;
    int state = begin();
    bool is_equal = memcmp(at, expected, size) == 0;
    if (is_equal) {
        memcpy(at, desired, size);
    } else {
        memcpy(expected, at, size);
    }
    end(state);
    return is_equal;
}

/* None is free of locks. */
bool is_lock_free(size_t size, const volatile void *at) NAMED(__atomic_is_lock_free);
bool is_lock_free(size_t size, const volatile void *at)
{
    (void)size;
    (void)at;
    return false;
}
