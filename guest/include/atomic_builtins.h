/* guest/build has the compiler read these before each source. The instruction set has no atomic instructions, so that
 * atomic operations are calls (-fno-inline-atomics; source/atomics.c). Of three builtins the compiler makes a load and
 * a store all the same, as of a program with one thread: here they are names for those that it makes calls. */
#define __atomic_test_and_set(flag, order) (__atomic_exchange_n((volatile unsigned char *)(flag), 1, (order)) != 0)
#define __atomic_clear(flag, order) __atomic_store_n((volatile unsigned char *)(flag), 0, (order))
#define __sync_lock_release(word) __atomic_store_n((word), 0, __ATOMIC_RELEASE)
