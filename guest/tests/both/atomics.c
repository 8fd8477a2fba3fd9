/* Atomic operations of 1, 2, 4 and 8 bytes, by two threads of SCHED_RR, whose turns end anywhere in them: the
 * configuration has a partition for each of the intervals 1, 3, 7 and 13. An operation whose load and store are not one
 * step would lose what the other thread did in between. */
#include <pthread.h>
#include <stdatomic.h>
#include <stdint.h>

#include "../expect.h"

enum { ROUNDS = 50 };

static _Atomic uint8_t bytes;
static _Atomic uint16_t halves;
static _Atomic uint32_t words;
static _Atomic uint64_t longs;
static _Atomic uint32_t swapped;
static _Atomic uint32_t tokens = 2 * ROUNDS;
static int taken[2];
static atomic_flag flag = ATOMIC_FLAG_INIT;
static volatile int guarded;
static uint32_t plain;

/* A structure larger than a register. */
struct triple {
    uint32_t first;
    uint32_t second;
    uint32_t third;
};

static _Atomic struct triple triple;
static int torn[2];

static _Atomic uint32_t stored;
static int lost_stores;

/* Operations that give and take. */
static void count(uintptr_t i)
{
    for (uint32_t round = 0; round < ROUNDS; round++) {
        bytes += 3;
        halves -= 1;
        atomic_fetch_add(&words, 5);
        longs += UINT64_C(0x100000001);
        uint32_t old = swapped;
        while (!atomic_compare_exchange_weak(&swapped, &old, old * 2 + 1)) {
        }
        taken[i] += (int)atomic_exchange(&tokens, 0);
        atomic_fetch_add(&tokens, 1);
        taken[i] -= 1;
        __sync_fetch_and_add(&plain, 2);
    }
}

/* A store of one thread does not fall between the load and the store of the other's addition, where it would be lost.
 * */
static void store(uintptr_t i)
{
    for (uint32_t round = 1; round < 4 * ROUNDS; round++) {
        if (i == 0) {
            atomic_fetch_add(&stored, 1);
        } else {
            stored = round * 1000;
            lost_stores += stored < round * 1000;
        }
    }
}

/* One thread at a time has the flag, for some instructions. */
static void flag_and_guard(void)
{
    for (int round = 0; round < 4 * ROUNDS; round++) {
        while (atomic_flag_test_and_set(&flag)) {
            sched_yield();
        }
        guarded = guarded + 1;
        atomic_flag_clear(&flag);
        for (volatile int i = 0; i < round % 3; i++) {
        }
    }
}

/* A structure is read as it was written. */
static void load_and_store(uintptr_t i)
{
    for (uint32_t round = 0; round < ROUNDS; round++) {
        struct triple it = {round, ~round, round * 3};
        atomic_store(&triple, it);
        it = atomic_load(&triple);
        torn[i] += it.second != ~it.first || it.third != it.first * 3;
    }
}

static void *work(void *number)
{
    uintptr_t i = (uintptr_t)number;
    count(i);
    store(i);
    flag_and_guard();
    load_and_store(i);
    return NULL;
}

static uint32_t doubled(int times)
{
    uint32_t it = 0;
    for (int i = 0; i < times; i++) {
        it = it * 2 + 1;
    }
    return it;
}

static void alone(void)
{
    _Atomic int16_t half = -5;
    _Atomic int64_t number = -1;
    int16_t expected = 4;
    expect("fetch_or", atomic_fetch_or(&half, 1), -5);
    expect("fetch_and", atomic_fetch_and(&half, 0x7F), -5);
    expect("fetch_xor", atomic_fetch_xor(&half, 0xF), 0x7B);
    expect("then", half, 0x74);
    expect("an exchange that is refused", atomic_compare_exchange_strong(&half, &expected, 9), 0);
    expect("what stood there", expected, 0x74);
    expect("an exchange", atomic_compare_exchange_strong(&half, &expected, 9), 1);
    expect("then", half, 9);
    expect("fetch_sub of 64 bits", atomic_fetch_sub(&number, INT64_C(0x200000000)) == -1, 1);
    expect("then", number == INT64_C(-0x200000001), 1);
    expect("free of locks", atomic_is_lock_free(&half), 0);
    expect("fetch of nand", (int)__atomic_fetch_nand(&plain, 1, __ATOMIC_SEQ_CST), 200);
    expect("then", plain == ~UINT32_C(0), 1);
    expect("bool", __sync_bool_compare_and_swap(&plain, ~UINT32_C(0), 7), 1);
    expect("value", (int)__sync_val_compare_and_swap(&plain, 7, 8), 7);
    expect("and_fetch", (int)__sync_add_and_fetch(&plain, 1), 9);
    expect("test and set", (int)__sync_lock_test_and_set(&plain, 1), 9);
    __sync_lock_release(&plain);
    expect("release", (int)plain, 0);
}

int main(void)
{
    pthread_attr_t attributes;
    pthread_t threads[2];
    pthread_attr_init(&attributes);
    pthread_attr_setinheritsched(&attributes, PTHREAD_EXPLICIT_SCHED);
    pthread_attr_setschedpolicy(&attributes, SCHED_RR);
    for (uintptr_t i = 0; i < 2; i++) {
        expect("create", pthread_create(&threads[i], &attributes, work, (void *)i), 0);
    }
    for (int i = 0; i < 2; i++) {
        pthread_join(threads[i], NULL);
        expect("torn structures", torn[i], 0);
    }
    expect("1 byte", bytes, 2 * ROUNDS * 3 & 0xFF);
    expect("2 bytes", halves, 0x10000 - 2 * ROUNDS);
    expect("4 bytes", (int)words, 2 * ROUNDS * 5);
    expect("8 bytes", longs == 2 * ROUNDS * UINT64_C(0x100000001), 1);
    expect("exchanges by comparison", swapped == doubled(2 * ROUNDS), 1);
    expect("exchanges", taken[0] + taken[1] + (int)tokens, 2 * ROUNDS);
    expect("stores lost", lost_stores, 0);
    expect("what the flag guards", guarded, 2 * 4 * ROUNDS);
    expect("the older builtins", (int)plain, 2 * ROUNDS * 2);
    alone();
    return tell();
}
