/* Thread-local variables. */
#include "thread_local.h"

#include <errno.h>
#include <stdatomic.h>
#include <string.h>

#include "call.h"
#include "locks.h"

/* Numbers and places of the link (image.ld); a number is its symbol's address. */
extern char __tls_block_size[];
extern char __tls_template_size[] __attribute__((weak)); /* may be 0 */
extern char __tls_template[];
extern char __tls_blocks[];

enum { THREAD_NUMBERS = 32 }; /* the most that can be created and not begun */

/* What a thread is to begin with. Free where the routine is NULL: the new thread frees it by one store. */
struct beginning {
    void *(*routine)(void *);
    void *argument;
};

static struct beginning beginnings[THREAD_NUMBERS];
static pthread_mutex_t lock; /* of the search for a free one */

static void set_up(void)
{
    set_up_lock(&lock);
}

CALL_BEFORE_MAIN(set_up);

void begin_thread_locals(void)
{
    size_t size = (size_t)__tls_block_size;
    size_t initialised = (size_t)__tls_template_size;
    char *block = __tls_blocks + (pthread_self() - 1) * size;
    memcpy(block, __tls_template, initialised);
    memset(block + initialised, 0, size - initialised);
    __asm__ volatile("mv tp, %0" : : "r"(block) : "memory");
}

/* A free beginning, with a routine and an argument; NULL where there is no lock. */
static struct beginning *begin_with(void *(*routine)(void *), void *argument)
{
    struct beginning *it = NULL;
    if (pthread_mutex_lock(&lock) != 0) {
        return NULL;
    }
    for (int i = 0; it == NULL && i < THREAD_NUMBERS; i++) {
        if (beginnings[i].routine == NULL) {
            it = &beginnings[i];
            it->argument = argument;
            it->routine = routine;
        }
    }
    pthread_mutex_unlock(&lock);
    return it;
}

/* The first routine of each thread. */
static void *begin(void *argument)
{
    begin_thread_locals();
    struct beginning *beginning = argument;
    struct beginning mine = *beginning;
    atomic_signal_fence(memory_order_seq_cst); /* the compiler must not free it before it is read */
    beginning->routine = NULL;
    return mine.routine(mine.argument);
}

int create_with_thread_locals(pthread_t *thread, const pthread_attr_t *attributes, void *(*routine)(void *),
                              void *argument)
{
    struct beginning *beginning = begin_with(routine, argument);
    if (beginning == NULL) {
        return EAGAIN;
    }
    struct reply reply = call(CALL_CREATE, (uintptr_t)attributes, (uintptr_t)begin, (uintptr_t)beginning, 0);
    if (reply.error == 0) {
        *thread = reply.first;
    } else {
        beginning->routine = NULL;
    }
    return reply.error;
}
