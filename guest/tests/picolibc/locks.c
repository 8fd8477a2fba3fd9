/* picolibc's locks: the one of its own is there before main, recursive and of protocol INHERIT; others come and go. */
#include <pthread.h>
#include <stdlib.h>
#include <sys/lock.h>

#include "../expect.h"

extern struct __lock __lock___libc_recursive_mutex;

static char letters[8] = "";
static _LOCK_T made;

static void pass(char letter)
{
    letters[strlen(letters)] = letter;
}

static void *take_own(void *unused)
{
    (void)unused;
    pass('b');
    __lock_acquire_recursive(&__lock___libc_recursive_mutex);
    pass('d');
    __lock_release_recursive(&__lock___libc_recursive_mutex);
    return NULL;
}

static void *try_made(void *unused)
{
    (void)unused;
    return (void *)(uintptr_t)__lock_try_acquire(made);
}

static pthread_t create_at(int priority, void *(*routine)(void *))
{
    pthread_attr_t attributes;
    pthread_t thread = 0;
    pthread_attr_init(&attributes);
    pthread_attr_setinheritsched(&attributes, PTHREAD_EXPLICIT_SCHED);
    pthread_attr_setschedparam(&attributes, &(struct sched_param){.sched_priority = priority});
    expect("create", pthread_create(&thread, &attributes, routine, NULL), 0);
    return thread;
}

/* Passes while it has a greater priority than main's assigned one, or main waits. */
static void *pass_between(void *unused)
{
    (void)unused;
    pass('x');
    return NULL;
}

/* Main has the lock, a thread of priority 20 waits for it: one of 18 does not come before main. */
static void own(void)
{
    _LOCK_T lock = &__lock___libc_recursive_mutex;
    expect("a number of the pool before main", (int)*(unsigned int *)lock > 0 && (int)*(unsigned int *)lock <= 8, 1);
    __lock_acquire_recursive(lock);
    expect("taken again", __lock_try_acquire_recursive(lock), 1);
    void *piece = malloc(20); /* which takes it too */
    expect("malloc with the lock", piece != NULL, 1);
    pass('a');
    pthread_t waiter = create_at(20, take_own);
    pthread_t between = create_at(18, pass_between);
    pass('c');
    free(piece);
    __lock_release_recursive(lock);
    __lock_release_recursive(lock);
    pthread_join(waiter, NULL);
    pthread_join(between, NULL);
    expect("by the priority that main gained", strcmp(letters, "abcdx"), 0);
}

static void others(void)
{
    pthread_t thread = 0;
    void *result = NULL;
    __lock_init(made);
    expect("made", made != NULL, 1);
    __lock_acquire(made);
    pthread_create(&thread, NULL, try_made, NULL);
    pthread_join(thread, &result);
    expect("another thread tries it", (int)(uintptr_t)result, 0);
    __lock_release(made);
    expect("its own thread does", __lock_try_acquire(made), 1);
    __lock_release(made);
    __lock_close(made);
    for (int i = 0; i < 20; i++) { /* more than the pool has */
        __lock_init_recursive(made);
        __lock_acquire_recursive(made);
        expect("recursive", __lock_try_acquire_recursive(made), 1);
        __lock_release_recursive(made);
        __lock_release_recursive(made);
        __lock_close_recursive(made);
    }
}

static void *put_when_cancelled(void *unused)
{
    (void)unused;
    pthread_cancel(pthread_self());
    puts("a whole line");
    pthread_testcancel();
    return NULL;
}

/* A request does not act while a thread has the console's lock. */
static void console(void)
{
    pthread_t thread = 0;
    void *result = NULL;
    pthread_create(&thread, NULL, put_when_cancelled, NULL);
    pthread_join(thread, &result);
    expect("cancelled behind it", result == PTHREAD_CANCELED, 1);
    puts("and the next");
}

int main(void)
{
    own();
    others();
    console();
    return tell();
}
