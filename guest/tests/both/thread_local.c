/* Thread-local variables, errno among them. A new thread starts with tp 0: where the library did not set it, a worker's
 * errno = 77 would overwrite the word at address 0, which is the program's text, without a fault. */
#include <errno.h>
#include <pthread.h>
#include <stdint.h>

#include "../expect.h"

enum { WORKERS = 3, INITIAL = 1000, ALIGNED = 64 };

static _Thread_local int initialised = INITIAL;
static _Thread_local int zero;
static _Thread_local char name[12] = "initial";
static _Thread_local _Alignas(ALIGNED) long long aligned = 5;

/* What a worker saw. */
struct seen {
    int initialised;
    int zero;
    long long aligned;
    int is_named;
    int is_aligned;
    int own_errno;
    uintptr_t place;
    uintptr_t tp;
    uintptr_t gp;
};

static struct seen seen[WORKERS];
static pthread_mutex_t gate = PTHREAD_MUTEX_INITIALIZER;

static uintptr_t thread_pointer(void)
{
    uintptr_t it;
    __asm__ volatile("mv %0, tp" : "=r"(it));
    return it;
}

static uintptr_t global_pointer(void)
{
    uintptr_t it;
    __asm__ volatile("mv %0, gp" : "=r"(it));
    return it;
}

static unsigned int word_at_0(void)
{
    unsigned int word;
    __asm__ volatile("lw %0, 0(zero)" : "=r"(word));
    return word;
}

/* Looks at its variables, changes them, lets the others do so, and looks at errno again. */
static void *work(void *number)
{
    uintptr_t i = (uintptr_t)number;
    seen[i].initialised = initialised;
    seen[i].zero = zero;
    seen[i].aligned = aligned;
    seen[i].is_named = strcmp(name, "initial") == 0;
    seen[i].is_aligned = (uintptr_t)&aligned % ALIGNED == 0;
    seen[i].place = (uintptr_t)&initialised;
    seen[i].tp = thread_pointer();
    seen[i].gp = global_pointer();
    initialised = (int)i;
    zero = 9;
    aligned = -1;
    strcpy(name, "changed");
    errno = 77 + (int)i;
    pthread_mutex_lock(&gate);
    pthread_mutex_unlock(&gate);
    seen[i].own_errno = errno;
    return &zero;
}

static void expect_fresh(uintptr_t i)
{
    expect("an initialised variable", seen[i].initialised, INITIAL);
    expect("one of 0", seen[i].zero, 0);
    expect("one of 8 bytes", seen[i].aligned == 5, 1);
    expect("an array", seen[i].is_named, 1);
    expect("its alignment", seen[i].is_aligned, 1);
    expect("errno after others set theirs", seen[i].own_errno, 77 + (int)i);
    expect("tp is set", seen[i].tp != 0, 1);
    expect("gp is not used", (int)seen[i].gp, 0);
}

/* Several threads at a time have variables of their own. */
static void at_a_time(void)
{
    pthread_t threads[WORKERS];
    pthread_mutex_lock(&gate);
    for (uintptr_t i = 0; i < WORKERS; i++) {
        expect("create", pthread_create(&threads[i], NULL, work, (void *)i), 0);
    }
    sched_yield();
    pthread_mutex_unlock(&gate);
    for (uintptr_t i = 0; i < WORKERS; i++) {
        expect("join", pthread_join(threads[i], NULL), 0);
        expect_fresh(i);
    }
    expect("places differ", seen[0].place != seen[1].place && seen[1].place != seen[2].place, 1);
    expect("blocks differ", seen[0].tp != seen[1].tp && seen[0].tp != thread_pointer(), 1);
}

/* A later thread of the same number does not find what the first left. */
static void one_after_the_other(void)
{
    pthread_t first = 0;
    pthread_t second = 0;
    pthread_create(&first, NULL, work, (void *)0);
    pthread_join(first, NULL);
    uintptr_t place = seen[0].place;
    pthread_create(&second, NULL, work, (void *)0);
    pthread_join(second, NULL);
    expect("the same number", (int)second, (int)first);
    expect("the same block", seen[0].place == place, 1);
    expect_fresh(0);
}

/* A refused pthread_create leaves room for what it would have begun: more are refused than threads can begin. */
static void refused(void)
{
    pthread_attr_t attributes;
    pthread_t thread = 0;
    pthread_attr_init(&attributes);
    pthread_attr_destroy(&attributes);
    int refusals = 0;
    for (int i = 0; i < 40; i++) {
        refusals += pthread_create(&thread, &attributes, work, NULL) == EINVAL;
    }
    expect("refusals", refusals, 40);
    expect("create after them", pthread_create(&thread, NULL, work, (void *)1), 0);
    pthread_join(thread, NULL);
    expect_fresh(1);
}

/* The thread that takes main's number when main has ended. */
static void *after_main(void *main_thread)
{
    pthread_t thread = 0;
    pthread_join((pthread_t)(uintptr_t)main_thread, NULL);
    pthread_create(&thread, NULL, work, (void *)2);
    expect("main's number", (int)thread, (int)(uintptr_t)main_thread);
    pthread_join(thread, NULL);
    expect_fresh(2);
    tell();
    return NULL;
}

int main(void)
{
    unsigned int text = word_at_0();
    pthread_t last = 0;
    expect("main's variables", initialised, INITIAL);
    expect("of 8 bytes", aligned == 5 && (uintptr_t)&aligned % ALIGNED == 0, 1);
    expect("gp in main", (int)global_pointer(), 0);
    errno = 5;
    at_a_time();
    one_after_the_other();
    refused();
    expect("main's errno", errno, 5);
    expect("main's variable", initialised, INITIAL);
    expect("the text's first word", word_at_0() == text, 1);
    pthread_create(&last, NULL, after_main, (void *)(uintptr_t)pthread_self());
    pthread_exit(NULL);
}
