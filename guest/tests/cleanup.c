/* Cleanup handlers and destructors at a thread's end. */
#include <errno.h>
#include <pthread.h>

#include "order.h"

static pthread_key_t first_key;
static pthread_key_t second_key;

static void pass_letter(void *letter)
{
    pass((char)(uintptr_t)letter);
}

/* A destructor that sets its own key again, each time with the next letter. */
static void pass_and_set(void *letter)
{
    pass_letter(letter);
    pthread_setspecific(first_key, (void *)((uintptr_t)letter + 1));
}

static void end_within(void)
{
    pthread_cleanup_push(pass_letter, (void *)'c');
    pthread_exit((void *)8);
    pthread_cleanup_pop(0);
}

static void *end_by_exit(void *unused)
{
    pthread_cleanup_push(pass_letter, (void *)'a');
    pthread_cleanup_push(pass_letter, (void *)'b');
    end_within();
    pthread_cleanup_pop(0);
    pthread_cleanup_pop(0);
    return unused;
}

static void *end_by_return(void *unused)
{
    pthread_cleanup_push(pass_letter, (void *)'a');
    pthread_cleanup_push(pass_letter, (void *)'b');
    pthread_cleanup_pop(1);
    pthread_cleanup_pop(0);
    pass('r');
    return unused;
}

static void *end_with_keys(void *unused)
{
    pthread_setspecific(second_key, (void *)'x');
    pthread_setspecific(first_key, (void *)'1');
    pthread_cleanup_push(pass_letter, (void *)'h');
    pthread_exit(unused);
    pthread_cleanup_pop(0);
    return unused;
}

static void *end_by_request(void *unused)
{
    pthread_cleanup_push(pass_letter, (void *)'a');
    pthread_cleanup_push(pass_letter, (void *)'b');
    clock_nanosleep(CLOCK_REALTIME, TIMER_ABSTIME, &(struct timespec){1000, 0}, NULL);
    pthread_cleanup_pop(0);
    pthread_cleanup_pop(0);
    return unused;
}

static void *push_sixteen(void *unused)
{
    for (int i = 0; i < 16; i++) {
        push_cleanup_handler(pass_letter, (void *)('a' + i));
    }
    pthread_exit(unused);
}

static int result_of(void *(*routine)(void *), int is_cancelled)
{
    pthread_t thread = 0;
    void *result = NULL;
    expect("create", pthread_create(&thread, NULL, routine, NULL), 0);
    sched_yield();
    if (is_cancelled) {
        expect("cancel", pthread_cancel(thread), 0);
    }
    expect("join", pthread_join(thread, &result), 0);
    return (int)result;
}

int main(void)
{
    expect("pthread_exit", result_of(end_by_exit, 0), 8);
    expect_order("the last pushed first", "cba");
    expect("return", result_of(end_by_return, 0), 0);
    expect_order("called by pop(1), not by pop(0)", "br");
    expect("cancelled", result_of(end_by_request, 1) == (int)PTHREAD_CANCELED, 1);
    expect_order("the last pushed first", "ba");
    expect("sixteen", result_of(push_sixteen, 0), 0);
    expect_order("sixteen, the last pushed first", "ponmlkjihgfedcba");
    expect("a key", pthread_key_create(&first_key, pass_and_set), 0);
    expect("a second key", pthread_key_create(&second_key, pass_letter), 0);
    expect("with keys", result_of(end_with_keys, 0), 0);
    expect_order("handlers, then destructors in four rounds", "h1x234");
    return tell();
}
