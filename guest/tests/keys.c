/* Keys and each thread's values: calls 50 to 53. The section has room for 3 keys. */
#include <errno.h>
#include <pthread.h>

#include "expect.h"

static pthread_key_t key;
static int destroyed = 0;

static void add_to_destroyed(void *value)
{
    destroyed += *(const int *)value;
}

/* The value is this thread's own: NULL, until it sets one. */
static void *set_value(void *value)
{
    expect("a new thread's value", pthread_getspecific(key) == NULL, 1);
    expect("set", pthread_setspecific(key, value), 0);
    expect("get", pthread_getspecific(key) == value, 1);
    return NULL;
}

static void values(void)
{
    int here = 1;
    int there = 20;
    pthread_t thread = 0;
    expect("create a key", pthread_key_create(&key, add_to_destroyed), 0);
    expect("its value", pthread_getspecific(key) == NULL, 1);
    expect("set", pthread_setspecific(key, &here), 0);
    pthread_create(&thread, NULL, set_value, &there);
    pthread_join(thread, NULL);
    expect("the destructor of the other's value", destroyed, 20);
    expect("the value here stays", pthread_getspecific(key) == &here, 1);
    pthread_create(&thread, NULL, set_value, NULL);
    pthread_join(thread, NULL);
    expect("no destructor of NULL", destroyed, 20);
    expect("delete", pthread_key_delete(key), 0);
    expect("delete calls none", destroyed, 20);
    expect("the value of no key", pthread_getspecific(key) == NULL, 1);
    expect("set of no key", pthread_setspecific(key, &here), EINVAL);
    expect("delete of no key", pthread_key_delete(key), EINVAL);
}

static void full(void)
{
    pthread_key_t keys[3] = {0, 0, 0};
    pthread_key_t one_more = 77;
    for (int i = 0; i < 3; i++) {
        expect("create up to the limit", pthread_key_create(&keys[i], NULL), 0);
        expect("its value is NULL, also where a key had that number", pthread_getspecific(keys[i]) == NULL, 1);
    }
    expect("create above the limit", pthread_key_create(&one_more, NULL), EAGAIN);
    expect("no key is stored", (int)one_more, 77);
    pthread_setspecific(keys[1], &one_more);
    expect("delete", pthread_key_delete(keys[1]), 0);
    expect("create with room", pthread_key_create(&one_more, NULL), 0);
    expect("the old key's value is dropped", pthread_getspecific(one_more) == NULL, 1);
}

int main(void)
{
    values();
    full();
    return tell();
}
