/* The destructors of thread-local objects in C++ (the Itanium C++ ABI leaves them to the system): each thread has a list
 * of its own, which a key's destructor goes through at the thread's end, and exit in the thread that calls it. Where the
 * section has no key left, the objects of threads other than that are not destroyed. */
#include <pthread.h>
#include <stdlib.h>

namespace {

struct entry {
    void (*destructor)(void *);
    void *object;
    entry *next;
};

thread_local entry *entries = nullptr;

pthread_key_t key;
bool has_key = false;
bool is_at_exit = false;

void destroy_mine()
{
    while (entries != nullptr) {
        entry *last = entries;
        entries = last->next;
        last->destructor(last->object);
        free(last);
    }
}

void destroy_at_end(void *)
{
    destroy_mine();
}

void set_up()
{
    has_key = pthread_key_create(&key, destroy_at_end) == 0;
}

} // namespace

__attribute__((section(".preinit_array"), used)) static void (*const before_main)() = set_up;

extern "C" int __cxa_thread_atexit(void (*destructor)(void *), void *object, void *)
{
    entry *it = static_cast<entry *>(malloc(sizeof(entry)));
    if (it == nullptr) {
        return -1;
    }
    *it = {destructor, object, entries};
    entries = it;
    if (has_key) {
        pthread_setspecific(key, it);
    }
    if (!is_at_exit) { /* only now, so that exit calls it before the destructors of older static objects */
        is_at_exit = true;
        atexit(destroy_mine);
    }
    return 0;
}
