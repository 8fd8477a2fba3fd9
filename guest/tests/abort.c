/* The 17th handler of a thread has no room: pthread_cleanup_push, which answers nothing, stops the partition. */
#include <console.h>
#include <pthread.h>

static void put_letter(void *letter)
{
    console_put((int)letter);
}

int main(void)
{
    for (int i = 0; i < 17; i++) {
        console_put('a' + i);
        push_cleanup_handler(put_letter, (void *)'!');
    }
    return 0;
}
