/* What is called at exit: atexit, and what C++ has in its place for the destructors of static objects. */
#include <pthread.h>
#include <stdlib.h>

enum { HANDLERS = 32 }; /* as many as C demands */

struct handler {
    void (*routine)(void *);
    void *argument;
};

void *__dso_handle = NULL; /* which C++ gives to __cxa_atexit: there is one program alone */

static pthread_mutex_t lock = PTHREAD_MUTEX_INITIALIZER;
static struct handler handlers[HANDLERS];
static int count = 0;

int __cxa_atexit(void (*routine)(void *), void *argument, void *program);
void call_exit_handlers(void);

int __cxa_atexit(void (*routine)(void *), void *argument, void *program)
{
    (void)program;
    pthread_mutex_lock(&lock);
    int answer = -1;
    if (count < HANDLERS) {
        handlers[count] = (struct handler){routine, argument};
        count++;
        answer = 0;
    }
    pthread_mutex_unlock(&lock);
    return answer;
}

/* The calling convention lets a routine without parameters be called with one. */
int atexit(void (*routine)(void))
{
    return __cxa_atexit((void (*)(void *))routine, NULL, NULL);
}

void call_exit_handlers(void)
{
    while (count > 0) {
        count--;
        handlers[count].routine(handlers[count].argument);
    }
}
