/* Lines of two threads of SCHED_RR whose turns are shorter than a line: each stands whole. */
#include <pthread.h>
#include <stdio.h>

/* Puts four lines by four functions. */
static void *put_lines(void *text)
{
    puts(text);
    printf("%s %d %x\n", (const char *)text, -12345, 0xC0FFEEU);
    puts(text);
    printf("%10s|%-10s|\n", (const char *)text, (const char *)text);
    return NULL;
}

int main(void)
{
    pthread_attr_t attributes;
    pthread_t threads[2];
    pthread_attr_init(&attributes);
    pthread_attr_setinheritsched(&attributes, PTHREAD_EXPLICIT_SCHED);
    pthread_attr_setschedpolicy(&attributes, SCHED_RR);
    pthread_create(&threads[0], &attributes, put_lines, "aaaaaaaa");
    pthread_create(&threads[1], &attributes, put_lines, "bbbbbbbb");
    pthread_join(threads[0], NULL);
    pthread_join(threads[1], NULL);
    return 0;
}
