/* What is called before main and at exit, by its order, and main's words: constructors, destructors, atexit. It tells
 * by letters; the order is C's and the compiler's (the GCC manual, "constructor"): constructors of lower priorities
 * first, those without one last; at exit what atexit was given, the last first, then destructors in the other order. */
#include <stdio.h>
#include <stdlib.h>
#include <string.h>

static char letters[16] = "";

static void pass(char letter)
{
    letters[strlen(letters)] = letter;
}

__attribute__((constructor)) static void third(void)
{
    pass('c');
}

__attribute__((constructor(200))) static void second(void)
{
    pass('b');
}

/* The heap is there before constructors are called. */
__attribute__((constructor(101))) static void first(void)
{
    char *text = malloc(2);
    if (text != NULL) {
        strcpy(text, "a");
        pass(*text);
    }
    free(text);
}

__attribute__((destructor(101))) static void last(void)
{
    puts(letters);
}

__attribute__((destructor)) static void before_last(void)
{
    pass('f');
}

static void at_exit_first(void)
{
    pass('e');
}

static void at_exit_second(void)
{
    pass('d');
}

char *guest_words[] = {"beginning", "-v", "two words", NULL};

int main(int count, char **words)
{
    printf("%s %d\n", letters, count);
    for (int i = 0; i < count; i++) {
        printf("[%s]", words[i]);
    }
    printf(words[count] == NULL ? "\n" : "?\n");
    if (atexit(at_exit_first) != 0 || atexit(at_exit_second) != 0) {
        puts("atexit");
    }
}
