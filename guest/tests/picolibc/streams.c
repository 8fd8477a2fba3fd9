/* The console as stdin and stdout: "7 words\nsecond line\nx", a byte 4, which is the end of input, and "y\n". */
#include <errno.h>
#include <fcntl.h>
#include <signal.h>
#include <stdio.h>
#include <stdlib.h>
#include <time.h>
#include <unistd.h>

#include "../expect.h"

static volatile int handled = 0;

static void handle(int signal)
{
    handled = signal;
}

static void input(void)
{
    int number = 0;
    char word[12] = "";
    char line[20] = "";
    expect("scanf", scanf("%d %11s", &number, word), 2);
    expect("its number", number, 7);
    expect("its word", strcmp(word, "words"), 0);
    expect("the newline", getchar(), '\n');
    expect("fgets", fgets(line, sizeof line, stdin) == line && strcmp(line, "second line\n") == 0, 1);
    expect("getchar", getchar(), 'x');
    expect("ungetc", ungetc('w', stdin), 'w');
    expect("then", getchar(), 'w');
    expect("the end", getchar(), EOF);
    expect("feof", feof(stdin) != 0, 1);
    clearerr(stdin);
    expect("read goes on behind it, to the end of a line", (int)read(0, line, sizeof line), 2);
    expect("what it read", memcmp(line, "y\n", 2), 0);
}

static void output(void)
{
    expect("putchar", putchar('p'), 'p');
    expect("putc, the function", (putc)('u', stdout), 'u');
    expect("puts", puts("ts") >= 0, 1);
    expect("fputs to stderr", fputs("errors\n", stderr) >= 0, 1);
    expect("fwrite", (int)fwrite("abcdef\n", 1, 7, stdout), 7);
    expect("write", (int)write(1, "written\n", 8), 8);
    expect("printf", printf("%d %s\n", 12, "and more"), 12);
    char text[8];
    expect("snprintf", snprintf(text, sizeof text, "%05d|%x", -42, 0xABCU), 9);
    expect("its text", strcmp(text, "-0042|a"), 0);
}

/* There are no files. */
static void files(void)
{
    errno = 0;
    expect("fopen", fopen("a", "r") == NULL, 1);
    expect("its error", errno, ENOENT);
    expect("open of a new file", open("a", O_WRONLY | O_CREAT), -1);
    expect("its error", errno, EROFS);
    expect("close of none", close(5), -1);
    expect("its error", errno, EBADF);
    expect("lseek on the console", (int)lseek(0, 0, SEEK_SET), -1);
    expect("its error", errno, ESPIPE);
    expect("isatty", isatty(1), 1);
    expect("unlink", unlink("a"), -1);
}

static void rest(void)
{
    expect("time", (int)time(NULL), 0);
    clock_t start = clock();
    for (volatile int i = 0; i < 100; i++) {
    }
    expect("clock goes on", clock() > start, 1);
    expect("raise to a handler", signal(SIGUSR1, handle) == SIG_ERR, 0);
    raise(SIGUSR1);
    expect("it came", handled, SIGUSR1);
    expect("getpid", getpid() > 0, 1);
}

int main(void)
{
    input();
    output();
    files();
    rest();
    int status = tell();
    raise(status == 0 ? SIGTERM : SIGABRT); /* exit 128 + 15: 143 */
}
