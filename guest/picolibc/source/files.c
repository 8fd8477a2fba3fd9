/* The system's functions that picolibc's files need: there is the console, and a file system without any file that
 * cannot be written. POSIX.1-2017: the pages of these functions. */
#include <console.h>
#include <errno.h>
#include <fcntl.h>
#include <stdio.h>
#include <sys/stat.h>
#include <unistd.h>

enum { INPUT = 0, OUTPUT = 1, ERRORS = 2 }; /* the file descriptors of the console */

static int refuse(int error)
{
    errno = error;
    return -1;
}

int open(const char *path, int flags, ...)
{
    (void)path;
    return refuse((flags & O_CREAT) != 0 ? EROFS : ENOENT);
}

int close(int file)
{
    return file >= INPUT && file <= ERRORS ? 0 : refuse(EBADF);
}

/* A line at most, as from a terminal. */
ssize_t read(int file, void *to, size_t count)
{
    if (file != INPUT) {
        return refuse(EBADF);
    }
    char *bytes = to;
    size_t got = 0;
    for (int byte = 0; got < count && byte != '\n'; got++) {
        byte = getchar();
        if (byte == EOF) {
            break;
        }
        bytes[got] = (char)byte;
    }
    return (ssize_t)got;
}

ssize_t write(int file, const void *from, size_t count)
{
    if (file != OUTPUT && file != ERRORS) {
        return refuse(EBADF);
    }
    size_t put = fwrite(from, 1, count, stdout);
    return put == 0 && count > 0 ? -1 : (ssize_t)put;
}

off_t lseek(int file, off_t offset, int from)
{
    (void)offset;
    (void)from;
    return refuse(file >= INPUT && file <= ERRORS ? ESPIPE : EBADF);
}

int isatty(int file)
{
    return file >= INPUT && file <= ERRORS ? 1 : (refuse(EBADF), 0);
}

int stat(const char *restrict path, struct stat *restrict answer)
{
    (void)path;
    (void)answer;
    return refuse(ENOENT);
}

int fstat(int file, struct stat *answer)
{
    if (file < INPUT || file > ERRORS) {
        return refuse(EBADF);
    }
    *answer = (struct stat){.st_mode = S_IFCHR};
    return 0;
}

int unlink(const char *path)
{
    (void)path;
    return refuse(ENOENT);
}
