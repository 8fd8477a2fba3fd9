/* Error numbers. POSIX.1-2017: <errno.h>, which leaves the numbers open; these are Linux's. */
#ifndef ERRNO_H
#define ERRNO_H

#ifdef __cplusplus
extern "C" {
#endif

#define EPERM 1
#define ESRCH 3
#define EAGAIN 11
#define ENOMEM 12
#define EFAULT 14
#define EBUSY 16
#define EINVAL 22
#define EDOM 33
#define ERANGE 34
#define EDEADLK 35
#define ENOSYS 38
#define EILSEQ 84
#define ENOTSUP 95
#define ETIMEDOUT 110
#define EOWNERDEAD 130
#define ENOTRECOVERABLE 131

/* Where the calling thread's error number lies. Each thread number has a place of its own, which is 0 when the program
 * starts and which a later thread of that number takes over. Call 14. POSIX.1-2017: errno. */
int *thread_errno(void);

#define errno (*thread_errno())

#ifdef __cplusplus
}
#endif

#endif
