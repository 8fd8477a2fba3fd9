/* The one translation of numbers between the kernel and picolibc. Policies, and what <pthread.h> defines, have the
 * kernel's numbers with both libraries; flags of clock_nanosleep are compared by their names alone. */
#include "numbers.h"

#include <errno.h>
#include <time.h>

/* The kernel's numbers: docs/GUEST_ABI.md. */
enum kernel_error {
    KERNEL_EPERM = 1,
    KERNEL_ESRCH = 3,
    KERNEL_EAGAIN = 11,
    KERNEL_ENOMEM = 12,
    KERNEL_EFAULT = 14,
    KERNEL_EBUSY = 16,
    KERNEL_EINVAL = 22,
    KERNEL_EDEADLK = 35,
    KERNEL_ENOSYS = 38,
    KERNEL_ENOTSUP = 95,
    KERNEL_ETIMEDOUT = 110,
    KERNEL_EOWNERDEAD = 130,
    KERNEL_ENOTRECOVERABLE = 131,
};

enum kernel_clock {
    KERNEL_REALTIME = 0,
    KERNEL_MONOTONIC = 1,
    KERNEL_NO_CLOCK = 0x7FFFFFFF,
};

static const struct {
    unsigned char kernel;
    unsigned char here;
} errors[] = {
    {KERNEL_EPERM, EPERM},
    {KERNEL_ESRCH, ESRCH},
    {KERNEL_EAGAIN, EAGAIN},
    {KERNEL_ENOMEM, ENOMEM},
    {KERNEL_EFAULT, EFAULT},
    {KERNEL_EBUSY, EBUSY},
    {KERNEL_EINVAL, EINVAL},
    {KERNEL_EDEADLK, EDEADLK},
    {KERNEL_ENOSYS, ENOSYS},
    {KERNEL_ENOTSUP, ENOTSUP},
    {KERNEL_ETIMEDOUT, ETIMEDOUT},
    {KERNEL_EOWNERDEAD, EOWNERDEAD},
    {KERNEL_ENOTRECOVERABLE, ENOTRECOVERABLE},
};

int error_number(unsigned int number)
{
    if (number == 0) {
        return 0;
    }
    for (size_t i = 0; i < sizeof errors / sizeof errors[0]; i++) {
        if (errors[i].kernel == number) {
            return errors[i].here;
        }
    }
    return (int)(__ELASTERROR + number);
}

unsigned int clock_number(clockid_t clock)
{
    switch (clock) {
    case CLOCK_REALTIME:
        return KERNEL_REALTIME;
    case CLOCK_MONOTONIC:
        return KERNEL_MONOTONIC;
    default:
        return KERNEL_NO_CLOCK;
    }
}
