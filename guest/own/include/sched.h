/* Scheduling. POSIX.1-2017: <sched.h>, of which the profile has what stands here. */
#ifndef SCHED_H
#define SCHED_H

#include <sys/types.h>
#include <time.h>

#ifdef __cplusplus
extern "C" {
#endif

#define SCHED_FIFO 1
#define SCHED_RR 2 /* a turn has the `interval` of the partition's section */

struct sched_param {
    int sched_priority; /* 1 to 32 */
};

/* Puts the calling thread behind all ready threads of its priority. Returns 0. Call 15.
 * POSIX.1-2017: sched_yield. */
int sched_yield(void);

/* The greatest priority of a policy, 32 for both. No call.
 * Errors (-1, errno): EINVAL another policy. POSIX.1-2017: sched_get_priority_max. */
int sched_get_priority_max(int policy);

/* The least priority of a policy, 1 for both. No call.
 * Errors (-1, errno): EINVAL another policy. POSIX.1-2017: sched_get_priority_min. */
int sched_get_priority_min(int policy);

#ifdef __cplusplus
}
#endif

#endif
