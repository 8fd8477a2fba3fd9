/* Scheduling: picolibc's policies, and the functions that the profile has. POSIX.1-2017: <sched.h>. */
#ifndef PTK_SCHED_H
#define PTK_SCHED_H

#include_next <sched.h>

#ifdef __cplusplus
extern "C" {
#endif

/* Puts the calling thread behind all ready threads of its priority. Returns 0. Call 15.
 * POSIX.1-2017: sched_yield. */
int sched_yield(void);

/* The greatest priority of a policy, 32 for SCHED_FIFO and SCHED_RR. No call.
 * Errors (-1, errno): EINVAL another policy. POSIX.1-2017: sched_get_priority_max. */
int sched_get_priority_max(int policy);

/* The least priority of a policy, 1 for SCHED_FIFO and SCHED_RR. No call.
 * Errors (-1, errno): EINVAL another policy. POSIX.1-2017: sched_get_priority_min. */
int sched_get_priority_min(int policy);

#ifdef __cplusplus
}
#endif

#endif
