/* Options and the end of the program. POSIX.1-2017: <unistd.h>, of which the profile has what stands here. */
#ifndef UNISTD_H
#define UNISTD_H

#include <options.h>
#include <sys/types.h>

#ifdef __cplusplus
extern "C" {
#endif

/* Halts the partition as `exit N`, N being the low 8 bits of `status`: all its threads stop, no cleanup handler and no
 * destructor is called. Does not return. Call 0. POSIX.1-2017: _exit. */
void _exit(int status) __attribute__((__noreturn__));

#ifdef __cplusplus
}
#endif

#endif
