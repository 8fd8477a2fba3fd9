/* picolibc's header, and the options of which the profile has the functions that its headers declare. POSIX.1-2017:
 * <unistd.h>. */
#ifndef PTK_UNISTD_H
#define PTK_UNISTD_H

#include_next <unistd.h>

#include <options.h>

#endif
