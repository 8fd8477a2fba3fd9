/* Integer types: the compiler's. POSIX.1-2017: <stdint.h>. */
#ifndef STDINT_H
#define STDINT_H

#include <stdint-gcc.h>

#endif
