/* The end of the program by EBREAK. It stands alone, since picolibc has an abort too. */
#include <stdlib.h>

/* The profile has no signals, so nobody could catch SIGABRT. */
void abort(void)
{
    __asm__ volatile("ebreak");
    __builtin_unreachable();
}
