/* The console, byte by byte: calls 1 and 2. */
#include <console.h>
#include <stdint.h>

#include "call.h"

int console_put(int byte)
{
    return call_with(CALL_CONSOLE_PUT, (unsigned int)byte).error;
}

int console_get(unsigned char *byte)
{
    struct reply reply = call_with(CALL_CONSOLE_GET, 0);
    if (reply.error == 0) {
        *byte = (unsigned char)reply.first;
    }
    return reply.error;
}
