/* Writes to its own code, which may only be read and executed: a signal must end it. */
#include "system.h"

void _start(void)
{
    *(volatile char *)_start = 0;
    end(0);
}
