/* The program that was there before: leaves no byte of the window as it found it. Its code and its constants are
 * linked to fill their pages; all that it may write, to the window's end, it fills with aa hex. */
#include "program.h"

static uint8_t room[WRITABLE_BYTES];

void start(void)
{
    for (uint8_t *at = data_start - 0x340; at < room + sizeof room; at++)
        *at = 0xaa;
    print("  program: the window is full of old bytes\n");
    leave(0);
}
