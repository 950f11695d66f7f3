/* Position independent, without relocations: writes its own address as 16 hexadecimal digits, counts its words of data, and
 * ends with status 7 if they are as they should be. */
#include "system.h"

static int words[4] = { 1, 2, 3, 4 };
static int sum;

void _start(void)
{
    unsigned long address = (unsigned long)_start;
    char line[17];
    for (int digit = 0; digit < 16; digit++) {
        line[15 - digit] = "0123456789abcdef"[address & 15];
        address >>= 4;
    }
    line[16] = '\n';
    write_out(line, sizeof line);
    for (int i = 0; i < 4; i++)
        sum += ((volatile int *)words)[i];
    end(sum == 10 ? 7 : 1);
}
