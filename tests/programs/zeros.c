/* Memory that must be zero starts behind the data in the same page and goes on for pages. Ends with status 0 if every byte
 * of it is zero, else with 1. The loader fills memory with something else before, so that this does not happen by chance. */
#include "system.h"

static char data[8] = "data...\n";
static char zeros[20000];

void _start(void)
{
    volatile char *first = zeros;
    int same_page = ((unsigned long)data ^ (unsigned long)zeros) < 4096;
    int nonzero = 0;
    for (unsigned long i = 0; i < sizeof zeros; i++)
        nonzero |= first[i];
    write_out(data, sizeof data);
    end(nonzero ? 1 : same_page ? 0 : 2);
}
