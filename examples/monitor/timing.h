/* What loading costs, in cycles. */
#ifndef TIMING_H
#define TIMING_H

#include <stdint.h>

#include "card.h"

/* Does what loadplan_load does in two steps, planning for the window at `start` and carrying out into memory of its own,
 * and keeps the cycles of each. */
void time_apart(const struct card *card, uint64_t start);

/* Prints the cycles from the machine's reset to the first output, and those of the last card that was loaded; nothing
 * where no program printed anything. */
void print_times(void);

#endif
