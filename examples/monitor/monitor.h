/* The borders of the monitor's own parts, from the linker script, and what its files agree on. */
#ifndef MONITOR_H
#define MONITOR_H

#include <stdint.h>

enum { MOST_SEGMENTS = 16 }; /* a program with more is refused: 14 */

extern const uint8_t monitor_start[], monitor_code_end[], monitor_still_end[], monitor_end[];
extern const uint8_t monitor_stack[]; /* its lowest byte */

/* The cycle counter at the monitor's first instruction. */
extern const uint64_t cycles_at_start;

#endif
