/* What the monitor says on the serial line, and the checksums that let it say "as it was". */
#ifndef REPORT_H
#define REPORT_H

#include <stdbool.h>
#include <stdint.h>

#include "loadplan.h"
#include "traps.h"

void report_card(uint64_t number, const char *label);
void report_refusal(struct loadplan_planned planned, bool memory_as_it_was);
void report_pages(uint64_t page, uint64_t length, uint64_t flags);
void report_outcome(const struct outcome *outcome);

/* Over the monitor from its first byte of code to the last table that stands still: code, constants, page tables,
 * segments, gates. What a program or a loader must never change. */
uint64_t monitor_checksum(void);

/* Over a window that is open for loading and all memory of the monitor, its variables and the windows' page tables too, but
 * for the stack below `frame`, on which the function with that frame and those that it calls work. */
uint64_t memory_checksum(uint64_t window, const void *frame);

#endif
