/* Who may do what with which page: the processor enforces it, for the program and for the monitor itself. */
#ifndef PAGING_H
#define PAGING_H

#include <stdbool.h>
#include <stdint.h>

enum { WINDOWS = 2 };

extern const uint64_t window_start[WINDOWS];

/* Puts the monitor's own protections in force: code executable, constants and still tables read-only, the rest writable. */
void paging_start(void);

/* For loading: the window is the monitor's alone, writable, not executable; the other window is gone. */
void window_for_loading(uint64_t window);

/* For running: takes the window away from everybody; then window_give gives page by page to the program what the plan's
 * records say. `flags`: 1 executable, 2 writable, 4 readable; it must not be writable and executable. */
void window_take_away(uint64_t window);
void window_give(uint64_t page, uint64_t length, uint64_t flags);

/* Whether the program itself may read all of these bytes. */
bool program_may_read(uint64_t address, uint64_t length);

#endif
