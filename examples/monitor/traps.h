/* Running a program, and what becomes of it. */
#ifndef TRAPS_H
#define TRAPS_H

#include <stdbool.h>
#include <stdint.h>

/* How a program came back: by its own exit, or by a fault. */
struct outcome {
    bool faulted;
    uint64_t status;      /* its exit's */
    uint64_t vector;      /* the fault's: 6 invalid instruction, 13 general protection, 14 page fault, .. */
    uint64_t error;       /* the processor's error code; of a page fault: 1 a protection, 2 a write, 4 by the program, 16 a fetch */
    uint64_t address;     /* a page fault's */
    uint64_t instruction; /* where it happened */
};

/* Installs segments, the task segment and the interrupt table; before paging_start, which makes them read-only. */
void traps_start(void);

/* Runs a program until it exits or faults. */
struct outcome run_program(uint64_t entry, uint64_t stack_end);

/* The cycle counter at the first byte that any program printed; 0 before. */
extern uint64_t cycles_at_first_output;

#endif
