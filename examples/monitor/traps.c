/* Segments, interrupts and system calls: the walls between the program and the monitor.
 *
 * A program runs on privilege level 3 with interrupts off and no right to any port. Two system calls, by int 80 hex:
 * rax 0 exits with status rdi; rax 1 prints the rsi bytes at rdi, and answers in rax how many it printed (0 where the
 * program could not have read them itself). Anything else it does out of turn is a fault, and ends it.
 */
#include "traps.h"
#include "layout.h"
#include "machine.h"
#include "paging.h"
#include "serial.h"

#define STILL __attribute__((section(".bss.still"), aligned(16)))

/* What interrupts.S pushes, lowest address first; from `instruction` on it is the processor. */
struct frame {
    uint64_t r15, r14, r13, r12, r11, r10, r9, r8, rbp, rdi, rsi, rdx, rcx, rbx, rax;
    uint64_t vector, error;
    uint64_t instruction, code_selector, flags, stack, stack_selector;
};

struct task {
    uint32_t unused;
    uint64_t monitor_stack; /* where the processor puts the stack when it leaves a program */
    uint64_t unused_too[11];
    uint16_t unused_as_well, port_rights; /* beyond the segment's end: no rights */
} __attribute__((packed));

struct gate {
    uint16_t low, selector, attributes, middle;
    uint32_t high, unused;
};

struct table_pointer {
    uint16_t limit;
    const void *table;
} __attribute__((packed));

enum { GATES = 256, FAULTS = 32, MONITOR_ONLY = 0x8e00, PROGRAM_TOO = 0xee00, SYSTEM_EXIT = 0, SYSTEM_PRINT = 1 };

static STILL uint64_t segments[7];
static STILL struct task task;
static STILL struct gate gates[GATES];
static uint8_t interrupt_stack[0x2000] __attribute__((aligned(16)));
static struct outcome outcome;
uint64_t cycles_at_first_output;

extern const uint64_t interrupt_entries[FAULTS];
void system_call_entry(void);
void enter_program(uint64_t entry, uint64_t stack_end);
_Noreturn void leave_program(void);
void on_interrupt(struct frame *frame);

static void set_gate(int vector, uint64_t entry, uint16_t attributes)
{
    gates[vector] = (struct gate){(uint16_t)entry, MONITOR_CODE_SELECTOR, attributes, (uint16_t)(entry >> 16), (uint32_t)(entry >> 32), 0};
}

static void set_segments(void)
{
    uint64_t at = (uint64_t)&task;
    segments[MONITOR_CODE_SELECTOR / 8] = 0x00af9b000000ffff;
    segments[MONITOR_DATA_SELECTOR / 8] = 0x00cf93000000ffff;
    segments[PROGRAM_DATA_SELECTOR / 8] = 0x00cff3000000ffff;
    segments[PROGRAM_CODE_SELECTOR / 8] = 0x00affb000000ffff;
    segments[TASK_SELECTOR / 8] = (sizeof task - 1) | (at & 0xffffff) << 16 | 0x89ull << 40 | (at >> 24 & 0xff) << 56;
    segments[TASK_SELECTOR / 8 + 1] = at >> 32;
    task.monitor_stack = (uint64_t)(interrupt_stack + sizeof interrupt_stack);
    task.port_rights = sizeof task;
}

void traps_start(void)
{
    set_segments();
    for (int vector = 0; vector < FAULTS; vector++)
        set_gate(vector, interrupt_entries[vector], MONITOR_ONLY);
    set_gate(SYSTEM_CALL_VECTOR, (uint64_t)system_call_entry, PROGRAM_TOO);
    struct table_pointer segments_at = {sizeof segments - 1, segments}, gates_at = {sizeof gates - 1, gates};
    __asm__ volatile("lgdt %0; lidt %1; ltr %w2" : : "m"(segments_at), "m"(gates_at), "r"(TASK_SELECTOR) : "memory");
}

struct outcome run_program(uint64_t entry, uint64_t stack_end)
{
    enter_program(entry, stack_end);
    return outcome;
}

static uint64_t print_for_program(uint64_t address, uint64_t length)
{
    if (!program_may_read(address, length))
        return 0;
    if (cycles_at_first_output == 0)
        cycles_at_first_output = cycles();
    for (uint64_t k = 0; k < length; k++)
        print_byte(((const uint8_t *)address)[k]);
    return length;
}

static void fault(const struct frame *frame)
{
    uint64_t address = frame->vector == 14 ? page_fault_address() : 0;
    outcome = (struct outcome){true, 0, frame->vector, frame->error, address, frame->instruction};
}

/* The monitor's own code did something that it must not: nothing it would do from here on could be trusted. */
static _Noreturn void stop_in_monitor(const struct frame *frame)
{
    print("MONITOR FAULT ");
    print_decimal(frame->vector);
    print(", error ");
    print_decimal(frame->error);
    print(", address ");
    print_hex(page_fault_address());
    print("\n");
    power_off(1);
}

void on_interrupt(struct frame *frame)
{
    if ((frame->code_selector & 3) == 0)
        stop_in_monitor(frame);
    if (frame->vector != SYSTEM_CALL_VECTOR) {
        fault(frame);
        leave_program();
    }
    if (frame->rax == SYSTEM_EXIT) {
        outcome = (struct outcome){.status = frame->rdi};
        leave_program();
    }
    frame->rax = frame->rax == SYSTEM_PRINT ? print_for_program(frame->rdi, frame->rsi) : 0;
}
