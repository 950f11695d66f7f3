/* The monitor's words. Each line that a test compares is made here, in monitor.c, or by a program. */
#include "report.h"
#include "layout.h"
#include "monitor.h"
#include "paging.h"
#include "serial.h"

void report_card(uint64_t number, const char *label)
{
    print("card ");
    print_decimal(number);
    print(" (");
    print(label);
    print("): ");
}

void report_refusal(struct loadplan_planned planned, bool memory_as_it_was)
{
    print("refused ");
    print_decimal(planned.refusal);
    if (planned.reader != 0) {
        print(", reader ");
        print_decimal(planned.reader);
    }
    print(memory_as_it_was ? "; window and monitor as they were\n" : "; MEMORY CHANGED\n");
}

void report_pages(uint64_t page, uint64_t length, uint64_t flags)
{
    print("  ");
    print_hex(page);
    print(" + ");
    print_hex(length);
    print(flags & 4 ? " r" : " -");
    print(flags & 2 ? "w" : "-");
    print(flags & 1 ? "x\n" : "-\n");
}

void report_outcome(const struct outcome *outcome)
{
    print(outcome->faulted ? "  fault " : "  ended with status ");
    print_decimal(outcome->faulted ? outcome->vector : outcome->status);
    if (outcome->faulted) {
        print(", error ");
        print_decimal(outcome->error);
        print(", address ");
        print_hex(outcome->address);
        print(", instruction ");
        print_hex(outcome->instruction);
    }
    print("\n");
}

/* Goes on with a sum of words of 8 bytes; both ends are multiples of that. Each step can be undone, so one changed word
 * changes the sum. */
static uint64_t checksum(uint64_t sum, const void *from, const void *to)
{
    for (const uint64_t *at = from; at < (const uint64_t *)to; at++)
        sum = (sum ^ *at) * 0x100000001b3;
    return sum;
}

uint64_t monitor_checksum(void)
{
    return checksum(0, monitor_start, monitor_still_end);
}

uint64_t memory_checksum(uint64_t window, const void *frame)
{
    const uint8_t *start = (const uint8_t *)window_start[window];
    uint64_t sum = checksum(0, start, start + WINDOW_LENGTH);
    sum = checksum(sum, monitor_start, monitor_stack);
    return checksum(sum, frame, monitor_end);
}
