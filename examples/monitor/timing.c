/* Measures with the processor's cycle counter. In an emulator these are cycles of the machine below it. */
#include "timing.h"
#include "layout.h"
#include "loadplan.h"
#include "machine.h"
#include "monitor.h"
#include "serial.h"
#include "traps.h"

static uint8_t memory[WINDOW_LENGTH];
static uint64_t plan_cycles, carry_out_cycles;

void time_apart(const struct card *card, uint64_t start)
{
    uint8_t table[MOST_SEGMENTS * LOADPLAN_RECORD_SIZE];
    uint64_t begin = cycles();
    struct loadplan_planned planned = loadplan_plan(card->file, card->length, start, WINDOW_LENGTH, table, sizeof table);
    uint64_t middle = cycles();
    loadplan_carry_out(card->file, card->length, start, WINDOW_LENGTH, table, sizeof table, planned.records, memory, sizeof memory);
    uint64_t end = cycles();
    plan_cycles = middle - begin;
    carry_out_cycles = end - middle;
}

static void print_time(const char *what, uint64_t count)
{
    print("time: ");
    print_decimal(count);
    print(" cycles ");
    print(what);
    print("\n");
}

void print_times(void)
{
    if (cycles_at_first_output == 0)
        return;
    print_time("from reset to the first output of a program", cycles_at_first_output);
    print_time("of these before the monitor's first instruction", cycles_at_start);
    print_time("for the plan of the last card loaded", plan_cycles);
    print_time("for carrying it out", carry_out_cycles);
}
