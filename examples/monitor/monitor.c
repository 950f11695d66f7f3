/* The monitor's main path: read a card, load it blind, protect, run, say what happened.
 *
 * Everything that a card could be wrong about is decided in one place: loadplan_load answers 0 and the program lies in
 * the window, byte for byte as its program headers say, or it answers a number and nothing was touched.
 */
#include <string.h>

#include "card.h"
#include "layout.h"
#include "loadplan.h"
#include "machine.h"
#include "monitor.h"
#include "paging.h"
#include "report.h"
#include "serial.h"
#include "timing.h"
#include "traps.h"

enum { ALL_WELL = 0x10, MONITOR_CHANGED = 2 };

static uint64_t number_in(const uint8_t *record, enum loadplan_record field)
{
    uint64_t number;
    memcpy(&number, record + field, sizeof number);
    return number;
}

/* Gives the program its pages as the plan's records say, and nothing else of the window. */
static void protect(uint64_t window, const uint8_t *table, uint64_t records)
{
    window_take_away(window);
    for (uint64_t k = 0; k < records; k++) {
        const uint8_t *record = table + k * LOADPLAN_RECORD_SIZE;
        uint64_t page = number_in(record, LOADPLAN_RECORD_PAGE), length = number_in(record, LOADPLAN_RECORD_LENGTH);
        uint64_t flags = number_in(record, LOADPLAN_RECORD_FLAGS);
        window_give(page, length, flags);
        report_pages(page, length, flags);
    }
}

/* Of a card that was loaded: what loads also opens. */
static uint64_t entry_point(const struct card *card)
{
    enum { TYPE = 5, ENTRY = 7, POSITION_INDEPENDENT = 3 };
    uint64_t header[23] = {0};
    loadplan_open(card->file, card->length, header);
    return header[ENTRY] + (header[TYPE] == POSITION_INDEPENDENT ? window_start[card->window] : 0);
}

static void run(const struct card *card)
{
    memset((void *)STACK, 0, STACK_LENGTH);
    struct outcome outcome = run_program(entry_point(card), STACK + STACK_LENGTH);
    report_outcome(&outcome);
}

static void load_and_run(const struct card *card)
{
    static uint8_t table[MOST_SEGMENTS * LOADPLAN_RECORD_SIZE]; /* not on the stack: it is in the checksum */
    const void *frame = __builtin_frame_address(0);
    uint64_t start = window_start[card->window];
    window_for_loading(card->window);
    uint64_t before = memory_checksum(card->window, frame);
    struct loadplan_planned planned =
        loadplan_load(card->file, card->length, start, WINDOW_LENGTH, table, sizeof table, (uint8_t *)start, WINDOW_LENGTH);
    if (planned.refusal != 0)
        return report_refusal(planned, memory_checksum(card->window, frame) == before);
    print("loaded\n");
    time_apart(card, start);
    protect(card->window, table, planned.records);
    run(card);
}

static void serve(const struct tray *tray, uint64_t number)
{
    struct card card;
    const char *wrong = card_read(tray, number, &card);
    report_card(number, card.label);
    if (wrong == 0)
        return load_and_run(&card);
    print(wrong);
    print("\n");
}

void monitor_main(void)
{
    serial_start();
    traps_start();
    paging_start();
    uint64_t own = monitor_checksum();
    struct tray tray = tray_look();
    if (tray.cards == 0)
        print("no card\n");
    for (uint64_t number = 0; number < tray.cards; number++) {
        serve(&tray, number);
        if (monitor_checksum() != own) {
            print("  MONITOR CHANGED\n");
            power_off(MONITOR_CHANGED);
        }
        print("  monitor as it was\n");
    }
    print_times();
    power_off(ALL_WELL);
}
