/* Page tables: one for the monitor, one for each window, one for the program's stack; one large page for the card's file.
 *
 * All but the windows' tables are built once and stand still afterwards: they lie among the pages that paging_start makes
 * read-only, and that the monitor's checksum covers. The processor notes in an entry that it was used; still entries
 * have these notes set from the start, so that the checksum does not see them.
 */
#include "paging.h"
#include "layout.h"
#include "machine.h"
#include "monitor.h"

enum {
    ENTRIES = 512,
    PRESENT = 1,
    WRITABLE = 2,
    PROGRAM = 4, /* privilege level 3 may use it; without, only the monitor */
    USED = 0x20 | 0x40,
    LARGE = 0x80
};
#define NOT_EXECUTABLE (1ull << 63)

typedef uint64_t page_table[ENTRIES] __attribute__((aligned(PAGE)));
#define STILL __attribute__((section(".bss.still")))

static STILL page_table top, gigabytes, regions, monitor_pages, stack_pages;
static page_table window_pages[WINDOWS];

const uint64_t window_start[WINDOWS] = {WINDOW_A, WINDOW_B};

static void map(uint64_t *table, uint64_t from, uint64_t to, uint64_t bits)
{
    for (uint64_t page = from; page < to; page += PAGE)
        table[page / PAGE % ENTRIES] = page | bits;
}

/* A table below another one: what it allows is all left to its own entries, but for who may use it at all. */
static void hang(uint64_t *above, uint64_t number, const uint64_t *below, uint64_t who)
{
    above[number] = (uint64_t)below | PRESENT | WRITABLE | USED | who;
}

static void map_monitor(void)
{
    uint64_t start = (uint64_t)monitor_start, code_end = (uint64_t)monitor_code_end;
    uint64_t still_end = (uint64_t)monitor_still_end, end = (uint64_t)monitor_end;
    map(monitor_pages, start, code_end, PRESENT | USED);
    map(monitor_pages, code_end, still_end, PRESENT | USED | NOT_EXECUTABLE);
    map(monitor_pages, still_end, end, PRESENT | WRITABLE | USED | NOT_EXECUTABLE);
}

void paging_start(void)
{
    map_monitor();
    map(stack_pages, STACK, STACK + STACK_LENGTH, PRESENT | WRITABLE | PROGRAM | USED | NOT_EXECUTABLE);
    hang(regions, MONITOR_START / LARGE_PAGE, monitor_pages, 0);
    regions[CARD_BUFFER / LARGE_PAGE] = CARD_BUFFER | PRESENT | WRITABLE | USED | LARGE | NOT_EXECUTABLE;
    for (uint64_t w = 0; w < WINDOWS; w++)
        hang(regions, window_start[w] / LARGE_PAGE, window_pages[w], PROGRAM);
    hang(regions, STACK / LARGE_PAGE, stack_pages, PROGRAM);
    hang(gigabytes, 0, regions, PROGRAM);
    hang(top, 0, gigabytes, PROGRAM);
    use_page_tables(top);
}

void window_take_away(uint64_t window)
{
    for (int k = 0; k < ENTRIES; k++)
        window_pages[window][k] = 0;
    use_page_tables(top);
}

void window_for_loading(uint64_t window)
{
    for (uint64_t w = 0; w < WINDOWS; w++)
        window_take_away(w);
    map(window_pages[window], window_start[window], window_start[window] + WINDOW_LENGTH, PRESENT | WRITABLE | NOT_EXECUTABLE);
    use_page_tables(top);
}

/* The table that has the entries of an address that a program could own, or none. */
static uint64_t *table_of(uint64_t address)
{
    for (uint64_t w = 0; w < WINDOWS; w++)
        if (address / LARGE_PAGE == window_start[w] / LARGE_PAGE)
            return window_pages[w];
    return address / LARGE_PAGE == STACK / LARGE_PAGE ? stack_pages : 0;
}

/* The page is in a window: a plan has no others. */
void window_give(uint64_t page, uint64_t length, uint64_t flags)
{
    uint64_t bits = PRESENT | PROGRAM;
    if (flags & 2)
        bits |= WRITABLE;
    if ((flags & 1) == 0)
        bits |= NOT_EXECUTABLE;
    map(table_of(page), page, page + length, bits);
    use_page_tables(top);
}

bool program_may_read(uint64_t address, uint64_t length)
{
    if (length > WINDOW_LENGTH || address + length < address)
        return false;
    for (uint64_t page = address & -(uint64_t)PAGE; page < address + length; page += PAGE) {
        const uint64_t *table = table_of(page);
        if (table == 0 || (~table[page / PAGE % ENTRIES] & (PRESENT | PROGRAM)) != 0)
            return false;
    }
    return true;
}
