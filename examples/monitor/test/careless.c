/* How not to do it: a loader written for this test to have the two faults, to show that the test would see them.
 *
 * It copies each segment to where its header says and clears the difference of the two sizes; it asks neither how long
 * the file is nor where the window ends, and leaves the rest of each page as it was. It turns the monitor's write
 * protection off, as in monitors that have none, unless KEEP_PROTECTION is defined. The test links it in place of
 * loadplan_load, on the same cards.
 */
#include <string.h>

#include "layout.h"
#include "loadplan.h"

struct program_header {
    uint32_t type, flags;
    uint64_t offset, address, physical, file_size, memory_size, alignment;
};

struct loadplan_planned careless_load(const uint8_t *file, size_t file_len, uint64_t window_start, uint64_t window_length, uint8_t *table,
                                      size_t table_len, uint8_t *memory, size_t memory_len);

static void write_protection_off(void)
{
#ifndef KEEP_PROTECTION
    uint64_t cr0;
    __asm__ volatile("mov %%cr0, %0; and $~0x10000, %0; mov %0, %%cr0" : "=&r"(cr0) : : "memory");
#endif
}

static uint64_t put_record(const struct program_header *header, uint8_t *to)
{
    uint64_t page = header->address & -(uint64_t)PAGE;
    uint64_t end = (header->address + header->memory_size + PAGE - 1) & -(uint64_t)PAGE;
    uint64_t record[6] = {page, end - page, header->flags, header->address, header->file_size, header->offset};
    memcpy(to, record, sizeof record);
    return 1;
}

struct loadplan_planned careless_load(const uint8_t *file, size_t file_len, uint64_t window_start, uint64_t window_length, uint8_t *table,
                                      size_t table_len, uint8_t *memory, size_t memory_len)
{
    (void)file_len, (void)table_len, (void)memory, (void)memory_len;
    struct loadplan_planned planned = {0, 0, 0};
    write_protection_off();
    for (int k = 0; k < 3; k++) {
        struct program_header header;
        memcpy(&header, file + 64 + 56 * k, sizeof header);
        uint8_t *at = (uint8_t *)header.address;
        memcpy(at, file + header.offset, header.file_size);
        memset(at + header.file_size, 0, header.memory_size - header.file_size);
        if (header.address - window_start < window_length)
            planned.records += put_record(&header, table + LOADPLAN_RECORD_SIZE * planned.records);
    }
    return planned;
}
