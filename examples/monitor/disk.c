/* The ATA driver: the first disk of the first channel, 28-bit sector numbers, programmed input, polled. */
#include "disk.h"
#include "machine.h"

enum {
    DATA = 0x1f0,
    SECTOR_COUNT = 0x1f2,
    ADDRESS_LOW = 0x1f3,
    ADDRESS_MIDDLE = 0x1f4,
    ADDRESS_HIGH = 0x1f5,
    DRIVE = 0x1f6,
    COMMAND = 0x1f7,
    STATUS = 0x1f7,
    CONTROL = 0x3f6, /* written: control; read: the status once more */
    NO_INTERRUPTS = 2,
    FIRST_DISK_BY_SECTOR_NUMBER = 0xe0,
    READ_SECTORS = 0x20,
    BUSY = 0x80,
    DATA_READY = 0x08,
    FAULTS = 0x21, /* device fault, error */
    SECTOR_NUMBERS = 1 << 28,
    PATIENCE = 10000000 /* polls before a disk that stays busy counts as broken */
};

/* The status is valid only 400 ns after a disk was chosen or told what to do; a read of a port takes 100. */
static void settle(void)
{
    for (int k = 0; k < 4; k++)
        in8(CONTROL);
}

/* Waits until the disk has data or a fault; answers whether it has data. */
static bool data_comes(void)
{
    settle();
    for (int polls = 0; polls < PATIENCE; polls++) {
        uint8_t status = in8(STATUS);
        if (status & BUSY)
            continue;
        if (status & FAULTS)
            return false;
        if (status & DATA_READY)
            return true;
    }
    return false;
}

static bool read_one(uint32_t number, uint8_t *to)
{
    out8(CONTROL, NO_INTERRUPTS);
    out8(DRIVE, (uint8_t)(FIRST_DISK_BY_SECTOR_NUMBER | number >> 24));
    settle();
    out8(SECTOR_COUNT, 1);
    out8(ADDRESS_LOW, (uint8_t)number);
    out8(ADDRESS_MIDDLE, (uint8_t)(number >> 8));
    out8(ADDRESS_HIGH, (uint8_t)(number >> 16));
    out8(COMMAND, READ_SECTORS);
    if (!data_comes())
        return false;
    in16_many(DATA, to, SECTOR / 2);
    return true;
}

bool disk_read(uint64_t first, uint64_t count, uint8_t *to)
{
    if (first > SECTOR_NUMBERS || count > SECTOR_NUMBERS - first)
        return false;
    for (uint64_t k = 0; k < count; k++)
        if (!read_one((uint32_t)(first + k), to + k * SECTOR))
            return false;
    return true;
}
