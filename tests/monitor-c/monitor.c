/* A monitor without a C library, an operating system's only use of which is to write a line and to end: it loads the sample
 * into a window and looks at every byte. It shows that the archive links where there is nothing but four functions on bytes.
 *
 *     cc -std=c99 -ffreestanding -nostdlib -static -Iinclude tests/monitor-c/monitor.c libloadplan.a
 *
 * It ends with 0 if all is as it should be, else with the number of the first thing that is not. */
#include "loadplan.h"
#include "sample.h"

enum { WINDOW_START = 0x400000, WINDOW_LENGTH = 0x2000, CODE = 0xb8, DATA_AT = 0x10b8, DATA = 8 };

static uint8_t memory[WINDOW_LENGTH];
static uint8_t table[2 * LOADPLAN_RECORD_SIZE];

/* The functions that the archive asks of its host. */
void *memset(void *to, int value, size_t length)
{
    for (size_t i = 0; i < length; i++)
        ((volatile uint8_t *)to)[i] = (uint8_t)value;
    return to;
}

void *memcpy(void *to, const void *from, size_t length)
{
    for (size_t i = 0; i < length; i++)
        ((volatile uint8_t *)to)[i] = ((const uint8_t *)from)[i];
    return to;
}

void *memmove(void *to, const void *from, size_t length)
{
    if ((uintptr_t)to <= (uintptr_t)from)
        return memcpy(to, from, length);
    while (length-- > 0)
        ((volatile uint8_t *)to)[length] = ((const uint8_t *)from)[length];
    return to;
}

int memcmp(const void *one, const void *other, size_t length)
{
    for (size_t i = 0; i < length; i++) {
        int difference = ((const uint8_t *)one)[i] - ((const uint8_t *)other)[i];
        if (difference != 0)
            return difference;
    }
    return 0;
}

static uint64_t number(const uint8_t *record, size_t at)
{
    uint64_t value = 0;
    for (size_t i = 8; i-- > 0;)
        value = value << 8 | record[at + i];
    return value;
}

/* What the memory must hold at an offset after loading. */
static uint8_t expected(size_t at)
{
    if (at < CODE)
        return sample[at];
    if (at >= DATA_AT && at < DATA_AT + DATA)
        return sample[CODE + at - DATA_AT];
    return 0;
}

static int loads(void)
{
    struct loadplan_planned planned =
        loadplan_load(sample, sizeof sample, WINDOW_START, WINDOW_LENGTH, table, sizeof table, memory, sizeof memory);
    const uint8_t *second = table + LOADPLAN_RECORD_SIZE;
    if (planned.refusal != LOADPLAN_OK || planned.records != 2)
        return 1;
    for (size_t i = 0; i < sizeof memory; i++)
        if (memory[i] != expected(i))
            return 2;
    if (number(table, LOADPLAN_RECORD_FLAGS) != 5 || number(second, LOADPLAN_RECORD_FLAGS) != 6)
        return 3;
    if (number(second, LOADPLAN_RECORD_PAGE) != 0x401000 || number(second, LOADPLAN_RECORD_AT) != 0x4010b8)
        return 4;
    return 0;
}

/* A refused file leaves memory and table as they were. */
static int refuses(void)
{
    for (size_t length = 0; length < sizeof sample; length++) {
        struct loadplan_planned planned =
            loadplan_load(sample, length, WINDOW_START, WINDOW_LENGTH, table, sizeof table, memory, sizeof memory);
        if (planned.refusal == LOADPLAN_OK)
            return 5;
    }
    for (size_t i = 0; i < sizeof memory; i++)
        if (memory[i] != 0xaa)
            return 6;
    for (size_t i = 0; i < sizeof table; i++)
        if (table[i] != 0xaa)
            return 7;
    return 0;
}

__attribute__((noreturn)) static void end(int status)
{
    for (;;)
        __asm__ volatile("syscall" : : "a"(60L), "D"((long)status) : "rcx", "r11", "memory");
}

__attribute__((force_align_arg_pointer)) void _start(void)
{
    memset(memory, 0xaa, sizeof memory);
    memset(table, 0xaa, sizeof table);
    int fault = refuses();
    end(fault != 0 ? fault : loads());
}
