/* The instructions that C has no words for. */
#ifndef MACHINE_H
#define MACHINE_H

#include <stdint.h>

static inline void out8(uint16_t port, uint8_t value)
{
    __asm__ volatile("outb %0, %1" : : "a"(value), "Nd"(port));
}

static inline uint8_t in8(uint16_t port)
{
    uint8_t value;
    __asm__ volatile("inb %1, %0" : "=a"(value) : "Nd"(port));
    return value;
}

static inline void in16_many(uint16_t port, void *to, uint64_t count)
{
    __asm__ volatile("rep insw" : "+D"(to), "+c"(count) : "d"(port) : "memory");
}

/* The processor's cycle counter, which starts at 0 with the machine. */
static inline uint64_t cycles(void)
{
    uint32_t low, high;
    __asm__ volatile("lfence; rdtsc" : "=a"(low), "=d"(high) : : "memory");
    return (uint64_t)high << 32 | low;
}

static inline uint64_t page_fault_address(void)
{
    uint64_t value;
    __asm__ volatile("mov %%cr2, %0" : "=r"(value));
    return value;
}

/* Installs page tables; this also drops every remembered translation. */
static inline void use_page_tables(const void *top)
{
    __asm__ volatile("mov %0, %%cr3" : : "r"(top) : "memory");
}

/* Leaves the emulator through its exit device with status 2 * code + 1; on a machine without one, stops. */
static inline _Noreturn void power_off(uint8_t code)
{
    out8(0xf4, code);
    for (;;)
        __asm__ volatile("cli; hlt");
}

#endif
