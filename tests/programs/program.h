/* The two system calls that a measuring program has, and the addresses that program.ld gives it. */
#ifndef PROGRAM_H
#define PROGRAM_H

#include <stdint.h>

#define HIDDEN __attribute__((visibility("hidden"))) /* so that position-independent code needs no relocation */

/* Where each part starts and ends in memory; a part has its pages alone. */
extern HIDDEN uint8_t text_start[], text_end[], constants_start[], constants_end[], data_start[], data_end[], bss_end[];

static inline _Noreturn void leave(uint64_t status)
{
    for (;;)
        __asm__ volatile("int $0x80" : : "a"(0ull), "D"(status) : "memory");
}

static inline uint64_t print_bytes(const char *bytes, uint64_t length)
{
    uint64_t answer;
    __asm__ volatile("int $0x80" : "=a"(answer) : "a"(1ull), "D"(bytes), "S"(length) : "memory");
    return answer;
}

static inline void print(const char *text)
{
    uint64_t length = 0;
    while (text[length] != 0)
        length++;
    print_bytes(text, length);
}

static inline void print_hex(uint64_t number)
{
    char digits[16];
    int from = 16;
    do {
        digits[--from] = "0123456789abcdef"[number & 15];
        number >>= 4;
    } while (number != 0);
    print_bytes(digits + from, (uint64_t)(16 - from));
}

#endif
