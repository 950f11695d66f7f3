/* Checks its own memory: data as linked, .bss zero, and zero everywhere else on the pages that it was given, whatever the
 * window held before. Says what it found, and exits with 0 only if all of it is so. Runs at any address. */
#include "program.h"

#define PAGE 0x1000ull

/* Byte k of the data is 7 k + 3; they end inside a page. */
__asm__(".data\n"
        ".hidden pattern, pattern_end\n"
        ".globl pattern, pattern_end\n"
        "pattern:\n"
        ".set k, 0\n"
        ".rept 1000\n"
        ".byte (7 * k + 3) & 255\n"
        ".set k, k + 1\n"
        ".endr\n"
        "pattern_end:\n"
        ".text\n");
extern HIDDEN uint8_t pattern[], pattern_end[];

static uint8_t zeros[5000];

static uint8_t *page_start(uint8_t *at)
{
    return at - ((uint64_t)at & (PAGE - 1));
}

static uint8_t *page_end(uint8_t *at)
{
    return page_start(at + PAGE - 1);
}

/* Says where the first byte that isn't 0 lies, if there is one. Answers how many there are. */
static uint64_t stale_bytes(const char *where, const uint8_t *from, const uint8_t *to)
{
    uint64_t count = 0;
    const uint8_t *first = to;
    for (const uint8_t *at = from; at < to; at++)
        if (*at != 0 && count++ == 0)
            first = at;
    if (count != 0) {
        print("  program: stale bytes ");
        print(where);
        print(", first at ");
        print_hex((uint64_t)first);
        print("\n");
    }
    return count;
}

static uint64_t wrong_data(void)
{
    uint64_t count = 0;
    for (uint64_t k = 0; k < (uint64_t)(pattern_end - pattern); k++)
        if (pattern[k] != ((7 * k + 3) & 255))
            count++;
    if (count != 0)
        print("  program: data not as linked\n");
    return count;
}

void start(void)
{
    uint64_t wrong = wrong_data();
    wrong += stale_bytes("in .bss", zeros, zeros + sizeof zeros);
    wrong += stale_bytes("behind the code", text_end, page_end(text_end));
    wrong += stale_bytes("behind the constants", constants_end, page_end(constants_end));
    wrong += stale_bytes("in front of the data", page_start(data_start), data_start);
    wrong += stale_bytes("behind .bss", bss_end, page_end(bss_end));
    print("  program at ");
    print_hex((uint64_t)text_start);
    print(wrong == 0 ? ": data as linked, .bss zero, the rest of each page zero\n" : ": memory is not as linked\n");
    leave(wrong != 0);
}
