/* The serial line: a 16550 at COM1, 115200 bits a second, polled. */
#include "serial.h"
#include "machine.h"

enum {
    COM1 = 0x3f8,
    DATA = COM1,
    INTERRUPTS = COM1 + 1,
    FIFO = COM1 + 2,
    LINE_CONTROL = COM1 + 3,
    MODEM_CONTROL = COM1 + 4,
    LINE_STATUS = COM1 + 5,
    READY_TO_SEND = 0x20
};

void serial_start(void)
{
    out8(INTERRUPTS, 0);
    out8(LINE_CONTROL, 0x80); /* the next two are the divisor: 115200 / 1 */
    out8(DATA, 1);
    out8(INTERRUPTS, 0);
    out8(LINE_CONTROL, 3); /* 8 bits, no parity, one stop bit */
    out8(FIFO, 0xc7);
    out8(MODEM_CONTROL, 3);
}

void print_byte(uint8_t byte)
{
    while ((in8(LINE_STATUS) & READY_TO_SEND) == 0)
        ;
    out8(DATA, byte);
}

void print(const char *text)
{
    while (*text != 0)
        print_byte((uint8_t)*text++);
}

static void print_number(uint64_t number, uint64_t base)
{
    char digits[20];
    int count = 0;
    do {
        digits[count++] = "0123456789abcdef"[number % base];
        number /= base;
    } while (number != 0);
    while (count > 0)
        print_byte((uint8_t)digits[--count]);
}

void print_hex(uint64_t number)
{
    print_number(number, 16);
}

void print_decimal(uint64_t number)
{
    print_number(number, 10);
}
