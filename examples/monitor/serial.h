/* The serial line (COM1): text out, nothing in. */
#ifndef SERIAL_H
#define SERIAL_H

#include <stdint.h>

void serial_start(void);
void print_byte(uint8_t byte);
void print(const char *text);
void print_hex(uint64_t number);
void print_decimal(uint64_t number);

#endif
