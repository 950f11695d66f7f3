/* The disk controller's first disk, which is where the card sits. */
#ifndef DISK_H
#define DISK_H

#include <stdbool.h>
#include <stdint.h>

enum { SECTOR = 512 };

/* Reads `count` sectors from number `first` on. Answers false where the disk can't: no disk, beyond its end, a fault. */
bool disk_read(uint64_t first, uint64_t count, uint8_t *to);

#endif
