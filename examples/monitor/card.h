/* The card: a header sector, then an ELF file.
 *
 * Header sector: "LOADCARD", then numbers of 8 bytes, lowest byte first: the file's length in bytes, the window it is for
 * (0 or 1); then 40 bytes of label, ended by a zero byte. From the next sector on the file. A disk may instead be a tray
 * of cards, for tests and for service: sector 0 is "CARDTRAY", how many cards, how many sectors each has; then the cards.
 */
#ifndef CARD_H
#define CARD_H

#include <stdint.h>

enum { LABEL = 40 };

struct card {
    const uint8_t *file;
    uint64_t length;
    uint64_t window;
    char label[LABEL];
};

struct tray {
    uint64_t first_sector;
    uint64_t cards;
    uint64_t sectors_each;
};

/* What is in the disk drive: a tray, or one card. No disk at all is a tray without cards. */
struct tray tray_look(void);

/* Reads card `number`; answers 0, or what is wrong with it, as text. What the header says is tested, not believed. */
const char *card_read(const struct tray *tray, uint64_t number, struct card *card);

#endif
