/* Reads cards from the disk into the card buffer. The bytes behind the file in the buffer are whatever lay there: the
 * file's length is what counts, and everything that reads the file is handed that length. */
#include <string.h>

#include "card.h"
#include "disk.h"
#include "layout.h"
#include "paging.h"

enum { MAGIC = 8, LENGTH_AT = 8, WINDOW_AT = 16, LABEL_AT = 24 };

static uint64_t number_at(const uint8_t *bytes)
{
    uint64_t number;
    memcpy(&number, bytes, sizeof number);
    return number;
}

struct tray tray_look(void)
{
    uint8_t sector[SECTOR];
    if (!disk_read(0, 1, sector))
        return (struct tray){0, 0, 0};
    if (memcmp(sector, "CARDTRAY", MAGIC) != 0)
        return (struct tray){0, 1, 0};
    return (struct tray){1, number_at(sector + 8), number_at(sector + 16)};
}

static void copy_label(char *to, const uint8_t *from)
{
    for (int k = 0; k < LABEL; k++)
        to[k] = from[k] == 0 || (from[k] >= ' ' && from[k] <= '~') ? (char)from[k] : '?';
    to[LABEL - 1] = 0;
}

const char *card_read(const struct tray *tray, uint64_t number, struct card *card)
{
    uint8_t header[SECTOR];
    uint64_t sector = tray->first_sector + number * tray->sectors_each;
    card->label[0] = 0;
    if (!disk_read(sector, 1, header))
        return "can't be read";
    if (memcmp(header, "LOADCARD", MAGIC) != 0)
        return "no card header";
    copy_label(card->label, header + LABEL_AT);
    card->file = (const uint8_t *)CARD_BUFFER;
    card->length = number_at(header + LENGTH_AT);
    card->window = number_at(header + WINDOW_AT);
    if (card->window >= WINDOWS)
        return "no such window";
    if (card->length > CARD_BUFFER_LENGTH)
        return "longer than the card buffer";
    if (!disk_read(sector + 1, (card->length + SECTOR - 1) / SECTOR, (uint8_t *)CARD_BUFFER))
        return "can't be read";
    return 0;
}
