/* Makes books of older editions out of new ones, as no call does: for tests. */
#ifndef EDITIONS_H
#define EDITIONS_H

#include <string.h>

#include "mavunilai.h"

/* Makes a new book of edition 3, a station's or an observer's, one of an older edition that says the same: its heights
 * are in one byte each, and edition 1 has no weights. The book must have heights that fit. */
static void put_edition(uint8_t *book, uint8_t edition) {
    unsigned heights = mavunilai_heights(book), current = mavunilai_current(book), settled = mavunilai_settled(book);
    size_t kept = edition == MAVUNILAI_EDITION_UNWEIGHED ? MAVUNILAI_HEAD_WEIGHTS : MAVUNILAI_HEAD_LONG_HEIGHTS;
    memset(book + kept, 0, MAVUNILAI_PENDING_AT - kept);
    book[MAVUNILAI_HEAD_EDITION] = edition;
    book[MAVUNILAI_HEAD_SHORT_HEIGHTS] = (uint8_t)heights;
    book[MAVUNILAI_HEAD_SHORT_CURRENT] = (uint8_t)current;
    book[MAVUNILAI_HEAD_SHORT_SETTLED] = (uint8_t)settled;
}

#endif
