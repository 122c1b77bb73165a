/* What the header promises of entries that a chain carries again, tried on a station's and on an observer's book: size
 * and read count each once, at its first place, and a buffer needs room for no more. Says what fails, and ends with the
 * count of it. */
#include <string.h>

#include "expect.h"
#include "mavunilai.h"

#define LENGTH MAVUNILAI_BOOK(1)
#define OBSERVER MAVUNILAI_OBSERVER_BOOK(1)
#define ROOM (6 * MAVUNILAI_ENTRY)

/* The entries of the page by their letters, 0 for one of zeros, and of the register that it makes. */
static const char carried[] = {'a', 'b', 'a', 0, 'b', 0};
static const char filed[] = {'a', 'b', 0};

/* Writes entries by their letters; the first byte of each is 1, or 0 in one of zeros. */
static void entries(uint8_t *to, const char *letters, size_t count) {
    size_t at;
    for (at = 0; at < count; at++) {
        memset(to + at * MAVUNILAI_ENTRY, letters[at], MAVUNILAI_ENTRY);
        to[at * MAVUNILAI_ENTRY] = letters[at] != 0;
    }
}

/* Whether a buffer of 0xbb that was lent with this length has the register at its front, and 0xbb past it. */
static int holds(const uint8_t *buffer, uint64_t length, uint64_t part) {
    uint8_t expected[ROOM];
    memset(expected, 0xbb, ROOM);
    if (length >= sizeof filed * MAVUNILAI_ENTRY) {
        entries(expected, filed, sizeof filed);
        return part == sizeof filed * MAVUNILAI_ENTRY && memcmp(buffer, expected, ROOM) == 0;
    }
    return part == 0 && memcmp(buffer, expected, ROOM) == 0;
}

int main(void) {
    static const uint8_t weights[MAVUNILAI_WEIGHTS(1)] = {1, 0}, leaders[1] = {0};
    uint8_t page[MAVUNILAI_FRAME] = {MAVUNILAI_KIND_PAGE_CERTIFICATE, 0, 1, 0, 1}, *body = page + MAVUNILAI_FRAME_PAGE;
    uint8_t finalise[MAVUNILAI_FRAME] = {MAVUNILAI_KIND_FINALISE_CERTIFICATE, 0, 1, 0, 1};
    uint8_t book[LENGTH], observer[OBSERVER], reply[MAVUNILAI_MOVE_REPLY], buffer[ROOM];
    size_t length;
    body[MAVUNILAI_PAGE_HEIGHT] = 1;
    body[MAVUNILAI_PAGE_COUNT] = sizeof carried;
    entries(body + MAVUNILAI_PAGE_ENTRIES, carried, sizeof carried);
    EXPECT(mavunilai_fits());
    EXPECT(mavunilai_open(book, LENGTH, 1, 0, 1, weights, 2, leaders, 1).packed == 0);
    EXPECT(mavunilai_observer_open(observer, OBSERVER, 1, 1, weights, 2).packed == 0);
    EXPECT(mavunilai_fresh(mavunilai_deliver(book, LENGTH, page, sizeof page)) == 1);
    EXPECT(mavunilai_fresh(mavunilai_deliver(book, LENGTH, finalise, sizeof finalise)) == 1);
    EXPECT(mavunilai_fresh(mavunilai_observer_deliver(observer, OBSERVER, page, sizeof page)) == 1);
    EXPECT(mavunilai_fresh(mavunilai_observer_deliver(observer, OBSERVER, finalise, sizeof finalise)) == 1);
    EXPECT(mavunilai_made(mavunilai_move(book, LENGTH, reply, sizeof reply)) == MAVUNILAI_MOVE_SETTLE);
    EXPECT(mavunilai_made(mavunilai_observer_move(observer, OBSERVER)) == MAVUNILAI_MOVE_SETTLE);
    EXPECT(mavunilai_bytes(mavunilai_size(book, LENGTH)) == sizeof filed * MAVUNILAI_ENTRY);
    EXPECT(mavunilai_bytes(mavunilai_observer_size(observer, OBSERVER)) == sizeof filed * MAVUNILAI_ENTRY);
    for (length = 0; length <= ROOM; length++) {
        memset(buffer, 0xbb, ROOM);
        EXPECT(holds(buffer, length, mavunilai_read(book, LENGTH, buffer, length)));
        memset(buffer, 0xbb, ROOM);
        EXPECT(holds(buffer, length, mavunilai_observer_read(observer, OBSERVER, buffer, length)));
    }
    EXPECT(mavunilai_refusal(mavunilai_submit(book, LENGTH, body + MAVUNILAI_PAGE_ENTRIES, MAVUNILAI_ENTRY)) ==
           MAVUNILAI_REFUSED_ENTRY_KNOWN);
    return failures == 0 ? 0 : 1;
}
