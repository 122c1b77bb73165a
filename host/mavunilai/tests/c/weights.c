/* What the header promises of weights, tried on a station's and on an observer's book: which opening refuses, that the
 * weights then stand in the head, that a mask is a quorum for the library where it is one for the header, and that a
 * book of edition 1 works and stays one. Says what fails, and ends with the count of it. */
#include <string.h>

#include "editions.h"
#include "expect.h"
#include "mavunilai.h"

#define LENGTH MAVUNILAI_BOOK(1)
#define OBSERVER MAVUNILAI_OBSERVER_BOOK(1)
#define STATIONS 4
#define ROOM MAVUNILAI_WEIGHTS(MAVUNILAI_MOST_STATIONS + 1u)

#define REFUSED(call) mavunilai_refusal(call)

static const uint8_t leaders[1] = {0};

/* Both kinds of book, with every byte 0x5a. */
static uint8_t station[LENGTH], observer[OBSERVER];

static void scribble(void) {
    memset(station, 0x5a, LENGTH);
    memset(observer, 0x5a, OBSERVER);
}

/* Whether no byte of either has changed since. */
static int untouched(void) {
    uint8_t before[LENGTH];
    memset(before, 0x5a, LENGTH);
    return memcmp(station, before, LENGTH) == 0 && memcmp(observer, before, OBSERVER) == 0;
}

/* Opens both over n stations with so many bytes of weights; the refusal, if it is that of both, else 99. */
static unsigned open_both(uint64_t n, const uint8_t *weights, size_t length) {
    unsigned of_station, of_observer;
    scribble();
    of_station = REFUSED(mavunilai_open(station, LENGTH, n, 0, 1, weights, length, leaders, 1));
    of_observer = REFUSED(mavunilai_observer_open(observer, OBSERVER, n, 1, weights, length));
    if (of_station != 0 && !untouched()) {
        return 99;
    }
    return of_station == of_observer ? of_station : 99;
}

/* Opens both over weights as numbers. */
static unsigned open_numbers(const uint16_t *numbers, size_t n) {
    uint8_t weights[ROOM];
    mavunilai_make_weights(weights, numbers, n);
    return open_both(n, weights, MAVUNILAI_WEIGHTS(n));
}

/* A weight is 1 to 1000, at every station. */
static void ranges(void) {
    static const uint16_t good[] = {1, 2, 255, 256, 257, 999, 1000}, bad[] = {0, 1001, 1002, 1024, 32768, 65535};
    uint16_t numbers[MAVUNILAI_MOST_STATIONS];
    size_t n, at, which;
    for (n = 1; n <= MAVUNILAI_MOST_STATIONS; n++) {
        for (at = 0; at < n; at++) {
            for (which = 0; which < n; which++) {
                numbers[which] = 1;
            }
            for (which = 0; which < sizeof good / sizeof *good; which++) {
                numbers[at] = good[which];
                EXPECT(open_numbers(numbers, n) == 0);
                EXPECT(mavunilai_weight(station, (unsigned)at) == good[which]);
                EXPECT(mavunilai_total_weight(observer) == n - 1 + good[which]);
            }
            for (which = 0; which < sizeof bad / sizeof *bad; which++) {
                numbers[at] = bad[which];
                EXPECT(open_numbers(numbers, n) == MAVUNILAI_REFUSED_OUT_OF_RANGE);
            }
        }
    }
}

/* There are n weights, no more and no fewer, whatever n is; and 2 comes before 1. */
static void lengths(void) {
    uint8_t weights[ROOM];
    uint64_t n;
    size_t length;
    for (length = 0; length < ROOM; length++) {
        weights[length] = length % 2 == 0;
    }
    for (n = 0; n <= MAVUNILAI_MOST_STATIONS + 1u; n++) {
        for (length = 0; length <= ROOM; length++) {
            int fits = n >= 1 && n <= MAVUNILAI_MOST_STATIONS && length == MAVUNILAI_WEIGHTS(n);
            EXPECT(open_both(n, weights, length) == (fits ? 0 : MAVUNILAI_REFUSED_OUT_OF_RANGE));
        }
    }
    EXPECT(open_both(STATIONS, NULL, 0) == MAVUNILAI_REFUSED_OUT_OF_RANGE);
    EXPECT(open_both(UINT64_MAX, weights, 2) == MAVUNILAI_REFUSED_OUT_OF_RANGE);
    EXPECT(open_both(UINT64_MAX / 2 + 1, NULL, 0) == MAVUNILAI_REFUSED_OUT_OF_RANGE); /* twice this is 0 */
    EXPECT(open_both(UINT64_MAX / 2 + 2, weights, 2) == MAVUNILAI_REFUSED_OUT_OF_RANGE);
    EXPECT(REFUSED(mavunilai_open(station, 9, 4, 0, 1, weights, 7, leaders, 1)) == MAVUNILAI_REFUSED_OUT_OF_RANGE);
    EXPECT(REFUSED(mavunilai_open(station, 9, 4, 0, 1, weights, 8, leaders, 1)) == MAVUNILAI_REFUSED_UNSOUND);
    EXPECT(REFUSED(mavunilai_observer_open(observer, 9, 4, 1, weights, 7)) == MAVUNILAI_REFUSED_OUT_OF_RANGE);
    EXPECT(REFUSED(mavunilai_observer_open(observer, 9, 4, 1, weights, 8)) == MAVUNILAI_REFUSED_UNSOUND);
    EXPECT(untouched());
}

/* The weights stand in the head, low byte first, and nothing behind them but the heights. */
static void heads(void) {
    static const uint16_t numbers[STATIONS] = {1000, 1, 256, 513};
    static const uint8_t expected[32] = {0xe8, 3, 1, 0, 0, 1, 1, 2};
    EXPECT(open_numbers(numbers, STATIONS) == 0);
    EXPECT(station[MAVUNILAI_HEAD_EDITION] == MAVUNILAI_EDITION_LONG);
    EXPECT(observer[MAVUNILAI_HEAD_EDITION] == MAVUNILAI_EDITION_LONG);
    EXPECT(memcmp(station + MAVUNILAI_HEAD_WEIGHTS, expected, sizeof expected) == 0);
    EXPECT(memcmp(observer + MAVUNILAI_HEAD_WEIGHTS, expected, sizeof expected) == 0);
    EXPECT(mavunilai_total_weight(station) == 1770 && mavunilai_needed_weight(observer) == 1180);
}

/* What the library says to a blank certificate with this mask, on copies of both books; 99 if not the same. */
static unsigned certified(uint8_t mask) {
    uint8_t frame[MAVUNILAI_FRAME] = {MAVUNILAI_KIND_BLANK_CERTIFICATE, 0, 1, 0}, one[LENGTH], two[OBSERVER];
    unsigned of_station, of_observer;
    frame[MAVUNILAI_FRAME_MASK] = mask;
    memcpy(one, station, LENGTH);
    memcpy(two, observer, OBSERVER);
    of_station = REFUSED(mavunilai_deliver(one, LENGTH, frame, sizeof frame));
    of_observer = REFUSED(mavunilai_observer_deliver(two, OBSERVER, frame, sizeof frame));
    return of_station == of_observer ? of_station : 99;
}

/* A mask is a quorum for the library where it is one for the header; these masks, a bit each, are. */
static void quorums(const uint16_t *numbers, unsigned expected) {
    unsigned mask;
    EXPECT(open_numbers(numbers, STATIONS) == 0);
    for (mask = 0; mask < 16; mask++) {
        int quorum = mavunilai_quorum(station, mask);
        EXPECT(quorum == mavunilai_quorum(observer, mask));
        EXPECT(quorum == (mavunilai_mask_weight(station, mask) >= mavunilai_needed_weight(station)));
        EXPECT(quorum == (int)(expected >> mask & 1u));
        EXPECT(certified((uint8_t)mask) == (quorum ? 0 : MAVUNILAI_REFUSED_NO_QUORUM));
    }
    EXPECT(!mavunilai_quorum(station, 31) && certified(31) == MAVUNILAI_REFUSED_NO_SUCH_SIGNER);
}

/* Two thirds by weight and not by number: as many as three small ones may be too few, and one large one enough. */
static void edges(void) {
    static const uint16_t equal[STATIONS] = {1, 1, 1, 1}, large[STATIONS] = {10, 1, 1, 1};
    static const uint16_t exact[STATIONS] = {3, 1, 1, 1}, below[STATIONS] = {500, 999, 1000, 1000};
    quorums(equal, 1u << 7 | 1u << 11 | 1u << 13 | 1u << 14 | 1u << 15);
    quorums(large, 0xaaaa); /* each mask with station 0: 10 of 13, 9 needed */
    quorums(exact, 1u << 3 | 1u << 5 | 1u << 7 | 1u << 9 | 1u << 11 | 1u << 13 | 1u << 15); /* 4 of 6, 4 needed */
    quorums(below, 1u << 7 | 1u << 11 | 1u << 13 | 1u << 14 | 1u << 15); /* 2000 of 3499 are not, 2333 needed */
}

/* Both books are sound as they are, or neither is. */
static int sound(int are) {
    unsigned expected = are ? 0 : MAVUNILAI_REFUSED_UNSOUND;
    return REFUSED(mavunilai_size(station, LENGTH)) == expected &&
           REFUSED(mavunilai_observer_size(observer, OBSERVER)) == expected;
}

/* Whether both books are sound with this byte of the head changed; it is then put back. */
static int sound_with(size_t at, uint8_t value, int are) {
    uint8_t of_station = station[at], of_observer = observer[at];
    int as_told;
    station[at] = observer[at] = value;
    as_told = sound(are);
    station[at] = of_station;
    observer[at] = of_observer;
    return as_told;
}

/* What a head must not hold: another edition, a weight out of range, one of a station that is not there. */
static void heads_not_sound(void) {
    static const uint16_t numbers[STATIONS] = {1, 1, 1, 1000};
    size_t at;
    EXPECT(open_numbers(numbers, STATIONS) == 0 && sound(1));
    EXPECT(sound_with(MAVUNILAI_HEAD_EDITION, 0, 0) && sound_with(MAVUNILAI_HEAD_EDITION, 4, 0));
    EXPECT(sound_with(MAVUNILAI_HEAD_EDITION, MAVUNILAI_EDITION_UNWEIGHED, 0));
    EXPECT(sound_with(MAVUNILAI_HEAD_EDITION, MAVUNILAI_EDITION_WEIGHED, 0));
    EXPECT(sound_with(MAVUNILAI_HEAD_WEIGHTS, 0, 0) && sound_with(MAVUNILAI_HEAD_WEIGHTS, 2, 1));
    EXPECT(sound_with(MAVUNILAI_HEAD_WEIGHTS + 6, 0xe9, 0) && sound_with(MAVUNILAI_HEAD_WEIGHTS + 6, 0xe7, 1));
    for (at = MAVUNILAI_HEAD_WEIGHTS + MAVUNILAI_WEIGHTS(STATIONS); at < MAVUNILAI_HEAD_LONG_HEIGHTS; at++) {
        EXPECT(sound_with(at, 1, 0));
    }
}

/* Makes both books of edition 1, as they were opened before there were weights. */
static void of_edition_1(void) {
    static const uint16_t numbers[STATIONS] = {1, 1, 1, 1};
    EXPECT(open_numbers(numbers, STATIONS) == 0);
    put_edition(station, MAVUNILAI_EDITION_UNWEIGHED);
    put_edition(observer, MAVUNILAI_EDITION_UNWEIGHED);
}

/* A book of edition 1 is read as all weights 1, works, and stays of edition 1; weights have no place in it. */
static void edition_1(void) {
    uint8_t frame[MAVUNILAI_FRAME] = {MAVUNILAI_KIND_BLANK_CERTIFICATE, 0, 1, 0, 7}, reply[MAVUNILAI_MOVE_REPLY];
    static const uint8_t none[56] = {0};
    size_t at;
    of_edition_1();
    EXPECT(sound(1) && mavunilai_weight(station, 3) == 1 && mavunilai_weight(observer, 4) == 0);
    EXPECT(mavunilai_total_weight(station) == 4 && mavunilai_needed_weight(observer) == 3);
    EXPECT(mavunilai_quorum(station, 14) && !mavunilai_quorum(observer, 12));
    EXPECT(certified(14) == 0 && certified(12) == MAVUNILAI_REFUSED_NO_QUORUM);
    for (at = MAVUNILAI_HEAD_WEIGHTS; at < MAVUNILAI_PENDING_AT; at++) {
        EXPECT(sound_with(at, 1, 0));
    }
    EXPECT(mavunilai_fresh(mavunilai_deliver(station, LENGTH, frame, sizeof frame)) == 1);
    EXPECT(mavunilai_fresh(mavunilai_observer_deliver(observer, OBSERVER, frame, sizeof frame)) == 1);
    EXPECT(mavunilai_made(mavunilai_move(station, LENGTH, reply, sizeof reply)) == MAVUNILAI_MOVE_PASS);
    EXPECT(station[MAVUNILAI_HEAD_EDITION] == MAVUNILAI_EDITION_UNWEIGHED && mavunilai_current(station) == 2);
    EXPECT(observer[MAVUNILAI_HEAD_EDITION] == MAVUNILAI_EDITION_UNWEIGHED && sound(1));
    EXPECT(memcmp(station + MAVUNILAI_HEAD_WEIGHTS, none, sizeof none) == 0);
    EXPECT(memcmp(observer + MAVUNILAI_HEAD_WEIGHTS, none, sizeof none) == 0);
}

int main(void) {
    EXPECT(mavunilai_fits());
    ranges();
    lengths();
    heads();
    edges();
    heads_not_sound();
    edition_1();
    return failures == 0 ? 0 : 1;
}
