/* What the header promises of heights, tried on a thread with 512 KB of stack: how many a book may have, by edition and
 * kind; where the head has them; that a height has two bytes in frames, pages, arguments and answers; and the longest
 * register. Says what fails, and ends with the count of it. */
#define _XOPEN_SOURCE 600 /* pthread_attr_setstacksize */
#include <pthread.h>
#include <string.h>

#include "editions.h"
#include "expect.h"
#include "mavunilai.h"

#define STATIONS 4
#define STACK (512u * 1024u)

#define REFUSED(call) mavunilai_refusal(call)

static const uint8_t weights[MAVUNILAI_WEIGHTS(STATIONS)] = {1, 0, 1, 0, 1, 0, 1, 0};
static const unsigned some_heights[] = {1, 2, 63, 64, 255, 256, 257, 999, 1000};

/* Both kinds of book, with a room more; the leaders; what calls write to. */
static uint8_t station[MAVUNILAI_BOOK(MAVUNILAI_MOST_HEIGHTS + 1u)];
static uint8_t observer[MAVUNILAI_OBSERVER_BOOK(MAVUNILAI_MOST_HEIGHTS + 1u)];
static uint8_t leaders[MAVUNILAI_MOST_HEIGHTS + 1u], reply[MAVUNILAI_MOVE_REPLY], frame[MAVUNILAI_FRAME];

/* Opens both with so many heights; the refusal, if it is that of both, else 99. */
static unsigned open_both(unsigned heights) {
    unsigned of_station, of_observer;
    memset(station, 0x5a, sizeof station);
    memset(observer, 0x5a, sizeof observer);
    of_station = REFUSED(mavunilai_open(station, MAVUNILAI_BOOK(heights), STATIONS, 2, heights, weights,
                                        sizeof weights, leaders, heights));
    of_observer = REFUSED(mavunilai_observer_open(observer, MAVUNILAI_OBSERVER_BOOK(heights), STATIONS, heights,
                                                  weights, sizeof weights));
    return of_station == of_observer ? of_station : 99;
}

/* Whether both books of so many heights are sound, or neither is. */
static int sound(unsigned heights, int are) {
    unsigned expected = are ? 0 : MAVUNILAI_REFUSED_UNSOUND;
    return REFUSED(mavunilai_size(station, MAVUNILAI_BOOK(heights))) == expected &&
           REFUSED(mavunilai_observer_size(observer, MAVUNILAI_OBSERVER_BOOK(heights))) == expected;
}

/* The same with a byte of the head changed, which is then put back. */
static int sound_with(unsigned heights, size_t at, uint8_t value, int are) {
    uint8_t of_station = station[at], of_observer = observer[at];
    int as_told;
    station[at] = observer[at] = value;
    as_told = sound(heights, are);
    station[at] = of_station;
    observer[at] = of_observer;
    return as_told;
}

/* The refusal of a blank certificate of three stations for a height, on both books of so many heights. */
static unsigned certified(unsigned heights, unsigned height) {
    unsigned of_station, of_observer;
    mavunilai_make_frame(frame, MAVUNILAI_KIND_BLANK_CERTIFICATE, 0, (uint16_t)height);
    frame[MAVUNILAI_FRAME_MASK] = 7;
    of_station = REFUSED(mavunilai_deliver(station, MAVUNILAI_BOOK(heights), frame, sizeof frame));
    of_observer = REFUSED(mavunilai_observer_deliver(observer, MAVUNILAI_OBSERVER_BOOK(heights), frame, sizeof frame));
    return of_station == of_observer ? of_station : 99;
}

/* A new book has 1 to 1000 heights, whose places in the head are those of edition 3; the kinds are not mixed up. */
static void opened(void) {
    size_t at;
    EXPECT(open_both(0) == MAVUNILAI_REFUSED_OUT_OF_RANGE && station[0] == 0x5a && observer[0] == 0x5a);
    EXPECT(open_both(MAVUNILAI_MOST_HEIGHTS + 1u) == MAVUNILAI_REFUSED_OUT_OF_RANGE && station[0] == 0x5a);
    EXPECT(REFUSED(mavunilai_observer_open(observer, MAVUNILAI_OBSERVER_BOOK(1), STATIONS, 65537, weights,
                                           sizeof weights)) == MAVUNILAI_REFUSED_OUT_OF_RANGE);
    for (at = 0; at < sizeof some_heights / sizeof *some_heights; at++) {
        unsigned heights = some_heights[at];
        EXPECT(open_both(heights) == 0 && sound(heights, 1));
        EXPECT(mavunilai_heights(station) == heights && mavunilai_heights(observer) == heights);
        EXPECT(mavunilai_word(station + 40) == heights && mavunilai_word(station + 42) == 1);
        EXPECT(mavunilai_word(observer + 40) == heights && mavunilai_word(observer + 42) == 0);
        EXPECT(station[2] == 0 && station[4] == 0 && station[5] == 0 && mavunilai_word(station + 44) == 0);
        EXPECT(mavunilai_current(station) == 1 && mavunilai_current(observer) == 0);
        EXPECT(mavunilai_leader(station, heights) == 0);
        EXPECT(mavunilai_leader(station, heights + 1u) == MAVUNILAI_NO_STATION);
        EXPECT(REFUSED(mavunilai_observer_size(station, MAVUNILAI_BOOK(heights))) == MAVUNILAI_REFUSED_UNSOUND);
        EXPECT(REFUSED(mavunilai_size(observer, MAVUNILAI_OBSERVER_BOOK(heights))) == MAVUNILAI_REFUSED_UNSOUND);
    }
}

/* Lengths do not tell the kinds apart, the calls do. */
static void shared_length(void) {
    size_t length = MAVUNILAI_BOOK(22);
    EXPECT(length == MAVUNILAI_OBSERVER_BOOK(108));
    EXPECT(open_both(22) == 0 && REFUSED(mavunilai_size(station, length)) == 0);
    EXPECT(REFUSED(mavunilai_observer_size(station, length)) == MAVUNILAI_REFUSED_UNSOUND);
    EXPECT(open_both(108) == 0 && REFUSED(mavunilai_observer_size(observer, length)) == 0);
    EXPECT(REFUSED(mavunilai_size(observer, length)) == MAVUNILAI_REFUSED_UNSOUND);
}

/* What edition 3 calls zero must be zero, and each byte of a height counts. */
static void heads_not_sound(void) {
    size_t at;
    EXPECT(open_both(256) == 0 && sound(256, 1));
    EXPECT(sound_with(256, 2, 1, 0) && sound_with(256, 4, 1, 0) && sound_with(256, 5, 1, 0));
    EXPECT(sound_with(256, 40, 1, 0) && sound_with(256, 41, 0, 0) && sound_with(256, 41, 2, 0));
    EXPECT(sound_with(256, 43, 4, 0) && sound_with(256, 44, 1, 0) && sound_with(256, 45, 1, 0));
    for (at = 46; at < MAVUNILAI_PENDING_AT; at++) {
        EXPECT(sound_with(256, at, 1, 0));
    }
}

/* Editions 1 and 2 have 63 heights at most, work, and stay as they are; to them a frame of height 256 is above H. */
static void older_editions(void) {
    uint8_t edition;
    for (edition = MAVUNILAI_EDITION_UNWEIGHED; edition <= MAVUNILAI_EDITION_WEIGHED; edition++) {
        EXPECT(open_both(64) == 0);
        put_edition(station, edition);
        put_edition(observer, edition);
        EXPECT(mavunilai_heights(station) == 64 && sound(64, 0));
        EXPECT(open_both(63) == 0);
        put_edition(station, edition);
        put_edition(observer, edition);
        EXPECT(sound(63, 1) && mavunilai_heights(observer) == 63 && mavunilai_current(station) == 1);
        EXPECT(certified(63, 1) == 0 && certified(63, 63) == 0);
        EXPECT(certified(63, 64) == MAVUNILAI_REFUSED_NO_SUCH_HEIGHT);
        EXPECT(certified(63, 256 + 1) == MAVUNILAI_REFUSED_NO_SUCH_HEIGHT);
        EXPECT(mavunilai_height(mavunilai_move(station, MAVUNILAI_BOOK(63), reply, sizeof reply)) == 1);
        EXPECT(station[MAVUNILAI_HEAD_EDITION] == edition && station[MAVUNILAI_HEAD_SHORT_CURRENT] == 2);
        EXPECT(sound(63, 1) && sound_with(63, 40, 1, 0) && sound_with(63, 41, 1, 0));
    }
}

/* A height has two bytes in frames and pages, and all of a number in arguments. */
static void both_bytes(void) {
    uint8_t page[MAVUNILAI_PAGE];
    EXPECT(open_both(1000) == 0 && certified(1000, 1000) == 0 && certified(1000, 256) == 0);
    EXPECT(certified(1000, 0) == MAVUNILAI_REFUSED_NO_SUCH_HEIGHT);
    EXPECT(certified(1000, 1001) == MAVUNILAI_REFUSED_NO_SUCH_HEIGHT);
    EXPECT(REFUSED(mavunilai_fetch(station, MAVUNILAI_BOOK(1000), 6, 256, reply, sizeof reply)) == 0);
    EXPECT(mavunilai_frame_height(reply) == 256);
    EXPECT(REFUSED(mavunilai_fetch(station, MAVUNILAI_BOOK(1000), 6, 65536 + 256, reply, sizeof reply)) ==
           MAVUNILAI_REFUSED_NO_SUCH_HEIGHT);
    EXPECT(REFUSED(mavunilai_fetch(station, MAVUNILAI_BOOK(1000), 6, 1, reply, sizeof reply)) ==
           MAVUNILAI_REFUSED_NO_CERTIFICATE);
    EXPECT(REFUSED(mavunilai_signal(station, MAVUNILAI_BOOK(1000), 65537)) == MAVUNILAI_REFUSED_NO_SUCH_HEIGHT);
    EXPECT(REFUSED(mavunilai_signal(station, MAVUNILAI_BOOK(1000), 257)) == MAVUNILAI_REFUSED_NOT_DUE);

    EXPECT(mavunilai_make_page(page, 257, 0, NULL, NULL, 0) == 1);
    mavunilai_make_proposal(frame, 0, page);
    frame[MAVUNILAI_FRAME_HEIGHT + 1u] = 0; /* the frame says height 1, its page 257 */
    EXPECT(REFUSED(mavunilai_deliver(station, MAVUNILAI_BOOK(1000), frame, sizeof frame)) ==
           MAVUNILAI_REFUSED_MALFORMED);
    mavunilai_make_proposal(frame, 0, page);
    EXPECT(mavunilai_fresh(mavunilai_deliver(station, MAVUNILAI_BOOK(1000), frame, sizeof frame)) == 1);
    frame[MAVUNILAI_FRAME_PAGE + MAVUNILAI_PAGE_COUNT] = 1;
    EXPECT(mavunilai_second_page(station, frame));
    EXPECT(mavunilai_make_page(page, 1, 256, NULL, NULL, 0) == 1);
    mavunilai_make_proposal(frame, 0, page);
    EXPECT(REFUSED(mavunilai_deliver(station, MAVUNILAI_BOOK(1000), frame, sizeof frame)) ==
           MAVUNILAI_REFUSED_MALFORMED);
}

/* Writes the page certificates of a chain of 1000 full pages, all entries of which differ, and a finalise certificate
 * of its end, one frame behind the other. */
static void make_chain(uint8_t *packet) {
    uint8_t entries[MAVUNILAI_MOST_PAGE_ENTRIES * MAVUNILAI_ENTRY], digest[MAVUNILAI_DIGEST], page[MAVUNILAI_PAGE];
    unsigned height, at;
    for (height = 1; height <= MAVUNILAI_MOST_HEIGHTS; height++, packet += MAVUNILAI_FRAME) {
        memset(entries, 0, sizeof entries);
        for (at = 0; at < MAVUNILAI_MOST_PAGE_ENTRIES; at++) {
            entries[at * MAVUNILAI_ENTRY] = (uint8_t)at;
            entries[at * MAVUNILAI_ENTRY + 1u] = (uint8_t)(height & 255u);
            entries[at * MAVUNILAI_ENTRY + 2u] = (uint8_t)(height >> 8);
        }
        EXPECT(mavunilai_make_page(page, (uint16_t)height, (uint16_t)(height - 1u), height == 1 ? NULL : digest,
                                   entries, MAVUNILAI_MOST_PAGE_ENTRIES) == 1);
        mavunilai_disregard(mavunilai_digest(page, sizeof page, digest, sizeof digest));
        mavunilai_make_frame(packet, MAVUNILAI_KIND_PAGE_CERTIFICATE, 0, (uint16_t)height);
        packet[MAVUNILAI_FRAME_MASK] = 7;
        mavunilai_copy(packet + MAVUNILAI_FRAME_PAGE, page, sizeof page);
    }
    mavunilai_make_frame(packet, MAVUNILAI_KIND_FINALISE_CERTIFICATE, 0, MAVUNILAI_MOST_HEIGHTS);
    packet[MAVUNILAI_FRAME_MASK] = 13;
}

/* A straight chain of 1000 full pages is settled in one move, and its register has 128000 bytes. */
static void longest_register(void) {
    static uint8_t packet[(MAVUNILAI_MOST_HEIGHTS + 1u) * MAVUNILAI_FRAME], entries[MAVUNILAI_MOST_REGISTER];
    size_t length = MAVUNILAI_BOOK(MAVUNILAI_MOST_HEIGHTS);
    mavunilai_counts counts = {0, 0, 0};
    mavunilai_answer answer;
    make_chain(packet);
    EXPECT(open_both(MAVUNILAI_MOST_HEIGHTS) == 0);
    EXPECT(REFUSED(mavunilai_packet(station, length, packet, sizeof packet, &counts)) == 0);
    EXPECT(counts.fresh == MAVUNILAI_MOST_HEIGHTS + 1u && counts.known == 0 && counts.refused == 0);
    answer = mavunilai_move(station, length, reply, sizeof reply);
    EXPECT(mavunilai_made(answer) == MAVUNILAI_MOVE_SETTLE && mavunilai_height(answer) == MAVUNILAI_MOST_HEIGHTS);
    EXPECT(mavunilai_settled(station) == MAVUNILAI_MOST_HEIGHTS && mavunilai_current(station) == 1);
    EXPECT(mavunilai_bytes(mavunilai_size(station, length)) == MAVUNILAI_MOST_REGISTER);
    EXPECT(mavunilai_read(station, length, entries, sizeof entries - 1) == 0 && entries[1] == 0);
    EXPECT(mavunilai_read(station, length, entries, sizeof entries) == MAVUNILAI_MOST_REGISTER);
    EXPECT(entries[1] == 1 && entries[sizeof entries - 15] == 0xe8 && entries[sizeof entries - 14] == 3);
    EXPECT(mavunilai_made(mavunilai_move(station, length, reply, sizeof reply)) == MAVUNILAI_MOVE_PASS);
    EXPECT(REFUSED(mavunilai_submit(station, length, entries, MAVUNILAI_ENTRY)) == MAVUNILAI_REFUSED_ENTRY_KNOWN);
}

/* All of it. */
static void *try_all(void *nothing) {
    opened();
    shared_length();
    heads_not_sound();
    older_editions();
    both_bytes();
    longest_register();
    return nothing;
}

int main(void) {
    pthread_attr_t attributes;
    pthread_t thread;
    EXPECT(mavunilai_fits());
    EXPECT(pthread_attr_init(&attributes) == 0 && pthread_attr_setstacksize(&attributes, STACK) == 0);
    EXPECT(pthread_create(&thread, &attributes, try_all, NULL) == 0 && pthread_join(thread, NULL) == 0);
    return failures == 0 ? 0 : 1;
}
