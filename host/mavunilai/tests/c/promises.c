/* What the header promises of the library, tried: the interface's number, null pointers with length 0, the counts of a
 * packet, a leader's second page, and that the parts of an answer and of a book are read as they are told. Says what
 * fails, and ends with the count of it. */
#include <string.h>

#include "expect.h"
#include "mavunilai.h"

#define HEIGHTS 2
#define LENGTH MAVUNILAI_BOOK(HEIGHTS)

#define REFUSED(call) mavunilai_refusal(call)

static const uint8_t weights[MAVUNILAI_WEIGHTS(1)] = {1, 0}, leaders[HEIGHTS] = {0, 0};

/* A new book of a station alone. */
static void open_alone(uint8_t *book) {
    EXPECT(REFUSED(mavunilai_open(book, LENGTH, 1, 0, HEIGHTS, weights, 2, leaders, HEIGHTS)) == 0);
}

/* Moves until idle and delivers what is written; the number of frames. */
static unsigned run(uint8_t *book) {
    uint8_t reply[MAVUNILAI_MOVE_REPLY];
    unsigned total = 0;
    for (;;) {
        mavunilai_answer answer = mavunilai_move(book, LENGTH, reply, sizeof reply);
        unsigned frames = mavunilai_frames(answer), at;
        EXPECT(mavunilai_refusal(answer) == 0);
        if (mavunilai_refusal(answer) != 0 || mavunilai_made(answer) == MAVUNILAI_MOVE_IDLE) {
            return total;
        }
        for (at = 0; at < frames; at++) {
            const uint8_t *frame = reply + at * MAVUNILAI_FRAME;
            EXPECT(REFUSED(mavunilai_deliver(book, LENGTH, frame, MAVUNILAI_FRAME)) == 0);
        }
        total += frames;
    }
}

/* Whether the counts are these. */
static int are(const mavunilai_counts *counts, unsigned fresh, unsigned known, unsigned refused) {
    return counts->fresh == fresh && counts->known == known && counts->refused == refused;
}

/* A book of no bytes behind a null pointer is refused as any book that is not sound. */
static void no_book(void) {
    uint8_t frame[MAVUNILAI_FRAME] = {MAVUNILAI_KIND_BLANK_VOTE, 0, 1}, reply[MAVUNILAI_MOVE_REPLY], buffer[16];
    mavunilai_counts counts = {7, 8, 9};
    EXPECT(REFUSED(mavunilai_open(NULL, 0, 1, 0, 1, weights, 2, leaders, 1)) == MAVUNILAI_REFUSED_UNSOUND);
    EXPECT(REFUSED(mavunilai_open(NULL, 0, 1, 0, 0, weights, 2, NULL, 0)) == MAVUNILAI_REFUSED_OUT_OF_RANGE);
    EXPECT(REFUSED(mavunilai_open(NULL, 0, 1, 0, 1, NULL, 0, leaders, 1)) == MAVUNILAI_REFUSED_OUT_OF_RANGE);
    EXPECT(REFUSED(mavunilai_deliver(NULL, 0, frame, sizeof frame)) == MAVUNILAI_REFUSED_UNSOUND);
    EXPECT(REFUSED(mavunilai_deliver(NULL, 0, NULL, 0)) == MAVUNILAI_REFUSED_UNSOUND);
    EXPECT(REFUSED(mavunilai_packet(NULL, 0, frame, sizeof frame, &counts)) == MAVUNILAI_REFUSED_UNSOUND);
    EXPECT(REFUSED(mavunilai_packet(NULL, 0, NULL, 0, &counts)) == MAVUNILAI_REFUSED_UNSOUND);
    EXPECT(are(&counts, 7, 8, 9));
    EXPECT(REFUSED(mavunilai_move(NULL, 0, reply, sizeof reply)) == MAVUNILAI_REFUSED_UNSOUND);
    EXPECT(REFUSED(mavunilai_move(NULL, 0, NULL, 0)) == MAVUNILAI_REFUSED_UNSOUND);
    EXPECT(REFUSED(mavunilai_signal(NULL, 0, 1)) == MAVUNILAI_REFUSED_UNSOUND);
    EXPECT(REFUSED(mavunilai_submit(NULL, 0, frame, MAVUNILAI_ENTRY)) == MAVUNILAI_REFUSED_UNSOUND);
    EXPECT(REFUSED(mavunilai_submit(NULL, 0, NULL, 0)) == MAVUNILAI_REFUSED_UNSOUND);
    EXPECT(REFUSED(mavunilai_size(NULL, 0)) == MAVUNILAI_REFUSED_UNSOUND);
    EXPECT(mavunilai_read(NULL, 0, buffer, sizeof buffer) == 0);
    EXPECT(mavunilai_read(NULL, 0, NULL, 0) == 0);
    EXPECT(REFUSED(mavunilai_fetch(NULL, 0, 5, 1, reply, sizeof reply)) == MAVUNILAI_REFUSED_UNSOUND);
    EXPECT(REFUSED(mavunilai_fetch(NULL, 0, 5, 1, NULL, 0)) == MAVUNILAI_REFUSED_UNSOUND);
}

/* With a sound book every other pointer may be null, and the book stays as it is. */
static void null_beside(uint8_t *book, unsigned expected_read) {
    mavunilai_counts counts = {7, 8, 9};
    uint8_t before[LENGTH];
    memcpy(before, book, LENGTH);
    EXPECT(REFUSED(mavunilai_open(book, LENGTH, 1, 0, HEIGHTS, weights, 2, NULL, 0)) == MAVUNILAI_REFUSED_OUT_OF_RANGE);
    EXPECT(REFUSED(mavunilai_open(book, LENGTH, 1, 0, HEIGHTS, NULL, 0, leaders, 2)) == MAVUNILAI_REFUSED_OUT_OF_RANGE);
    EXPECT(REFUSED(mavunilai_deliver(book, LENGTH, NULL, 0)) == MAVUNILAI_REFUSED_MALFORMED);
    EXPECT(REFUSED(mavunilai_packet(book, LENGTH, NULL, 0, &counts)) == 0 && are(&counts, 0, 0, 0));
    EXPECT(REFUSED(mavunilai_move(book, LENGTH, NULL, 0)) == MAVUNILAI_REFUSED_SHORT_REPLY);
    EXPECT(REFUSED(mavunilai_submit(book, LENGTH, NULL, 0)) == MAVUNILAI_REFUSED_MALFORMED);
    EXPECT(REFUSED(mavunilai_fetch(book, LENGTH, 5, 1, NULL, 0)) == MAVUNILAI_REFUSED_SHORT_REPLY);
    EXPECT(mavunilai_read(book, LENGTH, NULL, 0) == 0);
    EXPECT(mavunilai_bytes(mavunilai_size(book, LENGTH)) == expected_read);
    EXPECT(memcmp(before, book, LENGTH) == 0);
}

/* One move makes one: the functions take their argument once. And the flags are as they are named. */
static void flags(const uint8_t *opened) {
    uint8_t reply[MAVUNILAI_MOVE_REPLY], book[LENGTH];
    memcpy(book, opened, LENGTH);
    EXPECT(mavunilai_frames(mavunilai_move(book, LENGTH, reply, sizeof reply)) == 1);
    EXPECT(book[MAVUNILAI_HEAD_FLAGS] == MAVUNILAI_FLAG_PROPOSED);
    EXPECT(reply[MAVUNILAI_FRAME_KIND] == MAVUNILAI_KIND_PROPOSAL && reply[MAVUNILAI_FRAME_HEIGHT] == 1);
    EXPECT(mavunilai_fresh(mavunilai_deliver(book, LENGTH, reply, MAVUNILAI_FRAME)) == 1);
    EXPECT(mavunilai_made(mavunilai_move(book, LENGTH, reply, sizeof reply)) == MAVUNILAI_MOVE_PAGE_VOTE);
    EXPECT(book[MAVUNILAI_HEAD_FLAGS] == (MAVUNILAI_FLAG_PROPOSED | MAVUNILAI_FLAG_PAGE_VOTE));

    memcpy(book, opened, LENGTH);
    EXPECT(REFUSED(mavunilai_signal(book, LENGTH, 1)) == 0);
    EXPECT(book[MAVUNILAI_HEAD_FLAGS] == MAVUNILAI_FLAG_TIMER);
    EXPECT(mavunilai_made(mavunilai_move(book, LENGTH, reply, sizeof reply)) == MAVUNILAI_MOVE_BLANK_VOTE);
    EXPECT(book[MAVUNILAI_HEAD_FLAGS] == (MAVUNILAI_FLAG_TIMER | MAVUNILAI_FLAG_BLANK_VOTE));
}

/* A second page of the leader fires the timer of the current height, and is told; at another height it is refused. */
static void two_pages(const uint8_t *opened) {
    uint8_t first[MAVUNILAI_FRAME] = {MAVUNILAI_KIND_PROPOSAL, 0, 1}, second[MAVUNILAI_FRAME], book[LENGTH];
    memcpy(book, opened, LENGTH);
    first[MAVUNILAI_FRAME_PAGE + MAVUNILAI_PAGE_HEIGHT] = 1;
    memcpy(second, first, sizeof second);
    second[MAVUNILAI_FRAME_PAGE + MAVUNILAI_PAGE_COUNT] = 1;
    EXPECT(!mavunilai_second_page(book, second));
    EXPECT(mavunilai_fresh(mavunilai_deliver(book, LENGTH, first, sizeof first)) == 1);
    EXPECT(!mavunilai_second_page(book, first) && mavunilai_second_page(book, second));
    EXPECT(mavunilai_deliver(book, LENGTH, second, sizeof second).packed == 256);
    EXPECT(book[MAVUNILAI_HEAD_FLAGS] == MAVUNILAI_FLAG_TIMER && mavunilai_second_page(book, second));
    EXPECT(mavunilai_deliver(book, LENGTH, second, sizeof second).packed == 0);
    EXPECT(REFUSED(mavunilai_signal(book, LENGTH, 1)) == MAVUNILAI_REFUSED_NOT_DUE);

    first[MAVUNILAI_FRAME_HEIGHT] = second[MAVUNILAI_FRAME_HEIGHT] = HEIGHTS;
    first[MAVUNILAI_FRAME_PAGE + MAVUNILAI_PAGE_HEIGHT] = HEIGHTS;
    second[MAVUNILAI_FRAME_PAGE + MAVUNILAI_PAGE_HEIGHT] = HEIGHTS;
    EXPECT(mavunilai_fresh(mavunilai_deliver(book, LENGTH, first, sizeof first)) == 1);
    EXPECT(REFUSED(mavunilai_deliver(book, LENGTH, second, sizeof second)) == MAVUNILAI_REFUSED_OTHER_KEPT);
    EXPECT(mavunilai_second_page(book, second) && !mavunilai_second_page(book, first));
}

/* A packet of four frames is counted and leaves what they leave one by one; a refused one leaves counts and book. */
static void packets(const uint8_t *opened) {
    uint8_t packet[4 * MAVUNILAI_FRAME + 1] = {MAVUNILAI_KIND_BLANK_VOTE, 0, 1}, book[LENGTH], other[LENGTH];
    mavunilai_counts counts = {7, 8, 9};
    unsigned at;
    packet[MAVUNILAI_FRAME] = 8;
    memcpy(packet + 2 * MAVUNILAI_FRAME, packet, MAVUNILAI_FRAME);
    packet[3 * MAVUNILAI_FRAME] = MAVUNILAI_KIND_FINALISE;
    packet[3 * MAVUNILAI_FRAME + MAVUNILAI_FRAME_HEIGHT] = HEIGHTS;
    memcpy(book, opened, LENGTH);
    memcpy(other, opened, LENGTH);
    EXPECT(REFUSED(mavunilai_packet(book, LENGTH, packet, sizeof packet, &counts)) == MAVUNILAI_REFUSED_UNEVEN_PACKET);
    EXPECT(REFUSED(mavunilai_packet(book, LENGTH - 1, packet, sizeof packet, &counts)) == MAVUNILAI_REFUSED_UNSOUND);
    EXPECT(are(&counts, 7, 8, 9) && memcmp(book, opened, LENGTH) == 0);
    EXPECT(mavunilai_packet(book, LENGTH, packet, sizeof packet - 1, &counts).packed == 0 && are(&counts, 2, 1, 1));
    for (at = 0; at < 4; at++) {
        const uint8_t *frame = packet + at * MAVUNILAI_FRAME;
        mavunilai_disregard(mavunilai_deliver(other, LENGTH, frame, MAVUNILAI_FRAME));
    }
    EXPECT(memcmp(book, other, LENGTH) == 0 && memcmp(book, opened, LENGTH) != 0);
}

/* The parts of answers and books, through two heights of a station alone. */
static void parts(uint8_t *book) {
    static uint8_t buffer[MAVUNILAI_MOST_REGISTER];
    open_alone(book);
    EXPECT(mavunilai_current(book) == 1 && mavunilai_settled(book) == 0 && mavunilai_leader(book, 2) == 0);
    EXPECT(book[MAVUNILAI_HEAD_STATIONS] == 1 && mavunilai_heights(book) == HEIGHTS);
    null_beside(book, 0);
    EXPECT(REFUSED(mavunilai_submit(book, LENGTH, (const uint8_t *)"swap A12 to B40 ", MAVUNILAI_ENTRY)) == 0);
    EXPECT(book[MAVUNILAI_HEAD_PENDING] == 1);
    EXPECT(memcmp(book + MAVUNILAI_PENDING_AT, "swap A12 to B40 ", MAVUNILAI_ENTRY) == 0);

    flags(book);
    two_pages(book);
    packets(book);
    EXPECT(run(book) == 8);
    EXPECT(mavunilai_current(book) == 3 && mavunilai_settled(book) == 2);
    null_beside(book, 16);
    EXPECT(mavunilai_read(book, LENGTH, buffer, sizeof buffer) == 16);
    EXPECT(memcmp(buffer, "swap A12 to B40 ", 16) == 0);
}

int main(void) {
    uint8_t book[LENGTH];
    EXPECT(mavunilai_interface() == MAVUNILAI_INTERFACE);
    EXPECT(mavunilai_fits());
    EXPECT(MAVUNILAI_BOOK(MAVUNILAI_MOST_HEIGHTS) == MAVUNILAI_MOST_BOOK);
    no_book();
    parts(book);
    return failures == 0 ? 0 : 1;
}
