/* What the header promises of observers, tried: null pointers with length 0, the parts of answers and of the book, that
 * certificates alone are taken, and that neither kind of call takes the other's book. Says what fails, and ends with
 * the count of it. */
#include <string.h>

#include "expect.h"
#include "mavunilai.h"

#define HEIGHTS 3
#define LENGTH MAVUNILAI_OBSERVER_BOOK(HEIGHTS)
#define STATION MAVUNILAI_BOOK(HEIGHTS)

#define REFUSED(call) mavunilai_refusal(call)

/* The weights of four stations. */
static const uint8_t weights[MAVUNILAI_WEIGHTS(4)] = {1, 0, 1, 0, 1, 0, 1, 0};

/* A book of no bytes behind a null pointer is refused as any book that is not sound. */
static void no_book(void) {
    uint8_t frame[MAVUNILAI_FRAME] = {MAVUNILAI_KIND_BLANK_CERTIFICATE, 0, 1, 0, 7}, buffer[16];
    EXPECT(REFUSED(mavunilai_observer_open(NULL, 0, 4, 1, weights, 8)) == MAVUNILAI_REFUSED_UNSOUND);
    EXPECT(REFUSED(mavunilai_observer_open(NULL, 0, 4, 0, weights, 8)) == MAVUNILAI_REFUSED_OUT_OF_RANGE);
    EXPECT(REFUSED(mavunilai_observer_open(NULL, 0, 4, 1, NULL, 0)) == MAVUNILAI_REFUSED_OUT_OF_RANGE);
    EXPECT(REFUSED(mavunilai_observer_deliver(NULL, 0, frame, sizeof frame)) == MAVUNILAI_REFUSED_UNSOUND);
    EXPECT(REFUSED(mavunilai_observer_deliver(NULL, 0, NULL, 0)) == MAVUNILAI_REFUSED_UNSOUND);
    EXPECT(REFUSED(mavunilai_observer_move(NULL, 0)) == MAVUNILAI_REFUSED_UNSOUND);
    EXPECT(REFUSED(mavunilai_observer_size(NULL, 0)) == MAVUNILAI_REFUSED_UNSOUND);
    EXPECT(mavunilai_observer_read(NULL, 0, buffer, sizeof buffer) == 0);
    EXPECT(mavunilai_observer_read(NULL, 0, NULL, 0) == 0);
}

/* A new book has n, heights, edition and weights, and all else is zero. */
static void opened(uint8_t *book) {
    size_t at, set = 0;
    memset(book, 0x5a, LENGTH);
    EXPECT(REFUSED(mavunilai_observer_open(book, LENGTH, 17, HEIGHTS, weights, 8)) == MAVUNILAI_REFUSED_OUT_OF_RANGE);
    EXPECT(REFUSED(mavunilai_observer_open(book, LENGTH, 4, HEIGHTS + 1, weights, 8)) == MAVUNILAI_REFUSED_UNSOUND);
    EXPECT(book[0] == 0x5a && book[LENGTH - 1] == 0x5a);
    EXPECT(mavunilai_observer_open(book, LENGTH, 4, HEIGHTS, weights, 8).packed == 0);
    for (at = 0; at < LENGTH; at++) {
        set += book[at] != 0;
    }
    EXPECT(set == 7 && book[MAVUNILAI_HEAD_STATIONS] == 4 && book[MAVUNILAI_HEAD_LONG_HEIGHTS] == HEIGHTS);
    EXPECT(book[MAVUNILAI_HEAD_EDITION] == MAVUNILAI_EDITION_LONG && mavunilai_settled(book) == 0);
    EXPECT(memcmp(book + MAVUNILAI_HEAD_WEIGHTS, weights, sizeof weights) == 0);
    EXPECT(REFUSED(mavunilai_observer_deliver(book, LENGTH, NULL, 0)) == MAVUNILAI_REFUSED_MALFORMED);
    EXPECT(mavunilai_observer_read(book, LENGTH, NULL, 0) == 0);
    EXPECT(mavunilai_observer_move(book, LENGTH).packed == 0);
}

/* Kinds 1 to 4 are refused, whatever height and signer they say, and no byte changes. */
static void certificates_alone(uint8_t *book) {
    uint8_t before[LENGTH], frame[MAVUNILAI_FRAME] = {MAVUNILAI_KIND_PAGE_VOTE, 0, 1};
    uint8_t kind, signer;
    memcpy(before, book, LENGTH);
    for (kind = MAVUNILAI_KIND_PAGE_VOTE; kind <= MAVUNILAI_KIND_FINALISE; kind++) {
        for (signer = 0; signer < 6; signer++) {
            frame[MAVUNILAI_FRAME_KIND] = kind;
            frame[MAVUNILAI_FRAME_SIGNER] = signer;
            frame[MAVUNILAI_FRAME_HEIGHT] = signer;
            EXPECT(mavunilai_observer_deliver(book, LENGTH, frame, sizeof frame).packed ==
                   MAVUNILAI_REFUSED_NOT_A_CERTIFICATE);
        }
    }
    EXPECT(memcmp(before, book, LENGTH) == 0);
}

/* A page and its finalises: the masks are in the row, the page behind the rows, and the register is its entry. */
static void settles(uint8_t *book) {
    uint8_t page[MAVUNILAI_FRAME] = {MAVUNILAI_KIND_PAGE_CERTIFICATE, 0, 2, 0, 7}, *body = page + MAVUNILAI_FRAME_PAGE;
    uint8_t blank[MAVUNILAI_FRAME] = {MAVUNILAI_KIND_BLANK_CERTIFICATE, 0, 1, 0, 11}, buffer[17];
    uint8_t finalise[MAVUNILAI_FRAME] = {MAVUNILAI_KIND_FINALISE_CERTIFICATE, 0, 2, 0, 13};
    const uint8_t *rows = book + MAVUNILAI_OBSERVER_ROWS_AT, *second = rows + MAVUNILAI_OBSERVER_ROW;
    mavunilai_answer answer;
    body[MAVUNILAI_PAGE_HEIGHT] = 2;
    body[MAVUNILAI_PAGE_COUNT] = 1;
    memset(body + MAVUNILAI_PAGE_ENTRIES, 1, MAVUNILAI_ENTRY);
    memset(buffer, 0xbb, sizeof buffer);
    EXPECT(mavunilai_observer_deliver(book, LENGTH, page, sizeof page).packed == 256);
    EXPECT(mavunilai_observer_deliver(book, LENGTH, page, sizeof page).packed == 0);
    EXPECT(mavunilai_fresh(mavunilai_observer_deliver(book, LENGTH, finalise, sizeof finalise)) == 1);
    EXPECT(mavunilai_made(mavunilai_observer_move(book, LENGTH)) == MAVUNILAI_MOVE_IDLE);
    EXPECT(mavunilai_fresh(mavunilai_observer_deliver(book, LENGTH, blank, sizeof blank)) == 1);
    EXPECT(rows[MAVUNILAI_OBSERVER_ROW_BLANK] == 11 && second[MAVUNILAI_OBSERVER_ROW_PAGE] == 7);
    EXPECT(second[0] == MAVUNILAI_STATE_NOTARISED && second[MAVUNILAI_OBSERVER_ROW_FINALISE] == 13);
    EXPECT(memcmp(rows + HEIGHTS * MAVUNILAI_OBSERVER_ROW + MAVUNILAI_PAGE, body, MAVUNILAI_PAGE) == 0);
    answer = mavunilai_observer_move(book, LENGTH);
    EXPECT(mavunilai_made(answer) == MAVUNILAI_MOVE_SETTLE && mavunilai_height(answer) == 2);
    EXPECT(mavunilai_frames(answer) == 0 && mavunilai_settled(book) == 2);
    EXPECT(mavunilai_bytes(mavunilai_observer_size(book, LENGTH)) == MAVUNILAI_ENTRY);
    EXPECT(mavunilai_observer_read(book, LENGTH, buffer, 15) == 0 && buffer[0] == 0xbb);
    EXPECT(mavunilai_observer_read(book, LENGTH, buffer, sizeof buffer) == 16 && buffer[15] == 1 && buffer[16] == 0xbb);
}

/* A station's calls do not take an observer's book, nor an observer's calls a station's. */
static void other_kind(uint8_t *observer) {
    static const uint8_t leaders[HEIGHTS] = {0, 0, 0};
    uint8_t station[STATION], reply[MAVUNILAI_MOVE_REPLY], before[LENGTH];
    memcpy(before, observer, LENGTH);
    EXPECT(REFUSED(mavunilai_open(station, STATION, 4, 0, HEIGHTS, weights, 8, leaders, HEIGHTS)) == 0);
    EXPECT(REFUSED(mavunilai_observer_size(station, STATION)) == MAVUNILAI_REFUSED_UNSOUND);
    EXPECT(REFUSED(mavunilai_observer_move(station, STATION)) == MAVUNILAI_REFUSED_UNSOUND);
    EXPECT(REFUSED(mavunilai_size(observer, LENGTH)) == MAVUNILAI_REFUSED_UNSOUND);
    EXPECT(REFUSED(mavunilai_move(observer, LENGTH, reply, sizeof reply)) == MAVUNILAI_REFUSED_UNSOUND);
    EXPECT(REFUSED(mavunilai_signal(observer, LENGTH, 1)) == MAVUNILAI_REFUSED_UNSOUND);
    EXPECT(REFUSED(mavunilai_fetch(observer, LENGTH, 5, 2, reply, sizeof reply)) == MAVUNILAI_REFUSED_UNSOUND);
    EXPECT(memcmp(before, observer, LENGTH) == 0);
}

int main(void) {
    uint8_t book[LENGTH];
    EXPECT(mavunilai_fits());
    EXPECT(MAVUNILAI_OBSERVER_BOOK(MAVUNILAI_MOST_HEIGHTS) == MAVUNILAI_MOST_OBSERVER_BOOK);
    no_book();
    opened(book);
    certificates_alone(book);
    settles(book);
    other_kind(book);
    return failures == 0 ? 0 : 1;
}
