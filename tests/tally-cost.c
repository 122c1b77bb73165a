/* The calls whose instructions tests/tally-cost counts: a proposal that finds kept votes, whatever they say, and calls
 * of a station over a new book and over one whose heights are settled but the last. For each counted call it prints a
 * line: the table, the row, and what the call did. */
#include <stdio.h>
#include <string.h>

#include "mavunilai.h"

#define STATIONS 16u
#define HEIGHTS 8u
#define SIZE MAVUNILAI_BOOK(HEIGHTS)
#define QUORUM 11u

enum call { DELIVER, MOVE, SIGNAL, SUBMIT, GET_SIZE, READ, FETCH };

typedef struct {
    uint8_t bytes[SIZE];
} Book;

static uint8_t reply[MAVUNILAI_MOST_REGISTER];

/* The one function in which instructions are counted; 0 if the call was not refused. */
__attribute__((noinline)) static unsigned counted(enum call call, uint8_t *book, const uint8_t *frame) {
    switch (call) {
    case DELIVER: return mavunilai_refusal(mavunilai_deliver(book, SIZE, frame, MAVUNILAI_FRAME));
    case MOVE: return mavunilai_refusal(mavunilai_move(book, SIZE, reply, sizeof reply));
    case SIGNAL: return mavunilai_refusal(mavunilai_signal(book, SIZE, mavunilai_current(book)));
    case SUBMIT: return mavunilai_refusal(mavunilai_submit(book, SIZE, frame, MAVUNILAI_ENTRY));
    case GET_SIZE: return mavunilai_refusal(mavunilai_size(book, SIZE));
    case READ: return mavunilai_read(book, SIZE, reply, sizeof reply) > sizeof reply;
    default: return mavunilai_refusal(
        mavunilai_fetch(book, SIZE, MAVUNILAI_KIND_PAGE_CERTIFICATE, 1, reply, sizeof reply));
    }
}

/* A new book of edition 1, which libraries of before and after there were weights take; no call makes such. */
static void opened(Book *book, unsigned own) {
    unsigned i;
    memset(book->bytes, 0, SIZE);
    book->bytes[MAVUNILAI_HEAD_STATIONS] = STATIONS;
    book->bytes[MAVUNILAI_HEAD_OWN] = (uint8_t)own;
    book->bytes[MAVUNILAI_HEAD_HEIGHTS] = HEIGHTS;
    book->bytes[MAVUNILAI_HEAD_CURRENT] = book->bytes[MAVUNILAI_HEAD_EDITION] = 1;
    for (i = 0; i < HEIGHTS; i++) {
        book->bytes[MAVUNILAI_CONTENTS_AT + MAVUNILAI_ROW * i] = (uint8_t)(i + 1);
    }
}

/* ---- a proposal that finds votes ---- */

/* The proposal of height 1, and the digest of its page, which a station's own vote tells. */
static void proposed(uint8_t *frame, uint8_t *digest) {
    Book book;
    memset(frame, 0, MAVUNILAI_FRAME);
    frame[MAVUNILAI_FRAME_KIND] = MAVUNILAI_KIND_PROPOSAL;
    frame[MAVUNILAI_FRAME_SIGNER] = 1;
    frame[MAVUNILAI_FRAME_HEIGHT] = frame[MAVUNILAI_FRAME_PAGE] = 1;
    opened(&book, 0);
    mavunilai_deliver(book.bytes, SIZE, frame, MAVUNILAI_FRAME);
    mavunilai_move(book.bytes, SIZE, reply, sizeof reply);
    memcpy(digest, reply + MAVUNILAI_FRAME_DIGEST, MAVUNILAI_DIGEST);
}

/* The first `votes` stations' page votes of height 1 are kept; those of the stations in the mask `others` differ from
 * the digest in one byte. The proposal comes last. */
static void tallied(const char *row, unsigned votes, unsigned others, unsigned byte) {
    uint8_t proposal[MAVUNILAI_FRAME], frame[MAVUNILAI_FRAME] = {MAVUNILAI_KIND_PAGE_VOTE, 0, 1};
    uint8_t digest[MAVUNILAI_DIGEST], state;
    unsigned signer;
    Book book;
    proposed(proposal, digest);
    opened(&book, 0);
    for (signer = 0; signer < votes; signer++) {
        frame[MAVUNILAI_FRAME_SIGNER] = (uint8_t)signer;
        memcpy(frame + MAVUNILAI_FRAME_DIGEST, digest, sizeof digest);
        frame[MAVUNILAI_FRAME_DIGEST + byte] ^= (others >> signer) & 1u;
        mavunilai_deliver(book.bytes, SIZE, frame, sizeof frame);
    }
    counted(DELIVER, book.bytes, proposal);
    state = book.bytes[MAVUNILAI_CONTENTS_AT + MAVUNILAI_ROW_STATE];
    printf("tally|%s|%s\n", row, (state & MAVUNILAI_STATE_NOTARISED) ? "notarised" : state ? "held" : "refused");
}

/* ---- each call ---- */

static void row(const char *books, const char *what, enum call call, const Book *book, const uint8_t *frame) {
    Book copy = *book;
    unsigned refusal = counted(call, copy.bytes, frame);
    printf("%s|%s|", books, what);
    printf(refusal ? "refused with %u\n" : "taken\n", refusal);
}

/* A page vote of the height that a proposal is for, with its digest. */
static const uint8_t *vote(uint8_t *frame, const Book *holding, unsigned height, unsigned signer) {
    Book book = *holding;
    mavunilai_move(book.bytes, SIZE, reply, sizeof reply);
    memset(frame, 0, MAVUNILAI_FRAME);
    frame[MAVUNILAI_FRAME_KIND] = MAVUNILAI_KIND_PAGE_VOTE;
    frame[MAVUNILAI_FRAME_SIGNER] = (uint8_t)signer;
    frame[MAVUNILAI_FRAME_HEIGHT] = (uint8_t)height;
    memcpy(frame + MAVUNILAI_FRAME_DIGEST, reply + MAVUNILAI_FRAME_DIGEST, MAVUNILAI_DIGEST);
    return frame;
}

/* Each call over a book that is at a height with nothing kept there; the leader's next move is its proposal. */
static void each_call(const char *books, const Book *start, const Book *leader) {
    unsigned height = mavunilai_current(start->bytes), signer;
    uint8_t proposal[MAVUNILAI_FRAME], frame[MAVUNILAI_FRAME];
    Book book = *start, leading = *leader, fired = *start;
    mavunilai_move(leading.bytes, SIZE, reply, sizeof reply);
    memcpy(proposal, reply, sizeof proposal);
    mavunilai_deliver(book.bytes, SIZE, proposal, sizeof proposal);
    row(books, "Deliver, proposal", DELIVER, start, proposal);
    row(books, "Deliver, page vote, no page is held", DELIVER, start, vote(frame, &book, height, 1));
    row(books, "Deliver, page vote", DELIVER, &book, vote(frame, &book, height, 1));
    row(books, "Move, page vote", MOVE, &book, 0);
    for (signer = 1; signer < QUORUM; signer++) {
        mavunilai_deliver(book.bytes, SIZE, vote(frame, &book, height, signer), MAVUNILAI_FRAME);
    }
    row(books, "Deliver, page vote that notarises", DELIVER, &book, vote(frame, &book, height, QUORUM));
    memset(frame, 0, sizeof frame);
    frame[MAVUNILAI_FRAME_KIND] = MAVUNILAI_KIND_BLANK_VOTE;
    frame[MAVUNILAI_FRAME_SIGNER] = 1;
    frame[MAVUNILAI_FRAME_HEIGHT] = (uint8_t)height;
    row(books, "Deliver, blank vote", DELIVER, start, frame);
    row(books, "Move, idle", MOVE, start, 0);
    mavunilai_signal(fired.bytes, SIZE, height);
    row(books, "Move, blank vote", MOVE, &fired, 0);
    row(books, "Signal", SIGNAL, start, 0);
    row(books, "Submit", SUBMIT, start, (const uint8_t *)"a new entry here");
    row(books, "Size", GET_SIZE, start, 0);
    row(books, "Read", READ, start, 0);
    row(books, "Fetch", FETCH, start, 0);
}

/* A station's move, whose frames go to all; it has entries to propose. */
static void moved(Book *stations, unsigned own) {
    uint8_t *book = stations[own].bytes, entry[MAVUNILAI_ENTRY] = {(uint8_t)own, 0, mavunilai_current(book)};
    unsigned frames, k;
    for (; book[MAVUNILAI_HEAD_PENDING] < 8; entry[1]++) {
        mavunilai_submit(book, SIZE, entry, sizeof entry);
    }
    frames = mavunilai_frames(mavunilai_move(book, SIZE, reply, sizeof reply));
    for (k = 0; k < STATIONS * frames; k++) {
        const uint8_t *frame = reply + MAVUNILAI_FRAME * (k / STATIONS);
        mavunilai_deliver(stations[k % STATIONS].bytes, SIZE, frame, MAVUNILAI_FRAME);
    }
}

/* All stations move in turn until the first one has just come to the last height; then its leader comes there too. */
static void run_to_last(Book *stations) {
    unsigned own = 0;
    while (mavunilai_current(stations[0].bytes) < HEIGHTS) {
        moved(stations, own);
        own = (own + 1) % STATIONS;
    }
    while (mavunilai_current(stations[HEIGHTS].bytes) < HEIGHTS) {
        mavunilai_move(stations[HEIGHTS].bytes, SIZE, reply, sizeof reply);
    }
}

int main(void) {
    static Book stations[STATIONS];
    unsigned own;
    if (!mavunilai_fits()) {
        return 1;
    }
    tallied("16 agree", 16, 0, 0);
    tallied("11 agree, the last 5 differ in the first byte", 16, 0xf800, 0);
    tallied("11 agree, the first 5 differ in the last byte", 16, 0x001f, 31);
    tallied("10 agree, 6 here and there differ in the first byte", 16, 0x9254, 0);
    tallied("10 agree, 6 here and there differ in the last byte", 16, 0x9254, 31);
    tallied("16 differ in the first byte", 16, 0xffff, 0);
    tallied("16 differ in the last byte", 16, 0xffff, 31);
    tallied("8 agree, no other is kept", 8, 0, 0);
    tallied("none is kept", 0, 0, 0);
    for (own = 0; own < STATIONS; own++) {
        opened(&stations[own], own);
    }
    each_call("new", &stations[0], &stations[1]);
    run_to_last(stations);
    each_call("full", &stations[0], &stations[HEIGHTS]);
    return 0;
}
