/* A first call from C: a book for station 2 of 4, which weigh the same, three blank votes, and the moves that follow.
 *
 * From the repository's root, once target/staticlib/libreplica_c.a is there:
 *   cc -Ihost/include host/example/first_call.c target/staticlib/libreplica_c.a -o first_call && ./first_call
 */
#include <stdio.h>
#include <stdlib.h>

#include "mavunilai.h"

#define STATIONS 4
#define HEIGHTS 3

/* Says why a call was refused; 1 if it was, else 0. */
static int is_refused(const char *call, mavunilai_answer answer) {
    unsigned refusal = mavunilai_refusal(answer);
    if (refusal == 0) {
        return 0;
    }
    fprintf(stderr, "%s: refused with %u: %s\n", call, refusal, mavunilai_refusal_text(refusal));
    return 1;
}

/* Delivers the blank vote of a signer at height 1 and says what became of it; 0 if it was taken. */
static int deliver_blank_vote(uint8_t *book, uint8_t signer) {
    uint8_t frame[MAVUNILAI_FRAME] = {MAVUNILAI_KIND_BLANK_VOTE, signer, 1};
    mavunilai_answer answer = mavunilai_deliver(book, MAVUNILAI_BOOK(HEIGHTS), frame, sizeof frame);
    if (is_refused("deliver", answer)) {
        return 1;
    }
    printf("blank vote of %u: %s\n", (unsigned)signer, mavunilai_fresh(answer) ? "fresh" : "known");
    return 0;
}

/* Moves until idle and says each move; 0 if none was refused. */
static int move_until_idle(uint8_t *book) {
    uint8_t reply[MAVUNILAI_MOVE_REPLY];
    for (;;) {
        mavunilai_answer answer = mavunilai_move(book, MAVUNILAI_BOOK(HEIGHTS), reply, sizeof reply);
        if (is_refused("move", answer)) {
            return 1;
        }
        if (mavunilai_made(answer) == MAVUNILAI_MOVE_IDLE) {
            return 0;
        }
        printf("move %u at height %u: %u frames, certificate %u, finalise %u\n", mavunilai_made(answer),
               mavunilai_height(answer), mavunilai_frames(answer), mavunilai_certificate(answer),
               mavunilai_finalise(answer));
    }
}

/* Opens the book and makes the calls; 0 if all were taken. */
static int run(uint8_t *book) {
    static const uint8_t weights[MAVUNILAI_WEIGHTS(STATIONS)] = {1, 0, 1, 0, 1, 0, 1, 0}; /* the low byte first */
    static const uint8_t roll[HEIGHTS] = {0, 1, 2};
    uint8_t signer;
    if (is_refused("open", mavunilai_open(book, MAVUNILAI_BOOK(HEIGHTS), STATIONS, 2, HEIGHTS, weights, sizeof weights,
                                          roll, sizeof roll))) {
        return 1;
    }
    for (signer = 0; signer < 3; signer++) {
        if (deliver_blank_vote(book, signer) != 0) {
            return 1;
        }
    }
    if (move_until_idle(book) != 0) {
        return 1;
    }
    printf("current height %u, settled height %u\n", mavunilai_current(book), mavunilai_settled(book));
    return 0;
}

int main(void) {
    uint8_t *book;
    int status;
    if (!mavunilai_fits()) {
        fprintf(stderr, "the library's interface is not that of the header, %u\n", MAVUNILAI_INTERFACE);
        return 1;
    }
    book = (uint8_t *)malloc(MAVUNILAI_BOOK(HEIGHTS));
    if (book == NULL) {
        fprintf(stderr, "no memory\n");
        return 1;
    }
    status = run(book);
    free(book);
    return status;
}
