/* An observer in C: takes the frames of the standard input, 224 bytes each, settles, and prints the register.
 *
 * It follows 4 stations of equal weight through 3 heights. Before a frame goes in, a host checks the signature of each
 * of its signers; this example leaves that out, and keeps its book in memory. From the repository's root, once
 * target/staticlib/libreplica_c.a is there:
 *   cc -Ihost/include host/example/observer.c target/staticlib/libreplica_c.a -o observer && ./observer < frames
 */
#include <stdio.h>

#include "mavunilai.h"

#define STATIONS 4
#define HEIGHTS 3

static uint8_t book[MAVUNILAI_OBSERVER_BOOK(HEIGHTS)];

/* Delivers all frames, a short last one too, and says what became of each. A refused one is no reason to end. */
static void take_frames(void) {
    uint8_t frame[MAVUNILAI_FRAME];
    unsigned number = 0;
    size_t length;
    while ((length = fread(frame, 1, sizeof frame, stdin)) > 0) {
        mavunilai_answer answer = mavunilai_observer_deliver(book, sizeof book, frame, length);
        unsigned refusal = mavunilai_refusal(answer);
        number++;
        if (refusal != 0) {
            printf("frame %u: refused with %u: %s\n", number, refusal, mavunilai_refusal_text(refusal));
        } else {
            printf("frame %u: %s\n", number, mavunilai_fresh(answer) ? "fresh" : "known");
        }
    }
}

/* Prints the entries of the register as text; a byte that is no letter becomes a dot. */
static void print_register(void) {
    static uint8_t entries[MAVUNILAI_MOST_REGISTER];
    uint64_t length = mavunilai_observer_read(book, sizeof book, entries, sizeof entries), at;
    printf("settled height %u, %u bytes of register\n", mavunilai_settled(book), (unsigned)length);
    for (at = 0; at < length; at++) {
        putchar(entries[at] >= ' ' && entries[at] <= '~' ? entries[at] : '.');
        if (at % MAVUNILAI_ENTRY == MAVUNILAI_ENTRY - 1) {
            putchar('\n');
        }
    }
}

int main(void) {
    static const uint8_t weights[MAVUNILAI_WEIGHTS(STATIONS)] = {1, 0, 1, 0, 1, 0, 1, 0}; /* the low byte first */
    mavunilai_answer answer;
    if (!mavunilai_fits()) {
        fprintf(stderr, "the library's interface is not that of the header, %u\n", MAVUNILAI_INTERFACE);
        return 1;
    }
    answer = mavunilai_observer_open(book, sizeof book, STATIONS, HEIGHTS, weights, sizeof weights);
    if (mavunilai_refusal(answer) != 0) {
        fprintf(stderr, "no book can be opened\n");
        return 1;
    }
    take_frames();
    answer = mavunilai_observer_move(book, sizeof book);
    if (mavunilai_made(answer) == MAVUNILAI_MOVE_SETTLE) {
        printf("move %u: settled height %u\n", mavunilai_made(answer), mavunilai_height(answer));
    }
    print_register();
    return 0;
}
