/* What the header promises of a packet that is told frame by frame: the answers sum to the packet's counts, the copy is
 * the book after it, and a packet that is refused leaves the answers alone. Says what fails, and ends with the count of
 * it. */
#include <string.h>

#include "expect.h"
#include "mavunilai.h"

#define LENGTH MAVUNILAI_BOOK(2)
#define FRAMES 6

/* A vote of a station for the page of height 1 whose digest has this byte alone. */
static void vote(uint8_t *frame, unsigned signer, int byte) {
    memset(frame, 0, MAVUNILAI_FRAME);
    frame[MAVUNILAI_FRAME_KIND] = MAVUNILAI_KIND_PAGE_VOTE;
    frame[MAVUNILAI_FRAME_SIGNER] = (uint8_t)signer;
    frame[MAVUNILAI_FRAME_HEIGHT] = 1;
    memset(frame + MAVUNILAI_FRAME_DIGEST, byte, MAVUNILAI_DIGEST);
}

int main(void) {
    static const uint8_t weights[MAVUNILAI_WEIGHTS(4)] = {1, 0, 1, 0, 1, 0, 1, 0}, leaders[2] = {0, 0};
    static const unsigned signers[FRAMES] = {1, 1, 1, 9, 2, 2};
    static const int bytes[FRAMES] = {1, 2, 1, 1, 3, 4};
    static const unsigned refusals[FRAMES] = {0, MAVUNILAI_REFUSED_OTHER_KEPT, 0, MAVUNILAI_REFUSED_NO_SUCH_SIGNER,
                                              0, MAVUNILAI_REFUSED_OTHER_KEPT};
    uint8_t book[LENGTH], before[LENGTH], copy[LENGTH], packet[FRAMES * MAVUNILAI_FRAME];
    mavunilai_answer answers[FRAMES];
    mavunilai_counts counts;
    uint64_t fresh = 0, refused = 0;
    size_t at;
    for (at = 0; at < FRAMES; at++) {
        vote(packet + at * MAVUNILAI_FRAME, signers[at], bytes[at]);
        answers[at].packed = 77;
    }
    EXPECT(mavunilai_open(book, LENGTH, 4, 2, 2, weights, 8, leaders, 2).packed == 0);
    memcpy(before, book, LENGTH);
    EXPECT(mavunilai_packet_each(book, LENGTH, copy, packet, 225, answers).packed == MAVUNILAI_REFUSED_UNEVEN_PACKET);
    EXPECT(mavunilai_packet_each(book, 9, copy, packet, 225, answers).packed == MAVUNILAI_REFUSED_UNSOUND);
    EXPECT(answers[0].packed == 77 && answers[FRAMES - 1].packed == 77);
    EXPECT(mavunilai_packet_each(book, LENGTH, copy, packet, sizeof packet, answers).packed == 0);
    EXPECT(memcmp(book, before, LENGTH) == 0);
    for (at = 0; at < FRAMES; at++) {
        EXPECT(mavunilai_refusal(answers[at]) == refusals[at]);
        fresh += mavunilai_refusal(answers[at]) == 0 && mavunilai_fresh(answers[at]) != 0;
        refused += mavunilai_refusal(answers[at]) != 0;
    }
    EXPECT(mavunilai_packet(book, LENGTH, packet, sizeof packet, &counts).packed == 0);
    EXPECT(counts.fresh == fresh && counts.refused == refused && counts.known == FRAMES - fresh - refused);
    EXPECT(fresh == 2 && refused == 3);
    EXPECT(memcmp(book, copy, LENGTH) == 0);
    EXPECT(mavunilai_packet_each(book, LENGTH, copy, packet, 0, answers).packed == 0);
    return failures;
}
