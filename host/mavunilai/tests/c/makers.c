/* Prints what the header makes out of parts, as digits: pages, frames of each kind from 1 to 4, some of great heights,
 * and weights. */
#include <stdio.h>

#include "mavunilai.h"

/* Prints bytes as a line of digits. */
static void print(const uint8_t *bytes, size_t length) {
    size_t at;
    for (at = 0; at < length; at++) {
        printf("%02x", bytes[at]);
    }
    printf("\n");
}

/* A page of nine entries is not made, and no byte of it is written; one of eight is. */
static int bounds_hold(const uint8_t *entries) {
    uint8_t page[MAVUNILAI_PAGE] = {77};
    return mavunilai_make_page(page, 1, 0, NULL, entries, 9) == 0 && page[0] == 77 &&
           mavunilai_make_page(page, 1, 0, NULL, entries, 8) == 1 && page[0] == 1;
}

int main(void) {
    static const uint16_t numbers[] = {1, 255, 256, 1000, 0, 65535};
    uint8_t weights[MAVUNILAI_WEIGHTS(6)];
    uint8_t entries[9 * MAVUNILAI_ENTRY], digest[MAVUNILAI_DIGEST], page[MAVUNILAI_PAGE], frame[MAVUNILAI_FRAME];
    unsigned at;
    for (at = 0; at < sizeof entries; at++) {
        entries[at] = (uint8_t)(at + 1u);
    }
    for (at = 0; at < sizeof digest; at++) {
        digest[at] = (uint8_t)(200u - at);
    }
    if (!bounds_hold(entries) || !mavunilai_make_page(page, 9, 7, digest, entries, 3)) {
        return 1;
    }
    print(page, sizeof page);
    mavunilai_make_proposal(frame, 5, page);
    print(frame, sizeof frame);
    mavunilai_make_page_vote(frame, 6, 63, digest);
    print(frame, sizeof frame);
    mavunilai_make_blank_vote(frame, 15, 2);
    print(frame, sizeof frame);
    mavunilai_make_finalise(frame, 0, 1);
    print(frame, sizeof frame);
    mavunilai_make_finalise(frame, 255, 1000);
    print(frame, sizeof frame);
    if (!mavunilai_make_page(page, 1000, 513, digest, entries, 8)) {
        return 1;
    }
    print(page, sizeof page);
    mavunilai_make_proposal(frame, 3, page);
    print(frame, sizeof frame);
    mavunilai_make_weights(weights, numbers, 6);
    print(weights, sizeof weights);
    return 0;
}
