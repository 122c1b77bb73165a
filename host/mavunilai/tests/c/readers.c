/* Reads books from its standard input, each behind four bytes with its length, the low one first, and a proposal behind
 * it; prints what the header's readers say of each: the number of heights, current and settled height, the leaders of
 * heights in and out of range, the proposal's height and whether it is a second page. Each book is in memory of its own
 * and of its length, so that a reading beyond it is seen where one looks for such. */
#include <limits.h>
#include <stdio.h>
#include <stdlib.h>

#include "mavunilai.h"

/* Prints what is said of one book. */
static void print(const uint8_t *book, const uint8_t *frame) {
    static const unsigned beyond[] = {65535u, 65536u, 65537u, UINT_MAX / MAVUNILAI_ROW, UINT_MAX - 1u, UINT_MAX};
    unsigned height;
    size_t at;
    printf("%u %u %u", mavunilai_heights(book), mavunilai_current(book), mavunilai_settled(book));
    for (height = 0; height <= MAVUNILAI_MOST_HEIGHTS + 300u; height++) {
        printf(" %u", mavunilai_leader(book, height));
    }
    for (at = 0; at < sizeof beyond / sizeof *beyond; at++) {
        printf(" %u", mavunilai_leader(book, beyond[at]));
    }
    printf(" %u %d\n", mavunilai_frame_height(frame), mavunilai_second_page(book, frame));
}

int main(void) {
    uint8_t length[4], frame[MAVUNILAI_FRAME];
    while (fread(length, 1, sizeof length, stdin) == sizeof length) {
        size_t bytes = mavunilai_word(length) + (size_t)65536 * mavunilai_word(length + 2);
        uint8_t *book = (uint8_t *)malloc(bytes);
        if (book == NULL || fread(book, 1, bytes, stdin) != bytes ||
            fread(frame, 1, sizeof frame, stdin) != sizeof frame) {
            free(book);
            return 1;
        }
        print(book, frame);
        free(book);
    }
    return 0;
}
