/* Reads the heads of books, 64 bytes each, from its standard input and prints what the header's readers say of each:
 * the weights of stations in and out of range, the total weight and the least one of a quorum; then a line with a 1 or
 * a 0 for each mask, as it is a quorum or not; then the weights of some masks. The head is in memory of its own, so that
 * a reading beyond it is seen where one looks for such. */
#include <limits.h>
#include <stdio.h>
#include <stdlib.h>

#include "mavunilai.h"

/* Prints what is said of one head. */
static void print(const uint8_t *head) {
    static const unsigned beyond[] = {255u, 256u, 65536u, UINT_MAX / 2u, UINT_MAX - 7u, UINT_MAX};
    unsigned station, mask;
    size_t at;
    for (station = 0; station < 20; station++) {
        printf("%u ", mavunilai_weight(head, station));
    }
    for (at = 0; at < sizeof beyond / sizeof *beyond; at++) {
        printf("%u ", mavunilai_weight(head, beyond[at]));
    }
    printf("%u %u\n", mavunilai_total_weight(head), mavunilai_needed_weight(head));
    for (mask = 0; mask <= 65536u; mask++) {
        putchar(mavunilai_quorum(head, mask) ? '1' : '0');
    }
    printf("\n");
    for (mask = 0; mask <= 65535u; mask += 257u) {
        printf("%u ", mavunilai_mask_weight(head, mask));
    }
    printf("%u\n", mavunilai_mask_weight(head, UINT_MAX));
}

int main(void) {
    uint8_t *head = (uint8_t *)malloc(MAVUNILAI_PENDING_AT);
    if (head == NULL) {
        return 1;
    }
    while (fread(head, 1, MAVUNILAI_PENDING_AT, stdin) == MAVUNILAI_PENDING_AT) {
        print(head);
    }
    free(head);
    return 0;
}
