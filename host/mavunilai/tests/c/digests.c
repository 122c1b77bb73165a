/* Prints the digests of the first 0, 1, 2 .. bytes of its standard input, at most 300, a line of digits for each. Ends
 * with 1 where a buffer is too short and its bytes change, where one that is longer has its rest changed, or where a
 * call is refused that should not be. */
#include <stdio.h>
#include <string.h>

#include "mavunilai.h"

#define MOST 300

/* Whether a buffer is left alone but for the 32 bytes of the digest, and wholly where so much room is too little. */
static int holds(const uint8_t *bytes, size_t length, size_t room) {
    uint8_t digest[64], before[64];
    unsigned refusal;
    memset(digest, 90, sizeof digest);
    memset(before, 90, sizeof before);
    refusal = mavunilai_refusal(mavunilai_digest(bytes, length, digest, room));
    if (room < MAVUNILAI_DIGEST) {
        return refusal == MAVUNILAI_REFUSED_SHORT_REPLY && memcmp(digest, before, sizeof digest) == 0;
    }
    return refusal == 0 && memcmp(digest + 32, before + 32, sizeof digest - 32) == 0;
}

int main(void) {
    uint8_t bytes[MOST], digest[MAVUNILAI_DIGEST];
    size_t length = fread(bytes, 1, sizeof bytes, stdin), some, at;
    for (some = 0; some <= length; some++) {
        if (mavunilai_refusal(mavunilai_digest(some == 0 ? NULL : bytes, some, digest, sizeof digest)) != 0) {
            return 1;
        }
        for (at = 0; at < sizeof digest; at++) {
            printf("%02x", digest[at]);
        }
        printf("\n");
    }
    for (some = 0; some <= 64; some++) {
        if (!holds(bytes, length, some)) {
            return 1;
        }
    }
    return mavunilai_refusal(mavunilai_digest(bytes, length, NULL, 0)) != MAVUNILAI_REFUSED_SHORT_REPLY;
}
