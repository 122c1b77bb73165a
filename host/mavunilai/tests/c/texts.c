/* The text of every refusal, a line each, from 1 to one past the last. */
#include <stdio.h>

#include "mavunilai.h"

int main(void) {
    unsigned refusal;
    for (refusal = 1; refusal <= MAVUNILAI_REFUSED_NOT_A_CERTIFICATE + 1u; refusal++) {
        printf("%s\n", mavunilai_refusal_text(refusal));
    }
    return 0;
}
