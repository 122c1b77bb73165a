/* What the programs beside it share: facts that are looked at, and how many of them do not hold. */
#include <stdio.h>

static int failures;

/* Notes a fact that does not hold. */
static void expect(int holds, const char *what) {
    if (!holds) {
        printf("not so: %s\n", what);
        failures++;
    }
}

#define EXPECT(fact) expect((fact) != 0, #fact)
