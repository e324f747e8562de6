/* A small program over the C interface.
 *
 *     make lib
 *     cc -Iinclude include/example.c target/staticlib/libcapi.a -o example && ./example
 *
 * KEY has the columns K (0..9, visible) and V (0..30); CLIENT has N (0..9, visible) and Q (0..9). The
 * list shows K and N where K = Q and V >= 10. The change inserts the row (3, 9) into KEY.
 */
#include <inttypes.h>
#include <stdio.h>
#include <string.h>

#include "slushtrowel.h"

static const uint8_t question[] = {
    'V', 'U', 'Q', 1, 0,                     /* mark and version */
    2, 1, 0,                                 /* two tables; an insert; into table 0 */
    2, 2,                                    /* two columns each */
    0, 0, 0, 0, 9, 0, 0, 0, 1,               /* column 0, K: 0..9, visible */
    0, 0, 0, 0, 30, 0, 0, 0, 0,              /* column 1, V: 0..30 */
    0, 0, 0, 0, 9, 0, 0, 0, 1,               /* column 2, N: 0..9, visible */
    0, 0, 0, 0, 9, 0, 0, 0, 0,               /* column 3, Q: 0..9 */
    3, 1, 3, 0, 3, 0, 0, 0, 0,               /* three tokens: K = Q + 0, */
    1, 4, 1, 255, 10, 0, 0, 0, 2,            /* V >= 10, and */
    1, 3, 0, 0, 0, 9, 0, 0, 0                /* one row: 3, 9 */
};

static const char *word(uint8_t verdict) {
    return verdict == VU_YES ? "yes" : "no";
}

/* Asks, writes the sheet and checks it, as a head office and a branch would. */
static int ask(uint8_t asked, const char *name) {
    uint8_t room[1024], verdict, shown;
    uint64_t length, place;
    uint8_t refused = vu_write(asked, question, sizeof question, room, sizeof room, &verdict, &length);
    if (refused != 0) {
        printf("%s: refused %d %" PRIu64 "\n", name, refused, length);
        return 1;
    }
    printf("%s %s, a sheet of %" PRIu64 " bytes", name, word(verdict), length);
    refused = vu_check(asked, question, sizeof question, room, (size_t)length, &shown, &place);
    if (refused != 0 || shown != verdict) {
        printf(" that doesn't pass\n");
        return 1;
    }
    printf(" that passes\n");
    room[length - 1] = 2; /* a leaf that promises a cycle, but the sheet ends there */
    refused = vu_check(asked, question, sizeof question, room, (size_t)length, &shown, &place);
    printf("  damaged: refused %d %" PRIu64 "\n", refused, place);
    return 0;
}

int main(void) {
    uint8_t verdict;
    uint64_t place;
    int faults = ask(VU_IRRELEVANT, "irrelevant") + ask(VU_COMPUTABLE, "computable");
    uint8_t refused = vu_verdict(VU_IRRELEVANT, question, sizeof question - 1, &verdict, &place);
    printf("last byte cut off: refused %d %" PRIu64 "\n", refused, place);
    return faults;
}
