/* Two directed edges, 0 to 1 and 1 to 0, and the isomorphism between them. */
#include "bizakoma.h"
#include <inttypes.h>
#include <stdio.h>

static uint16_t work[BIZAKOMA_WORK]; /* may be used again, call after call */

int main(void)
{
    /* One type of two elements, each its own representative; one relation of two columns with one row. */
    const uint8_t left[] = {1, 0, 1, 2, 2, 0, 2, 0, 1, 3, 0, 7, 2, 0, 0, 0, 1, 0, 1, 0, 0, 0};
    const uint8_t right[] = {1, 0, 1, 2, 2, 0, 2, 0, 1, 3, 0, 7, 2, 0, 0, 0, 1, 1, 0, 0, 0, 0};
    uint8_t map[BIZAKOMA_ELEMENTS];
    uint64_t carried[3];

    switch (bizakoma_find(left, sizeof left, right, sizeof right, 1000, map, sizeof map, work, BIZAKOMA_WORK, carried)) {
    case BIZAKOMA_ACCEPTED:
        printf("found after %" PRIu64 " units: 0 goes to %d, 1 goes to %d\n", carried[0], map[0], map[1]);
        return 0;
    case BIZAKOMA_NONE:
        printf("no isomorphism, after %" PRIu64 " units\n", carried[0]);
        return 0;
    case BIZAKOMA_EXHAUSTED:
        printf("out of budget after %" PRIu64 " units\n", carried[0]);
        return 0;
    default:
        printf("refused\n");
        return 1;
    }
}
