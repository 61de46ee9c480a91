/* Calls each function of bizakoma.h on worked examples of the document and writes what comes back. Compiled as C99 and as C++17. */
#include "bizakoma.h"
#include <inttypes.h>
#include <stdio.h>
#include <string.h>

#define LENT(buffer) buffer, sizeof(buffer)
#define ROOM 4
#define MORE 2

/* V2, without relations, with one empty relation E, with E(0,1), and with E(1,0). */
static const uint8_t plain[] = {1, 0, 1, 2, 2, 0, 2, 0, 1, 0, 0, 0};
static const uint8_t no_edge[] = {1, 0, 1, 2, 2, 0, 2, 0, 1, 3, 0, 5, 2, 0, 0, 0, 0, 0, 0, 0};
static const uint8_t edge[] = {1, 0, 1, 2, 2, 0, 2, 0, 1, 3, 0, 7, 2, 0, 0, 0, 1, 0, 1, 0, 0, 0};
static const uint8_t back[] = {1, 0, 1, 2, 2, 0, 2, 0, 1, 3, 0, 7, 2, 0, 0, 0, 1, 1, 0, 0, 0, 0};
/* Two elements of one class; one element. */
static const uint8_t merged[] = {1, 0, 1, 2, 2, 0, 2, 0, 0, 0, 0, 0};
static const uint8_t single[] = {1, 0, 1, 1, 2, 0, 1, 0, 0, 0, 0};

static const uint8_t none[1] = {0};
static const uint8_t as_they_are[] = {0, 0, 1, 1};
static const uint8_t first_to_first[] = {0, 0};
static const uint8_t swap[] = {1, 0};
static const uint8_t same[] = {0, 1};
static const uint8_t both_to_0[] = {0, 0};
static const uint8_t of_merged[] = {0, 255};

static uint8_t map[ROOM];
static uint16_t work[BIZAKOMA_WORK + MORE];
static uint64_t carried[3];

/* Buffers full of what no call writes. */
static void fill(void)
{
    size_t i;
    memset(map, 77, sizeof map);
    for (i = 0; i < BIZAKOMA_WORK + MORE; i++)
        work[i] = 7;
    for (i = 0; i < 3; i++)
        carried[i] = 99;
}

static void say(const char *name, uint32_t number)
{
    size_t i;
    size_t zero = 0;
    while (zero < BIZAKOMA_WORK + MORE && work[zero] == 0)
        zero++;
    printf("%s: %" PRIu32 ", carried", name, number);
    for (i = 0; i < 3; i++)
        printf(" %" PRIu64, carried[i]);
    printf(", map");
    for (i = 0; i < ROOM; i++)
        printf(" %d", map[i]);
    printf(", work zero up to %d\n", (int)zero);
    fill();
}

int main(void)
{
    const size_t entries = BIZAKOMA_WORK + MORE;
    fill();
    say("identity", bizakoma_identity(LENT(plain), LENT(map), carried));
    say("identity, no room", bizakoma_identity(LENT(plain), map, 1, carried));
    say("identity, malformed", bizakoma_identity(plain, 3, LENT(map), carried));
    say("check", bizakoma_check(LENT(no_edge), LENT(edge), LENT(as_they_are), LENT(map), carried));
    say("check, image missing", bizakoma_check(LENT(no_edge), LENT(edge), LENT(first_to_first), LENT(map), carried));
    say("check, odd", bizakoma_check(LENT(no_edge), LENT(edge), as_they_are, 3, LENT(map), carried));
    say("apply", bizakoma_apply(LENT(edge), LENT(back), LENT(swap), 0, carried));
    say("apply, unknown element", bizakoma_apply(LENT(edge), LENT(back), LENT(swap), 2, carried));
    say("compose", bizakoma_compose(LENT(edge), LENT(back), LENT(edge), LENT(swap), LENT(swap), LENT(map), carried));
    say("compose, not a map", bizakoma_compose(LENT(edge), LENT(back), LENT(edge), LENT(swap), LENT(same), LENT(map), carried));
    say("inverse", bizakoma_inverse(LENT(edge), LENT(back), LENT(swap), LENT(map), carried));
    say("inverse, none", bizakoma_inverse(LENT(no_edge), LENT(edge), LENT(same), LENT(map), carried));
    say("find", bizakoma_find(LENT(edge), LENT(back), 3, LENT(map), work, entries, carried));
    say("find, exhausted", bizakoma_find(LENT(edge), LENT(back), 2, LENT(map), work, entries, carried));
    say("find, no room", bizakoma_find(LENT(edge), LENT(back), 3, LENT(map), work, BIZAKOMA_WORK - 1, carried));
    say("find, signatures", bizakoma_find(LENT(edge), LENT(plain), 3, LENT(map), work, entries, carried));
    say("find with pairs, none", bizakoma_find_with_pairs(LENT(edge), LENT(back), LENT(first_to_first), 9, LENT(map), work, entries, carried));
    say("find with pairs, no pair", bizakoma_find_with_pairs(LENT(edge), LENT(back), none, 0, 9, LENT(map), work, entries, carried));
    say("find under", bizakoma_find_under(LENT(plain), LENT(merged), LENT(single), LENT(both_to_0), LENT(both_to_0), 9, LENT(map), work, entries, carried));
    say("apply, alias", bizakoma_apply(LENT(merged), LENT(single), LENT(of_merged), 1, carried));
    return 0;
}
