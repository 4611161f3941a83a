/* Maps and bytes that are none: unpacked, and packed again. */
#include "parts.h"

#include <string.h>

#include "cards.h"
#include "compare.h"
#include "damage.h"
#include "examples.h"
#include "tally.h"

/* A card that opens is unpacked and packed; it is unpacked into lists of other lengths, and so is one of 16 that don't open. */
static void try_strings(const uint8_t *bytes, size_t length)
{
    static struct drawing drawing;
    static unsigned long refused;
    int opens = unpack(bytes, length, &drawing) == 0;
    if (opens) compare_back(bytes, length);
    if (opens || refused++ % 16 == 0) compare_opening(bytes, length);
}

void small_maps(void)
{
    each_string(small ? 3 : 4, try_strings);
}

static void try_map(size_t m, size_t n, unsigned lean, int all_lengths)
{
    struct card card;
    random_card(&card, m, n, lean);
    compare_back(card.bytes, card.length);
    if (all_lengths) compare_opening(card.bytes, card.length);
}

/* Small ones; some of a few hundred borders; a tree, loops only and a mixed one of 2,048. */
void random_maps(void)
{
    size_t count, m;
    for (count = small ? 100 : 8000; count > 0; count--) {
        m = random_below(41);
        try_map(m, 1 + random_below(m + 1), (unsigned)(1 + random_below(7)), count % 8 == 0);
    }
    if (small) return;
    for (count = 0; count < 30; count++) {
        m = 41 + random_below(360);
        try_map(m, 1 + random_below(m + 1), (unsigned)(1 + random_below(7)), count % 8 == 0);
    }
    try_map(MOST_BORDERS, MOST_BORDERS + 1, 4, 0);
    try_map(MOST_BORDERS, 1, 6, 0);
    try_map(MOST_BORDERS, 1 + random_below(MOST_BORDERS), 4, 1);
}

/* Each byte taken for its complement. */
static void flip_bytes(const uint8_t *card, size_t length)
{
    uint8_t copy[LONGEST];
    size_t i;
    memcpy(copy, card, length);
    for (i = 0; i < length; i++) {
        copy[i] ^= 0xFF;
        compare_opening(copy, length);
        copy[i] ^= 0xFF;
    }
}

static void damage(const uint8_t *card, size_t length)
{
    each_damage(card, length, compare_opening);
    flip_bytes(card, length);
}

void damaged_maps(void)
{
    struct card card;
    size_t count;
    damage(CARD(triangle));
    damage(CARD(figure_1));
    damage(CARD(empty));
    damage(CARD(stub));
    damage(CARD(loop));
    for (count = small ? 1 : 60; count > 0; count--) {
        size_t m = random_below(40);
        random_card(&card, m, 1 + random_below(m + 1), 4);
        damage(card.bytes, card.length);
    }
}

void headers(void)
{
    each_header(compare_opening);
}
