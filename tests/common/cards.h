/* Cards for the test program: random ones of a given size, by their strings or by the kinds of their places, and a random source
   of its own. */
#ifndef CARDS_H
#define CARDS_H

#include <stddef.h>
#include <stdint.h>

#include "reference.h"

struct card {
    uint8_t bytes[LONGEST];
    size_t length;
};

/* The same numbers in every run, from a seed on. */
void seed_random(uint64_t seed);
uint64_t random_number(void);
size_t random_below(size_t bound);

/* Two numbers change places; the numbers of a row come in any order. */
void exchange(uint16_t *x, uint16_t *y);
void shuffle(uint16_t *row, size_t count);

/* A card that opens: m borders, n points (1 to m+1). `lean`, 0 to 8, is how readily brackets open: 4 is even. */
void random_card(struct card *card, size_t m, size_t n, unsigned lean);

/* A card of the right length with unused bits 0, whose strings are the bits of `strings`: A, then B, then B*. */
void card_of_strings(struct card *card, size_t m, size_t n, uint64_t strings);

/* A card by the kinds of its places in order, as a listing has them: ( and ) of marked borders, [ and ] of the others. */
void card_of_kinds(struct card *card, const char *kinds);

/* Kinds that stand so many times in a row; what `count` of them give one after the other, 4,096 at most. */
struct repeated {
    const char *kinds;
    size_t times;
};
void repeat_kinds(char kinds[MOST_ENDS + 1], const struct repeated *parts, size_t count);

/* How many areas such a map has: "There are m-n+2 areas", one more than borders that are not marked. */
size_t areas_of_kinds(const char *kinds);

/* The same drawing with its borders renumbered by chance, some of them turned round, and another start. */
void renumber(const struct drawing *d, struct drawing *renumbered);

#endif
