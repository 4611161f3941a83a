/* The count of areas on the card: every count, 20 among the other refusals, and cards that were made before it. */
#ifndef COUNTS_H
#define COUNTS_H

/* Document 01's maps with every count from 0 to 65,535: one of them opens, and all others get 20. With `small` one map. */
void every_count(int small);

/* A card with any of the things that 8, 20 and 9 to 12 look for wrong at once: the first of them is given. */
void counts_in_order(void);

/* Cards without the count: each is good in a box already sold, and refused today; today's are refused there. */
void cards_before(int small);

#endif
