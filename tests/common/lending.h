/*
 * Memory to lend to the library. A list stands against memory without access, before it or after it as chance has it, and
 * a pattern stands on its other side. With `heap` it stands in a heap block of its very length instead, for valgrind.
 */
#ifndef LENDING_H
#define LENDING_H

#include <stddef.h>
#include <stdint.h>

struct loan {
    uint8_t *room; /* between two pages without access */
    size_t size;
    uint8_t *list;
    size_t bytes;
    int at_front;
};

/* Called once, before anything is lent. */
void prepare_lending(int heap);

/* Bytes by chance, for what a list holds beforehand. */
void fill(void *list, size_t bytes);

/* Lends a list with these contents. With lend_list one that has no entries is NULL as chance has it. */
void *lend(struct loan *loan, const void *contents, size_t bytes);
void *lend_list(struct loan *loan, const void *contents, size_t bytes);

/* Ends the loan. Gives 1 if the list holds `contents`, and what stands beside it is as it was. */
int take_back(struct loan *loan, const void *contents);

#endif
