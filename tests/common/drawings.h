/* Drawings for the test program, made from turning lists alone: no word, string or byte has to do with them. */
#ifndef DRAWINGS_H
#define DRAWINGS_H

#include "reference.h"

/* A drawing in the plane, border by border: `dangling` of 8 borders get a new point, the others part an area in two. The
   borders stand in any order and the start is any end. No border is marked. */
void grow(struct drawing *d, size_t m, unsigned dangling);

/* One border more, with its ends in two areas: the drawing is no longer one in the plane. Gives 0 if it has one area. */
int add_handle(struct drawing *d);

/* A drawing by chance: the ends in any order, cut into points of up to `most` ends. It has one part or several, and is seldom one
   in the plane. The start is 0. No border is marked. */
void scatter(struct drawing *d, size_t m, size_t most);

/* Marks a spanning tree (of each part, if the drawing has several): any one, or the one of all borders that join what those before
   them in this order don't. Gives how many borders it has. */
size_t mark_tree(struct drawing *d);
size_t mark_tree_in(struct drawing *d, const size_t *order);

/* The second drawing beside the first one, with no border between them. */
void put_beside(struct drawing *d, const struct drawing *second);

#endif
