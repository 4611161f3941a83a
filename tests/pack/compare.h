/* Comparing finding marks, packing, unpacking and sessions with the reference: the answer, and all memory that was lent. */
#ifndef COMPARE_H
#define COMPARE_H

#include "reference.h"

/* Packs what is lent. Gives the length of the map, with the library's own bytes, or 0 where it is rightly refused or differs. */
size_t compare_pack(const struct lent *lent, uint8_t *map);

/* The same, where the status is known without the reference. */
size_t compare_pack_status(const struct lent *lent, uint8_t *map, uint8_t status);

/* A drawing with lists that are long enough: exactly, or by chance longer. */
struct lent lend_drawing(const struct drawing *d);

/* Finds marks for what is lent, where the marks are what their list holds beforehand. Gives 1 and the drawing with the marks that were
   found, or 0 where it is rightly refused or differs. */
int compare_marks(const struct lent *lent, struct drawing *found);

/* The same, where the status is known without the reference. */
int compare_marks_status(const struct lent *lent, struct drawing *found, uint8_t status);

/* Finds marks for a drawing, the same whatever their list held before; with them and with other trees it is packed from several starts. */
void compare_found(const struct drawing *d);

/* By Euler's count: a drawing whose points are all joined is one in the plane exactly if it has m-n+2 areas. */
int in_plane(const struct drawing *d);

/* Unpacks bytes into lists of so many entries. `want` is the drawing that must come out, or NULL for the reference's. */
void compare_unpack(const uint8_t *map, size_t length, size_t turning_len, size_t marks_len, const struct drawing *want);

/* A good drawing: packed, unpacked to itself renumbered, packed to the same bytes again. Gives the length of the map. */
size_t compare_round(const struct drawing *d, uint8_t *map);

/* Bytes that open: unpacked, and packed to the same bytes again. */
void compare_back(const uint8_t *bytes, size_t length);

/* Bytes of any kind, unpacked into lists that are exact, one short or longer for the number of borders in their header. */
void compare_opening(const uint8_t *bytes, size_t length);

/* `count` sessions of `calls` calls each, on the bytes that packing wrote of the drawing, against the drawing's book. */
void compare_sessions(const struct drawing *d, const uint8_t *map, size_t length, size_t count, size_t calls);

#endif
