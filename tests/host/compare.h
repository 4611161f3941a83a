/* Comparing the library with the book of a drawing: one answer, and all answers of a card. */
#ifndef COMPARE_H
#define COMPARE_H

#include <stddef.h>
#include <stdint.h>

#include "calls.h"
#include "reference.h"

/* One call about a number, with what it must give; a turn or a turn back, by its code. */
void compare_value(const char *name, library_call *call, const uint8_t *map, size_t length, size_t number, uint8_t status, size_t value);
void compare_turn(uint8_t code, const uint8_t *map, size_t length, size_t place, struct reply want);

/* A card that is refused: opening, every call, every session and every factor give that number, whatever was asked. */
void compare_refused(const uint8_t *map, size_t length, uint8_t status);

/* Opening alone of a card that is refused. */
void compare_refused_open(const uint8_t *bytes, size_t length, uint8_t status);

/* Any bytes: if the reference opens them, every call on every place, point, area and pair of points, odd numbers, sessions, and a
   factor. */
void compare_bytes(const uint8_t *bytes, size_t length);

/* The card that a drawing packs to, against the book of that very drawing: every number, or `some` of each kind. */
void compare_drawing(const struct drawing *d, size_t some);

/* Every area of a card that opens. */
void compare_areas(const uint8_t *bytes, size_t length);

/* Every place, point and area of a card that opens, and no pair of points. */
void compare_numbers(const uint8_t *bytes, size_t length);

#endif
