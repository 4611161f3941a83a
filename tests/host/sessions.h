/* Comparing pmap_session with the book of a drawing and with single calls: all memory that is lent, and every entry. */
#ifndef SESSIONS_H
#define SESSIONS_H

#include <stddef.h>
#include <stdint.h>

#include "reference.h"

/* A session and what it must give, entry by entry, without the reference. */
struct given {
    size_t first, count;
    uint8_t calls[6], statuses[6];
    uint16_t answers[6];
    size_t place;
};
void compare_given(const uint8_t *map, size_t length, const struct given *given);

/*
 * Three short sessions by chance: one that is whole, one with too little room, one with a code that is none. `opening` is what
 * opening the map gives; the book is NULL where that is a refusal.
 */
void compare_sessions(const uint8_t *map, size_t length, uint8_t opening, const struct book *b);

/* Sessions of `count` calls on bytes that open: from places and from numbers off the map, each harmed in every way too. */
void compare_long_sessions(const uint8_t *bytes, size_t length, size_t count);

/* Sessions of `count` turns on bytes that open: on, back, and both by chance. */
void compare_turns(const uint8_t *bytes, size_t length, size_t first, size_t count);

/* One session over every place of bytes that open. */
void compare_tour(const uint8_t *bytes, size_t length);

#endif
