/* The calls on map bytes about one number, each beside the book's answer. */
#ifndef CALLS_H
#define CALLS_H

#include "reference.h"

/* A turn says in a second cell whether it has gone round. */
typedef uint8_t library_call(const uint8_t *map, size_t length, size_t number, uint16_t *out);
typedef uint8_t library_turn(const uint8_t *map, size_t length, size_t number, uint16_t *out, uint8_t *gone_round);

struct call {
    const char *name;
    library_call *library; /* NULL for a turn */
    library_turn *turn;    /* NULL for all others */
    struct reply (*book)(const struct book *, size_t);
};

/* The calls that a session may hold, by their codes, the four moves first; calls about a point; calls about an area. */
enum { MOVES = 4, OF_PLACE = 6, OF_POINT = 2, OF_AREA = 3 };
extern const struct call of_place[OF_PLACE], of_point[OF_POINT], of_area[OF_AREA];

/* What out cells hold before a call, and the cells beside them: no answer is so large, and no sign. */
enum { OLD = 0xBEEF, FENCE = 0xF00D, OLD_SIGN = 0xEF, FENCE_SIGN = 0x0D };

/* What a call gave, by its status and its cell between two others. Where it wrote what it may not, the value is OLD, as it is where it
   wrote nothing: no book gives that. */
struct reply reply_of(uint8_t status, const uint16_t cells[3]);

/* Makes the call, and gives that. A sign is what the second cell holds, so that one not written is neither 0 nor 1. */
struct reply library_reply(const struct call *call, const uint8_t *map, size_t length, size_t number);

#endif
