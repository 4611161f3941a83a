/* One interface for all that is compared: the calls of include/pmap.h, by whoever answers them. */
#ifndef CALLS_H
#define CALLS_H

#include <stddef.h>
#include <stdint.h>

#ifdef __cplusplus
extern "C" {
#endif

typedef uint8_t open_call(const uint8_t *map, size_t length, uint16_t *m, uint16_t *n);
typedef uint8_t number_call(const uint8_t *map, size_t length, size_t number, uint16_t *out);
typedef uint8_t turn_call(const uint8_t *map, size_t length, size_t place, uint16_t *out, uint8_t *gone_round);
typedef uint8_t joining_call(const uint8_t *map, size_t length, size_t u, size_t v, uint16_t *out);
typedef uint8_t session_call(const uint8_t *map, size_t length, size_t first, const uint8_t *calls, size_t calls_length, uint8_t *statuses, size_t statuses_length,
                             uint16_t *answers, size_t answers_length, size_t *place);
typedef uint8_t marks_call(const uint16_t *turning, size_t turning_length, uint8_t *marks, size_t marks_length, uint16_t *work, size_t work_length);
typedef uint8_t unpack_call(const uint8_t *map, size_t length, uint16_t *turning, size_t turning_length, uint8_t *marks, size_t marks_length, uint16_t *m);
typedef uint8_t factor_call(const uint8_t *map, size_t length, size_t area, const uint8_t *kinds, size_t kinds_length, const double *values, size_t values_length,
                            double *out);
typedef size_t text_call(const uint8_t *map, size_t length, uint8_t *out);

enum { TURNS = 2, NUMBER_CALLS = 9 };

/* turn[] in this order: turn, turn back; number[]: cross, along, point, area; point first, degree; area first, sides, neighbours */
struct calls {
    const char *name;
    open_call *open;
    turn_call *turn[TURNS];
    number_call *number[NUMBER_CALLS];
    joining_call *joining;
};

extern const struct calls bitwise_calls;   /* bit by bit, from the bytes */
extern const struct calls halfedge_calls;  /* arrays of half-edges, built from the bytes at each call */
extern const struct calls succinct_calls;  /* sdsl's rank, select and parentheses, built from the bytes at each call */

/* Arrays of half-edges, built from the bytes once: then all calls of a session, the drawing, or the factor of an area, as pmap gives
   them, or the text of the schedule or of the listing. */
session_call halfedge_session;
unpack_call halfedge_unpack;
factor_call halfedge_factor;
text_call halfedge_schedule;
text_call halfedge_listing;

/* The factor of an area bit by bit. */
factor_call bitwise_factor;

/* Checks 1 to 4 and 21, and marks of a spanning tree, in two plain ways: both give the tree of a search by breadth from end 0. */
marks_call marks_by_points;
marks_call marks_by_ends;

/* Checks 1 to 7 and the map, in a plain way: the status and pair as pmap_pack gives them. */
uint32_t plain_pack(const uint16_t *turning, size_t turning_length, const uint8_t *marks, size_t marks_length, size_t start,
                    uint16_t *work, size_t work_length, uint8_t *out, size_t out_length, uint16_t *length);

#ifdef __cplusplus
}
#endif

#endif
