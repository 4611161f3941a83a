/*
 * pmap.h - packed maps of rating areas: finding marks for a drawing, packing it and unpacking a map; opening, moves, counts,
 * factors, the joining border and whole sessions on the bytes of a map. Link with libpmap.a (`rt lib` in crates/pmap).
 *
 * Proved. For all bytes and all numbers, and as long as the caller keeps to "Memory" and "Doubles" below, every function
 * ends, touches no other memory, and answers and leaves in the memory it was lent what stands here. Not proved: "Time",
 * "Stack" and "Threads" below, which say what was measured and how the functions are built.
 *
 * Words. A map has m borders (0 to 2,048), n points (1 to m+1) and m-n+2 areas. Each border has two places, so that the
 * places are 1 to 2m. Points are 1 to n, areas are 1 to m-n+2. The three kinds of numbers are not to be mixed up: place
 * 3 has nothing to do with point 3 or area 3. An answer of place 0 means that there is none, where a call says so.
 *
 * Bytes. A map begins with three numbers of two bytes each, low byte first: m at byte 0, n at byte 2, and the count of areas,
 * m-n+2, at byte 4. Three strings of bits follow, each from a fresh byte, the first bit lowest, unused bits 0: 2m bits that
 * say which places are of marked borders, 2n-2 for the marked and 2(m-n+1) for the unmarked places in order, 0 at a border's
 * first place, 1 at its second. docs/GUIDE.md has the offsets as a table. Cards made before the count was put on them, whose
 * strings begin at byte 4, are refused with 8, 20 or 9; docs/REFUSALS.md says which.
 *
 * Drawings. Border e of a drawing, 0 to m-1, has the ends 2e and 2e+1. Entry h of the turning list is the end that
 * follows end h counterclockwise about its point; there are 2m entries. The marks have one byte for each border: 1 for a
 * border of the spanning tree, else 0. The tour begins at the start, an end (0 if m is 0). Only pmap_marks, pmap_pack and
 * pmap_unpack have to do with drawings.
 *
 * Status. Every function returns 0 (PMAP_OK) and writes its answer, or it returns the number of the first check that
 * fails, in the order of the list below, and then it has written nothing: every out slot and every out list holds what
 * it held before. Every call on a map runs the checks 8, 20, 9, 10, 11, 12 on the whole map first, in this order, so that
 * pmap_session tests 2 after them. pmap_pack returns two border numbers beside the status. It and pmap_marks say what they
 * leave in their working lists.
 *
 * Memory. `map` points to map_len readable bytes, with no alignment asked for; it may be NULL if map_len is 0. So it is
 * with every list: turning_len, marks_len, work_len, out_len, calls_len, statuses_len, answers_len, kinds_len and values_len
 * count entries, the list may be NULL if it has none, and lists of uint16_t and of double are aligned as such. The functions
 * only read what is const. Out slots are not NULL and are aligned as what they hold: uint16_t, but *gone_round of the turns is
 * a byte, *place of pmap_session a size_t and *out of pmap_factor a double. All memory stays the caller's: nothing is kept,
 * freed or handed over. The lists and the slots that are lent to one call must not overlap one another, and no other thread
 * may write any of them during the call, or read those that are not const.
 *
 * Doubles. Only pmap_factor has to do with them. A double is a binary64 of IEEE 754. The thread that calls must round to
 * nearest, ties to even, and must not trap, as every C program does unless it asks for something else (fenv.h); the flags of
 * fenv.h may be raised.
 *
 * Time. pmap_pack and pmap_marks take time in proportion to m at most, every call on a map in proportion to map_len,
 * pmap_session to map_len and calls_len together, whatever the map is like. docs/SPEED.md has the times measured.
 *
 * Stack. No function recurses or allocates. pmap_session, pmap_neighbours, pmap_factor, pmap_joining and pmap_unpack hold
 * lists of the whole map on the stack: the deepest of them was measured at 43,384 bytes below the caller's frame, every other
 * call at up to 544 (libpmap.a as of the older kit, x86-64). A host that leaves PMAP_STACK bytes has half as much again as any
 * call takes. tests/host measures it again at each run.
 *
 * Threads. Nothing is kept between calls, there is no global state, and no function calls back: calls may run in several
 * threads at once.
 */
#ifndef PMAP_H
#define PMAP_H

#include <stddef.h>
#include <stdint.h>

#ifdef __cplusplus
extern "C" {
#endif

enum {
    PMAP_OK = 0,           /* success: the answer was written */
    PMAP_LISTS = 1,        /* turning_len is odd or over 4,096, or marks_len is not half of it */
    PMAP_ROOM = 2,         /* pmap_pack: work_len is under 6m, or out_len under PMAP_LONGEST; pmap_marks: work_len is under 6m;
                              pmap_session: statuses_len or answers_len is under calls_len */
    PMAP_RANGE = 3,        /* an entry or the start is not below 2m (m = 0: the start is not 0), or a mark is over 1;
                              pmap_marks: an entry is not below 2m */
    PMAP_REPEATED = 4,     /* two entries of the turning list are equal */
    PMAP_PIECES = 21,      /* pmap_marks: some two points have no path of borders between them; tested straight after 4 */
    PMAP_APART = 5,        /* the marked borders don't join all points */
    PMAP_MANY_MARKS = 6,   /* they do, and there are more of them than n-1 */
    PMAP_CROSSING = 7,     /* two unmarked borders alternate in the tour: PMAP_SMALLER and PMAP_LARGER name them */
    PMAP_HEADER = 8,       /* too few bytes for a header, m over 2,048, or n not 1 to m+1 */
    PMAP_AREAS = 20,       /* the count of areas in the header is not m-n+2; tested between 8 and 9 */
    PMAP_LENGTH = 9,       /* map_len is not the length that the header gives */
    PMAP_UNUSED_BIT = 10,  /* a bit that belongs to no string is 1 */
    PMAP_ONES = 11,        /* the string A has not 2n-2 ones */
    PMAP_BRACKETS = 12,    /* the string B or B* is not balanced */
    PMAP_NO_PLACE = 13,    /* place is not 1 to 2m */
    PMAP_NO_POINT = 14,    /* point is not 1 to n */
    PMAP_NO_AREA = 15,     /* area is not 1 to m-n+2 */
    PMAP_SHORT_LISTS = 16, /* turning_len is under 2m, or marks_len under m */
    PMAP_TARIFF = 18,      /* kinds_len is not m-n+2, or values_len not three times that; or in any area a kind is over 2, a
                              number that its kind uses is outside its bounds or a NaN, or a floor is above its ceiling */
    PMAP_NO_FACTOR = 19,   /* the area's factor is not known, and no known one lies across any of its sides */
    PMAP_NO_CALL = 255     /* a code in `calls` is over 5; all the others are numbers of documents 01 and 02 */
};

/* The kinds of an area's factor, for pmap_factor. */
enum {
    PMAP_KIND_OWN = 0,    /* the area's own; its floor and ceiling are not read */
    PMAP_KIND_HELD = 1,   /* raised to its floor or lowered to its ceiling */
    PMAP_KIND_UNKNOWN = 2 /* not known; its factor, floor and ceiling are not read */
};

/* The calls of a session, by their codes. */
enum {
    PMAP_CALL_CROSS = 0,
    PMAP_CALL_TURN = 1,
    PMAP_CALL_TURN_BACK = 2,
    PMAP_CALL_ALONG = 3,
    PMAP_CALL_POINT = 4,
    PMAP_CALL_AREA = 5
};

/* In the answers of a session: the bit that says that a turn has gone round. The other bits are the place. */
#define PMAP_GONE_ROUND 0x8000

/* The length of the longest map, in bytes. A buffer of PMAP_LONGEST + 1 tells a card that is too long from one that isn't. */
#define PMAP_LONGEST 1031

/* The greatest number of borders: a turning list has at most twice as many entries. */
#define PMAP_MOST_BORDERS 2048

/* The bounds of factors, floors and ceilings, both allowed: the double nearest to 0.01, bits 3F847AE147AE147B, and 100. */
#define PMAP_LEAST_FACTOR 0.01
#define PMAP_MOST_FACTOR 100.0

/* Bytes of stack that are enough for every call: see "Stack". */
#define PMAP_STACK 65536

/*
 * What pmap_pack returns, taken apart: the status, and with PMAP_CROSSING the two borders, the smaller first. A crossing is
 * PMAP_STATUS(packed) == PMAP_CROSSING; packed == PMAP_CROSSING is never true, since two border numbers stand above it.
 */
#define PMAP_STATUS(packed) ((uint8_t)((packed) & 0xff))
#define PMAP_SMALLER(packed) ((uint16_t)((packed) >> 8 & 0xfff))
#define PMAP_LARGER(packed) ((uint16_t)((packed) >> 20 & 0xfff))

/*
 * Finds marks for a drawing that has none: writes marks of a spanning tree, one byte for each border, to `marks`. Each is 0
 * or 1, n-1 of them are 1, and the borders with a 1 join all points. Which tree it is, is left open. With these marks and
 * any start that is an end (0 if m is 0) the drawing passes 1 to 6, so that pmap_pack packs it or answers 7.
 *
 * m is marks_len, and turning_len is to be 2m. What `marks` holds before is not read: the status does not depend on it, and
 * with 0 every mark is overwritten. Nor does the tree depend on it: the search that finds it is lent no marks. Both are proved.
 * With any refusal `marks` is left as it was. `work` is a working list of at least 6m entries, left as by pmap_pack: with 1, 2
 * and 3 as it was; after any other outcome, success too, its first 6m entries are 0 and the rest is as it was. Of the drawings
 * that pass 1 to 4, those whose points are all joined by paths of borders get marks, and exactly the others get 21.
 * Status: 0, 1, 2, 3, 4, 21.
 */
uint8_t pmap_marks(const uint16_t *turning, size_t turning_len, uint8_t *marks, size_t marks_len, uint16_t *work,
                   size_t work_len);

/*
 * Packs a drawing: writes the bytes of its map to the beginning of `out`, and their number, at most PMAP_LONGEST, to *length.
 * Nothing after them is touched. m is marks_len, and turning_len is to be 2m.
 *
 * `work` is a working list of at least 6m entries, whatever they hold. With 1, 2 and 3 it is left as it was. After any
 * other outcome, success too, its first 6m entries are 0 and the rest is as it was. `out` has at least PMAP_LONGEST
 * bytes, however small the drawing. With any refusal `out` and *length are left as they were.
 *
 * Returns a word to be taken apart by PMAP_STATUS, PMAP_SMALLER and PMAP_LARGER: 0, or the refusal in the low 8 bits. With 7
 * it carries the first crossing: of all pairs of unmarked borders that come as a, b, a, b in the tour the one whose second a
 * has the lowest place, and among those the one whose first b has the lowest place. Bits 8 to 19 hold the smaller of the two
 * border numbers, bits 20 to 31 the larger. Otherwise those bits are 0. Which pair is first depends on the marks and on the
 * start; docs/REFUSALS.md shows a drawing that is repaired so, from the start of its tour onwards.
 * Status: 0, 1, 2, 3, 4, 5, 6, 7.
 */
uint32_t pmap_pack(const uint16_t *turning, size_t turning_len, const uint8_t *marks, size_t marks_len, size_t start,
                   uint16_t *work, size_t work_len, uint8_t *out, size_t out_len, uint16_t *length);

/*
 * Unpacks a map: writes its drawing to the first 2m entries of `turning` and the first m of `marks`, and the number of
 * borders to *m. Nothing after them is touched. Borders are numbered by their first places, the first place of a border
 * is its even end, and the start is end 0: packing that drawing from there gives the same map again. With any refusal
 * both lists and *m are left as they were.
 * Status: 0, 8, 20, 9, 10, 11, 12, 16.
 */
uint8_t pmap_unpack(const uint8_t *map, size_t map_len, uint16_t *turning, size_t turning_len, uint8_t *marks,
                    size_t marks_len, uint16_t *m);

/*
 * Opens a map: checks its bytes, and writes the number of borders to *m and the number of points to *n.
 * Status: 0, 8, 20, 9, 10, 11, 12.
 */
uint8_t pmap_open(const uint8_t *map, size_t map_len, uint16_t *m, uint16_t *n);

/*
 * A move: the place on the other side of the border, which is the place of the border's other end.
 * Status: 0, 8, 20, 9, 10, 11, 12, 13.
 */
uint8_t pmap_cross(const uint8_t *map, size_t map_len, size_t place, uint16_t *out);

/*
 * A move: the next place counterclockwise about the point. At the point's last place it is the first again, with a sign that
 * the turn has gone round: *gone_round is then 1, otherwise 0. As many turns as the point has places lead back, one of them
 * with the sign; where it has one place, every turn answers that place with the sign.
 * Status: 0, 8, 20, 9, 10, 11, 12, 13.
 */
uint8_t pmap_turn(const uint8_t *map, size_t map_len, size_t place, uint16_t *out, uint8_t *gone_round);

/*
 * A move: the place before this one about the point. At the point's first place it is the last, with the sign: *gone_round is
 * then 1, otherwise 0. It undoes pmap_turn, which has the same sign.
 * Status: 0, 8, 20, 9, 10, 11, 12, 13.
 */
uint8_t pmap_turn_back(const uint8_t *map, size_t map_len, size_t place, uint16_t *out, uint8_t *gone_round);

/*
 * A move: the next place on the walk along the borders of the area. The walk is closed.
 * Status: 0, 8, 20, 9, 10, 11, 12, 13.
 */
uint8_t pmap_along(const uint8_t *map, size_t map_len, size_t place, uint16_t *out);

/*
 * The point at which the place is.
 * Status: 0, 8, 20, 9, 10, 11, 12, 13.
 */
uint8_t pmap_point(const uint8_t *map, size_t map_len, size_t place, uint16_t *out);

/*
 * The area that the place borders. What lies across the border is the area of pmap_cross's answer.
 * Status: 0, 8, 20, 9, 10, 11, 12, 13.
 */
uint8_t pmap_area(const uint8_t *map, size_t map_len, size_t place, uint16_t *out);

/*
 * The point's first place, its lowest; 0 if the map has no borders.
 * Status: 0, 8, 20, 9, 10, 11, 12, 14.
 */
uint8_t pmap_point_first(const uint8_t *map, size_t map_len, size_t point, uint16_t *out);

/*
 * How many places the point has: its degree. A border with both ends at the point counts twice.
 * Status: 0, 8, 20, 9, 10, 11, 12, 14.
 */
uint8_t pmap_degree(const uint8_t *map, size_t map_len, size_t point, uint16_t *out);

/*
 * The area's first place, its lowest; 0 if the map has no borders.
 * Status: 0, 8, 20, 9, 10, 11, 12, 15.
 */
uint8_t pmap_area_first(const uint8_t *map, size_t map_len, size_t area, uint16_t *out);

/*
 * How many places the area has: its sides. A border with the area on both sides counts twice.
 * Status: 0, 8, 20, 9, 10, 11, 12, 15.
 */
uint8_t pmap_sides(const uint8_t *map, size_t map_len, size_t area, uint16_t *out);

/*
 * The area's neighbour count: how many other areas lie across at least one of its sides. Each counts once, however many
 * borders the two share, and the area itself never counts. The area across a side is that of pmap_cross's answer. The
 * count is at most that of pmap_sides; it is 0 if the map has no borders, or if both sides of each border of the area
 * are the area's own.
 * Status: 0, 8, 20, 9, 10, 11, 12, 15.
 */
uint8_t pmap_neighbours(const uint8_t *map, size_t map_len, size_t area, uint16_t *out);

/*
 * The area's factor in a tariff. The tariff is lent as two lists that go through the areas in order, area 1 first: `kinds`
 * has a kind for each area, `values` three doubles in a row for each, its factor, its floor and its ceiling. With v = m-n+2
 * areas kinds_len is exactly v and values_len exactly 3v.
 *
 * PMAP_KIND_OWN: the answer is the factor.
 * PMAP_KIND_HELD: the answer is the floor if the factor is below it, the ceiling if the factor is above that, else the
 * factor.
 * PMAP_KIND_UNKNOWN: the answer is the mean across the area's sides. It begins at 0.0; for each side, in the order of
 * pmap_along from the answer of pmap_area_first, once round, it adds the factor of the area across if that is own or held,
 * a held one as held; it divides the sum by how many were added. An area counts once for each side that it lies across. One
 * that is not known is passed over, and so is the area itself. Each addition and the division are rounded once, so that the
 * bits of the answer are fixed. It is not held to any limit; whatever is answered is a number from 1/128 to 128.
 *
 * What a kind uses, in any area, is from PMAP_LEAST_FACTOR to PMAP_MOST_FACTOR, and the floor of a held factor is not above
 * its ceiling; the factor may lie outside the two. Otherwise the status is 18, whichever area was asked for. What a kind
 * doesn't use may be anything, a NaN too, and changes nothing. The status is 19 if the factor of the area asked for is not
 * known and none was added, so also if the map has no borders.
 * Status: 0, 8, 20, 9, 10, 11, 12, 15, 18, 19.
 */
uint8_t pmap_factor(const uint8_t *map, size_t map_len, size_t area, const uint8_t *kinds, size_t kinds_len,
                    const double *values, size_t values_len, double *out);

/*
 * The joining border of points u and v: the first place about u, in turning order from u's first place, whose crossing
 * lands at v; 0 if no border joins them. With u = v it finds a border that has both ends there.
 * Status: 0, 8, 20, 9, 10, 11, 12, 14 (u or v is not a point).
 */
uint8_t pmap_joining(const uint8_t *map, size_t map_len, size_t u, size_t v, uint16_t *out);

/*
 * A session: a list of calls in one, each about the place that the calls before it have left. `calls` has a code for each
 * call. The place is `first` at the beginning, whatever number that is. A call answers what the single call would answer
 * of the place. If it is a move (cross, turn, turn back, along), its answer is the new place; point and area leave the place
 * as it is.
 *
 * Entry i of `statuses` is the status of call i, 0 or 13, and entry i of `answers` is its answer. Where a turn or turn back
 * has gone round, the entry has the bit PMAP_GONE_ROUND too; no other entry has it, and the new place is without it. A call
 * that is refused has the answer 0, and the place stays. If `first` is a place of the map, no call is refused and the place
 * left is one; if it is none, every call gets 13. The place left at the end goes to *place. The first calls_len entries of
 * the two lists are written, and nothing after them is touched.
 *
 * The checks of the session itself run in the order 8, 20, 9 to 12, 2 (a list is shorter than the calls), 255 (a code is
 * over 5). With any of these refusals both lists and *place are left as they were.
 * Status: 0, 8, 20, 9, 10, 11, 12, 2, 255.
 */
uint8_t pmap_session(const uint8_t *map, size_t map_len, size_t first, const uint8_t *calls, size_t calls_len,
                     uint8_t *statuses, size_t statuses_len, uint16_t *answers, size_t answers_len, size_t *place);

#ifdef __cplusplus
}
#endif

#endif
