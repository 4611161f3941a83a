/*
 * Document 01 once more, from the drawing's side: what is wrong with a drawing or with a card, the drawing that bytes unpack
 * to, and the drawing's book with its sessions; and of document 02 the crossing that request 2/14 fixes and the neighbours as
 * request 3/14 counts them, the count of areas that request 6/14 puts on a card, what holds of the marks that request 7/14 finds, and
 * the turns of request 8/14.
 * Written from the documents alone, and what stands for a call and for a sign in a session from include/pmap.h, so that the library can
 * be compared with it; slow and plain on purpose, and where there is a choice not in the library's way: borders are followed by merging
 * points, the crossing of 7 is looked for among all pairs, the sides of an area among all ends, the count that a card gets is that of
 * the drawing's area walks, and a turn is found to have gone round by the first place of its point.
 */
#ifndef REFERENCE_H
#define REFERENCE_H

#include <stddef.h>
#include <stdint.h>

enum { MOST_BORDERS = 2048, MOST_ENDS = 2 * MOST_BORDERS };

/* The header of a card, in bytes: "m, then n, each two bytes, low byte first"; request 6/14: "Two bytes, low first, follow n and
   hold m-n+2." Before that request the strings began where the count is now. */
enum { AT_M = 0, AT_N = 2, AT_AREAS = 4, HEADER = 6, LONGEST = HEADER + 1025 };

/* A field of a header. */
size_t field_at(const uint8_t *map, size_t at);
void put_field(uint8_t *map, size_t at, size_t number);

/* "The drawing": border e has the ends 2e and 2e+1; turning[h] follows end h counterclockwise about its point. */
struct drawing {
    size_t m;
    uint16_t turning[MOST_ENDS];
    uint8_t marks[MOST_BORDERS];
    size_t start;
};

/* "The drawing's book": the drawing and its tour. Places, points and areas count from 1. */
struct book {
    const struct drawing *drawing;
    size_t n, areas;
    size_t place_of[MOST_ENDS];    /* end to place */
    size_t end_at[MOST_ENDS + 1];  /* place to end */
    size_t end_before[MOST_ENDS];  /* the end whose entry is h */
    size_t point_of[MOST_ENDS], area_of[MOST_ENDS];
    size_t point_first[MOST_BORDERS + 2], degree[MOST_BORDERS + 2];
    size_t area_first[MOST_BORDERS + 2], sides[MOST_BORDERS + 2];
};

/* The other end of a border; whether an end's border is marked. */
size_t other(size_t h);
int marked(const struct drawing *d, size_t h);

/* "The tour": after a marked end comes the entry of its other end, after an unmarked end its own entry. */
size_t tour_after(const struct drawing *d, size_t h);

/* How many bytes so many bits take, from a fresh byte. */
size_t bytes_of(size_t bits);

/* What a call gives: status 0 and a value, with 1 for "a sign that it has gone round", else 0; or the number of a refusal. */
struct reply {
    uint8_t status;
    size_t value;
    uint8_t sign;
};

/* Whether two replies are the same. */
int same_reply(struct reply r, struct reply other);

/* The first of 3 to 7 that applies to a drawing whose lists have the right lengths; 0 where none does. */
uint8_t drawing_refusal(const struct drawing *d);

/* What packing is lent: lists of any length. Finding marks is lent the same, but for the start and the output. */
struct lent {
    const uint16_t *turning;
    size_t turning_len;
    const uint8_t *marks;
    size_t marks_len;
    size_t start;
    size_t work_len, out_len;
};

/* The first of 1 to 7 that applies; 0 where none does. Unless it is 1 or 2, the lists are laid out as a drawing. */
uint8_t pack_refusal(const struct lent *lent, struct drawing *d);

/* Request 7/14: the first of 1 to 4 and 21 that applies to finding marks, for which "start, mark values and map output" are nothing;
   0 where none does. Unless it is 1 or 2, the lists are laid out as a drawing. */
uint8_t marks_refusal(const struct lent *lent, struct drawing *d);

/* The number of points, and of area walks (1 if m = 0), of a drawing that passes 3 and 4. */
size_t count_points(const struct drawing *d);
size_t count_areas(const struct drawing *d);

/* The sum of the marks; whether the marked borders join all points, and whether all borders do, of a drawing whose entries are in
   range. */
size_t count_marks(const struct drawing *d);
int marks_join(const struct drawing *d);
int borders_join(const struct drawing *d);

/* "every mark is 0 or 1, n-1 are 1, and those borders join all points" */
int marks_a_tree(const struct drawing *d);

/* The two places of each border in the tour of a drawing that passes 3 to 6, the lower first. */
struct places {
    size_t first, second;
};
void find_places(const struct drawing *d, struct places *of);

/* "a, b, a, b in the tour" */
int in_turns(struct places a, struct places b);

/* Request 2/14, for a drawing that passes 3 to 6: of all pairs of unmarked borders that come as a, b, a, b "the alternating pair
   whose second a has the lowest place, and among those the one whose first b has the lowest place". a == b where none do. */
struct crossing {
    size_t a, b;
};
struct crossing first_crossing(const struct drawing *d);

/* Whether two drawings are the same, entry by entry. */
int same_drawing(const struct drawing *d, const struct drawing *other);

/* How many bytes the three strings have, with m borders and n points. */
size_t strings_length(size_t m, size_t n);

/* The first of 8, 20 and 9 to 12 that applies to the bytes; 0 where none does, and then the drawing that they unpack to. */
uint8_t unpack(const uint8_t *map, size_t length, struct drawing *d);

/* The same in a box already sold, whose cards have no count of areas: the first of 8 to 12. */
uint8_t unpack_before(const uint8_t *map, size_t length, struct drawing *d);

/* The book of a drawing that drawing_refusal accepts. Gives 0 if its tour does not meet every end once, else 1. */
int make_book(const struct drawing *d, struct book *b);

/* The bytes of a packed drawing, by its tour. Gives their length. */
size_t pack(const struct book *b, uint8_t *map);

/* "that drawing so renumbered": borders by their first places, the first place is the even end, the start is 0. */
void renumber_by_tour(const struct book *b, struct drawing *renumbered);

struct reply book_cross(const struct book *b, size_t place);
struct reply book_turn(const struct book *b, size_t place);
struct reply book_turn_back(const struct book *b, size_t place);
struct reply book_along(const struct book *b, size_t place);
struct reply book_point(const struct book *b, size_t place);
struct reply book_area(const struct book *b, size_t place);
struct reply book_point_first(const struct book *b, size_t point);
struct reply book_degree(const struct book *b, size_t point);
struct reply book_area_first(const struct book *b, size_t area);
struct reply book_sides(const struct book *b, size_t area);
struct reply book_neighbours(const struct book *b, size_t area);
struct reply book_joining(const struct book *b, size_t u, size_t v);

/* A session: "a first number and a list of calls", the calls by their codes, and the room lent for what they give. */
struct asked {
    size_t first;
    const uint8_t *calls;
    size_t calls_len, statuses_len, answers_len;
};

/* 2 or 255, if one of them applies to a session on a map that opens, else 0: lists shorter than the calls, a code over 5. */
uint8_t session_refusal(const struct asked *s);

/* One call of a session, by its code: 0 to 5, cross, turn, turn back, along, point, area. The place becomes the one after it. */
struct reply book_step(const struct book *b, uint8_t code, size_t *place);

/* What a session's list of answers has for a reply: the value, 0 of a refused call, and the sign in bit 15. */
enum { SIGN_BIT = 0x8000 };
uint16_t session_entry(struct reply r);

#endif
