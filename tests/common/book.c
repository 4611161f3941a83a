/* Packing and renumbering by the tour, the drawing's book, and sessions on it. */
#include "reference.h"

#include <string.h>

/* ---- "Tour and packed map", packing ---- */

static void put_bit(uint8_t *string, size_t i, int bit)
{
    string[i / 8] |= (uint8_t)(bit << i % 8);
}

size_t pack(const struct book *b, uint8_t *map)
{
    const struct drawing *d = b->drawing;
    size_t start_b = HEADER + bytes_of(2 * d->m), start_b_star = start_b + bytes_of(2 * b->n - 2);
    size_t length = HEADER + strings_length(d->m, b->n), at[2] = {0, 0}, i;

    memset(map, 0, length);
    put_field(map, AT_M, d->m);
    put_field(map, AT_N, b->n);
    put_field(map, AT_AREAS, b->areas);
    for (i = 1; i <= 2 * d->m; i++) {
        size_t h = b->end_at[i];
        int kind = marked(d, h), second = b->place_of[other(h)] < i;
        put_bit(map + HEADER, i - 1, kind);
        put_bit(map + (kind ? start_b : start_b_star), at[kind]++, second);
    }
    return length;
}

void renumber_by_tour(const struct book *b, struct drawing *renumbered)
{
    const struct drawing *d = b->drawing;
    size_t new_end[MOST_ENDS], borders = 0, i;

    for (i = 1; i <= 2 * d->m; i++) {
        size_t h = b->end_at[i];
        if (b->place_of[other(h)] < i) continue;
        renumbered->marks[borders] = d->marks[h / 2];
        new_end[h] = 2 * borders;
        new_end[other(h)] = 2 * borders + 1;
        borders++;
    }
    for (i = 0; i < 2 * d->m; i++) renumbered->turning[new_end[i]] = (uint16_t)new_end[d->turning[i]];
    renumbered->m = d->m;
    renumbered->start = 0;
}

/* ---- "The drawing's book" ---- */

/* "numbered from 1 by their lowest places, lowest first": points turn, area walks turn at the other end. */
static size_t number_cycles(const struct book *b, int areas, size_t *number_of, size_t *first, size_t *size)
{
    const struct drawing *d = b->drawing;
    size_t i, h, count = 0;

    if (d->m == 0) {
        first[1] = size[1] = 0;
        return 1;
    }
    memset(number_of, 0, 2 * d->m * sizeof *number_of);
    for (i = 1; i <= 2 * d->m; i++) {
        if (number_of[b->end_at[i]] != 0) continue;
        count++;
        first[count] = i;
        size[count] = 0;
        for (h = b->end_at[i]; number_of[h] == 0; h = d->turning[areas ? other(h) : h]) {
            number_of[h] = count;
            size[count]++;
        }
    }
    return count;
}

int make_book(const struct drawing *d, struct book *b)
{
    size_t i, h = d->start;

    b->drawing = d;
    memset(b->place_of, 0, 2 * d->m * sizeof *b->place_of);
    for (i = 1; i <= 2 * d->m; i++) {
        if (b->place_of[h] != 0) return 0;
        b->place_of[h] = i;
        b->end_at[i] = h;
        b->end_before[d->turning[h]] = h;
        h = tour_after(d, h);
    }
    b->n = number_cycles(b, 0, b->point_of, b->point_first, b->degree);
    b->areas = number_cycles(b, 1, b->area_of, b->area_first, b->sides);
    return d->m == 0 || h == d->start;
}

int same_reply(struct reply r, struct reply other)
{
    return r.status == other.status && r.value == other.value && r.sign == other.sign;
}

static struct reply refused(uint8_t status)
{
    struct reply r = {status, 0, 0};
    return r;
}

static struct reply turned(size_t place, int gone_round)
{
    struct reply r = {0, place, (uint8_t)gone_round};
    return r;
}

static struct reply answer(size_t value)
{
    return turned(value, 0);
}

static int is_place(const struct book *b, size_t place)
{
    return 1 <= place && place <= 2 * b->drawing->m;
}

static int is_point(const struct book *b, size_t point)
{
    return 1 <= point && point <= b->n;
}

static int is_area(const struct book *b, size_t area)
{
    return 1 <= area && area <= b->areas;
}

struct reply book_cross(const struct book *b, size_t place)
{
    if (!is_place(b, place)) return refused(13);
    return answer(b->place_of[other(b->end_at[place])]);
}

/* "Turn answers the place of h's entry"; where that is "the lowest place about the point" it has gone round: request 8/14. */
struct reply book_turn(const struct book *b, size_t place)
{
    size_t h, next;
    if (!is_place(b, place)) return refused(13);
    h = b->end_at[place];
    next = b->place_of[b->drawing->turning[h]];
    return turned(next, next == b->point_first[b->point_of[h]]);
}

/* "the place of the end whose entry is h"; where "h's own place is the lowest about the point" it has gone round */
struct reply book_turn_back(const struct book *b, size_t place)
{
    size_t h;
    if (!is_place(b, place)) return refused(13);
    h = b->end_at[place];
    return turned(b->place_of[b->end_before[h]], place == b->point_first[b->point_of[h]]);
}

struct reply book_along(const struct book *b, size_t place)
{
    if (!is_place(b, place)) return refused(13);
    return answer(b->place_of[b->drawing->turning[other(b->end_at[place])]]);
}

struct reply book_point(const struct book *b, size_t place)
{
    if (!is_place(b, place)) return refused(13);
    return answer(b->point_of[b->end_at[place]]);
}

struct reply book_area(const struct book *b, size_t place)
{
    if (!is_place(b, place)) return refused(13);
    return answer(b->area_of[b->end_at[place]]);
}

struct reply book_point_first(const struct book *b, size_t point)
{
    if (!is_point(b, point)) return refused(14);
    return answer(b->point_first[point]);
}

struct reply book_degree(const struct book *b, size_t point)
{
    if (!is_point(b, point)) return refused(14);
    return answer(b->degree[point]);
}

struct reply book_area_first(const struct book *b, size_t area)
{
    if (!is_area(b, area)) return refused(15);
    return answer(b->area_first[area]);
}

struct reply book_sides(const struct book *b, size_t area)
{
    if (!is_area(b, area)) return refused(15);
    return answer(b->sides[area]);
}

/* Request 3/14: "The area across a side is the area of its crossing. The neighbour count becomes the number of other areas across
   at least one side." */
struct reply book_neighbours(const struct book *b, size_t area)
{
    uint8_t across[MOST_BORDERS + 2] = {0};
    size_t h, k, count = 0;
    if (!is_area(b, area)) return refused(15);
    for (h = 0; h < 2 * b->drawing->m; h++)
        if (b->area_of[h] == area) across[b->area_of[other(h)]] = 1;
    for (k = 1; k <= b->areas; k++) count += k != area && across[k];
    return answer(count);
}

/* "once round from the first place of u" */
struct reply book_joining(const struct book *b, size_t u, size_t v)
{
    size_t first, h;
    if (!is_point(b, u) || !is_point(b, v)) return refused(14);
    if (b->drawing->m == 0) return answer(0);
    first = h = b->end_at[b->point_first[u]];
    do {
        if (b->point_of[other(h)] == v) return answer(b->place_of[h]);
        h = b->drawing->turning[h];
    } while (h != first);
    return answer(0);
}

/* ---- sessions ---- */

uint8_t session_refusal(const struct asked *s)
{
    size_t i;
    if (s->statuses_len < s->calls_len || s->answers_len < s->calls_len) return 2;
    for (i = 0; i < s->calls_len; i++)
        if (s->calls[i] > 5) return 255;
    return 0;
}

/* Of a move "the answer is the new place"; of point and area, and of a call that gets 13, "the place stays". */
struct reply book_step(const struct book *b, uint8_t code, size_t *place)
{
    struct reply r;
    if (code == 4) return book_point(b, *place);
    if (code == 5) return book_area(b, *place);
    if (code == 0) r = book_cross(b, *place);
    else if (code == 1) r = book_turn(b, *place);
    else if (code == 2) r = book_turn_back(b, *place);
    else r = book_along(b, *place);
    if (r.status == 0) *place = r.value;
    return r;
}

uint16_t session_entry(struct reply r)
{
    return (uint16_t)(r.value + (r.sign ? SIGN_BIT : 0));
}
