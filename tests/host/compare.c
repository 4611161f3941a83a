/* Comparing the library with the book of a drawing. */
#include "compare.h"

#include <stdio.h>
#include <string.h>

#include "cards.h"
#include "factors.h"
#include "lending.h"
#include "pmap.h"
#include "sessions.h"
#include "tally.h"

/* ---- lending cards ---- */

static struct loan card;

/* The library may not change the card. */
static void give_back(const uint8_t *bytes, size_t length)
{
    compared_one();
    if (!take_back(&card, bytes)) differs("card", bytes, length, "its bytes or what stands beside them were changed");
}

/* ---- one answer ---- */

static void compare(const char *call, size_t u, size_t v, const uint8_t *map, size_t length, struct reply want, struct reply given)
{
    compared_one();
    if (same_reply(given, want)) {
        seen_once(given.status);
    } else {
        char detail[200];
        snprintf(detail, sizeof detail, "of %zu, %zu: status %u, wanted %u; answer %zu, wanted %zu%s; sign %u, wanted %u", u, v,
                 given.status, want.status, given.value, want.value, given.value == OLD ? ": a cell is not as it must be" : "",
                 given.sign, want.sign);
        differs(call, map, length, detail);
    }
}

#define EACH(table, call) (call = table; call < table + sizeof table / sizeof *table; call++)

/* The book is NULL where the card was refused: every call gets that number. */
static void compare_call(const struct call *call, const uint8_t *map, size_t length, uint8_t opening, const struct book *b, size_t k)
{
    struct reply want = {opening, 0, 0};
    if (opening == 0) want = call->book(b, k);
    compare(call->name, k, 0, map, length, want, library_reply(call, map, length, k));
}

static void compare_joining(const uint8_t *map, size_t length, uint8_t opening, const struct book *b, size_t u, size_t v)
{
    uint16_t cells[3] = {FENCE, OLD, FENCE};
    struct reply want = {opening, 0, 0};
    if (opening == 0) want = book_joining(b, u, v);
    compare("pmap_joining", u, v, map, length, want, reply_of(pmap_joining(map, length, u, v, &cells[1]), cells));
}

static void compare_open(const uint8_t *map, size_t length, uint8_t opening, const struct book *b)
{
    uint16_t cells[5] = {FENCE, OLD, FENCE, OLD, FENCE};
    struct reply m = {opening, 0, 0}, n = m;
    uint8_t status = pmap_open(map, length, &cells[1], &cells[3]);
    if (opening == 0) {
        m.value = b->drawing->m;
        n.value = b->n;
    }
    compare("pmap_open, m", 0, 0, map, length, m, reply_of(status, &cells[0]));
    compare("pmap_open, n", 0, 0, map, length, n, reply_of(status, &cells[2]));
}

/* ---- all answers of a card ---- */

static const size_t odd_numbers[] = {0, 65535, 65536, 65537, 65538, 4294967296u, 4294967297u, (size_t)1 << 63, SIZE_MAX};
enum { ODD_NUMBERS = sizeof odd_numbers / sizeof *odd_numbers };

/* Every call with the number k. */
static void compare_number(const uint8_t *map, size_t length, uint8_t opening, const struct book *b, size_t k)
{
    const struct call *call;
    for EACH(of_place, call) compare_call(call, map, length, opening, b, k);
    for EACH(of_point, call) compare_call(call, map, length, opening, b, k);
    for EACH(of_area, call) compare_call(call, map, length, opening, b, k);
    compare_joining(map, length, opening, b, k, k);
    compare_joining(map, length, opening, b, k, 1);
    compare_joining(map, length, opening, b, 1, k);
}

static void compare_odd(const uint8_t *map, size_t length, const struct book *b)
{
    size_t i, m = b->drawing->m, near[] = {1, 2 * m, 2 * m + 1, b->n, b->n + 1, b->areas, b->areas + 1, 65536 + 2 * m};
    for (i = 0; i < ODD_NUMBERS; i++) compare_number(map, length, 0, b, odd_numbers[i]);
    for (i = 0; i < sizeof near / sizeof *near; i++) compare_number(map, length, 0, b, near[i]);
}

/* All places, points, areas and pairs of points, the odd numbers, sessions, and a factor. */
static void compare_all(const uint8_t *map, size_t length, const struct book *b)
{
    const struct call *call;
    size_t k, v;
    compare_open(map, length, 0, b);
    compare_odd(map, length, b);
    for (k = 1; k <= 2 * b->drawing->m; k++)
        for EACH(of_place, call) compare_call(call, map, length, 0, b, k);
    for (k = 1; k <= b->n; k++) {
        for EACH(of_point, call) compare_call(call, map, length, 0, b, k);
        for (v = 1; v <= b->n; v++) compare_joining(map, length, 0, b, k, v);
    }
    for (k = 1; k <= b->areas; k++)
        for EACH(of_area, call) compare_call(call, map, length, 0, b, k);
    compare_sessions(map, length, 0, b);
    compare_factors(map, length, 0, b);
}

/* `count` places, points, areas and pairs of points, by chance, the odd numbers, sessions, and a factor. */
static void compare_some(const uint8_t *map, size_t length, const struct book *b, size_t count)
{
    const struct call *call;
    compare_open(map, length, 0, b);
    compare_odd(map, length, b);
    while (count-- > 0) {
        size_t place = 1 + random_below(2 * b->drawing->m), point = 1 + random_below(b->n), area = 1 + random_below(b->areas);
        for EACH(of_place, call) compare_call(call, map, length, 0, b, place);
        for EACH(of_point, call) compare_call(call, map, length, 0, b, point);
        for EACH(of_area, call) compare_call(call, map, length, 0, b, area);
        compare_joining(map, length, 0, b, point, 1 + random_below(b->n));
        compare_joining(map, length, 0, b, point, book_point(b, book_cross(b, place).value).value);
    }
    compare_sessions(map, length, 0, b);
    compare_factors(map, length, 0, b);
}

void compare_refused(const uint8_t *map, size_t length, uint8_t status)
{
    compare_open(map, length, status, NULL);
    compare_number(map, length, status, NULL, 0);
    compare_number(map, length, status, NULL, 1);
    compare_number(map, length, status, NULL, SIZE_MAX);
    compare_sessions(map, length, status, NULL);
    compare_factors(map, length, status, NULL);
}

static struct drawing drawing;
static struct book book;

/* The reference's own claim: the drawing of a card has a tour, and packs to the card. */
static void compare_packing(const uint8_t *bytes, size_t length, const struct book *b)
{
    uint8_t again[LONGEST];
    compared_one();
    if (pack(b, again) != length || memcmp(again, bytes, length) != 0) differs("reference", bytes, length, "packs to other bytes");
}

void compare_bytes(const uint8_t *bytes, size_t length)
{
    uint8_t *map = lend(&card, bytes, length), status = unpack(bytes, length, &drawing);
    if (status != 0) {
        compare_refused(map, length, status);
    } else {
        expect(make_book(&drawing, &book), "reference", "the tour of a card's drawing does not meet every end");
        compare_packing(bytes, length, &book);
        compare_all(map, length, &book);
    }
    give_back(bytes, length);
}

void compare_drawing(const struct drawing *d, size_t some)
{
    uint8_t bytes[LONGEST], *map;
    size_t length;
    expect(make_book(d, &book), "reference", "the tour of a drawing does not meet every end");
    length = pack(&book, bytes);
    map = lend(&card, bytes, length);
    if (some == 0) compare_all(map, length, &book);
    else compare_some(map, length, &book, some);
    give_back(bytes, length);
}

void compare_refused_open(const uint8_t *bytes, size_t length, uint8_t status)
{
    uint8_t *map = lend(&card, bytes, length);
    compare_open(map, length, status, NULL);
    give_back(bytes, length);
}

void compare_value(const char *name, library_call *call, const uint8_t *map, size_t length, size_t number, uint8_t status, size_t value)
{
    struct call one = {name, call, NULL, NULL};
    struct reply want = {status, value, 0};
    compare(name, number, 0, map, length, want, library_reply(&one, map, length, number));
}

void compare_turn(uint8_t code, const uint8_t *map, size_t length, size_t place, struct reply want)
{
    compare(of_place[code].name, place, 0, map, length, want, library_reply(&of_place[code], map, length, place));
}

void compare_areas(const uint8_t *bytes, size_t length)
{
    const struct call *call;
    size_t k;
    expect(unpack(bytes, length, &drawing) == 0 && make_book(&drawing, &book), "reference", "the card does not open");
    for (k = 1; k <= book.areas; k++)
        for EACH(of_area, call) compare_call(call, bytes, length, 0, &book, k);
}

void compare_numbers(const uint8_t *bytes, size_t length)
{
    const struct call *call;
    size_t k;
    compare_areas(bytes, length);
    for (k = 1; k <= 2 * drawing.m; k++)
        for EACH(of_place, call) compare_call(call, bytes, length, 0, &book, k);
    for (k = 1; k <= book.n; k++)
        for EACH(of_point, call) compare_call(call, bytes, length, 0, &book, k);
}
