/*
 * Compares every call on map bytes with the book of the drawing (reference.c, book.c), on many cards, good and bad.
 *
 *     check              everything
 *     check small        the parts on small cards, and fewer of them
 *     check small heap   the same with each card in a heap block of its very length, for valgrind
 *
 * One line for each part says how many answers were compared. Its last line is 'N passed, M failed', a part being one.
 */
#include <stdio.h>
#include <string.h>

#include "cards.h"
#include "compare.h"
#include "counts.h"
#include "damage.h"
#include "examples.h"
#include "factors.h"
#include "lending.h"
#include "neighbours.h"
#include "pmap.h"
#include "reference.h"
#include "rounds.h"
#include "sessions.h"
#include "tally.h"
#include "tariffs.h"

_Static_assert(PMAP_LONGEST == LONGEST, "pmap.h and the documents differ about the longest map");
_Static_assert(PMAP_GONE_ROUND == SIGN_BIT, "the sign is another bit of a session's answers");

static int small;
static struct drawing drawing, renumbered;

/* Document 01's own numbers, without the reference; request 8/14: "the turns in cases (b) and (h) both answer 1 with the sign". */
static void worked_examples(void)
{
    static const size_t listing[6][4] = {{1, 5, 1, 1}, {2, 4, 2, 1}, {3, 6, 3, 1}, {4, 2, 3, 2}, {5, 1, 2, 2}, {6, 3, 1, 2}};
    static const struct reply gone_round = {0, 1, 1}, on = {0, 16, 0};
    size_t i;
    for (i = 0; i < 6; i++) {
        compare_value("pmap_cross", pmap_cross, CARD(triangle), listing[i][0], 0, listing[i][1]);
        compare_value("pmap_point", pmap_point, CARD(triangle), listing[i][0], 0, listing[i][2]);
        compare_value("pmap_area", pmap_area, CARD(triangle), listing[i][0], 0, listing[i][3]);
    }
    compare_value("pmap_sides", pmap_sides, CARD(empty), 1, 0, 0);
    compare_value("pmap_sides", pmap_sides, CARD(empty), 2, 15, 0);
    compare_turn(PMAP_CALL_TURN, CARD(stub), 1, gone_round);
    compare_value("pmap_sides", pmap_sides, CARD(stub), 1, 0, 2);
    compare_value("pmap_area", pmap_area, CARD(loop), 1, 0, 1);
    compare_value("pmap_area", pmap_area, CARD(loop), 2, 0, 2);
    compare_value("pmap_cross", pmap_cross, CARD(figure_1), 12, 0, 15);
    compare_value("pmap_cross", pmap_cross, CARD(figure_1), 1, 0, 4);
    compare_turn(PMAP_CALL_TURN, CARD(figure_1), 12, on);
    compare_turn(PMAP_CALL_TURN, CARD(figure_1), 28, gone_round);
    compare_value("pmap_point", pmap_point, CARD(figure_1), 16, 0, 5);
    compare_value("pmap_point", pmap_point, CARD(figure_1), 1, 0, 1);
    compare_value("pmap_area", pmap_area, CARD(figure_1), 23, 0, 1);
    compare_value("pmap_area", pmap_area, CARD(figure_1), 10, 0, 4);
    for (i = 0; i < TABLE; i++) compare_refused(table[i].bytes, table[i].length, table[i].status);
    compare_value("pmap_cross", pmap_cross, CARD(triangle), 0, 13, 0);
    compare_value("pmap_degree", pmap_degree, CARD(triangle), 0, 14, 0);
    compare_value("pmap_sides", pmap_sides, CARD(triangle), 0, 15, 0);
    part_ends("document 01's examples");
}

/* The same numbers, asked for in sessions: across and back, and round a point beyond its last place and back again. */
static void worked_sessions(void)
{
    enum { CROSS, TURN, TURN_BACK, ALONG, POINT, AREA, SIGN = 0x8000 };
    static const struct given on_triangle = {1, 5, {CROSS, POINT, AREA, CROSS, AREA}, {0}, {5, 2, 2, 1, 1}, 1},
                              on_figure[] = {{12, 3, {TURN, POINT, TURN_BACK}, {0}, {16, 5, 12}, 12},
                                             {12, 4, {AREA, CROSS, CROSS, TURN}, {0}, {4, 15, 12, 16}, 16},
                                             {28, 4, {TURN, TURN, POINT, CROSS}, {0}, {SIGN + 1, 2, 1, 10}, 10},
                                             {1, 4, {TURN_BACK, POINT, TURN_BACK, TURN}, {0}, {SIGN + 28, 1, 27, 28}, 28},
                                             {29, 3, {TURN, TURN_BACK, CROSS}, {13, 13, 13}, {0}, 29}},
                              on_stub = {1, 6, {CROSS, CROSS, TURN, TURN, TURN_BACK, POINT}, {0}, {2, 1, SIGN + 1, SIGN + 1, SIGN + 1, 1}, 1},
                              on_loop = {2, 4, {AREA, CROSS, AREA, ALONG}, {0}, {2, 1, 1, 1}, 1},
                              on_empty = {1, 2, {ALONG, AREA}, {13, 13}, {0}, 1};
    size_t place = 0, i;
    compare_given(CARD(triangle), &on_triangle);
    for (i = 0; i < sizeof on_figure / sizeof *on_figure; i++) compare_given(CARD(figure_1), &on_figure[i]);
    compare_given(CARD(stub), &on_stub);
    compare_given(CARD(loop), &on_loop);
    compare_given(CARD(empty), &on_empty);
    expect(pmap_session(CARD(triangle), 5, NULL, 0, NULL, 0, NULL, 0, &place) == 0 && place == 5, "pmap_session", "of no calls, and no lists");
    part_ends("document 01's examples in sessions");
}

/* A card that opens gets every call, and so does one of 64 that don't. */
static void compare_strings(const uint8_t *bytes, size_t length)
{
    static unsigned long refused;
    uint8_t status = unpack(bytes, length, &drawing);
    if (status == 0 || refused++ % 64 == 0) compare_bytes(bytes, length);
    else compare_refused_open(bytes, length, status);
}

static void all_strings(size_t most)
{
    each_string(most, compare_strings);
    part_ends(small ? "all strings of small cards" : "all strings of cards of up to 4 borders");
}

/* Every turning list, mark list and start; those that pass 3 to 7 are packed. */
static void all_drawings(size_t most)
{
    size_t m, code, codes, h, marks;
    for (m = 0; m <= most; m++) {
        for (codes = 1, h = 0; h < 2 * m; h++) codes *= 2 * m;
        for (code = 0; code < codes; code++) {
            size_t rest = code;
            for (h = 0; h < 2 * m; h++) {
                drawing.turning[h] = (uint16_t)(rest % (2 * m));
                rest /= 2 * m;
            }
            for (marks = 0; marks < (size_t)1 << m; marks++) {
                for (h = 0; h < m; h++) drawing.marks[h] = marks >> h & 1;
                drawing.m = m;
                for (drawing.start = 0; drawing.start < (m == 0 ? 1 : 2 * m); drawing.start++)
                    if (drawing_refusal(&drawing) == 0) compare_drawing(&drawing, 0);
            }
        }
    }
    part_ends(small ? "all small drawings" : "all drawings of up to 3 borders");
}

static void random_small(size_t count)
{
    struct card card;
    while (count-- > 0) {
        size_t m = random_below(13);
        random_card(&card, m, 1 + random_below(m + 1), (unsigned)(1 + random_below(7)));
        compare_bytes(card.bytes, card.length);
    }
    part_ends("random cards of up to 12 borders, every number");
}

static void random_drawings(size_t count)
{
    struct card card;
    while (count-- > 0) {
        size_t m = random_below(13);
        random_card(&card, m, 1 + random_below(m + 1), (unsigned)(1 + random_below(7)));
        unpack(card.bytes, card.length, &drawing);
        renumber(&drawing, &renumbered);
        expect(drawing_refusal(&renumbered) == 0, "reference", "renumbered, a drawing fails 3 to 7");
        compare_drawing(&renumbered, 0);
    }
    part_ends("random drawings of up to 12 borders, every number");
}

/* Larger ones: sizes about each power of 2 and at random, trees, loops only, deep and flat. */
static void large(size_t most, size_t count)
{
    static const size_t sizes[] = {13, 15, 16, 17, 31, 32, 33, 63, 64, 65, 127, 128, 129, 255, 256, 257, 511, 512, 513, 1023, 1024, 1025, 2047, 2048};
    struct card card;
    size_t i, shape;
    for (i = 0; i < sizeof sizes / sizeof *sizes + 12; i++) {
        size_t m = i < sizeof sizes / sizeof *sizes ? sizes[i] : 13 + random_below(most - 12);
        if (m > most) continue;
        for (shape = 0; shape < 6; shape++) {
            size_t points[6] = {1, m + 1, 1 + m / 2, 1 + m / 2, 1 + m / 2, 1 + random_below(m + 1)};
            unsigned lean[6] = {4, 4, 8, 0, 4, 6};
            random_card(&card, m, points[shape], lean[shape]);
            unpack(card.bytes, card.length, &drawing);
            if (shape == 4) renumber(&drawing, &renumbered);
            compare_drawing(shape == 4 ? &renumbered : &drawing, count);
        }
    }
    part_ends("larger cards and drawings, some numbers");
}

static void largest(void)
{
    struct card card;
    random_card(&card, MOST_BORDERS, 900, 4);
    compare_numbers(card.bytes, card.length);
    part_ends("a card of 2,048 borders, every place, point and area");
}

/* Sessions of many lengths, beyond the number of places of the largest card too. */
static void long_sessions(void)
{
    static const size_t counts[] = {1, 2, 3, 255, 256, 257, 4095, 4096, 4097, 8193, 20000};
    struct card card;
    size_t i;
    for (i = 0; i < sizeof counts / sizeof *counts; i++) {
        random_card(&card, 12, 1 + random_below(13), 4);
        compare_long_sessions(card.bytes, card.length, counts[i]);
        if (small) continue;
        random_card(&card, MOST_BORDERS - random_below(9), 1 + random_below(2000), (unsigned)random_below(9));
        compare_long_sessions(card.bytes, card.length, counts[i]);
    }
    part_ends("long sessions");
}

/* Trees, loops only, and both; deep and flat. */
static void tours(void)
{
    size_t m = small ? 60 : MOST_BORDERS, points[] = {1, m + 1, 1 + m / 2, 1 + m / 2, 1 + m / 2}, i;
    unsigned lean[] = {4, 4, 8, 0, 4};
    struct card card;
    for (i = 0; i < sizeof points / sizeof *points; i++) {
        random_card(&card, m, points[i], lean[i]);
        compare_tour(card.bytes, card.length);
    }
    part_ends(small ? "sessions over every place" : "sessions over every place of cards of 2,048 borders");
}

static void damaged(void)
{
    struct card card;
    each_damage(CARD(triangle), compare_bytes);
    each_damage(CARD(figure_1), compare_bytes);
    each_damage(CARD(empty), compare_bytes);
    each_damage(CARD(stub), compare_bytes);
    each_damage(CARD(loop), compare_bytes);
    random_card(&card, 40, 18, 4);
    each_damage(card.bytes, card.length, compare_bytes);
    if (!small) {
        random_card(&card, 300, 170, 5);
        each_damage(card.bytes, card.length, compare_bytes);
    }
    part_ends("every prefix and every single-bit flip of good cards");
}

static void headers(void)
{
    each_header(compare_bytes);
    part_ends("headers about every bound");
}

/* Bytes by chance: any at all, then those that come further, up to a card with one pair of bits swapped. */
static void random_bytes(size_t count)
{
    uint8_t bytes[300];
    struct card card;
    while (count-- > 0) {
        size_t i, length = random_below(40), m = random_below(13), n = 1 + random_below(m + 1), first, second;
        for (i = 0; i < sizeof bytes; i++) bytes[i] = (uint8_t)random_number();
        compare_bytes(bytes, length);
        random_card(&card, m, n, 4);
        memcpy(bytes, card.bytes, HEADER);
        compare_bytes(bytes, card.length);
        if (card.length == HEADER) continue;
        first = 8 * HEADER + random_below(8 * (card.length - HEADER));
        second = 8 * HEADER + random_below(8 * (card.length - HEADER));
        card.bytes[first / 8] ^= (uint8_t)(1u << first % 8);
        card.bytes[second / 8] ^= (uint8_t)(1u << second % 8);
        compare_bytes(card.bytes, card.length);
    }
    part_ends("random bytes");
}

static void no_bytes(void)
{
    compare_refused(NULL, 0, 8);
    compare_refused(triangle, 0, 8);
    part_ends("length 0, with a null pointer and without");
}

/* Every status came up, so no part above ran idle. */
static void every_status(void)
{
    static const uint8_t statuses[] = {0, 2, 8, 20, 9, 10, 11, 12, 13, 14, 15, 18, 19, 255};
    expect_seen(statuses, sizeof statuses);
    part_ends("every status was seen");
}

int main(int argc, char **argv)
{
    small = argc > 1 && strcmp(argv[1], "small") == 0;
    setvbuf(stdout, NULL, _IOLBF, 0);
    prepare_lending(argc > 2 && strcmp(argv[2], "heap") == 0);
    worked_examples();
    worked_sessions();
    known_turns();
    no_bytes();
    headers();
    every_count(small);
    counts_in_order();
    cards_before(small);
    all_strings(small ? 2 : 4);
    all_drawings(small ? 2 : 3);
    random_small(small ? 60 : 12000);
    random_drawings(small ? 60 : 6000);
    known_neighbours(!small);
    random_neighbours(small ? 60 : 3000, 40);
    known_factors();
    tariff_limits();
    tariff_lengths();
    factor_refusals();
    unwritten_values();
    ordered_factors(small ? 60 : 1000, 40);
    random_factors(small ? 60 : 6000, 40);
    damaged();
    random_bytes(small ? 100 : 20000);
    long_sessions();
    long_turns(small ? 12 : MOST_BORDERS, small ? 300 : 30000);
    random_rounds(small ? 20 : 2000, 12);
    tours();
    if (!small) {
        large(2048, 6);
        largest();
        random_neighbours(24, MOST_BORDERS);
        ordered_factors(6, MOST_BORDERS);
        random_factors(24, MOST_BORDERS);
        random_rounds(12, MOST_BORDERS);
    }
    every_status();
    return finish() > 0;
}
