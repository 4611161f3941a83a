/*
 * Neighbours counted once, request 3/14 of document 02: "the neighbour loading is due once for each neighbouring area, however
 * many borders the two share, and never for the area itself". Maps stand here by the kinds of their places.
 */
#include "neighbours.h"

#include <string.h>

#include "cards.h"
#include "compare.h"
#include "examples.h"
#include "pmap.h"
#include "tally.h"

enum { MOST_AREAS = MOST_BORDERS + 1 };

struct counts {
    size_t sides, neighbours;
};

static struct card card;

static void compare_area(size_t area, struct counts want)
{
    compare_value("pmap_sides", pmap_sides, card.bytes, card.length, area, 0, want.sides);
    compare_value("pmap_neighbours", pmap_neighbours, card.bytes, card.length, area, 0, want.neighbours);
}

static void compare_no_area(size_t number)
{
    compare_value("pmap_neighbours", pmap_neighbours, card.bytes, card.length, number, 15, 0);
}

/* ---- small maps: every area by hand ---- */

static const struct {
    const char *kinds;
    struct counts of[8]; /* area 1, 2, .. */
} known[] = {
    {"", {{0, 0}}},                                /* no borders */
    {"()", {{2, 0}}},                              /* a stub: the area itself is across */
    {"(()())", {{6, 0}}},                          /* a tree */
    {"[]", {{1, 1}, {1, 1}}},                      /* a loop */
    {"[][][]", {{3, 3}, {1, 1}, {1, 1}, {1, 1}}},  /* loops side by side on one point */
    {"[[[]]]", {{1, 1}, {2, 2}, {2, 2}, {1, 1}}},  /* nested */
    {"[[][]]", {{1, 1}, {3, 3}, {1, 1}, {1, 1}}},  /* two in one */
    {"[()]", {{1, 1}, {3, 1}}},                    /* a stub in a loop */
    {"()[]", {{3, 1}, {1, 1}}},                    /* beside it */
    {"[]([])", {{4, 2}, {1, 1}, {1, 1}}},          /* a bridge between two loops */
    {"([)]", {{2, 1}, {2, 1}}},                    /* two borders between the same two areas */
    {"(()[)]", {{4, 1}, {2, 1}}},                  /* and a stub between them */
    {"(([))]", {{3, 1}, {3, 1}}},                  /* the triangle */
    {"(([))[]]", {{3, 1}, {4, 2}, {1, 1}}},        /* with an enclave on one of its points */
    {"([[)(]])", {{3, 2}, {2, 2}, {3, 2}}},        /* areas 1 and 3 share two borders, and each has one with area 2 between them */
    {FIGURE_1, {{7, 5}, {3, 2}, {4, 3}, {4, 4}, {4, 4}, {3, 3}, {2, 2}, {1, 1}}},
};

static void known_map(const char *kinds, const struct counts *of)
{
    size_t areas = areas_of_kinds(kinds), k;
    card_of_kinds(&card, kinds);
    for (k = 1; k <= areas; k++) compare_area(k, of[k - 1]);
    compare_no_area(0);
    compare_no_area(areas + 1);
    compare_bytes(card.bytes, card.length);
}

/* ---- large maps: kinds that are repeated, and the first, the second and the last area by hand ---- */

static const struct {
    struct repeated parts[4];
    struct counts first, second, last; /* no second where the first is the last */
} large[] = {
    {{{"()", 2048}}, {4096, 0}, {0, 0}, {4096, 0}},                               /* a star: one area */
    {{{"(", 2048}, {")", 2048}}, {4096, 0}, {0, 0}, {4096, 0}},                   /* a path: one area */
    {{{"[]", 2048}}, {2048, 2048}, {1, 1}, {1, 1}},                               /* area 1 touches all others */
    {{{"[", 1}, {"[]", 2047}, {"]", 1}}, {1, 1}, {2048, 2048}, {1, 1}},           /* area 2 does */
    {{{"[", 2048}, {"]", 2048}}, {1, 1}, {2, 2}, {1, 1}},                         /* one nest */
    {{{"(", 2047}, {"[", 1}, {")", 2047}, {"]", 1}}, {2048, 1}, {2048, 1}, {2048, 1}}, /* a ring: all borders between two areas */
    {{{"(", 1}, {"[", 2047}, {")", 1}, {"]", 2047}}, {2, 2}, {2, 2}, {2, 2}},     /* all borders between two points */
    {{{"([[)", 1}, {"(][)", 1022}, {"(]])", 1}}, {3, 3}, {1024, 1024}, {3, 3}},   /* a wheel of 1,024 spokes */
};

static void large_map(size_t i, int every_area)
{
    static char kinds[MOST_ENDS + 1];
    size_t areas;
    repeat_kinds(kinds, large[i].parts, 4);
    areas = areas_of_kinds(kinds);
    card_of_kinds(&card, kinds);
    compare_area(1, large[i].first);
    if (areas > 1) compare_area(2, large[i].second);
    compare_area(areas, large[i].last);
    compare_no_area(areas + 1);
    if (every_area) compare_areas(card.bytes, card.length);
}

void known_neighbours(int every_area)
{
    size_t i;
    for (i = 0; i < sizeof known / sizeof *known; i++) known_map(known[i].kinds, known[i].of);
    card_of_kinds(&card, FIGURE_1);
    expect(card.length == sizeof figure_1 && memcmp(card.bytes, figure_1, card.length) == 0, "Figure 1",
           "is another map than these kinds give");
    for (i = 0; i < sizeof large / sizeof *large; i++) large_map(i, every_area);
    part_ends("sides and neighbours known by hand");
}

/* ---- maps by chance, asked without the book ---- */

/* What the call answers of a place of the card: 0 if it is refused, or answers a number above `most`. */
static size_t ask(library_call *call, size_t place, size_t most)
{
    uint16_t out = 0;
    uint8_t status = call(card.bytes, card.length, place, &out);
    return status == 0 && out <= most ? out : 0;
}

/* Areas are neighbours of each other, and an area has as many as single calls find across its sides. */
static void compare_across(void)
{
    static uint8_t across[MOST_AREAS + 1][MOST_AREAS + 1]; /* [k][j]: area j is across a side of area k */
    static size_t side_of[MOST_ENDS + 1], other_of[MOST_ENDS + 1];
    uint16_t m = 0, n = 1;
    size_t areas, place, k, j;
    expect(pmap_open(card.bytes, card.length, &m, &n) == 0, "pmap_open", "refuses a card by chance");
    areas = (size_t)m - n + 2;
    for (k = 0; k <= areas; k++) memset(across[k], 0, areas + 1);
    for (place = 1; place <= 2 * (size_t)m; place++) {
        side_of[place] = ask(pmap_area, place, areas);
        other_of[place] = ask(pmap_area, ask(pmap_cross, place, 2 * (size_t)m), areas);
        across[side_of[place]][other_of[place]] = 1;
    }
    for (place = 1; place <= 2 * (size_t)m; place++)
        expect(across[other_of[place]][side_of[place]], "pmap_cross",
               "an area is across a side of another, but not the other way round");
    for (k = 1; k <= areas; k++) {
        size_t count = 0;
        for (j = 1; j <= areas; j++) count += j != k && across[k][j];
        compare_value("pmap_neighbours", pmap_neighbours, card.bytes, card.length, k, 0, count);
    }
}

void random_neighbours(size_t count, size_t most)
{
    while (count-- > 0) {
        size_t m = random_below(most + 1);
        random_card(&card, m, 1 + random_below(m + 1), (unsigned)random_below(9));
        compare_areas(card.bytes, card.length);
        compare_across();
    }
    part_ends(most > 100 ? "neighbours on large random cards, every area" : "neighbours on random cards, every area");
}
