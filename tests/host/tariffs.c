/* Factors of request 4/14 of document 02, known by hand. Maps stand here by the kinds of their places. */
#include "tariffs.h"

#include "cards.h"
#include "examples.h"
#include "lines.h"
#include "tally.h"

/* ---- small maps: every area ---- */

static const struct {
    const char *places;
    struct line tariff[8]; /* area 1, 2, .. */
    struct want of[8];
} known[] = {
    {"", {UNKNOWN}, {{19, 0}}},
    {"", {OWN(1.25)}, {{0, 1.25}}},
    {"", {HELD(0.25, 0.5, 2.0)}, {{0, 0.5}}},
    {"()", {UNKNOWN}, {{19, 0}}}, /* a stub: the area itself is across */
    {"()", {HELD(3.0, 0.5, 2.0)}, {{0, 2.0}}},
    {"(()())", {UNKNOWN}, {{19, 0}}}, /* a tree */
    {"(()())", {OWN(0.01)}, {{0, 0.01}}},
    {"[]", {UNKNOWN, OWN(1.5)}, {{0, 1.5}, {0, 1.5}}}, /* a loop */
    {"[]", {HELD(1.0, 0.5, 2.0), UNKNOWN}, {{0, 1.0}, {0, 1.0}}},
    {"[]", {UNKNOWN, UNKNOWN}, {{19, 0}, {19, 0}}},
    {"[]", {OWN(100.0), OWN(0.01)}, {{0, 100.0}, {0, 0.01}}},
    /* held: raised, lowered, left, at each limit, and where both limits are one */
    {"[][][]",
     {HELD(0.25, 0.5, 2.0), HELD(3.0, 0.5, 2.0), HELD(1.25, 0.5, 2.0), HELD(0.5, 0.5, 2.0)},
     {{0, 0.5}, {0, 2.0}, {0, 1.25}, {0, 0.5}}},
    {"[][][]",
     {HELD(2.0, 0.5, 2.0), HELD(0.01, 1.5, 1.5), HELD(100.0, 1.5, 1.5), HELD(1.5, 1.5, 1.5)},
     {{0, 2.0}, {0, 1.5}, {0, 1.5}, {0, 1.5}}},
    {"[][]", {UNKNOWN, HELD(0.01, 2.0, 100.0), HELD(100.0, 0.01, 4.0)}, {{0, 3.0}, {0, 2.0}, {0, 4.0}}},
    /* the order: 0.1 + 0.2 + 0.3 is 0.6000000000000001, and 0.3 + 0.2 + 0.1 is 0.6 */
    {"[][][]", {UNKNOWN, OWN(0.1), OWN(0.2), OWN(0.3)}, {{0, 0.20000000000000004}, {0, 0.1}, {0, 0.2}, {0, 0.3}}},
    {"[][][]", {UNKNOWN, OWN(0.3), OWN(0.2), OWN(0.1)}, {{0, 0.19999999999999998}, {0, 0.3}, {0, 0.2}, {0, 0.1}}},
    {"[[][]]", {OWN(0.3), UNKNOWN, OWN(0.1), OWN(0.2)}, {{0, 0.3}, {0, 0.20000000000000004}, {0, 0.1}, {0, 0.2}}},
    /* those not known are passed over, and not filled in first */
    {"[][][]", {UNKNOWN, OWN(1.0), UNKNOWN, OWN(4.0)}, {{0, 2.5}, {0, 1.0}, {19, 0}, {0, 4.0}}},
    {"[[[]]]", {OWN(2.0), UNKNOWN, UNKNOWN, OWN(8.0)}, {{0, 2.0}, {0, 2.0}, {0, 8.0}, {0, 8.0}}},
    {"[[[]]]", {UNKNOWN, UNKNOWN, UNKNOWN, OWN(8.0)}, {{19, 0}, {19, 0}, {0, 8.0}, {0, 8.0}}},
    /* so is the area itself: a stub in a loop, one beside it, a bridge between two loops */
    {"[()]", {OWN(1.75), UNKNOWN}, {{0, 1.75}, {0, 1.75}}},
    {"()[]", {UNKNOWN, OWN(0.1)}, {{0, 0.1}, {0, 0.1}}},
    {"[]([])", {UNKNOWN, OWN(1.0), OWN(2.0)}, {{0, 1.5}, {0, 1.0}, {0, 2.0}}},
    {"[]([])", {UNKNOWN, UNKNOWN, UNKNOWN}, {{19, 0}, {19, 0}, {19, 0}}},
    /* an area counts for each side: a double border; the triangle, 0.1 three times being 0.30000000000000004; areas 1 and 3 with two
       borders between them; an enclave */
    {"([)]", {UNKNOWN, OWN(0.7)}, {{0, 0.7}, {0, 0.7}}},
    {"(([))]", {UNKNOWN, OWN(0.1)}, {{0, 0.10000000000000002}, {0, 0.1}}},
    {"(([))]", {HELD(0.1, 0.1, 0.1), UNKNOWN}, {{0, 0.1}, {0, 0.10000000000000002}}},
    {"([[)(]])", {UNKNOWN, OWN(1.0), OWN(4.0)}, {{0, 3.0}, {0, 1.0}, {0, 4.0}}},
    {"(([))[]]", {OWN(1.0), UNKNOWN, OWN(5.0)}, {{0, 1.0}, {0, 2.0}, {0, 5.0}}},
    {"(([))[]]", {OWN(1.0), UNKNOWN, UNKNOWN}, {{0, 1.0}, {0, 1.0}, {19, 0}}},
    /* a mean below every limit: 0.01 ten times is 0.09999999999999999, and what it makes is not raised */
    {"((((((((([)))))))))]", {UNKNOWN, OWN(0.01)}, {{0, 0.009999999999999998}, {0, 0.01}}},
    {FIGURE_1,
     {UNKNOWN, OWN(1.25), HELD(3.0, 0.5, 2.0), UNKNOWN, OWN(0.75), UNKNOWN, HELD(0.1, 0.5, 2.0), OWN(1.5)},
     {{0, 8.5 / 6.0}, {0, 1.25}, {0, 2.0}, {0, 4.0 / 3.0}, {0, 0.75}, {0, 0.75}, {0, 0.5}, {0, 1.5}}},
    {FIGURE_1,
     {OWN(1.0), UNKNOWN, UNKNOWN, UNKNOWN, UNKNOWN, UNKNOWN, UNKNOWN, UNKNOWN},
     {{0, 1.0}, {0, 1.0}, {0, 1.0}, {19, 0}, {19, 0}, {0, 1.0}, {0, 1.0}, {0, 1.0}}},
};

static void known_map(size_t i)
{
    size_t areas = take_map(known[i].places), k;
    for (k = 1; k <= areas; k++) put_line(k, known[i].tariff[k - 1]);
    for (k = 1; k <= areas; k++) compare_want(k, known[i].of[k - 1]);
    compare_status(0, 15);
    compare_status(areas + 1, 15);
}

/* ---- large maps: from the third on all areas are alike ---- */

static const struct {
    struct repeated parts[4];
    struct line first, second, others;
    size_t asked;
    struct want want;
} large[] = {
    /* one area with 4,096 sides, all its own: a star, a path */
    {{{"()", 2048}}, UNKNOWN, UNKNOWN, UNKNOWN, 1, {19, 0}},
    {{{"(", 2048}, {")", 2048}}, UNKNOWN, UNKNOWN, UNKNOWN, 1, {19, 0}},
    {{{"(", 2048}, {")", 2048}}, OWN(1.25), UNKNOWN, UNKNOWN, 1, {0, 1.25}},
    /* one side of 4,095 leads out */
    {{{"()", 2047}, {"[]", 1}}, UNKNOWN, OWN(0.3), UNKNOWN, 1, {0, 0.3}},
    /* 2,048 loops: area 1 has all the others across; one of them is known; the last one's own, and its mean */
    {{{"[]", 2048}}, UNKNOWN, OWN(1.5), OWN(1.5), 1, {0, 1.5}},
    {{{"[]", 2048}}, UNKNOWN, OWN(1.0), OWN(3.0), 1, {0, (2047 * 3.0 + 1.0) / 2048.0}},
    {{{"[]", 2048}}, UNKNOWN, OWN(100.0), UNKNOWN, 1, {0, 100.0}},
    {{{"[]", 2048}}, UNKNOWN, OWN(1.5), OWN(2.5), 2049, {0, 2.5}},
    {{{"[]", 2048}}, OWN(2.5), OWN(1.5), UNKNOWN, 2049, {0, 2.5}},
    {{{"[]", 2048}}, UNKNOWN, UNKNOWN, UNKNOWN, 1, {19, 0}},
    /* area 2 has them; one nest */
    {{{"[", 1}, {"[]", 2047}, {"]", 1}}, OWN(3.0), UNKNOWN, OWN(1.0), 2, {0, (2047 + 3.0) / 2048.0}},
    {{{"[", 2048}, {"]", 2048}}, OWN(1.0), UNKNOWN, OWN(2.0), 2, {0, 1.5}},
    /* a ring: 2,048 sides to one area */
    {{{"(", 2047}, {"[", 1}, {")", 2047}, {"]", 1}}, OWN(0.75), UNKNOWN, UNKNOWN, 2, {0, 0.75}},
    {{{"(", 2047}, {"[", 1}, {")", 2047}, {"]", 1}}, UNKNOWN, OWN(100.0), UNKNOWN, 1, {0, 100.0}},
    /* a wheel of 1,024 spokes */
    {{{"([[)", 1}, {"(][)", 1022}, {"(]])", 1}}, OWN(1.0), UNKNOWN, HELD(9.0, 1.0, 2.0), 2, {0, (1023 * 2.0 + 1.0) / 1024.0}},
};

static void large_map(size_t i)
{
    static char places[MOST_ENDS + 1];
    size_t areas, k;
    repeat_kinds(places, large[i].parts, 4);
    areas = take_map(places);
    for (k = 1; k <= areas; k++) put_line(k, k == 1 ? large[i].first : k == 2 ? large[i].second : large[i].others);
    compare_want(large[i].asked, large[i].want);
    compare_status(areas + 1, 15);
    put_kind(areas, 3);
    compare_status(large[i].asked, 18);
}

void known_factors(void)
{
    size_t i;
    for (i = 0; i < sizeof known / sizeof *known; i++) known_map(i);
    for (i = 0; i < sizeof large / sizeof *large; i++) large_map(i);
    part_ends("factors known by hand");
}
