/*
 * Turning all the way round, request 8/14 of document 02: "Turn at a point's last place now answers its first place, and turn back
 * at the first answers the last, each with a sign that it has gone round". Maps stand here by the kinds of their places.
 */
#include "rounds.h"

#include "cards.h"
#include "compare.h"
#include "examples.h"
#include "pmap.h"
#include "sessions.h"
#include "tally.h"

static struct card card;

/* ---- small maps: every turn by hand ---- */

/* What turn answers at place 1, 2, ..; with a minus where it has gone round. */
static const struct {
    const char *kinds;
    int turns[28];
} known[] = {
    {"()", {-1, -2}},                           /* two points of degree 1; place 2m is a ) */
    {"[]", {2, -1}},                            /* a loop; place 2m is a ] */
    {"()()", {3, -2, -1, -4}},                  /* a star: the ( that closes at 2m is point 1's last place */
    {"(())", {-1, 4, -3, -2}},                  /* a path: point 1 has degree 1, and its border closes at 2m */
    {"[(])", {2, -1, 4, -3}},                   /* the ( that closes at 2m again */
    {"()[]", {3, -2, 4, -1}},                   /* point 1 ends at a ] */
    {"[()]", {2, 4, -3, -1}},                   /* with a point of degree 1 in its loop */
    {"([)]", {4, 3, -2, -1}},                   /* two borders between two points */
    {"[][][]", {2, 3, 4, 5, 6, -1}},            /* one point */
    {"[[[]]]", {2, 3, 4, 5, 6, -1}},            /* the same, whatever its areas */
    {"(([))]", {6, 5, 4, -3, -2, -1}},          /* the triangle */
    {"(()[])()", {7, 4, -3, 5, 6, -2, -1, -8}}, /* a loop and a stub on the second point */
    {FIGURE_1, {2, 11, 6, 5, -4, 9, 8, -7, 10, -3, 18, 16, 14, 15, -13, 17, -12, 27, 20, 25, 22, 23, 24, -21, 26, -19, 28, -1}},
};

/* Turn back undoes a turn, and has the sign where the turn has it. */
static void known_map(const char *kinds, const int *turns)
{
    size_t i;
    card_of_kinds(&card, kinds);
    for (i = 0; kinds[i] != '\0'; i++) {
        uint8_t sign = turns[i] < 0;
        struct reply on = {0, (size_t)(sign ? -turns[i] : turns[i]), sign}, back = {0, i + 1, sign};
        compare_turn(PMAP_CALL_TURN, card.bytes, card.length, i + 1, on);
        compare_turn(PMAP_CALL_TURN_BACK, card.bytes, card.length, on.value, back);
    }
    compare_bytes(card.bytes, card.length);
}

/* No map has a [ or a ( at place 2m. */
static void known_refusal(const char *kinds)
{
    card_of_kinds(&card, kinds);
    compare_refused(card.bytes, card.length, 12);
}

void known_turns(void)
{
    size_t i;
    for (i = 0; i < sizeof known / sizeof *known; i++) known_map(known[i].kinds, known[i].turns);
    known_refusal("][");
    known_refusal("()][");
    known_refusal(")(");
    part_ends("turns known by hand");
}

/* ---- long sessions of turns ---- */

/* Kinds that are repeated, then others as often; how many borders each time adds. */
static const struct {
    const char *kinds, *then;
    size_t borders;
} shapes[] = {
    {"()", "", 1},     /* a star: at its middle as many places as borders, else one */
    {"[]", "", 1},     /* loops on one point: twice as many */
    {"(", ")", 1},     /* a path: one place or two */
    {"([", ")]", 2},   /* a path with every border double: two or four */
    {"(()[])", "", 3}, /* a star with a stub and a loop at each tip: one, four, or a third of the borders */
};

void long_turns(size_t borders, size_t count)
{
    static char kinds[MOST_ENDS + 1];
    size_t i, k;
    for (i = 0; i < sizeof shapes / sizeof *shapes; i++) {
        size_t times = borders / shapes[i].borders;
        struct repeated parts[] = {{shapes[i].kinds, times}, {shapes[i].then, times}};
        repeat_kinds(kinds, parts, 2);
        card_of_kinds(&card, kinds);
        compare_turns(card.bytes, card.length, 2 * times * shapes[i].borders, count);
        for (k = 1; k <= 2; k++) compare_turns(card.bytes, card.length, k, count);
    }
    for (i = 0; i < 3; i++) {
        random_card(&card, borders, 1 + random_below(borders + 1), 4);
        compare_turns(card.bytes, card.length, 1 + random_below(2 * borders), count);
    }
    part_ends("long sessions of turns");
}

/* ---- once round, asked without the book ---- */

enum { MOST_TURNS = 2 * MOST_ENDS };

/* How many of these answers have the sign. */
static size_t count_signs(const uint16_t *answers, size_t count)
{
    size_t i, signs = 0;
    for (i = 0; i < count; i++) signs += (answers[i] & PMAP_GONE_ROUND) != 0;
    return signs;
}

/* As many turns as the place's point has places, and as many turns back. */
static void compare_round(size_t place)
{
    static uint8_t calls[MOST_TURNS], statuses[MOST_TURNS];
    static uint16_t answers[MOST_TURNS];
    uint16_t point = 0, first = 0, degree = 0;
    size_t left = 0, i;
    expect(pmap_point(card.bytes, card.length, place, &point) == 0 && pmap_point_first(card.bytes, card.length, point, &first) == 0 &&
               pmap_degree(card.bytes, card.length, point, &degree) == 0 && degree >= 1 && degree <= MOST_ENDS,
           "pmap_degree", "the point of a place is refused, or has no places");
    if (degree < 1 || degree > MOST_ENDS) return;
    for (i = 0; i < degree; i++) {
        calls[i] = PMAP_CALL_TURN;
        calls[degree + i] = PMAP_CALL_TURN_BACK;
    }
    expect(pmap_session(card.bytes, card.length, place, calls, 2 * (size_t)degree, statuses, MOST_TURNS, answers, MOST_TURNS, &left) == 0,
           "pmap_session", "refuses turns");
    expect(answers[degree - 1] % PMAP_GONE_ROUND == place && left == place, "pmap_session", "turns once round don't lead back");
    expect(count_signs(answers, degree) == 1 && count_signs(answers + degree, degree) == 1, "pmap_session",
           "turns once round have not exactly one sign");
    if (place == first)
        expect(answers[degree - 1] & PMAP_GONE_ROUND && answers[degree] & PMAP_GONE_ROUND, "pmap_session",
               "turns once round have the sign elsewhere than at the first place");
}

void random_rounds(size_t count, size_t most)
{
    while (count-- > 0) {
        size_t m = 1 + random_below(most), n = 1 + random_below(m + 1), k;
        uint16_t first = 0;
        random_card(&card, m, n, (unsigned)random_below(9));
        for (k = 1; k <= n; k++) {
            pmap_point_first(card.bytes, card.length, k, &first);
            compare_round(first);
        }
        for (k = 0; k < 20; k++) compare_round(1 + random_below(2 * m));
    }
    part_ends(most > 100 ? "once round every point of large random cards" : "once round every point of random cards");
}
