/*
 * Drawings with crossings, given by their tours: loops on one point, none of them marked, stand about it in the order of the
 * tour. So any row in which each border stands twice is the tour of a drawing, and its crossings are seen in the row.
 */
#include "parts.h"

#include <string.h>

#include "cards.h"
#include "compare.h"
#include "pmap.h"
#include "tally.h"

static uint8_t map[LONGEST];
static struct drawing drawing;

/* The drawing whose tour meets the borders of the row in its order, with the odd end first in every other border. */
static void draw_row(const uint16_t *row, size_t m)
{
    static uint16_t about[MOST_ENDS];
    uint8_t met[MOST_BORDERS] = {0};
    size_t p;
    for (p = 0; p < 2 * m; p++) {
        uint16_t e = row[p];
        about[p] = (uint16_t)(2 * e + (met[e] ^ (e & 1)));
        met[e] = 1;
    }
    for (p = 0; p < 2 * m; p++) drawing.turning[about[p]] = about[p + 1 < 2 * m ? p + 1 : 0];
    memset(drawing.marks, 0, m);
    drawing.start = m > 0 ? about[0] : 0;
    drawing.m = m;
}

static void try_row(const uint16_t *row, size_t m)
{
    struct lent lent;
    draw_row(row, m);
    lent = lend_drawing(&drawing);
    compare_pack(&lent, map);
}

/* ---- rows with their first crossing, without the reference ---- */

static const struct {
    const char *row;
    uint16_t smaller, larger;
} known[] = {
    {"abab", 0, 1},
    {"baba", 0, 1},         /* the smaller number first, whichever is met first */
    {"abcabc", 0, 1},       /* not c, which is on top when a comes again */
    {"acbacb", 0, 2},       /* nor b here: c is met before it */
    {"abcacb", 0, 1},       /* not c, although it comes again before b does */
    {"abcbac", 1, 2},       /* b comes again before a does, and a is met first */
    {"bcbcadad", 1, 2},     /* side by side: the first in the tour, not the lowest numbers */
    {"ababcdcd", 0, 1},     /* nor the last in the tour */
    {"cabbadedce", 3, 4},   /* inside c, after a and b, which nest */
    {"adbecadbec", 0, 3},   /* all five cross one another: a comes again first, and d is met next after it */
};

static void known_row(const char *letters, uint16_t smaller, uint16_t larger)
{
    uint16_t row[16];
    size_t p, ends = strlen(letters);
    struct lent lent;
    uint8_t out[LONGEST];
    uint16_t work[96], length;
    uint32_t packed;
    for (p = 0; p < ends; p++) row[p] = (uint16_t)(letters[p] - 'a');
    draw_row(row, ends / 2);
    lent = lend_drawing(&drawing);
    packed = pmap_pack(lent.turning, lent.turning_len, lent.marks, lent.marks_len, lent.start, work, 96, out, LONGEST, &length);
    expect(PMAP_STATUS(packed) == 7 && PMAP_SMALLER(packed) == smaller && PMAP_LARGER(packed) == larger, "pmap_pack", letters);
    try_row(row, ends / 2);
}

/* ---- rows by chance ---- */

/* Borders that nest or stand side by side, with numbers in any order. */
static void nest(uint16_t *row, size_t m)
{
    static uint16_t names[MOST_BORDERS], open[MOST_BORDERS];
    size_t p, met = 0, depth = 0;
    for (p = 0; p < m; p++) names[p] = (uint16_t)p;
    shuffle(names, m);
    for (p = 0; p < 2 * m; p++) {
        if (met < m && (depth == 0 || random_below(2))) row[p] = open[depth++] = names[met++];
        else row[p] = open[--depth];
    }
}

void crossings(void)
{
    static uint16_t row[MOST_ENDS];
    size_t count, i, m, changes;
    for (i = 0; i < sizeof known / sizeof *known; i++) known_row(known[i].row, known[i].smaller, known[i].larger);
    for (count = small ? 300 : 20000; count > 0; count--) {
        m = 2 + random_below(12);
        for (i = 0; i < 2 * m; i++) row[i] = (uint16_t)(i / 2);
        shuffle(row, 2 * m);
        try_row(row, m);
    }
    for (count = small ? 300 : 20000; count > 0; count--) {
        m = !small && count % 500 == 0 ? 1 + random_below(MOST_BORDERS) : 2 + random_below(30);
        nest(row, m);
        for (changes = 1 + random_below(4); changes > 0; changes--) {
            i = random_below(2 * m - 1);
            exchange(&row[i], &row[i + 1]);
        }
        try_row(row, m);
    }
}
