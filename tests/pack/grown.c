/* Drawings by chance, grown from turning lists: good ones, and ones that break each check, alone and together. */
#include "parts.h"

#include "cards.h"
#include "compare.h"
#include "drawings.h"
#include "pmap.h"
#include "tally.h"

static uint8_t map[LONGEST];
static struct drawing drawing, second, found;

/* ---- checks 1 to 7: a set of them is broken, and the lowest must be given ---- */

#define BREAKS(set, check) ((set) >> (check) & 1)

/* Marked so that the set's 5, 6 and 7 are broken. Two parts with no border between them fail 5, whatever is marked. */
static void break_tree(unsigned set)
{
    size_t e, marks;
    do {
        grow(&drawing, 2 + random_below(12), (unsigned)random_below(8));
        if (BREAKS(set, 7) && !add_handle(&drawing)) drawing.m = 0;
        marks = mark_tree(&drawing);
    } while (drawing.m == 0 || marks == drawing.m);
    if (BREAKS(set, 5)) {
        grow(&second, 1 + random_below(6), 4);
        mark_tree(&second);
        put_beside(&drawing, &second);
    }
    if (!BREAKS(set, 6)) return;
    do e = random_below(drawing.m);
    while (drawing.marks[e]);
    drawing.marks[e] = 1;
    if (random_below(4) == 0)
        for (e = 0; e < drawing.m; e++) drawing.marks[e] = 1;
}

/* "marked borders don't join all points" in a drawing of one part: one border fewer is marked than a tree has. */
static void break_join(void)
{
    size_t e;
    do grow(&drawing, 1 + random_below(12), (unsigned)(1 + random_below(8)));
    while (mark_tree(&drawing) == 0);
    do e = random_below(drawing.m);
    while (!drawing.marks[e]);
    drawing.marks[e] = 0;
}

static void repeat_entry(void)
{
    size_t h = random_below(2 * drawing.m), g = (h + 1 + random_below(2 * drawing.m - 1)) % (2 * drawing.m);
    drawing.turning[h] = drawing.turning[g];
}

/* An entry, the start or a mark out of range, by a little or by much. */
static void break_range(void)
{
    static const size_t starts[] = {65536, 4294967296u, (size_t)1 << 63};
    size_t ends = 2 * drawing.m;
    switch (random_below(6)) {
    case 0: drawing.turning[random_below(ends)] = (uint16_t)ends; break;
    case 1: drawing.turning[random_below(ends)] = (uint16_t)(ends + random_below(65536 - ends)); break;
    case 2: drawing.start = ends + random_below(3); break;
    case 3: drawing.start = starts[random_below(3)] + random_below(ends); break;
    case 4: drawing.start = SIZE_MAX; break;
    default: drawing.marks[random_below(drawing.m)] = (uint8_t)(2 + random_below(254)); break;
    }
}

static void break_room(struct lent *lent)
{
    size_t which = 1 + random_below(3);
    if (which & 1) lent->work_len = random_below(2) ? 6 * lent->marks_len - 1 : random_below(6 * lent->marks_len);
    if (which & 2) lent->out_len = random_below(2) ? LONGEST - 1 : random_below(LONGEST);
}

static void break_lengths(struct lent *lent)
{
    switch (random_below(4)) {
    case 0: lent->turning_len--; break;
    case 1: lent->turning_len++; break;
    case 2: lent->marks_len--; break;
    default: lent->marks_len++; break;
    }
}

static void try_set(unsigned set)
{
    struct lent lent;
    uint8_t lowest = 1;
    if (set == 1u << 5 && random_below(2)) break_join();
    else break_tree(set);
    if (BREAKS(set, 4)) repeat_entry();
    if (BREAKS(set, 3)) break_range();
    lent = lend_drawing(&drawing);
    if (BREAKS(set, 2)) break_room(&lent);
    if (BREAKS(set, 1)) break_lengths(&lent);
    while (!BREAKS(set, lowest)) lowest++;
    compare_pack_status(&lent, map, lowest);
    compare_marks(&lent, &found);
}

void broken(void)
{
    unsigned set;
    size_t count;
    for (count = small ? 4 : 150; count > 0; count--)
        for (set = 2; set < 256; set += 2) try_set(set);
    for (count = small ? 40 : 2000; count > 0; count--)
        for (set = 2; set < 256; set *= 2) try_set(set);
}

/* ---- 7: drawings on a torus, and on surfaces with more handles ---- */

static void try_handles(size_t m, unsigned dangling, size_t count)
{
    struct lent lent;
    grow(&drawing, m, dangling);
    if (!add_handle(&drawing)) return;
    while (--count > 0) add_handle(&drawing);
    mark_tree(&drawing);
    lent = lend_drawing(&drawing);
    compare_pack_status(&lent, map, 7);
}

void handles(void)
{
    size_t count;
    for (count = small ? 200 : 20000; count > 0; count--)
        try_handles(1 + random_below(30), (unsigned)random_below(8), 1 + random_below(3));
    if (small) return;
    for (count = 0; count < 60; count++)
        try_handles(30 + random_below(600), (unsigned)random_below(7), 1 + random_below(3));
    for (count = 0; count < 7; count++) try_handles(MOST_BORDERS - 1, (unsigned)count, 1);
}

/* ---- good drawings ---- */

static void make_grown(size_t m, unsigned dangling)
{
    grow(&drawing, m, dangling);
    mark_tree(&drawing);
}

/* The drawing of a map by chance, renumbered: deeper and flatter ones than are grown. */
static void make_from_map(size_t m, size_t n, unsigned lean)
{
    struct card card;
    random_card(&card, m, n, lean);
    unpack(card.bytes, card.length, &second);
    renumber(&second, &drawing);
}

void good_drawings(void)
{
    size_t count, length;
    for (count = small ? 150 : 12000; count > 0; count--) {
        size_t m = random_below(random_below(4) ? 12 : 41);
        if (random_below(4)) make_grown(m, (unsigned)random_below(9));
        else make_from_map(m, 1 + random_below(m + 1), (unsigned)random_below(9));
        length = compare_round(&drawing, map);
        if (length > 0) compare_sessions(&drawing, map, length, 3, 20 + random_below(60));
    }
}

/* A tree with the number of points in its header one too large: "n not 1 to m+1". */
static void one_point_more(size_t length)
{
    uint16_t m, n;
    if (length == 0 || field_at(map, AT_N) != drawing.m + 1) return;
    put_field(map, AT_N, drawing.m + 2);
    expect(pmap_open(map, length, &m, &n) == 8, "pmap_open", "takes n = m+2");
    compare_opening(map, length);
}

/* The drawing: packed, if asked for unpacked and packed again, and walked. */
static void try_large(int there_and_back)
{
    struct lent lent = lend_drawing(&drawing);
    size_t length = there_and_back ? compare_round(&drawing, map) : compare_pack_status(&lent, map, 0);
    if (length > 0) compare_sessions(&drawing, map, length, 3, 3000);
    one_point_more(length);
}

/* Sizes about each power of 2; loops only, trees and between; deep and flat ones. Unpacking takes its time. */
void large_drawings(void)
{
    static const size_t sizes[] = {63, 64, 65, 127, 128, 129, 255, 256, 257, 511, 512, 513, 1023, 1024, 1025, 2047, 2048};
    size_t i;
    unsigned k;
    for (i = 0; i < sizeof sizes / sizeof *sizes; i++) {
        size_t m = sizes[i];
        for (k = 0; k <= 8; k += 2) {
            make_grown(m, k);
            try_large(m < 300 || (m == MOST_BORDERS && k % 4 == 0));
        }
        for (k = 0; k <= 8; k += 4) {
            make_from_map(m, 1 + random_below(m + 1), k);
            try_large(m < 300);
        }
    }
}

/* Every status came up, so no part above ran idle. */
void every_status(void)
{
    static const uint8_t statuses[] = {0, 1, 2, 3, 4, 21, 5, 6, 7, 8, 20, 9, 10, 11, 12, 13, 16};
    expect_seen(statuses, sizeof statuses);
}
