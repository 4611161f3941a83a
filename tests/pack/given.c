/* Drawings that are known without chance: document 01's examples, and all that are small enough. */
#include "parts.h"

#include <string.h>

#include "calls.h"
#include "cards.h"
#include "compare.h"
#include "drawings.h"
#include "examples.h"
#include "pmap.h"
#include "tally.h"

static uint8_t map[LONGEST];
static struct drawing drawing, found;

/* ---- document 01's own numbers, without the reference ---- */

/* Packs a drawing that begins at end 0. The map is NULL where packing declines. */
static void gives(const uint16_t *turning, size_t turning_len, const uint8_t *marks, size_t marks_len, size_t out_len,
                  uint32_t packed, const uint8_t *want, size_t want_length)
{
    uint16_t work[64], cell = OLD;
    uint8_t out[LONGEST + 8];
    uint32_t given;
    memset(work, 0xA5, sizeof work);
    memset(out, 0xA5, sizeof out);
    given = pmap_pack(turning, turning_len, marks, marks_len, 0, work, 64, out, out_len, &cell);
    expect(given == packed, "pmap_pack", "another status on an example");
    if (want == NULL) expect(cell == OLD && out[0] == 0xA5, "pmap_pack", "writes although it declines");
    else expect(cell == want_length && memcmp(out, want, want_length) == 0, "pmap_pack", "other bytes on an example");
}

#define PACKS(turning, marks, card) gives(turning, sizeof turning / 2, marks, sizeof marks, LONGEST, 0, CARD(card))
#define DECLINES(turning, marks, packed) gives(turning, sizeof turning / 2, marks, sizeof marks, LONGEST, packed, NULL, 0)

static void unpacks(const uint8_t *card, size_t length, const uint16_t *turning, const uint8_t *marks, size_t m)
{
    uint16_t turning_given[8], cell = OLD;
    uint8_t marks_given[8], status = pmap_unpack(card, length, turning_given, 6, marks_given, 3, &cell);
    expect(status == 0 && cell == m, "pmap_unpack", "another status or m on an example");
    expect(memcmp(turning_given, turning, 4 * m) == 0, "pmap_unpack", "another turning list of an example");
    expect(memcmp(marks_given, marks, m) == 0, "pmap_unpack", "other marks of an example");
}

void worked_examples(void)
{
    static const uint16_t odd[] = {0, 1, 2}, beyond[] = {0, 2}, equal[] = {0, 0}, apart[] = {0, 1}, closed[] = {1, 0};
    static const uint16_t interlaced[] = {2, 3, 1, 0}, three[] = {5, 2, 1, 4, 3, 0};
    static const uint8_t one[] = {1}, zero[] = {0}, ones[] = {1, 1}, zeros[] = {0, 0}, tree[] = {1, 1, 0};
    uint16_t cell = OLD, list[2] = {OLD, OLD};
    uint8_t out[LONGEST], mark = 9;

    DECLINES(odd, one, 1);
    gives(apart, 2, one, 1, LONGEST - 1, 2, NULL, 0);
    DECLINES(beyond, one, 3);
    DECLINES(equal, one, 4);
    DECLINES(apart, zero, 5);
    DECLINES(closed, one, 6);
    DECLINES(interlaced, ones, 6); /* "two interlaced marked loops on one point also tour all ends" */
    DECLINES(interlaced, zeros, 7 + (0u << 8) + (1u << 20));
    gives(apart, 0, one, 0, LONGEST, 0, CARD(empty));
    PACKS(apart, one, stub);
    PACKS(closed, zero, loop);
    PACKS(three, tree, triangle);
    unpacks(CARD(empty), apart, one, 0);
    unpacks(CARD(stub), apart, one, 1);
    unpacks(CARD(loop), closed, zero, 1);
    unpacks(CARD(triangle), three, tree, 3);
    compare_back(CARD(figure_1));
    expect(pmap_unpack(CARD(stub), list, 1, &mark, 1, &cell) == 16, "pmap_unpack", "takes a turning list of 1 for m = 1");
    expect(list[0] == OLD && list[1] == OLD && mark == 9 && cell == OLD, "pmap_unpack", "writes with 16");
    expect(pmap_pack(NULL, 0, NULL, 0, 0, NULL, 0, out, LONGEST, &cell) == 0 && cell == sizeof empty, "pmap_pack", "null lists of no entry");
    expect(pmap_pack(NULL, 0, NULL, 0, 0, NULL, 0, NULL, 0, &cell) == 2, "pmap_pack", "null lists and no output");
    expect(pmap_unpack(CARD(empty), NULL, 0, NULL, 0, &cell) == 0 && cell == 0, "pmap_unpack", "null lists of no entry");
    expect(pmap_unpack(NULL, 0, NULL, 0, NULL, 0, &cell) == 8 && cell == 0, "pmap_unpack", "null bytes of length 0");
}

/* ---- check 1 ---- */

/* A star, with borders enough for lists that are too long: good wherever the lengths are. */
enum { STAR = 32770 };

static void make_star(uint16_t *turning, uint8_t *marks, size_t m)
{
    size_t e;
    for (e = 0; e < m; e++) {
        turning[2 * e] = (uint16_t)(e + 1 < m ? 2 * e + 2 : 0);
        turning[2 * e + 1] = (uint16_t)(2 * e + 1);
        marks[e] = 1;
    }
}

static void try_lengths(size_t turning_len, size_t marks_len)
{
    static uint16_t turning[2 * STAR];
    static uint8_t marks[STAR];
    struct lent lent = {turning, turning_len, marks, marks_len, 0, 6 * marks_len, LONGEST};
    int fits = turning_len % 2 == 0 && turning_len <= 4096 && marks_len == turning_len / 2;
    if (lent.work_len > 6 * 2050) lent.work_len = 6 * 2050;
    make_star(turning, marks, turning_len / 2);
    compare_pack_status(&lent, map, fits ? 0 : 1);
    compare_marks_status(&lent, &found, fits ? 0 : 1);
}

void lengths(void)
{
    size_t turning_len, marks_len;
    for (turning_len = 0; turning_len <= 13; turning_len++)
        for (marks_len = 0; marks_len <= 14; marks_len++) try_lengths(turning_len, marks_len);
    for (turning_len = 4094; turning_len <= 4099; turning_len++)
        for (marks_len = 2046; marks_len <= 2050; marks_len++) try_lengths(turning_len, marks_len);
    try_lengths(4096, 0);
    try_lengths(0, 2048);
    try_lengths(8192, 4096);
    try_lengths(65536, 32768);
    try_lengths(65536, 0);
    try_lengths(65538, 32769);
    try_lengths(65538, 1);
}

/* ---- every form ---- */

static const size_t odd_starts[] = {65535, 65536, 4294967296u, SIZE_MAX};

void no_borders(void)
{
    static const size_t starts[] = {0, 1, 2, 65536, 4294967296u, SIZE_MAX}, 
                        outs[] = {0, HEADER - 1, HEADER, HEADER + 1, LONGEST - 2, LONGEST - 1, LONGEST, LONGEST + 1, LONGEST + 71};
    size_t i, j, work;
    for (i = 0; i < sizeof starts / sizeof *starts; i++)
        for (j = 0; j < sizeof outs / sizeof *outs; j++)
            for (work = 0; work < 8; work++) {
                struct lent lent = {NULL, 0, NULL, 0, starts[i], work, outs[j]};
                compare_pack_status(&lent, map, outs[j] < LONGEST ? 2 : starts[i] != 0 ? 3 : 0);
                compare_marks_status(&lent, &found, 0);
            }
}

void one_border(void)
{
    static const uint16_t entries[] = {0, 1, 2, 3, 65535};
    static const uint8_t marks[] = {0, 1, 2, 255};
    size_t code, start, work, out;
    for (code = 0; code < 100; code++)
        for (start = 0; start < 7; start++)
            for (work = 5; work < 8; work++)
                for (out = LONGEST - 1; out < LONGEST + 2; out++) {
                    uint16_t turning[2] = {entries[code % 5], entries[code / 5 % 5]};
                    struct lent lent = {turning, 2, &marks[code / 25], 1, start < 3 ? start : odd_starts[start - 3], work, out};
                    compare_pack(&lent, map);
                    compare_marks(&lent, &found);
                }
}

/* One drawing: packed; if it is good, there and back and a few sessions. */
static void try_drawing(const struct drawing *d)
{
    struct lent lent = lend_drawing(d);
    size_t length = compare_pack(&lent, map);
    if (length == 0) return;
    compare_round(d, map);
    compare_sessions(d, map, length, 3, 16);
}

/* Numbers 0 to base-1 in a row, one after another through all rows. Gives 0 after the last. */
static int next_row(uint16_t *row, size_t count, size_t base)
{
    size_t i;
    for (i = 0; i < count; i++) {
        if (++row[i] < base) return 1;
        row[i] = 0;
    }
    return 0;
}

/* Every turning list over 0 to 4, marks over 0 to 2, starts 0 to 4: one more than is good. */
void two_borders(void)
{
    size_t base = small ? 4 : 5, marks = small ? 2 : 3, code;
    memset(drawing.turning, 0, 4 * sizeof *drawing.turning);
    drawing.m = 2;
    do {
        compare_found(&drawing);
        for (code = 0; code < marks * marks; code++) {
            drawing.marks[0] = (uint8_t)(code % marks);
            drawing.marks[1] = (uint8_t)(code / marks);
            for (drawing.start = 0; drawing.start < base; drawing.start++) try_drawing(&drawing);
        }
    } while (next_row(drawing.turning, 4, base));
}

static int repeats(const uint16_t *row, size_t count)
{
    size_t i, j;
    for (i = 0; i < count; i++)
        for (j = 0; j < i; j++)
            if (row[i] == row[j]) return 1;
    return 0;
}

/* The next list without repetition, in the order of a dictionary. Gives 0 after the last. */
static int next_order(uint16_t *row, size_t count)
{
    size_t i = count - 1, j = count - 1, k;
    uint16_t t;
    while (i > 0 && row[i - 1] > row[i]) i--;
    if (i == 0) return 0;
    while (row[j] < row[i - 1]) j--;
    t = row[i - 1], row[i - 1] = row[j], row[j] = t;
    for (k = count - 1; i < k; i++, k--) t = row[i], row[i] = row[k], row[k] = t;
    return 1;
}

/* With all marks, and of 3 borders from every start; with repetition where there are 3 borders, and then with any marks. */
void more_borders(void)
{
    size_t marks, e, h;
    for (drawing.m = 3; drawing.m <= 4; drawing.m++) {
        for (h = 0; h < 2 * drawing.m; h++) drawing.turning[h] = (uint16_t)h;
        do {
            compare_found(&drawing);
            for (marks = 0; marks < (size_t)1 << drawing.m; marks++) {
                for (e = 0; e < drawing.m; e++) drawing.marks[e] = marks >> e & 1;
                drawing.start = random_below(2 * drawing.m);
                if (drawing.m == 4) try_drawing(&drawing);
                else for (drawing.start = 0; drawing.start < 6; drawing.start++) try_drawing(&drawing);
            }
        } while (next_order(drawing.turning, 2 * drawing.m));
    }
    drawing.m = 3;
    memset(drawing.turning, 0, 6 * sizeof *drawing.turning);
    do {
        if (!repeats(drawing.turning, 6)) continue;
        compare_found(&drawing);
        for (e = 0; e < 3; e++) drawing.marks[e] = (uint8_t)random_below(2);
        drawing.start = random_below(6);
        try_drawing(&drawing);
    } while (next_row(drawing.turning, 6, 6));
}

/* ---- check 2, and what is touched ---- */

void rooms(void)
{
    static const size_t sizes[] = {1, 2, 3, 7, 64, 300, 2048};
    size_t i, j, k;
    for (i = 0; i < sizeof sizes / sizeof *sizes - (size_t)(small ? 2 : 0); i++) {
        size_t m = sizes[i], works[] = {0, 1, 6 * m - 1, 6 * m, 6 * m + 1, 6 * m + 40};
        size_t outs[] = {0, HEADER, HEADER + m / 2, LONGEST - 2, LONGEST - 1, LONGEST, LONGEST + 1, LONGEST + 100};
        grow(&drawing, m, 4);
        mark_tree(&drawing);
        for (j = 0; j < sizeof works / sizeof *works; j++)
            for (k = 0; k < sizeof outs / sizeof *outs; k++) {
                struct lent lent = lend_drawing(&drawing);
                lent.work_len = works[j];
                lent.out_len = outs[k];
                compare_pack_status(&lent, map, works[j] < 6 * m || outs[k] < LONGEST ? 2 : 0);
                compare_marks_status(&lent, &found, works[j] < 6 * m ? 2 : 0);
            }
    }
}
