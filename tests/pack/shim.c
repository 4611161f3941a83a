/*
 * Finding marks, packing and unpacking on top of the reference, to test the test program: with FAULT 0 in the environment
 * nothing may differ, and with each FAULT here, a mistake that a library could make, something must.
 */
#include "shim.h"

#include <string.h>

#include "damage.h"
#include "drawings.h"
#include "examples.h"
#include "pmap.h"
#include "reference.h"

static struct drawing drawing;
static struct book book;

/* ---- packing: the status ---- */

static int has_equal(const struct lent *lent)
{
    size_t g, h;
    for (g = 0; g < lent->turning_len; g++)
        for (h = 0; h < g; h++)
            if (lent->turning[g] == lent->turning[h]) return 1;
    return 0;
}

static void change_lent(struct lent *lent)
{
    static uint8_t marks[MOST_BORDERS];
    size_t e;
    if (FAULT == 21) lent->out_len++;                                    /* takes an output that is one short */
    if (FAULT == 22) lent->work_len++;                                   /* takes a working list that is one short */
    if (FAULT == 23) lent->start %= 65536;                               /* cuts the start to 16 bits */
    if (FAULT == 24 && lent->start < lent->turning_len) lent->start = 0; /* begins at end 0 whatever the start */
    if (FAULT == 25 && lent->out_len == LONGEST) lent->out_len--;        /* wants more output than the longest map */
    if (FAULT != 34 || lent->marks_len > MOST_BORDERS) return;
    for (e = 0; e < lent->marks_len; e++) marks[e] = lent->marks[e] != 0;
    lent->marks = marks; /* takes every mark over 0 for 1 */
}

static uint8_t changed_status(const struct lent *lent, uint8_t status)
{
    if (FAULT == 26 && status == 6 && make_book(&drawing, &book)) return 0;                      /* the tree by the tour's length */
    if (FAULT == 27 && status == 6) return 5;                                                    /* no 6 beside 5 */
    if (FAULT == 28 && status == 3 && has_equal(lent)) return 4;                                 /* tests 4 before 3 */
    if (FAULT == 29 && status == 7) return 0;                                                    /* does not look for 7 */
    if (FAULT == 30 && lent->turning_len == 4098) return 2;                                      /* takes lists of 4,098 as fitting */
    if (FAULT == 31 && lent->marks_len == 0 && status == 0) return 5;                            /* declines the empty drawing */
    if (FAULT == 32) return status == 0 ? 7 : status;                                            /* declines every drawing */
    if (FAULT == 33 && status == 5 && count_marks(&drawing) >= count_points(&drawing)) return 6; /* tests 6 before 5 */
    return status;
}

/* ---- packing: the pair ---- */

static uint32_t carry(uint8_t status, size_t a, size_t b)
{
    return status | (uint32_t)a << 8 | (uint32_t)b << 20;
}

static int lower(size_t x, size_t y, size_t then_x, size_t then_y)
{
    return x != y ? x < y : then_x < then_y;
}

static size_t smaller_of(struct crossing x)
{
    return x.a < x.b ? x.a : x.b;
}

static size_t larger_of(struct crossing x)
{
    return x.a < x.b ? x.b : x.a;
}

/* Of two pairs a, b, a, b whether x is to be carried rather than y. */
static int comes_first(const struct places *of, struct crossing x, struct crossing y)
{
    struct places xa = of[x.a], xb = of[x.b], ya = of[y.a], yb = of[y.b];
    if (FAULT == 46) return lower(smaller_of(x), smaller_of(y), x.a + x.b, y.a + y.b); /* the lowest border numbers */
    if (FAULT == 47) return lower(xa.second, ya.second, yb.first, xb.first);           /* for b the top of the stack */
    if (FAULT == 48) return lower(xa.first, ya.first, xb.first, yb.first);             /* the lowest first a */
    if (FAULT == 49) return lower(ya.second, xa.second, xb.first, yb.first);           /* from the last place of the tour */
    if (FAULT == 50) return lower(xa.second, ya.second, xb.second, yb.second);         /* the lowest second b */
    return lower(xa.second, ya.second, xb.first, yb.first);
}

/* The pair to carry, of those with so many marked borders that come in turns. */
static struct crossing choose_pair(size_t marks)
{
    struct places of[MOST_BORDERS];
    struct crossing best = {0, 0}, x;
    find_places(&drawing, of);
    for (x.a = 0; x.a < drawing.m; x.a++)
        for (x.b = 0; x.b < drawing.m; x.b++) {
            if ((size_t)drawing.marks[x.a] + drawing.marks[x.b] != marks || !in_turns(of[x.a], of[x.b])) continue;
            if (best.a == best.b || comes_first(of, x, best)) best = x;
        }
    return best;
}

static uint32_t with_pair(uint8_t status)
{
    struct crossing pair;
    if (FAULT == 41 && status == 5) return carry(5, 1, 0); /* a border beside another refusal */
    if (status != 7) return status;
    if (FAULT == 42) return 7; /* no pair */
    pair = choose_pair(0);
    if (FAULT == 43) return carry(7, larger_of(pair), smaller_of(pair));                   /* larger first */
    if (FAULT == 44) pair.b = pair.a > 0 ? pair.a - 1 : pair.a + 1;                        /* a pair that need not alternate */
    if (FAULT == 45 && choose_pair(1).a != choose_pair(1).b) pair = choose_pair(1);        /* a marked border in the pair */
    return carry(7, smaller_of(pair), larger_of(pair));
}

/* ---- packing: memory ---- */

/* No more than there is. */
static void clear(const struct lent *lent, uint16_t *work, size_t entries)
{
    if (entries > lent->work_len) entries = lent->work_len;
    if (entries > 0) memset(work, 0, 2 * entries);
}

static void leave_work(const struct lent *lent, uint16_t *work, uint8_t status)
{
    size_t entries = 6 * lent->marks_len;
    if (FAULT == 51 && status == 3) clear(lent, work, entries); /* clears it with 3 */
    if (status != 0 && status <= 3) return;
    if (FAULT == 52 && status == 4) return;    /* leaves it as it was with 4 */
    if (FAULT == 53 && status == 0) return;    /* leaves it as it was where the map is written */
    if (FAULT == 54 && entries > 0) entries--; /* clears one entry too few */
    if (FAULT == 55) entries++;                /* clears one entry too many */
    if (FAULT == 56) entries = lent->work_len; /* clears all of it */
    clear(lent, work, entries);
}

static void write_map(const struct lent *lent, uint8_t *out, uint16_t *length)
{
    uint8_t map[LONGEST + 1] = {0};
    size_t i;
    make_book(&drawing, &book);
    *length = (uint16_t)pack(&book, map);
    if (FAULT == 61) ++*length;                                                            /* one too long */
    if (FAULT == 62) return;                                                               /* writes nothing */
    for (i = 0; i < *length; i++) out[i] = FAULT == 63 ? out[i] | map[i] : map[i];         /* what the output held shows through */
    if (FAULT == 64 && *length < lent->out_len) out[*length] = 0;                          /* one byte beyond the map */
    if (FAULT == 65) memcpy(out, triangle, sizeof triangle);                               /* the triangle's bytes for all */
    if (FAULT == 66) out[lent->out_len] = 0;                                               /* one byte beyond the output */
    if (FAULT == 67) memset(out + *length, 0, LONGEST - *length);                          /* clears the longest map's length */
    if (FAULT == 68) out[AT_M + 1] = 0;                                                    /* m in one byte */
    if (FAULT == 69) put_field(out, AT_AREAS, book.n);                                     /* n for the count of areas */
    if (FAULT == 70) out[AT_AREAS] = map[AT_AREAS + 1], out[AT_AREAS + 1] = map[AT_AREAS]; /* the count high byte first */
    if (FAULT == 75) *length = (uint16_t)without_count(map, *length, out);                 /* a card without the count */
}

uint32_t pmap_pack(const uint16_t *turning, size_t turning_len, const uint8_t *marks, size_t marks_len, size_t start,
                   uint16_t *work, size_t work_len, uint8_t *out, size_t out_len, uint16_t *length)
{
    struct lent lent = {turning, turning_len, marks, marks_len, start, work_len, out_len}, changed = lent;
    uint8_t status;
    change_lent(&changed);
    if (FAULT == 71 && turning_len > 8) status = ((const volatile uint8_t *)turning)[2 * turning_len]; /* reads past the list */
    status = changed_status(&changed, pack_refusal(&changed, &drawing));
    if (FAULT == 72 && turning_len > 8 && status > 4) ((uint16_t *)turning)[0] ^= 1; /* changes the turning list */
    if (FAULT == 73 && status != 0) *length = 0;                                     /* writes the length on a refusal */
    if (FAULT == 74 && status == 7) out[0] = marks_len % 256;                        /* writes before 7 is found */
    leave_work(&lent, work, status);
    if (status == 0) write_map(&lent, out, length);
    return with_pair(status);
}

/* ---- finding marks: the status ---- */

static void change_lists(struct lent *lent)
{
    if (FAULT == 261) lent->work_len++;                                                       /* takes a working list that is one short */
    if (FAULT == 262 && lent->work_len > 0) lent->work_len--;                                 /* wants one entry more than 6m */
    if (FAULT == 263) lent->turning_len -= lent->turning_len % 2;                             /* takes a turning list of odd length */
    if (FAULT == 264 && 2 * lent->marks_len == lent->turning_len + 2) lent->marks_len--;      /* takes one mark too many */
    if (FAULT == 265 && 2 * lent->marks_len + 2 == lent->turning_len) lent->turning_len -= 2; /* takes one mark too few */
}

static int has_loop(void)
{
    size_t e, h;
    for (e = 0; e < drawing.m; e++)
        for (h = drawing.turning[2 * e]; h != 2 * e; h = drawing.turning[h])
            if (h == 2 * e + 1) return 1;
    return 0;
}

static uint8_t changed_outcome(const struct lent *lent, uint8_t status)
{
    if (FAULT == 266 && lent->turning_len == 4098) return 2;                                    /* takes lists of 4,098 as fitting */
    if (FAULT == 267 && status == 3 && has_equal(lent)) return 4;                               /* tests 4 before 3 */
    if (FAULT == 268 && status == 4 && !borders_join(&drawing)) return 21;                      /* tests 21 before 4 */
    if (FAULT == 269 && status == 21) return 0;                                                 /* does not look for 21 */
    if (FAULT == 270 && status == 21) return 5;                                                 /* gives 5 for 21 */
    if (FAULT == 271 && status == 0 && has_loop()) return 21;                                   /* gives 21 wherever there is a loop */
    if (FAULT == 272 && status == 0 && drawing.m == 0) return 21;                               /* declines the empty drawing */
    if (FAULT == 273 && status == 0 && !marks_join(&drawing)) return 21;                        /* crosses the borders marked before only */
    if (FAULT == 274 && status != 1 && status != 2 && drawing_refusal(&drawing) == 3) return 3; /* gives 3 for a mark over 1 */
    if (FAULT == 275) return status == 0 ? 21 : status;                                         /* declines every drawing */
    if (FAULT == 301 && status == 0 && drawing.m == 2048) return 1;                             /* takes lists under 4,096 only */
    return status;
}

/* ---- finding marks: the tree ---- */

static uint8_t held[MOST_BORDERS]; /* what the marks held before */

/* The tree that takes borders by their numbers, lowest first. */
static void find_tree(void)
{
    static size_t order[MOST_BORDERS];
    size_t e, count = 0;
    memcpy(held, drawing.marks, drawing.m);
    for (e = 0; e < drawing.m; e++)
        if (FAULT == 276 && held[e] == 1) order[count++] = e; /* a tree too, but those that were marked come first */
    for (e = 0; e < drawing.m; e++)
        if (FAULT != 276 || held[e] != 1) order[count++] = e;
    mark_tree_in(&drawing, order);
}

/* The first border with this mark gets the other one. Gives its number; m if there is none. */
static size_t change_mark(uint8_t mark)
{
    size_t e = 0;
    while (e < drawing.m && drawing.marks[e] != mark) e++;
    if (e < drawing.m) drawing.marks[e] = !mark;
    return e;
}

/* One border more that closes a ring, and one fewer outside the ring, where there is one. */
static void make_ring(void)
{
    size_t added = change_mark(0), e;
    for (e = 0; added < drawing.m && e < drawing.m; e++) {
        if (e == added || !drawing.marks[e]) continue;
        drawing.marks[e] = 0;
        if (!marks_join(&drawing)) return;
        drawing.marks[e] = 1;
    }
    if (added < drawing.m) drawing.marks[added] = 0;
}

static void change_tree(void)
{
    size_t e;
    if (FAULT == 277) change_mark(0); /* one border too many */
    if (FAULT == 278) change_mark(1); /* one too few */
    if (FAULT == 279) make_ring();    /* n-1 borders, to a point already reached */
    for (e = 0; e < drawing.m; e++) {
        if (FAULT == 280 && held[e] == 1) drawing.marks[e] = 1;                /* what was marked stays so */
        if (FAULT == 281 && drawing.marks[e] == 0) drawing.marks[e] = held[e]; /* writes the ones only */
        if (FAULT == 282 && drawing.marks[e] == 1) drawing.marks[e] = held[e]; /* writes the zeros only */
        if (FAULT == 283 && drawing.marks[e] == 1) drawing.marks[e] = 2;       /* 2 for 1 */
        if (FAULT == 284 && drawing.marks[e] == 1) drawing.marks[e] = 255;     /* 255 for 1 */
        if (FAULT == 285) drawing.marks[e] = 1;                                /* marks every border */
        if (FAULT == 286) drawing.marks[e] = held[e];                          /* writes nothing */
    }
}

/* ---- finding marks: memory ---- */

static void leave_work_of_marks(const struct lent *lent, uint16_t *work, uint8_t status)
{
    size_t entries = 6 * lent->marks_len;
    if (FAULT == 287 && status == 2) clear(lent, work, entries); /* clears it with 2 */
    if (FAULT == 288 && status == 3) clear(lent, work, entries); /* clears it with 3 */
    if (status != 0 && status <= 3) return;
    if (FAULT == 289 && status == 4) return;    /* leaves it as it was with 4 */
    if (FAULT == 290 && status == 21) return;   /* leaves it as it was with 21 */
    if (FAULT == 291 && status == 0) return;    /* leaves it as it was where the marks are written */
    if (FAULT == 292 && entries > 0) entries--; /* clears one entry too few */
    if (FAULT == 293) entries++;                /* clears one entry too many */
    if (FAULT == 294) entries = lent->work_len; /* clears all of it */
    clear(lent, work, entries);
}

/* What it writes though it declines, or what is not its to write. */
static void write_marks_wrongly(const struct lent *lent, uint8_t *marks, uint8_t status)
{
    if (FAULT == 295 && status == 21) find_tree(), memcpy(marks, drawing.marks, drawing.m);                     /* the trees of the parts */
    if (FAULT == 296 && (status == 3 || status == 4) && lent->marks_len > 0) memset(marks, 0, lent->marks_len); /* clears them first */
    if (FAULT == 297 && (status == 1 || status == 2) && lent->marks_len > 0) marks[0] ^= 1;                     /* before it tests lengths */
    if (FAULT == 298 && status == 0) marks[lent->marks_len] = 0;                                                /* one past their end */
    if (FAULT == 299 && status == 0 && drawing.m > 1) ((uint16_t *)lent->turning)[0] ^= 1;                      /* the turning list */
}

uint8_t pmap_marks(const uint16_t *turning, size_t turning_len, uint8_t *marks, size_t marks_len, uint16_t *work,
                   size_t work_len)
{
    struct lent lent = {turning, turning_len, marks, marks_len, 0, work_len, 0}, changed = lent;
    uint8_t status;
    change_lists(&changed);
    if (FAULT == 300 && turning_len > 8) status = ((const volatile uint8_t *)turning)[2 * turning_len]; /* reads past the list */
    status = changed_outcome(&changed, marks_refusal(&changed, &drawing));
    leave_work_of_marks(&lent, work, status);
    write_marks_wrongly(&lent, marks, status);
    if (status != 0) return status;
    find_tree();
    change_tree();
    if (drawing.m > 0) memcpy(marks, drawing.marks, drawing.m);
    return 0;
}

/* ---- unpacking ---- */

static uint8_t unpack_status(const uint8_t *map, size_t map_len, size_t turning_len, size_t marks_len)
{
    uint8_t status = unpack(map, map_len, &drawing);
    if (FAULT == 81 && map_len >= 2 && turning_len < 2 * map[0]) return 16;                                          /* tests 16 first */
    if (FAULT == 82 && status == 10) status = 11;                                                                    /* does not test unused bits */
    if (FAULT == 83 && status == 8 && map_len >= HEADER && field_at(map, AT_N) == field_at(map, AT_M) + 2) return 9; /* takes n = m+2 */
    if (FAULT == 87 && status == 20) status = 0;                                                                     /* takes any count of areas */
    if (FAULT == 88 && status == 20) return 9;                                                                       /* gives 9 for 20 */
    if (FAULT == 89 && status == 20 && unpack_before(map, map_len, &drawing) == 0) status = 0;                       /* takes cards made before */
    if (status != 0) return status;
    if (FAULT == 84) turning_len--; /* wants more than 2m entries */
    if (FAULT == 85) turning_len++; /* takes one entry fewer */
    if (FAULT == 86) marks_len++;   /* takes one mark fewer */
    return turning_len + 1 < 2 * drawing.m + 1 || marks_len < drawing.m ? 16 : 0;
}

/* Another drawing than the one that is asked for. */
static void change_drawing(void)
{
    static struct drawing right;
    size_t h;
    right = drawing;
    for (h = 0; h < 2 * drawing.m; h++) {
        if (FAULT == 91) drawing.turning[right.turning[h]] = (uint16_t)h;               /* turns the other way */
        if (FAULT == 92) drawing.turning[other(h)] = (uint16_t)other(right.turning[h]); /* the first place is the odd end */
        if (FAULT == 93) drawing.turning[h] = (uint16_t)tour_after(&right, h);          /* the tour for the turning list */
        if (FAULT == 94) drawing.turning[2 * drawing.m - 1 - h] = (uint16_t)(2 * drawing.m - 1 - right.turning[h]);
        if (FAULT == 94) drawing.marks[drawing.m - 1 - h / 2] = right.marks[h / 2]; /* numbers borders from the last */
        if (FAULT == 95) drawing.marks[h / 2] = !right.marks[h / 2];                /* marks the others */
    }
}

uint8_t pmap_unpack(const uint8_t *map, size_t map_len, uint16_t *turning, size_t turning_len,
                    uint8_t *marks, size_t marks_len, uint16_t *m)
{
    uint8_t status = unpack_status(map, map_len, turning_len, marks_len);
    size_t h, e;
    if (FAULT == 101 && status != 0) *m = 0;                                              /* writes m on a refusal */
    if (FAULT == 102 && status == 16 && turning_len > 0) turning[0] = drawing.turning[0]; /* writes before 16 is tested */
    if (status != 0) return status;
    change_drawing();
    for (h = 0; h < 2 * drawing.m && h < turning_len; h++) turning[h] = drawing.turning[h];
    for (e = 0; e < drawing.m && e < marks_len; e++) marks[e] = drawing.marks[e];
    if (FAULT == 103 && turning_len > 2 * drawing.m) turning[2 * drawing.m] = 0;            /* one entry too many */
    if (FAULT == 104) memset(marks, 0, marks_len), memcpy(marks, drawing.marks, drawing.m); /* clears all marks */
    if (FAULT == 105 && drawing.m > 3) marks[marks_len] = 0;                                /* beyond the marks */
    *m = (uint16_t)(FAULT == 106 ? count_points(&drawing) : drawing.m);                     /* n for m */
    return 0;
}
