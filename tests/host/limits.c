/* What 18 refuses, by hand: numbers, kinds and lengths; and which refusal comes first. */
#include <stdlib.h>

#include "cards.h"
#include "examples.h"
#include "lines.h"
#include "pmap.h"
#include "tally.h"
#include "tariffs.h"

/* ---- three areas, two loops side by side, all with a factor of 1 ---- */

enum { AREAS = 3 };
static const struct line one = HELD(1.0, 0.01, 100.0);

static void put_ones(void)
{
    size_t k;
    for (k = 1; k <= AREAS; k++) put_line(k, one);
}

static void compare_all_ones(void)
{
    size_t k;
    for (k = 1; k <= AREAS; k++) compare_answer(k, 1.0);
}

static void compare_all_refused(void)
{
    size_t k;
    for (k = 1; k <= AREAS; k++) compare_status(k, 18);
}

/* ---- numbers ---- */

static const struct {
    uint64_t bits;
    int allowed;
} numbers[] = {
    {LEAST_FACTOR, 1},       {LEAST_FACTOR + 1, 1},   {LEAST_FACTOR - 1, 0},                            /* 0.01 and beside it */
    {MOST_FACTOR, 1},        {MOST_FACTOR - 1, 1},    {MOST_FACTOR + 1, 0},                             /* 100 and beside it */
    {0x3F847AE140000000, 0}, {0x3F847AE160000000, 1}, {0x4059000020000000, 0},                          /* near them, by fewer digits */
    {0x3FF0000000000000, 1}, {0x0000000000000000, 0}, {0x8000000000000000, 0},                          /* 1, 0, -0 */
    {0x0000000000000001, 0}, {0x000FFFFFFFFFFFFF, 0}, {0x8000000000000001, 0}, {0x0010000000000000, 0}, /* denormals; normal */
    {0xBFF0000000000000, 0}, {0xBF847AE147AE147B, 0}, {0xC059000000000000, 0},                          /* -1, -0.01, -100 */
    {0x7FEFFFFFFFFFFFFF, 0}, {0x7FF0000000000000, 0}, {0xFFF0000000000000, 0},                          /* the largest; infinities */
    {0x7FF8000000000000, 0}, {0xFFF8000000000000, 0}, {0x7FFFFFFFFFFFFFFF, 0}, {0xFFFFFFFFFFFFFFFF, 0}, /* quiet NaNs */
    {0x7FF0000000000001, 0}, {0xFFF0000000000001, 0}, {0x7FF7FFFFFFFFFFFF, 0}, {0xFFF4000000000000, 0}, /* signalling NaNs */
};

/* What an area with a factor of 1 answers if it has an allowed number for its factor, its floor or its ceiling. */
static double answer_with(size_t field, double number)
{
    if (field == 0) return number;
    if (field == 1) return number > 1.0 ? number : 1.0;
    return number < 1.0 ? number : 1.0;
}

/* One number in one field, with each kind of the area that has it, and each area asked for. */
static void compare_number(uint64_t bits, int allowed, size_t area, size_t field)
{
    size_t asked;
    uint8_t kind;
    for (kind = OWN_KIND; kind <= UNKNOWN_KIND; kind++) {
        int used = kind == HELD_KIND || (kind == OWN_KIND && field == 0);
        put_ones();
        put_kind(area, kind);
        put_value(area, field, bits);
        for (asked = 1; asked <= AREAS; asked++) {
            if (used && !allowed) compare_status(asked, 18);
            else compare_answer(asked, used && asked == area ? answer_with(field, number_of(bits)) : 1.0);
        }
    }
}

static void compare_numbers_in(size_t area, size_t field)
{
    size_t i, digit;
    for (i = 0; i < sizeof numbers / sizeof *numbers; i++) compare_number(numbers[i].bits, numbers[i].allowed, area, field);
    for (digit = 0; digit < 52; digit++) /* no number, with one digit of its payload */
        compare_number(random_number() << 63 | UINT64_C(0x7FF0000000000000) | (uint64_t)1 << digit, 0, area, field);
}

/* Floors and ceilings: equal, and one last digit apart either way. */
static void compare_floors(size_t area)
{
    static const uint64_t floors[] = {LEAST_FACTOR, 0x3FEFFFFFFFFFFFFF, 0x3FF0000000000000, 0x4008000000000000, MOST_FACTOR - 1};
    size_t i;
    for (i = 0; i < sizeof floors / sizeof *floors; i++) {
        uint64_t low = floors[i], high = low + 1;
        put_ones();
        put_value(area, 1, low);
        put_value(area, 2, low);
        compare_answer(area, number_of(low));
        put_value(area, 2, high);
        compare_answer(area, number_of(low) < 1.0 ? number_of(high) : number_of(low));
        put_value(area, 1, high);
        put_value(area, 2, low);
        compare_all_refused();
        put_kind(area, OWN_KIND);
        compare_all_ones();
        put_kind(area, UNKNOWN_KIND);
        compare_all_ones();
    }
}

static void compare_kinds(size_t area)
{
    size_t kind;
    put_ones();
    for (kind = 3; kind <= 255; kind++) {
        put_kind(area, (uint8_t)kind);
        compare_all_refused();
    }
}

/* The names that pmap.h has for them. */
static void compare_names(void)
{
    expect(bits_of(PMAP_LEAST_FACTOR) == LEAST_FACTOR && bits_of(PMAP_MOST_FACTOR) == MOST_FACTOR, "pmap.h", "has other bounds");
    expect(PMAP_KIND_OWN == 0 && PMAP_KIND_HELD == 1 && PMAP_KIND_UNKNOWN == 2, "pmap.h", "has other kinds");
    expect(PMAP_TARIFF == 18 && PMAP_NO_FACTOR == 19, "pmap.h", "has other refusals");
}

void tariff_limits(void)
{
    size_t area, field;
    compare_names();
    take_map("[][]");
    for (area = 1; area <= AREAS; area++) {
        for (field = 0; field < PER_AREA; field++) compare_numbers_in(area, field);
        compare_floors(area);
        compare_kinds(area);
    }
    part_ends("every limit of a tariff, and every kind");
}

/* ---- lengths ---- */

static void compare_length(size_t kinds_len, size_t values_len, size_t areas)
{
    uint8_t status = kinds_len == areas && values_len == PER_AREA * areas ? 0 : 18;
    struct want want = {status, 1.0};
    put_lengths(kinds_len, values_len);
    compare_want(1, want);
    compare_want(areas, want);
    compare_status(areas + 1, 15);
}

/* Every line that there might be is good: only the lengths are not. */
static void compare_lengths(const char *places)
{
    size_t v = take_map(places), i, j;
    size_t of_kinds[] = {v, v - 1, v + 1, v + 2, 2 * v, 3 * v, 0, v + 256};
    size_t of_values[] = {3 * v, 3 * v - 1, 3 * v + 1, 3 * v + 2, 3 * v + 3, 3 * v - 3, 6 * v, v, 0, 3 * v + 256, 3 * (v + 256)};
    for (i = 1; i <= v + 256; i++) put_line(i, one);
    for (i = 0; i < sizeof of_kinds / sizeof *of_kinds; i++)
        for (j = 0; j < sizeof of_values / sizeof *of_values; j++) compare_length(of_kinds[i], of_values[j], v);
}

/* Lengths that are right in 16 bits. */
static void compare_far_lengths(void)
{
    size_t v = take_map("[]"), i;
    for (i = 1; i <= v + 65536; i++) put_line(i, one);
    compare_length(v + 65536, 3 * v, v);
    compare_length(v, 3 * v + 65536, v);
    compare_length(v + 65536, 3 * (v + 65536), v);
    compare_length(v, 3 * v, v);
}

void tariff_lengths(void)
{
    compare_lengths("");
    compare_lengths("(()())");
    compare_lengths("[]");
    compare_lengths("(([))]");
    compare_lengths(FIGURE_1);
    compare_far_lengths();
    part_ends("lengths of the lists of a tariff");
}

/* ---- several refusals at once ---- */

static const struct line unknown = UNKNOWN;

/* 15 before 18 before 19. */
static void compare_in_order(void)
{
    static const size_t no_areas[] = {0, 5, 65536, 65537, 4294967297u, SIZE_MAX};
    size_t areas = take_map("[][][]"), bad, k;
    for (k = 1; k <= areas; k++) put_line(k, unknown);
    for (k = 1; k <= areas; k++) compare_status(k, 19);
    for (k = 0; k < sizeof no_areas / sizeof *no_areas; k++) compare_status(no_areas[k], 15);
    for (bad = 1; bad <= areas; bad++) {
        put_kind(bad, bad % 2 ? 3 : 255);
        for (k = 1; k <= areas; k++) compare_status(k, 18);
        for (k = 0; k < sizeof no_areas / sizeof *no_areas; k++) compare_status(no_areas[k], 15);
        put_kind(bad, UNKNOWN_KIND);
    }
}

/* Opening's refusals before all of them, whatever the lists. */
static void compare_closed(const uint8_t *bytes, size_t length, uint8_t status)
{
    size_t lines;
    take_bytes(bytes, length);
    for (lines = 0; lines < 3; lines++) {
        put_lengths(lines, PER_AREA * lines);
        put_line(1, unknown);
        put_line(2, unknown);
        put_kind(2, 3);
        compare_status(0, status);
        compare_status(1, status);
        compare_status(9, status);
    }
}

void factor_refusals(void)
{
    size_t i;
    compare_in_order();
    for (i = 0; i < TABLE; i++) compare_closed(table[i].bytes, table[i].length, table[i].status);
    part_ends("refusals of factors, the first one first");
}

/* ---- what is not read ---- */

/* Area 1 is not known, and has two known ones across; the others don't. */
static void unwritten_on(const char *places, size_t own, size_t held)
{
    static struct card card;
    static uint8_t kinds[MOST_AREAS];
    size_t areas = areas_of_kinds(places), k;
    double *list = malloc(PER_AREA * areas * sizeof *list), out = 0.0;
    expect(list != NULL, "malloc", "has no memory");
    if (list == NULL) return;
    card_of_kinds(&card, places);
    for (k = 1; k <= areas; k++) kinds[k - 1] = k == own ? OWN_KIND : k == held ? HELD_KIND : UNKNOWN_KIND;
    list[PER_AREA * (own - 1)] = 1.5;
    list[PER_AREA * (held - 1)] = 9.0;
    list[PER_AREA * (held - 1) + 1] = 0.5;
    list[PER_AREA * (held - 1) + 2] = 2.5;
    for (k = 1; k <= areas; k++) {
        uint8_t status = pmap_factor(card.bytes, card.length, k, kinds, areas, list, PER_AREA * areas, &out);
        uint8_t want = k == 1 || k == own || k == held ? 0 : 19;
        double factor = k == own ? 1.5 : k == held ? 2.5 : 2.0;
        expect(status == want, "pmap_factor", "another status beside values never written");
        if (want == 0) expect(out == factor, "pmap_factor", "another factor beside values never written");
    }
    free(list);
}

void unwritten_values(void)
{
    unwritten_on("[][]", 2, 3);
    unwritten_on("[][][][]", 5, 2);
    unwritten_on("[()][][()]", 2, 4);
    part_ends("values that are not used and were never written");
}
