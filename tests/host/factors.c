/* Comparing pmap_factor with the account of request 4/14. */
#include "factors.h"

#include <stdio.h>
#include <stdlib.h>
#include <string.h>

#include "cards.h"
#include "drawings.h"
#include "lending.h"
#include "pmap.h"
#include "rounding.h"
#include "tally.h"

/* ---- one call ---- */

static struct loan kinds_loan, values_loan, cell_loan;

static void factor_differs(const char *what, const uint8_t *map, size_t length, const struct tariff *t, size_t area, struct factor want,
                           struct factor got)
{
    char detail[300];
    snprintf(detail, sizeof detail, "%s; of %zu, lists of %zu and %zu: status %u, wanted %u; cell %016llX, wanted %016llX", what, area,
             t->kinds_len, t->values_len, got.status, want.status, (unsigned long long)got.bits, (unsigned long long)want.bits);
    differs("pmap_factor", map, length, detail);
}

void compare_factor(const uint8_t *map, size_t length, const struct tariff *t, size_t area, struct factor want)
{
    const uint8_t *kinds = lend_list(&kinds_loan, t->kinds, t->kinds_len);
    const double *values = lend_list(&values_loan, t->values, sizeof *t->values * t->values_len);
    const char *wrong = NULL;
    struct factor got;
    uint64_t old;
    double *cell;

    fill(&old, sizeof old);
    cell = lend(&cell_loan, &old, sizeof old);
    got.status = pmap_factor(map, length, area, kinds, t->kinds_len, values, t->values_len, cell);
    memcpy(&got.bits, cell, sizeof got.bits);
    if (want.status != 0) want.bits = old;
    if (!take_back(&cell_loan, &want.bits)) wrong = "the cell is not as it must be";
    if (!take_back(&values_loan, t->values)) wrong = "the values were changed";
    if (!take_back(&kinds_loan, t->kinds)) wrong = "the kinds were changed";
    if (got.status != want.status) wrong = "another status";
    compared_one();
    if (wrong == NULL) seen_once(got.status);
    else factor_differs(wrong, map, length, t, area, want, got);
}

/* ---- numbers ---- */

static uint64_t factor_by_chance(void)
{
    switch (random_below(8)) {
    case 0:
        return LEAST_FACTOR + random_below(4);
    case 1:
        return MOST_FACTOR - random_below(4);
    case 2:
        return bits_of((double)(1 + random_below(10000)) / 100.0);
    case 3:
        return bits_of((double)(1 + random_below(100)));
    default: /* all orders of magnitude alike, and every digit by chance */
        return LEAST_FACTOR + random_number() % (MOST_FACTOR - LEAST_FACTOR + 1);
    }
}

/* Outside the bounds, or no number. */
static uint64_t outside_by_chance(void)
{
    static const uint64_t outside[] = {
        0x0000000000000000, 0x8000000000000000, 0x0000000000000001, 0x000FFFFFFFFFFFFF, 0x0010000000000000, /* zeros, denormals */
        0xBFF0000000000000, 0x7FEFFFFFFFFFFFFF, 0x7FF0000000000000, 0xFFF0000000000000,                     /* -1, infinities */
    };
    switch (random_below(6)) {
    case 0:
        return LEAST_FACTOR - 1 - random_below(4);
    case 1:
        return MOST_FACTOR + 1 + random_below(4);
    case 2:
        return factor_by_chance() | (uint64_t)1 << 63;
    case 3: /* no number: the exponent of infinity, and any digit that is not 0 */
        return random_number() << 63 | UINT64_C(0x7FF0000000000000) | (uint64_t)1 << random_below(52) | (random_number() >> 12);
    case 4:
        return random_number() % LEAST_FACTOR;
    default:
        return outside[random_below(sizeof outside / sizeof *outside)];
    }
}

static uint64_t bits_by_chance(void)
{
    size_t which = random_below(4);
    return which == 0 ? random_number() : which == 1 ? factor_by_chance() : outside_by_chance();
}

/* ---- tariffs ---- */

static uint8_t kinds[MOST_KINDS];
static uint64_t values[MOST_VALUES];

static void put_held(uint64_t *of)
{
    uint64_t x = factor_by_chance(), y = random_below(4) == 0 ? x : factor_by_chance();
    of[0] = factor_by_chance();
    of[1] = x < y ? x : y;
    of[2] = x < y ? y : x;
}

/* `unknown` of 8 are not known. What a kind does not use is anything. */
static void make_tariff(struct tariff *t, size_t areas, size_t unknown)
{
    size_t k, i;
    for (k = 0; k < areas; k++) {
        uint64_t *of = values + PER_AREA * k;
        kinds[k] = (uint8_t)(random_below(8) < unknown ? UNKNOWN_KIND : random_below(2));
        for (i = 0; i < PER_AREA; i++) of[i] = bits_by_chance();
        if (kinds[k] == OWN_KIND) of[0] = factor_by_chance();
        if (kinds[k] == HELD_KIND) put_held(of);
    }
    t->kinds = kinds;
    t->kinds_len = areas;
    t->values = values;
    t->values_len = PER_AREA * areas;
}

enum { WHOLE, BAD_KIND, BAD_NUMBER, BAD_LIMITS, BAD_LENGTH, HARMS };

static void harm(struct tariff *t, int how)
{
    size_t areas = t->kinds_len, k = random_below(areas);
    uint64_t *of = values + PER_AREA * k;
    if (how == BAD_KIND) {
        kinds[k] = (uint8_t)(random_below(2) ? 3 : 3 + random_below(253));
    } else if (how == BAD_NUMBER) {
        kinds[k] = (uint8_t)random_below(2);
        put_held(of);
        of[kinds[k] == OWN_KIND ? 0 : random_below(PER_AREA)] = outside_by_chance();
    } else if (how == BAD_LIMITS) {
        kinds[k] = HELD_KIND;
        of[0] = factor_by_chance();
        of[2] = LEAST_FACTOR + random_number() % (MOST_FACTOR - LEAST_FACTOR);
        of[1] = of[2] + 1 + (random_below(2) ? 0 : random_number() % (MOST_FACTOR - of[2]));
    } else if (how == BAD_LENGTH) {
        if (random_below(2)) t->kinds_len += random_below(2) ? 1 : (size_t)-1;
        else t->values_len += random_below(2) ? 1 : (size_t)-1;
        kinds[areas] = OWN_KIND;
        values[PER_AREA * areas] = bits_of(1.0);
    }
}

/* ---- by chance, on any bytes ---- */

static size_t area_by_chance(size_t areas)
{
    static const size_t odd[] = {0, 65535, 65536, 65537, 65538, 4294967296u, 4294967297u, (size_t)1 << 63, SIZE_MAX};
    size_t which = random_below(40);
    if (which < sizeof odd / sizeof *odd) return odd[which];
    return which < 12 ? areas + 1 + random_below(2) : 1 + random_below(areas);
}

void compare_factors(const uint8_t *map, size_t length, uint8_t opening, const struct book *b)
{
    struct factor want = {opening, 0};
    struct tariff t;
    size_t areas = b == NULL ? 1 + random_below(16) : b->areas, area = area_by_chance(areas);
    make_tariff(&t, areas, random_below(9));
    harm(&t, random_below(2) ? WHOLE : (int)random_below(HARMS));
    if (opening == 0) want = book_factor(b, &t, area);
    compare_factor(map, length, &t, area, want);
}

/* ---- every area, and what other arithmetic would give ---- */

static struct card card;
static struct drawing drawing;
static struct book book;

/* How many means have other bits if they are made so. */
static unsigned long reversed, from_second, by_pairs, by_size, with_more_digits, by_reciprocal;

static double sum_by_pairs(const uint64_t *factors, size_t count)
{
    if (count == 1) return number_of(factors[0]);
    return sum_by_pairs(factors, count / 2) + sum_by_pairs(factors + count / 2, count - count / 2);
}

/* What each addition loses is kept, and added at the end (Neumaier). */
static double sum_with_more_digits(const uint64_t *factors, size_t count)
{
    double sum = 0.0, lost = 0.0;
    size_t i;
    for (i = 0; i < count; i++) {
        double next = number_of(factors[i]), more = sum + next;
        lost += sum < next ? (next - more) + sum : (sum - more) + next;
        sum = more;
    }
    return sum + lost;
}

static int order_of_bits(const void *x, const void *y)
{
    uint64_t a = *(const uint64_t *)x, b = *(const uint64_t *)y;
    return (a > b) - (a < b);
}

static void compare_orders(const uint64_t *factors, size_t count, uint64_t mean)
{
    uint64_t other_order[MOST_ENDS];
    double sum = 0.0;
    size_t i;
    for (i = 0; i < count; i++) other_order[i] = factors[count - 1 - i];
    reversed += mean_of(other_order, count) != mean;
    for (i = 0; i < count; i++) other_order[i] = factors[(i + 1) % count];
    from_second += mean_of(other_order, count) != mean;
    qsort(other_order, count, sizeof *other_order, order_of_bits);
    by_size += mean_of(other_order, count) != mean;
    by_pairs += bits_of(sum_by_pairs(factors, count) / (double)count) != mean;
    with_more_digits += bits_of(sum_with_more_digits(factors, count) / (double)count) != mean;
    for (i = 0; i < count; i++) sum += number_of(factors[i]);
    by_reciprocal += bits_of(sum * (1.0 / (double)count)) != mean;
}

static uint64_t mean_in_whole_numbers(const uint64_t *factors, size_t count)
{
    uint64_t sum = 0;
    size_t i;
    for (i = 0; i < count; i++) sum = rounded_sum(sum, factors[i]);
    return rounded_quotient(sum, count);
}

static void compare_mean(const struct tariff *t, size_t area, struct factor found)
{
    uint64_t across[MOST_ENDS];
    size_t count;
    if (found.status != 0 || t->kinds[area - 1] != UNKNOWN_KIND) return;
    count = factors_across(&book, t, area, across);
    expect(mean_in_whole_numbers(across, count) == found.bits, "reference", "a mean has other bits in whole numbers");
    compare_orders(across, count, found.bits);
}

static void compare_every_area(const struct tariff *t)
{
    static struct loan map_loan;
    const uint8_t *map = lend(&map_loan, card.bytes, card.length);
    size_t k;
    for (k = 0; k <= book.areas + 1; k++) {
        struct factor want = book_factor(&book, t, k);
        compare_factor(map, card.length, t, k, want);
        compare_mean(t, k, want);
    }
    expect(take_back(&map_loan, card.bytes), "pmap_factor", "the card was changed");
}

/* A card by its strings, or one that a drawing packs to that grew border by border. */
static void make_map(size_t m)
{
    if (random_below(3) == 0) {
        grow(&drawing, m, (unsigned)random_below(8));
        mark_tree(&drawing);
        expect(make_book(&drawing, &book), "reference", "the tour of a drawing does not meet every end");
        card.length = pack(&book, card.bytes);
        return;
    }
    random_card(&card, m, 1 + random_below(random_below(2) ? m + 1 : m / 2 + 1), (unsigned)random_below(9));
    expect(unpack(card.bytes, card.length, &drawing) == 0 && make_book(&drawing, &book), "reference", "the card does not open");
}

void random_factors(size_t count, size_t most)
{
    static const size_t unknown[] = {0, 1, 2, 4, 6, 7, 8};
    while (count-- > 0) {
        struct tariff t;
        make_map(random_below(most + 1));
        make_tariff(&t, book.areas, unknown[random_below(sizeof unknown / sizeof *unknown)]);
        compare_every_area(&t);
        harm(&t, 1 + (int)random_below(HARMS - 1));
        if (most <= 100) compare_every_area(&t);
    }
    part_ends(most > 100 ? "factors on large random cards, every area" : "factors on random cards, every area");
}

/* Loops side by side: all that is known is across the first area. */
void ordered_factors(size_t count, size_t most)
{
    size_t few = count / 16, left;
    for (left = count; left > 0; left--) {
        struct tariff t;
        random_card(&card, 3 + random_below(most - 2), 1, 0);
        expect(unpack(card.bytes, card.length, &drawing) == 0 && make_book(&drawing, &book), "reference", "the card does not open");
        make_tariff(&t, book.areas, random_below(3));
        kinds[0] = UNKNOWN_KIND;
        compare_every_area(&t);
    }
    expect(reversed > few, "order", "few means have other bits if they are added in reverse");
    expect(from_second > few, "order", "few means have other bits if they begin at the second side");
    expect(by_pairs > few, "order", "few means have other bits if they are added by pairs");
    expect(by_size > few, "order", "few means have other bits if they are added by size");
    expect(with_more_digits > few, "order", "few means have other bits if they are rounded at the end only");
    expect(by_reciprocal > few, "order", "few means have other bits if they are multiplied by the reciprocal");
    part_ends(most > 100 ? "means of many factors" : "means whose bits depend on the order and on each rounding");
}
