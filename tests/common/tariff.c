/* What is wrong with a tariff, and the factor of an area. */
#include "tariff.h"

#include <float.h>
#include <string.h>

/*
 * "each f64 operation rounded once": an addition or a division of doubles below is such an operation if the compiler works with
 * no more digits than they have (it would with x87), does not fuse two operations into one (-ffp-contract=off in functions.sh)
 * and does not reorder them (-ffast-math). rounding.c does them in whole numbers, for comparison.
 */
#ifdef __FAST_MATH__
#error "-ffast-math changes the bits of sums"
#endif
_Static_assert(FLT_EVAL_METHOD == 0 && FLT_RADIX == 2 && DBL_MANT_DIG == 53 && DBL_MAX_EXP == 1024 && sizeof(double) == 8,
               "a double is not evaluated as an f64");

uint64_t bits_of(double number)
{
    uint64_t bits;
    memcpy(&bits, &number, sizeof bits);
    return bits;
}

double number_of(uint64_t bits)
{
    double number;
    memcpy(&number, &bits, sizeof number);
    return number;
}

/* Positive numbers are in the order of their bits. Above them come infinity, what is no number, and all that has a sign. */
static int in_bounds(uint64_t bits)
{
    return LEAST_FACTOR <= bits && bits <= MOST_FACTOR;
}

/* "18 when .. a kind is above 2, a factor or limit that its kind uses is outside its bounds or no number, or a floor exceeds its
   ceiling" */
static int fits(uint8_t kind, const uint64_t *of)
{
    if (kind == OWN_KIND) return in_bounds(of[0]);
    if (kind == HELD_KIND) return in_bounds(of[0]) && in_bounds(of[1]) && in_bounds(of[2]) && of[1] <= of[2];
    return kind == UNKNOWN_KIND;
}

uint8_t tariff_refusal(const struct tariff *t, size_t areas)
{
    size_t k;
    if (t->kinds_len != areas || t->values_len != PER_AREA * areas) return 18;
    for (k = 0; k < areas; k++)
        if (!fits(t->kinds[k], t->values + PER_AREA * k)) return 18;
    return 0;
}

/* "A held one is raised to its floor or lowered to its ceiling." */
uint64_t known_factor(const struct tariff *t, size_t area)
{
    const uint64_t *of = t->values + PER_AREA * (area - 1);
    if (t->kinds[area - 1] == HELD_KIND && of[0] < of[1]) return of[1];
    if (t->kinds[area - 1] == HELD_KIND && of[0] > of[2]) return of[2];
    return of[0];
}

size_t factors_across(const struct book *b, const struct tariff *t, size_t area, uint64_t across[MOST_ENDS])
{
    size_t count = 0, first, h;
    if (b->drawing->m == 0) return 0;
    first = h = b->end_at[b->area_first[area]];
    do {
        size_t there = b->area_of[other(h)];
        if (t->kinds[there - 1] != UNKNOWN_KIND) across[count++] = known_factor(t, there);
        h = b->drawing->turning[other(h)];
    } while (h != first);
    return count;
}

uint64_t mean_of(const uint64_t *factors, size_t count)
{
    double sum = 0.0;
    size_t i;
    for (i = 0; i < count; i++) sum += number_of(factors[i]);
    return bits_of(sum / (double)count);
}

/* "both come after opening and 15, 18 first" */
struct factor book_factor(const struct book *b, const struct tariff *t, size_t area)
{
    uint64_t across[MOST_ENDS];
    struct factor found = {15, 0};
    size_t count;
    if (area < 1 || area > b->areas) return found;
    found.status = tariff_refusal(t, b->areas);
    if (found.status != 0) return found;
    if (t->kinds[area - 1] != UNKNOWN_KIND) {
        found.bits = known_factor(t, area);
        return found;
    }
    count = factors_across(b, t, area, across);
    if (count == 0) found.status = 19;
    else found.bits = mean_of(across, count);
    return found;
}
