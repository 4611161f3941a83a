/*
 * Factors on top of the reference, to test the test program: with FAULT 0 in the environment nothing may differ, and with each
 * FAULT here, a mistake that a library could make, something must.
 */
#include "shim.h"

#include <math.h>
#include <string.h>

#include "pmap.h"
#include "reference.h"

static struct drawing drawing;
static struct book book;

/* What was asked. */
static size_t area, areas, kinds_len, values_len;
static const uint8_t *kinds;
static const double *values;

static const double *line_of(size_t k)
{
    return values + 3 * (k - 1);
}

/* ---- 18 ---- */

static int in_bounds(double x)
{
    if (FAULT == 161) return x > 0.01 && x <= 100.0;                  /* the least is not allowed */
    if (FAULT == 162) return x >= 0.01 && x < 100.0;                  /* the most is not allowed */
    if (FAULT == 163) return x >= 0.009999999999999998 && x <= 100.0; /* one last digit below the least is */
    if (FAULT == 164) return x >= 0.01 && x <= 100.00000000000001;    /* one last digit above the most is */
    if (FAULT == 165) return !(x < 0.01 || x > 100.0);                /* what is no number passes */
    if (FAULT == 166) return fabs(x) >= 0.01 && fabs(x) <= 100.0;     /* the sign is not looked at */
    if (FAULT == 167) return x >= 0.01 && isfinite(x);                /* no upper bound */
    if (FAULT == 168) return x >= 0.0 && x <= 100.0;                  /* no lower bound but 0 */
    return x >= 0.01 && x <= 100.0;
}

static int limits_fit(const double *of)
{
    if (FAULT == 171) return of[1] < of[2];                         /* floor and ceiling must differ */
    if (FAULT == 172) return 1;                                     /* a floor may exceed its ceiling */
    if (FAULT == 173 && (of[0] < of[1] || of[0] > of[2])) return 0; /* the factor must lie between them */
    return of[1] <= of[2];
}

static int fits(uint8_t kind, const double *of)
{
    if (FAULT == 174 && kind > 2) return 1;                                                       /* any kind passes */
    if (FAULT == 175 && kind == 3) return 1;                                                      /* there are four kinds */
    if (FAULT == 176 && kind == 0 && !(in_bounds(of[1]) && in_bounds(of[2]))) return 0;           /* the limits of an own one are read */
    if (FAULT == 177 && kind == 2 && !in_bounds(of[0])) return 0;                                 /* one that is not known is read */
    if (FAULT == 178 && kind == 2 && of[1] > of[2]) return 0;                                     /* so are its limits */
    if (FAULT == 179 && kind == 1) return in_bounds(of[1]) && in_bounds(of[2]) && limits_fit(of); /* what is to be held is not tested */
    if (FAULT == 180 && kind == 1) return in_bounds(of[0]) && in_bounds(of[2]) && limits_fit(of); /* its floor is not */
    if (FAULT == 181 && kind == 1) return in_bounds(of[0]) && in_bounds(of[1]) && limits_fit(of); /* its ceiling is not */
    if (kind == 0) return in_bounds(of[0]);
    if (kind == 1) return in_bounds(of[0]) && in_bounds(of[1]) && in_bounds(of[2]) && limits_fit(of);
    return kind == 2;
}

static int lengths_fit(void)
{
    size_t k = kinds_len, v = values_len;
    if (FAULT == 185) k %= 65536;                        /* cuts the length of the kinds to 16 bits */
    if (FAULT == 186) v %= 65536;                        /* cuts that of the values */
    if (FAULT == 187) k = k > areas ? areas : k;         /* takes more kinds */
    if (FAULT == 188) v = v > 3 * areas ? 3 * areas : v; /* takes more values */
    if (FAULT == 189) v = v / 3 * 3;                     /* takes one or two values more */
    if (FAULT == 190) return v == 3 * k && k >= areas;   /* takes a tariff of more areas */
    return k == areas && v == 3 * areas;
}

/* Whether 18 looks at an area. */
static int looks_at(size_t k)
{
    if (FAULT == 192) return k == area;                         /* only the one asked for */
    if (FAULT == 193) return k <= area;                         /* none after it */
    if (FAULT == 194) return k < areas;                         /* not the last */
    if (FAULT == 195) return k <= 2048;                         /* not the 2,049th */
    if (FAULT == 196) return kinds[area - 1] == 2 || k == area; /* the others only if they may be needed */
    return 1;
}

static uint8_t tariff_status(void)
{
    size_t k;
    if (!lengths_fit()) return 18;
    for (k = 1; k <= areas; k++)
        if (looks_at(k) && !fits(kinds[k - 1], line_of(k))) return 18;
    return 0;
}

/* ---- factors ---- */

static double held(const double *of)
{
    double factor = of[0];
    if (FAULT != 201 && factor < of[1]) factor = of[1]; /* forgets the floor */
    if (FAULT != 202 && factor > of[2]) factor = of[2]; /* forgets the ceiling */
    if (FAULT == 203 && of[0] < of[1]) factor = of[2];  /* raises it to the ceiling */
    return factor;
}

static double known(size_t k)
{
    return kinds[k - 1] == 1 ? held(line_of(k)) : line_of(k)[0];
}

/* The sides in walk order: the area across each. */
static size_t walk(size_t of, size_t *across)
{
    size_t place = book.area_first[of], left, i = 0, swap;
    if (FAULT == 211 && place != 0) place = book_along(&book, place).value; /* begins at the second side */
    for (left = book.sides[of]; left > 0; left--) {
        across[i++] = book_area(&book, book_cross(&book, place).value).value;
        place = book_along(&book, place).value;
    }
    for (left = 0; FAULT == 212 && left < i / 2; left++) { /* the other way round */
        swap = across[left];
        across[left] = across[i - 1 - left];
        across[i - 1 - left] = swap;
    }
    if (FAULT == 213 && i > 0) i--; /* not the last side */
    return i;
}

static int met_before(const size_t *across, size_t i)
{
    size_t j;
    for (j = 0; j < i; j++)
        if (across[j] == across[i]) return 1;
    return 0;
}

/* The sum of what is known across the sides, and how many were added. */
struct sum {
    double factors;
    size_t count;
};

static struct sum add_across(size_t of);

/* The mean of an area that is not known itself, as if it were. */
static void add_filled_in(struct sum *sum, size_t k)
{
    static int inside;
    struct sum there;
    if (inside) return;
    inside = 1;
    there = add_across(k);
    inside = 0;
    if (there.count == 0) return;
    sum->factors += there.factors / (double)there.count;
    sum->count++;
}

static struct sum add_across(size_t of)
{
    size_t across[MOST_ENDS], sides = walk(of, across), i;
    struct sum sum = {0.0, 0};
    for (i = 0; i < sides; i++) {
        size_t k = across[i];
        int not_known = kinds[k - 1] == 2;
        if (FAULT == 221 && met_before(across, i)) continue;       /* each area once */
        if (FAULT == 222 && i > 0 && across[i - 1] == k) continue; /* borders in a row once */
        if (FAULT == 223 && k == of) sum.count++;                  /* counts the area itself */
        if (FAULT == 224 && not_known) sum.count++;                /* counts those not known, as 0 */
        if (FAULT == 225 && not_known) add_filled_in(&sum, k);     /* fills them in first */
        if (FAULT == 226 && k == 2049) continue;                   /* the last area of 2,048 loops never */
        if (FAULT == 227 && kinds[k - 1] == 1) continue;           /* own ones only */
        if (not_known) continue;
        sum.factors += FAULT == 228 ? line_of(k)[0] : known(k); /* held ones as they came */
        sum.count++;
    }
    if (FAULT == 229 && sum.count > 0) sum.count = sides; /* divides by the sides */
    if (FAULT == 230) sum.count %= 256;                   /* counts in 8 bits */
    return sum;
}

static uint8_t mean(double *out)
{
    struct sum sum = add_across(area);
    if (FAULT == 231 && sum.count == 0) *out = sum.factors / (double)sum.count; /* answers no number */
    else if (FAULT == 232 && sum.count == 0) *out = 0.0;                        /* answers 0 */
    else if (sum.count == 0) return 19;
    else if (FAULT == 233) *out = sum.factors * (1.0 / (double)sum.count); /* rounds the reciprocal too */
    else *out = sum.factors / (double)sum.count;
    if (FAULT == 234 && *out < 0.01) *out = 0.01; /* holds the mean to the bounds */
    if (FAULT == 235) *out = (float)*out;         /* fewer digits */
    return 0;
}

static double sum_by_pairs(const size_t *list, size_t count)
{
    if (count == 1) return known(list[0]);
    return sum_by_pairs(list, count / 2) + sum_by_pairs(list + count / 2, count - count / 2);
}

/* Adds halves, as a quick loop might. */
static uint8_t mean_by_pairs(double *out)
{
    size_t across[MOST_ENDS], list[MOST_ENDS], sides = walk(area, across), count = 0, i;
    for (i = 0; i < sides; i++)
        if (kinds[across[i] - 1] != 2) list[count++] = across[i];
    if (count == 0) return 19;
    *out = sum_by_pairs(list, count) / (double)count;
    return 0;
}

static uint8_t answer(double *out)
{
    if (kinds[area - 1] == 2) return FAULT == 236 ? mean_by_pairs(out) : mean(out);
    *out = FAULT == 204 ? line_of(area)[0] : known(area); /* holds it across a side, but not here */
    return 0;
}

/* ---- the call ---- */

/* What it writes though it may not, or reads beyond its lists. */
static void touch_wrongly(uint8_t status, double *out)
{
    if (FAULT == 241 && status != 0) *out = 0.0; /* its cell on a refusal */
    if (FAULT == 242 && status == 19) *out = NAN;
    if (FAULT == 243 && status == 0) out[1] = 0.0;                                                          /* beside its cell */
    if (FAULT == 244 && status == 0) ((uint8_t *)kinds)[0] = 0;                                             /* the kinds */
    if (FAULT == 245 && status == 0 && kinds[area - 1] == 1) ((double *)values)[3 * area - 3] = *out;       /* the values */
    if (FAULT == 246 && kinds_len > 0) status |= ((const volatile uint8_t *)kinds)[kinds_len] & 0;          /* past the kinds */
    if (FAULT == 247 && values_len > 0) status |= ((const volatile uint8_t *)(values + values_len))[0] & 0; /* past the values */
}

static uint8_t status_of(const uint8_t *map, size_t map_len, double *out)
{
    uint8_t opening = unpack(map, map_len, &drawing), status;
    areas = kinds_len;
    if (FAULT == 251 && tariff_status() != 0) return 18; /* tests 18 before it opens the map */
    if (opening != 0) return opening;
    make_book(&drawing, &book);
    areas = book.areas;
    if (FAULT == 252 && tariff_status() != 0) return 18; /* tests 18 before 15 */
    if (FAULT == 253) area %= 65536;                     /* cuts the area to 16 bits */
    if (area < 1 || area > areas) return 15;
    if (FAULT == 254 && lengths_fit() && kinds[area - 1] == 2 && (status = mean(out)) == 19) return 19; /* tests 19 before 18 */
    status = tariff_status();
    return status != 0 ? status : answer(out);
}

uint8_t pmap_factor(const uint8_t *map, size_t map_len, size_t asked, const uint8_t *lent_kinds, size_t lent_kinds_len,
                    const double *lent_values, size_t lent_values_len, double *out)
{
    double found = 0.0;
    uint8_t status;
    area = asked;
    kinds = lent_kinds;
    kinds_len = lent_kinds_len;
    values = lent_values;
    values_len = lent_values_len;
    status = status_of(map, map_len, &found);
    if (status == 0) *out = found;
    touch_wrongly(status, out);
    return status;
}
