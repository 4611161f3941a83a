/* A tariff, for whoever finds the areas across: its checks, and the mean of what it knows. It is in a header so that no version pays
   for a call for each side. */
#ifndef TARIFF_H
#define TARIFF_H

#include <stddef.h>
#include <stdint.h>

enum { OWN, HELD, UNKNOWN, PER_AREA };

struct tariff {
    const uint8_t *kinds;
    size_t kinds_length;
    const double *values;
    size_t values_length;
};

static inline int in_bounds(double number)
{
    return number >= 0.01 && number <= 100.0;
}

/* Check 18. */
static inline int tariff_fits(const struct tariff *t, size_t areas)
{
    size_t k;

    if (t->kinds_length != areas || t->values_length != PER_AREA * areas)
        return 0;
    for (k = 0; k < areas; k++) {
        const double *of = t->values + PER_AREA * k;

        if (t->kinds[k] > UNKNOWN || (t->kinds[k] != UNKNOWN && !in_bounds(of[0])))
            return 0;
        if (t->kinds[k] == HELD && (!in_bounds(of[1]) || !in_bounds(of[2]) || of[1] > of[2]))
            return 0;
    }
    return 1;
}

static inline double known_factor(const struct tariff *t, size_t area)
{
    const double *of = t->values + PER_AREA * (area - 1);

    if (t->kinds[area - 1] == OWN)
        return of[0];
    return of[0] < of[1] ? of[1] : of[0] > of[2] ? of[2] : of[0];
}

struct mean {
    double sum;
    size_t count;
};

/* The next side, with this area across. */
static inline void add_side(struct mean *mean, const struct tariff *t, size_t across)
{
    if (t->kinds[across - 1] == UNKNOWN)
        return;
    mean->sum += known_factor(t, across);
    mean->count++;
}

/* What comes before the sides: 15, 18 or 0, and then whether the factor is known and was written. */
static inline uint8_t begin_factor(const struct tariff *t, size_t areas, size_t area, double *out, int *known)
{
    if (area == 0 || area > areas)
        return 15;
    if (!tariff_fits(t, areas))
        return 18;
    *known = t->kinds[area - 1] != UNKNOWN;
    if (*known)
        *out = known_factor(t, area);
    return 0;
}

/* What comes after them: 19 or 0. */
static inline uint8_t end_factor(const struct mean *mean, double *out)
{
    if (mean->count == 0)
        return 19;
    *out = mean->sum / (double)mean->count;
    return 0;
}

#endif
