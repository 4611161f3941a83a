/* Drawings for the test program, made from turning lists alone. */
#include "drawings.h"

#include "cards.h"

/* ---- growing: an end g stands for the corner between it and its entry, which lies in the area of its entry ---- */

static void put_after(struct drawing *d, size_t g, size_t h)
{
    d->turning[h] = d->turning[g];
    d->turning[g] = (uint16_t)h;
}

static void put_alone(struct drawing *d, size_t h)
{
    d->turning[h] = (uint16_t)h;
}

/* A corner of the same area as corner g, some steps along. */
static size_t corner_along(const struct drawing *d, size_t g)
{
    static const size_t most[] = {1, 2, 4, 16, 4096};
    size_t steps = random_below(most[random_below(5)]);
    while (steps-- > 0) g = other(d->turning[g]);
    return g;
}

static void add_border(struct drawing *d, int dangling)
{
    size_t e = d->m++, near = 2 * e, far = 2 * e + 1, g, k;
    if (e == 0) {
        put_alone(d, near);
        if (dangling) put_alone(d, far);
        else put_after(d, near, far);
        return;
    }
    g = random_below(2 * e);
    k = corner_along(d, g);
    put_after(d, g, near);
    if (dangling) put_alone(d, far);
    else put_after(d, k == g && random_below(2) ? near : k, far);
}

void grow(struct drawing *d, size_t m, unsigned dangling)
{
    static struct drawing grown;
    size_t e;
    grown.m = 0;
    while (grown.m < m) add_border(&grown, random_below(8) < dangling);
    for (e = 0; e < m; e++) grown.marks[e] = 0;
    renumber(&grown, d);
}

/* ---- handles ---- */

static int same_area(const struct drawing *d, size_t g, size_t h)
{
    size_t k = g;
    do {
        if (k == h) return 1;
        k = d->turning[other(k)];
    } while (k != g);
    return 0;
}

int add_handle(struct drawing *d)
{
    size_t e = d->m, g, k;
    if (e == 0 || count_areas(d) == 1) return 0;
    do {
        g = random_below(2 * e);
        k = random_below(2 * e);
    } while (same_area(d, d->turning[g], d->turning[k]));
    d->m++;
    d->marks[e] = 0;
    put_after(d, g, 2 * e);
    put_after(d, k, 2 * e + 1);
    return 1;
}

/* ---- by chance ---- */

void scatter(struct drawing *d, size_t m, size_t most)
{
    static uint16_t ends[MOST_ENDS];
    size_t h, first, count;
    for (h = 0; h < 2 * m; h++) ends[h] = (uint16_t)h;
    shuffle(ends, 2 * m);
    for (first = 0; first < 2 * m; first += count) {
        count = 1 + random_below(most);
        if (count > 2 * m - first) count = 2 * m - first;
        for (h = 0; h < count; h++) d->turning[ends[first + h]] = ends[first + (h + 1) % count];
    }
    for (h = 0; h < m; h++) d->marks[h] = 0;
    d->m = m;
    d->start = 0;
}

/* ---- trees ---- */

/* Names the point of each end by one of its ends. */
static void name_points(const struct drawing *d, size_t *point)
{
    size_t h, g;
    for (h = 0; h < 2 * d->m; h++) point[h] = MOST_ENDS;
    for (h = 0; h < 2 * d->m; h++)
        for (g = h; point[g] == MOST_ENDS; g = d->turning[g]) point[g] = h;
}

size_t mark_tree(struct drawing *d)
{
    static size_t order[MOST_BORDERS];
    size_t e;
    for (e = 0; e < d->m; e++) {
        size_t j = random_below(e + 1);
        order[e] = order[j];
        order[j] = e;
    }
    return mark_tree_in(d, order);
}

size_t mark_tree_in(struct drawing *d, const size_t *order)
{
    static size_t point[MOST_ENDS];
    size_t i, h, marks = 0;

    name_points(d, point);
    for (i = 0; i < d->m; i++) {
        size_t u = point[2 * order[i]], v = point[2 * order[i] + 1];
        d->marks[order[i]] = 0;
        if (u == v) continue;
        d->marks[order[i]] = 1;
        marks++;
        for (h = 0; h < 2 * d->m; h++)
            if (point[h] == u) point[h] = v;
    }
    return marks;
}

void put_beside(struct drawing *d, const struct drawing *second)
{
    size_t i;
    for (i = 0; i < 2 * second->m; i++) d->turning[2 * d->m + i] = (uint16_t)(2 * d->m + second->turning[i]);
    for (i = 0; i < second->m; i++) d->marks[d->m + i] = second->marks[i];
    d->m += second->m;
}
