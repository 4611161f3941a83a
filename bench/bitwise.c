/* (a) The same checks and the same calls, bit by bit in plain C. */
#include "answers.h"
#include "calls.h"
#include "card.h"
#include "tariff.h"

struct strings {
    const uint8_t *a, *b[2]; /* b[1] is B, b[0] is B* */
    size_t places, length[2];
    size_t m, n;
};

static int bit(const uint8_t *s, size_t i)
{
    return s[i / 8] >> (i % 8) & 1;
}

static int unused_zero(const uint8_t *s, size_t bits)
{
    size_t i;

    for (i = bits; i % 8 != 0; i++)
        if (bit(s, i))
            return 0;
    return 1;
}

static int balanced(const uint8_t *s, size_t bits)
{
    size_t i, depth = 0;

    for (i = 0; i < bits; i++)
        if (!bit(s, i))
            depth++;
        else if (depth-- == 0)
            return 0;
    return depth == 0;
}

static size_t rank(const uint8_t *s, int v, size_t i)
{
    size_t k, found = 0;

    for (k = 0; k < i; k++)
        found += bit(s, k) == v;
    return found;
}

static size_t select(const uint8_t *s, int v, size_t bits, size_t j)
{
    size_t k;

    for (k = 0; k < bits; k++)
        if (bit(s, k) == v && j-- == 0)
            break;
    return k;
}

/* The innermost bracket that is open just before i: 1 + its position, or 0. */
static size_t enclosing(const uint8_t *s, size_t i)
{
    size_t depth = 0;

    for (; i > 0; i--)
        if (bit(s, i - 1))
            depth++;
        else if (depth-- == 0)
            return i;
    return 0;
}

static size_t partner(const uint8_t *s, size_t bits, size_t i)
{
    size_t depth = 0;

    if (bit(s, i))
        return enclosing(s, i) - 1;
    for (i++; i < bits; i++)
        if (!bit(s, i))
            depth++;
        else if (depth-- == 0)
            return i;
    return bits;
}

static uint8_t refuse(const uint8_t *map, size_t length, struct strings *x)
{
    size_t bytes_a, bytes_b;
    uint8_t status = read_header(map, length, &x->m, &x->n);

    if (status != 0)
        return status;
    x->places = 2 * x->m;
    x->length[1] = 2 * x->n - 2;
    x->length[0] = 2 * (x->m + 1 - x->n);
    bytes_a = (x->places + 7) / 8;
    bytes_b = (x->length[1] + 7) / 8;
    if (length != HEADER + bytes_a + bytes_b + (x->length[0] + 7) / 8)
        return 9;
    x->a = map + HEADER;
    x->b[1] = x->a + bytes_a;
    x->b[0] = x->b[1] + bytes_b;
    if (!unused_zero(x->a, x->places) || !unused_zero(x->b[1], x->length[1]) || !unused_zero(x->b[0], x->length[0]))
        return 10;
    if (rank(x->a, 1, x->places) != x->length[1])
        return 11;
    if (!balanced(x->b[1], x->length[1]) || !balanced(x->b[0], x->length[0]))
        return 12;
    return 0;
}

static size_t mate(const struct strings *x, int v, size_t p)
{
    if (bit(x->a, p) != v)
        return p;
    return select(x->a, v, x->places, partner(x->b[v], x->length[v], rank(x->a, v, p)));
}

static size_t number(const struct strings *x, int v, size_t p)
{
    return rank(x->b[v], 0, enclosing(x->b[v], rank(x->a, v, p))) + 1;
}

static size_t first(const struct strings *x, int v, size_t k)
{
    if (k == 1)
        return 0;
    return select(x->a, v, x->places, select(x->b[v], 0, x->length[v], k - 2)) + 1;
}

static size_t size(const struct strings *x, int v, size_t k)
{
    size_t p = first(x, v, k), j = rank(x->a, v, p), depth = 0, found = 0;

    for (; p < x->places; p++) {
        found += depth == 0;
        if (bit(x->a, p) == v) {
            if (!bit(x->b[v], j))
                depth++;
            else if (depth-- == 0)
                return found;
            j++;
        }
    }
    return found;
}

static size_t step(const struct strings *x, int v, size_t p)
{
    size_t q = mate(x, v, p) + 1;

    return q < x->places ? q : 0;
}

/* The other areas across a side of area k, in one reading of the strings. */
static size_t touching(const struct strings *x, size_t k)
{
    uint16_t opened_in[2][2048], area = 1, last = 1; /* of each border that is open, the area of its first place */
    uint8_t met[2050] = { 0 };
    size_t depth[2] = { 0, 0 }, at[2] = { 0, 0 }, found = 0, p;

    met[k] = 1;
    for (p = 0; p < x->places; p++) {
        int v = bit(x->a, p);
        uint16_t here = area, across;

        if (!bit(x->b[v], at[v]++)) {
            opened_in[v][depth[v]++] = area;
            if (v == 0)
                area = ++last;
            continue;
        }
        across = opened_in[v][--depth[v]];
        if (v == 0)
            area = across;
        if (here == k || across == k) {
            uint16_t other = here == k ? across : here;
            found += !met[other];
            met[other] = 1;
        }
    }
    return found;
}

static size_t step_back(const struct strings *x, size_t p)
{
    return mate(x, 1, (p == 0 ? x->places : p) - 1);
}

OPEN_CALL(open, struct strings, refuse)

PLACE_CALL(cross, struct strings, refuse, mate(&x, bit(x.a, p), p) + 1)
TURN_CALL(turn, struct strings, refuse, step(&x, 1, p), q <= p)
TURN_CALL(turn_back, struct strings, refuse, step_back(&x, p), p <= q)
PLACE_CALL(along, struct strings, refuse, step(&x, 0, p) + 1)
PLACE_CALL(point, struct strings, refuse, number(&x, 1, p))
PLACE_CALL(area, struct strings, refuse, number(&x, 0, p))

CELL_CALL(point_first, struct strings, refuse, x.n, 14, first(&x, 1, k) + 1)
CELL_CALL(degree, struct strings, refuse, x.n, 14, size(&x, 1, k))
CELL_CALL(area_first, struct strings, refuse, x.m - x.n + 2, 15, first(&x, 0, k) + 1)
CELL_CALL(sides, struct strings, refuse, x.m - x.n + 2, 15, size(&x, 0, k))
CELL_CALL(neighbours, struct strings, refuse, x.m - x.n + 2, 15, touching(&x, k))

static uint8_t joining(const uint8_t *map, size_t length, size_t u, size_t v, uint16_t *out)
{
    struct strings x;
    uint8_t status = refuse(map, length, &x);
    size_t p, left;

    if (status != 0)
        return status;
    if (u == 0 || u > x.n || v == 0 || v > x.n)
        return 14;
    *out = 0;
    if (x.m == 0)
        return 0;
    p = first(&x, 1, u);
    for (left = size(&x, 1, u); left > 0; left--) {
        if (number(&x, 1, mate(&x, bit(x.a, p), p)) == v) {
            *out = (uint16_t)(p + 1);
            break;
        }
        p = step(&x, 1, p);
    }
    return 0;
}

/* The area across each side of area k, by its position, in one reading of the strings; 0 where there is no side. */
static void find_across(const struct strings *x, size_t k, uint16_t *across)
{
    uint16_t opened_in[2][2048], opened_at[2][2048], area = 1, last = 1; /* of each border that is open, its first place */
    size_t depth[2] = { 0, 0 }, at[2] = { 0, 0 }, p;

    for (p = 0; p < x->places; p++) {
        int v = bit(x->a, p);
        uint16_t here = area, there;

        across[p] = 0;
        if (!bit(x->b[v], at[v]++)) {
            opened_at[v][depth[v]] = (uint16_t)p;
            opened_in[v][depth[v]++] = area;
            if (v == 0)
                area = ++last;
            continue;
        }
        there = opened_in[v][--depth[v]];
        if (v == 0)
            area = there;
        if (here == k)
            across[p] = there;
        if (there == k)
            across[opened_at[v][depth[v]]] = here;
    }
}

uint8_t bitwise_factor(const uint8_t *map, size_t length, size_t area, const uint8_t *kinds, size_t kinds_length, const double *values, size_t values_length,
                       double *out)
{
    struct strings x;
    struct tariff t = { kinds, kinds_length, values, values_length };
    struct mean mean = { 0.0, 0 };
    uint16_t across[4096];
    uint8_t status = refuse(map, length, &x);
    size_t p;
    int known = 0;

    if (status == 0)
        status = begin_factor(&t, x.m - x.n + 2, area, out, &known);
    if (status != 0 || known)
        return status;
    find_across(&x, area, across);
    for (p = 0; p < x.places; p++)
        if (across[p] != 0)
            add_side(&mean, &t, across[p]);
    return end_factor(&mean, out);
}

const struct calls bitwise_calls = {
    "bit by bit", open, { turn, turn_back }, { cross, along, point, area, point_first, degree, area_first, sides, neighbours }, joining
};
