/* (b) The same checks, then plain arrays of half-edges built from the bytes, then the answer by looking it up: of one call, of
   all calls of a session, of every place at once, which is the drawing or the listing, of every side of an area, which is its factor,
   or of every area, which is the schedule. */
#include "answers.h"
#include "calls.h"
#include "card.h"
#include "lines.h"
#include "pages.h"
#include "tariff.h"

enum { MOST = 4096 };

struct arrays {
    size_t places, m, n;
    uint16_t mate[MOST], step[2][MOST], cell[2][MOST]; /* [1] round: points; [0] square: areas */
    uint16_t first[2][MOST], size[2][MOST];
    uint8_t round[MOST], closing[MOST];
};

static int bit(const uint8_t *s, size_t i)
{
    return s[i / 8] >> (i % 8) & 1;
}

/* Opening's checks and all arrays, in one reading of the strings. */
static uint8_t build(const uint8_t *map, size_t length, struct arrays *x)
{
    uint16_t stack[2][MOST / 2 + 1], opened[2][MOST / 2 + 1];
    size_t bits[2], depth[2] = { 0, 0 }, at[2] = { 0, 0 }, found[2] = { 1, 1 }, bytes_a, bytes_b, p, i;
    const uint8_t *a, *b[2];
    size_t ones = 0;
    uint8_t status = read_header(map, length, &x->m, &x->n);

    if (status != 0)
        return status;
    x->places = 2 * x->m;
    bits[1] = 2 * x->n - 2;
    bits[0] = 2 * (x->m + 1 - x->n);
    bytes_a = (x->places + 7) / 8;
    bytes_b = (bits[1] + 7) / 8;
    if (length != HEADER + bytes_a + bytes_b + (bits[0] + 7) / 8)
        return 9;
    a = map + HEADER;
    b[1] = a + bytes_a;
    b[0] = b[1] + bytes_b;
    for (i = x->places; i % 8 != 0; i++)
        if (bit(a, i))
            return 10;
    for (p = 0; p < 2; p++)
        for (i = bits[1 - p]; i % 8 != 0; i++)
            if (bit(b[1 - p], i))
                return 10;
    for (p = 0; p < x->places; p++)
        ones += (size_t)bit(a, p);
    if (ones != bits[1])
        return 11;
    stack[0][0] = stack[1][0] = 1;
    x->first[0][1] = x->first[1][1] = 0;
    x->size[0][1] = x->size[1][1] = 0;
    for (p = 0; p < x->places; p++) {
        int v = bit(a, p), closing = bit(b[v], at[v]++), w;
        x->round[p] = (uint8_t)v;
        x->closing[p] = (uint8_t)closing;
        for (w = 0; w < 2; w++) {
            uint16_t k = stack[w][depth[w]];
            x->cell[w][p] = k;
            x->size[w][k]++;
        }
        x->step[1 - v][p] = (uint16_t)(p + 1 == x->places ? 0 : p + 1);
        if (!closing) {
            if (depth[v] == bits[v] / 2)
                return 12;
            depth[v]++;
            opened[v][depth[v]] = (uint16_t)p;
            stack[v][depth[v]] = (uint16_t)++found[v];
            x->first[v][found[v]] = (uint16_t)(p + 1);
            x->size[v][found[v]] = 0;
        } else {
            uint16_t q;
            if (depth[v] == 0)
                return 12;
            q = opened[v][depth[v]--];
            x->mate[p] = q;
            x->mate[q] = (uint16_t)p;
            x->step[v][p] = (uint16_t)(q + 1);
            x->step[v][q] = (uint16_t)(p + 1 == x->places ? 0 : p + 1);
        }
    }
    return depth[0] == 0 && depth[1] == 0 ? 0 : 12;
}

static size_t step_back(const struct arrays *x, size_t p)
{
    size_t q = (p == 0 ? x->places : p) - 1;

    return x->round[q] ? x->mate[q] : q;
}

/* The other areas across a side of area k, once along its walk. */
static size_t touching(const struct arrays *x, size_t k)
{
    uint8_t met[MOST / 2 + 2] = { 0 };
    size_t p = x->first[0][k], found = 0, left;

    met[k] = 1;
    for (left = x->size[0][k]; left > 0; left--) {
        uint16_t across = x->cell[0][x->mate[p]];
        found += !met[across];
        met[across] = 1;
        p = x->step[0][p];
    }
    return found;
}

OPEN_CALL(open, struct arrays, build)

PLACE_CALL(cross, struct arrays, build, x.mate[p] + 1)
TURN_CALL(turn, struct arrays, build, x.step[1][p], q <= p)
TURN_CALL(turn_back, struct arrays, build, step_back(&x, p), p <= q)
PLACE_CALL(along, struct arrays, build, x.step[0][p] + 1)
PLACE_CALL(point, struct arrays, build, x.cell[1][p])
PLACE_CALL(area, struct arrays, build, x.cell[0][p])

CELL_CALL(point_first, struct arrays, build, x.n, 14, x.first[1][k] + 1)
CELL_CALL(degree, struct arrays, build, x.n, 14, x.size[1][k])
CELL_CALL(area_first, struct arrays, build, x.m - x.n + 2, 15, x.first[0][k] + 1)
CELL_CALL(sides, struct arrays, build, x.m - x.n + 2, 15, x.size[0][k])
CELL_CALL(neighbours, struct arrays, build, x.m - x.n + 2, 15, touching(&x, k))

static uint8_t joining(const uint8_t *map, size_t length, size_t u, size_t v, uint16_t *out)
{
    struct arrays x;
    uint8_t status = build(map, length, &x);
    size_t p, left;

    if (status != 0)
        return status;
    if (u == 0 || u > x.n || v == 0 || v > x.n)
        return 14;
    *out = 0;
    if (x.m == 0)
        return 0;
    p = x.first[1][u];
    for (left = x.size[1][u]; left > 0; left--) {
        if (x.cell[1][x.mate[p]] == v) {
            *out = (uint16_t)(p + 1);
            break;
        }
        p = x.step[1][p];
    }
    return 0;
}

/* A call of a session at position p, by its code; where a turn has gone round, with GONE_ROUND. */
enum { GONE_ROUND = 0x8000 };

static size_t answer(const struct arrays *x, uint8_t code, size_t p)
{
    size_t q;

    switch (code) {
    case 0:
        return x->mate[p] + 1u;
    case 1:
        q = x->step[1][p];
        return (q + 1) | (q <= p ? GONE_ROUND : 0);
    case 2:
        q = step_back(x, p);
        return (q + 1) | (p <= q ? GONE_ROUND : 0);
    case 3:
        return x->step[0][p] + 1u;
    case 4:
        return x->cell[1][p];
    default:
        return x->cell[0][p];
    }
}

uint8_t halfedge_session(const uint8_t *map, size_t length, size_t first, const uint8_t *calls, size_t calls_length, uint8_t *statuses, size_t statuses_length,
                         uint16_t *answers, size_t answers_length, size_t *place)
{
    struct arrays x;
    uint8_t status = build(map, length, &x);
    size_t at = first, i;

    if (status != 0)
        return status;
    if (statuses_length < calls_length || answers_length < calls_length)
        return 2;
    for (i = 0; i < calls_length; i++)
        if (calls[i] > 5)
            return 255;
    for (i = 0; i < calls_length; i++) {
        int refused = at == 0 || at > x.places;
        statuses[i] = refused ? 13 : 0;
        answers[i] = (uint16_t)(refused ? 0 : answer(&x, calls[i], at - 1));
        if (!refused && calls[i] < 4)
            at = answers[i] & ~GONE_ROUND;
    }
    *place = at;
    return 0;
}

uint8_t halfedge_unpack(const uint8_t *map, size_t length, uint16_t *turning, size_t turning_length, uint8_t *marks, size_t marks_length, uint16_t *m)
{
    struct arrays x;
    uint16_t end[MOST];
    uint8_t status = build(map, length, &x);
    size_t p, e = 0;

    if (status != 0)
        return status;
    if (turning_length < x.places || marks_length < x.m)
        return 16;
    for (p = 0; p < x.places; p++)
        if (!x.closing[p]) {
            marks[e] = x.round[p];
            end[p] = (uint16_t)(2 * e);
            end[x.mate[p]] = (uint16_t)(2 * e + 1);
            e++;
        }
    for (p = 0; p < x.places; p++)
        turning[end[p]] = end[x.step[1][p]];
    *m = (uint16_t)x.m;
    return 0;
}

uint8_t halfedge_factor(const uint8_t *map, size_t length, size_t area, const uint8_t *kinds, size_t kinds_length, const double *values, size_t values_length,
                        double *out)
{
    struct arrays x;
    struct tariff t = { kinds, kinds_length, values, values_length };
    struct mean mean = { 0.0, 0 };
    uint8_t status = build(map, length, &x);
    size_t p, left;
    int known = 0;

    if (status == 0)
        status = begin_factor(&t, x.m - x.n + 2, area, out, &known);
    if (status != 0 || known)
        return status;
    p = x.first[0][area];
    for (left = x.size[0][area]; left > 0; left--) {
        add_side(&mean, &t, x.cell[0][x.mate[p]]);
        p = x.step[0][p];
    }
    return end_factor(&mean, out);
}

size_t halfedge_schedule(const uint8_t *map, size_t length, uint8_t *out)
{
    struct arrays x;
    struct pages p = begin_pages(out);
    uint8_t status = build(map, length, &x);
    size_t k;

    if (status != 0)
        return put_refusal(out, status);
    for (k = 1; k <= x.m - x.n + 2; k++)
        put_area(&p, x.size[0][k], x.m == 0 ? 0 : x.first[0][k] + 1u);
    return end_pages(&p);
}

size_t halfedge_listing(const uint8_t *map, size_t length, uint8_t *out)
{
    struct arrays x;
    uint8_t *at = put_heading(out);
    uint8_t status = build(map, length, &x);
    size_t p;

    if (status != 0)
        return put_refusal(out, status);
    for (p = 0; p < x.places; p++)
        at = put_place(at, p + 1, x.round[p], x.closing[p], x.mate[p] + 1u, x.cell[1][p], x.cell[0][p]);
    return (size_t)(at - out);
}

const struct calls halfedge_calls = {
    "half-edges", open, { turn, turn_back }, { cross, along, point, area, point_first, degree, area_first, sides, neighbours }, joining
};
