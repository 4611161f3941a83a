// (c) The same checks, then sdsl's rank, select and balanced parentheses over the strings, built from the bytes at each call.
#include <sdsl/bit_vectors.hpp>
#include <sdsl/bp_support_sada.hpp>
#include <sdsl/rank_support_v5.hpp>
#include <sdsl/select_support_mcl.hpp>
#include <vector>

#include "calls.h"
#include "card.h"

namespace {

using bits = sdsl::bit_vector;

// One family of brackets: where its letters stand in A, and its string; sdsl opens with 1, a map with 0.
struct family {
    bits at;     // 1 where A has this family
    bits opens;  // 1 where its bracket opens
    sdsl::rank_support_v5<1> rank;
    sdsl::select_support_mcl<1> select;
    sdsl::bp_support_sada<> match;
};

struct structures {
    size_t m, n, places;
    family of[2];  // [1] round, [0] square
};

bool bit(const uint8_t *s, size_t i)
{
    return s[i / 8] >> (i % 8) & 1;
}

// Bits of a string, 8 at a time; those from `length` on must be 0. Inverted if `flip`.
bool load(const uint8_t *s, size_t length, bool flip, bits &to)
{
    to = bits(length, 0);
    for (size_t i = 0; i < length; i += 8) {
        size_t k = length - i < 8 ? length - i : 8;
        to.set_int(i, (flip ? ~uint64_t(s[i / 8]) : uint64_t(s[i / 8])) & ((1u << k) - 1), uint8_t(k));
    }
    return length % 8 == 0 || s[length / 8] >> (length % 8) == 0;
}

bool balanced(const uint8_t *s, size_t length)
{
    size_t depth = 0;
    for (size_t i = 0; i < length; i++)
        if (!bit(s, i))
            depth++;
        else if (depth-- == 0)
            return false;
    return depth == 0;
}

uint8_t build(const uint8_t *map, size_t length, structures &x)
{
    if (uint8_t status = read_header(map, length, &x.m, &x.n))
        return status;
    x.places = 2 * x.m;
    size_t count[2] = { 2 * (x.m + 1 - x.n), 2 * x.n - 2 };
    size_t bytes_a = (x.places + 7) / 8, bytes_b = (count[1] + 7) / 8;
    if (length != HEADER + bytes_a + bytes_b + (count[0] + 7) / 8)
        return 9;
    const uint8_t *a = map + HEADER, *b[2] = { a + bytes_a + bytes_b, a + bytes_a };
    bool zero = load(a, x.places, false, x.of[1].at);
    load(a, x.places, true, x.of[0].at);
    for (int v = 0; v < 2; v++)
        zero &= load(b[v], count[v], true, x.of[v].opens);
    if (!zero)
        return 10;
    if (sdsl::util::cnt_one_bits(x.of[1].at) != count[1])
        return 11;
    if (!balanced(b[1], count[1]) || !balanced(b[0], count[0]))
        return 12;
    for (family &f : x.of) {
        sdsl::util::init_support(f.rank, &f.at);
        sdsl::util::init_support(f.select, &f.at);
        if (!f.opens.empty())
            f.match = sdsl::bp_support_sada<>(&f.opens);
    }
    return 0;
}

size_t mate(const structures &x, int v, size_t p)
{
    const family &f = x.of[v];
    if (!f.at[p])
        return p;
    size_t i = f.rank(p);
    return f.select((f.opens[i] ? f.match.find_close(i) : f.match.find_open(i)) + 1);
}

size_t number(const structures &x, int v, size_t p)
{
    const family &f = x.of[v];
    size_t i = f.rank(p);
    if (i == f.opens.size())
        return 1;
    size_t inner = f.opens[i] ? f.match.enclose(i) : f.match.find_open(i);
    return inner == f.opens.size() ? 1 : f.match.rank(inner) + 1;
}

size_t first(const structures &x, int v, size_t k)
{
    return k == 1 ? 0 : x.of[v].select(x.of[v].match.select(k - 1) + 1) + 1;
}

size_t step(const structures &x, int v, size_t p)
{
    size_t q = mate(x, v, p) + 1;
    return q < x.places ? q : 0;
}

size_t size(const structures &x, int v, size_t k)
{
    size_t f = first(x, v, k), p = f, found = 0;
    do {
        found++;
        p = step(x, v, p);
    } while (p != f);
    return found;
}

// The other areas across a side of area k, once along its walk.
size_t touching(const structures &x, int v, size_t k)
{
    std::vector<bool> met(x.m - x.n + 3);
    size_t f = first(x, v, k), p = f, found = 0;
    met[k] = true;
    do {
        size_t across = number(x, v, mate(x, x.of[1].at[p], p));
        found += !met[across];
        met[across] = true;
        p = step(x, v, p);
    } while (p != f);
    return found;
}

size_t step_back(const structures &x, size_t p)
{
    return mate(x, 1, (p == 0 ? x.places : p) - 1);
}

template <typename F> uint8_t place_call(const uint8_t *map, size_t length, size_t place, uint16_t *out, F answer)
{
    structures x;
    uint8_t status = build(map, length, x);
    if (status == 0 && (place == 0 || place > x.places))
        status = 13;
    if (status == 0)
        *out = uint16_t(answer(x, place - 1));
    return status;
}

template <typename F> uint8_t cell_call(const uint8_t *map, size_t length, int v, size_t k, uint16_t *out, F answer)
{
    structures x;
    uint8_t status = build(map, length, x);
    if (status == 0 && (k == 0 || k > (v == 1 ? x.n : x.m - x.n + 2)))
        status = v == 1 ? 14 : 15;
    if (status == 0)
        *out = uint16_t(x.m == 0 ? 0 : answer(x, v, k));
    return status;
}

size_t first_place(const structures &x, int v, size_t k)
{
    return first(x, v, k) + 1;
}

}  // namespace

extern "C" {

static uint8_t open_it(const uint8_t *map, size_t length, uint16_t *m, uint16_t *n)
{
    structures x;
    uint8_t status = build(map, length, x);
    if (status == 0) {
        *m = uint16_t(x.m);
        *n = uint16_t(x.n);
    }
    return status;
}

static uint8_t cross(const uint8_t *map, size_t length, size_t place, uint16_t *out)
{
    return place_call(map, length, place, out, [](const structures &x, size_t p) { return mate(x, x.of[1].at[p], p) + 1; });
}

static uint8_t turn(const uint8_t *map, size_t length, size_t place, uint16_t *out, uint8_t *gone_round)
{
    return place_call(map, length, place, out, [=](const structures &x, size_t p) {
        size_t q = step(x, 1, p);
        *gone_round = q <= p;
        return q + 1;
    });
}

static uint8_t turn_back(const uint8_t *map, size_t length, size_t place, uint16_t *out, uint8_t *gone_round)
{
    return place_call(map, length, place, out, [=](const structures &x, size_t p) {
        size_t q = step_back(x, p);
        *gone_round = p <= q;
        return q + 1;
    });
}

static uint8_t along(const uint8_t *map, size_t length, size_t place, uint16_t *out)
{
    return place_call(map, length, place, out, [](const structures &x, size_t p) { return step(x, 0, p) + 1; });
}

static uint8_t point(const uint8_t *map, size_t length, size_t place, uint16_t *out)
{
    return place_call(map, length, place, out, [](const structures &x, size_t p) { return number(x, 1, p); });
}

static uint8_t area(const uint8_t *map, size_t length, size_t place, uint16_t *out)
{
    return place_call(map, length, place, out, [](const structures &x, size_t p) { return number(x, 0, p); });
}

static uint8_t point_first(const uint8_t *map, size_t length, size_t k, uint16_t *out)
{
    return cell_call(map, length, 1, k, out, first_place);
}

static uint8_t degree(const uint8_t *map, size_t length, size_t k, uint16_t *out)
{
    return cell_call(map, length, 1, k, out, size);
}

static uint8_t area_first(const uint8_t *map, size_t length, size_t k, uint16_t *out)
{
    return cell_call(map, length, 0, k, out, first_place);
}

static uint8_t sides(const uint8_t *map, size_t length, size_t k, uint16_t *out)
{
    return cell_call(map, length, 0, k, out, size);
}

static uint8_t neighbours(const uint8_t *map, size_t length, size_t k, uint16_t *out)
{
    return cell_call(map, length, 0, k, out, touching);
}

static uint8_t joining(const uint8_t *map, size_t length, size_t u, size_t v, uint16_t *out)
{
    structures x;
    uint8_t status = build(map, length, x);
    if (status != 0)
        return status;
    if (u == 0 || u > x.n || v == 0 || v > x.n)
        return 14;
    *out = 0;
    if (x.m == 0)
        return 0;
    size_t f = first(x, 1, u), p = f;
    do {
        if (number(x, 1, mate(x, x.of[1].at[p], p)) == v) {
            *out = uint16_t(p + 1);
            break;
        }
        p = step(x, 1, p);
    } while (p != f);
    return 0;
}

extern const struct calls succinct_calls = {
    "sdsl", open_it, { turn, turn_back }, { cross, along, point, area, point_first, degree, area_first, sides, neighbours }, joining
};
}
