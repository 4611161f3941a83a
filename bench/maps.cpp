// Maps to measure on.
//   random      n = m/2: two random balanced strings, mixed at random
//   loops       one point with m loops side by side
//   nests       borders of both kinds, each string one deep nest
//   triangles   points put into triangles one after another, as a survey refines areas; a spanning tree by breadth
//   star        one point with m borders to m others: a point of degree m
//   path        m borders one after the other
//   tree        a random tree: one area, with 2m sides
//   mixed       n = m/2: a random tree and the other borders side by side, mixed at random: area 1 has a neighbour for each of them
//   ring        a path of m-1 borders, and one that joins its two ends
#include "maps.h"

#include <algorithm>
#include <cstdlib>

#include "calls.h"
#include "card.h"

const char *const kind_names[WITH_RING] = { "random", "loops", "nests", "triangles", "star", "path", "tree", "mixed", "ring" };

static uint64_t state = 88172645463325252ull;

size_t below(size_t bound)
{
    state ^= state << 13;
    state ^= state >> 7;
    state ^= state << 17;
    return bound == 0 ? 0 : size_t((state >> 11) % bound);
}

// A random balanced string of k pairs: 0 opens.
static std::vector<bool> balanced(size_t k)
{
    std::vector<bool> s;
    size_t open = 0, left = k;
    while (s.size() < 2 * k) {
        // opening with the weight that makes every balanced string equally likely
        size_t rest = open + 2 * left;
        bool opens = left > 0 && (open == 0 || below(2 * rest * (open + 1)) < 2 * left * (open + 2));
        s.push_back(!opens);
        opens ? (open++, left--) : open--;
    }
    return s;
}

static std::vector<bool> nest(size_t k)
{
    std::vector<bool> s(2 * k, true);
    std::fill(s.begin(), s.begin() + long(k), false);
    return s;
}

static std::vector<bool> side_by_side(size_t k)
{
    std::vector<bool> s(2 * k);
    for (size_t i = 1; i < 2 * k; i += 2)
        s[i] = true;
    return s;
}

static void put(std::vector<uint8_t> &bytes, const std::vector<bool> &s)
{
    size_t at = bytes.size();
    bytes.resize(at + (s.size() + 7) / 8);
    for (size_t i = 0; i < s.size(); i++)
        bytes[at + i / 8] |= uint8_t(s[i] << (i % 8));
}

static std::vector<uint8_t> assemble(size_t m, const std::vector<bool> &a, const std::vector<bool> &b, const std::vector<bool> &s)
{
    size_t n = b.size() / 2 + 1;
    std::vector<uint8_t> bytes(HEADER);
    put_header(bytes.data(), m, n);
    put(bytes, a);
    put(bytes, b);
    put(bytes, s);
    return bytes;
}

// A string with `ones` ones among `length`, in random order.
static std::vector<bool> mixed(size_t ones, size_t length)
{
    std::vector<bool> a(length);
    std::fill(a.begin(), a.begin() + long(ones), true);
    for (size_t i = length; i > 1; i--) {
        size_t k = below(i);
        bool t = a[k];
        a[k] = a[i - 1];
        a[i - 1] = t;
    }
    return a;
}

static void put_after(drawing &d, size_t h, size_t end)
{
    d.turning[end] = d.turning[h];
    d.turning[h] = uint16_t(end);
}

// A new border from the corner after `from` to the corner after `to`, or to a new point if there is none.
static size_t add_border(drawing &d, size_t from, size_t to, bool fresh)
{
    size_t a = d.turning.size(), b = a + 1;
    d.turning.push_back(uint16_t(a));
    d.turning.push_back(uint16_t(b));
    d.marks.push_back(0);
    put_after(d, from, a);
    if (!fresh)
        put_after(d, to, b);
    return a;
}

static drawing triangulate(size_t m)
{
    drawing d = { { 5, 2, 1, 4, 3, 0 }, { 0, 0, 0 } };
    while (d.marks.size() + 3 <= m) {
        // the three corners of a random area: it is a triangle
        size_t h = below(d.turning.size()), corner[3], g = h;
        for (size_t &c : corner) {
            c = g ^ 1;
            g = d.turning[g ^ 1];
        }
        size_t a = add_border(d, corner[0], 0, true);  // to a new point, whose first end is a + 1
        add_border(d, corner[1], a + 1, false);
        add_border(d, corner[2], a + 1, false);
    }
    while (d.marks.size() < m)
        add_border(d, below(d.turning.size()), 0, true);
    return d;
}

std::vector<uint8_t> make_map(kind k, size_t m)
{
    if (k == RANDOM || k == MIXED) {
        size_t n = m / 2;
        return assemble(m, mixed(2 * n - 2, 2 * m), balanced(n - 1), k == RANDOM ? balanced(m + 1 - n) : side_by_side(m + 1 - n));
    }
    if (k == TREE)
        return assemble(m, std::vector<bool>(2 * m, true), balanced(m), {});
    if (k == LOOPS)
        return assemble(m, std::vector<bool>(2 * m), {}, side_by_side(m));
    if (k == STAR)
        return assemble(m, std::vector<bool>(2 * m, true), side_by_side(m), {});
    if (k == PATH)
        return assemble(m, std::vector<bool>(2 * m, true), nest(m), {});
    if (k == NESTS)
        return assemble(m, mixed(m / 2 * 2, 2 * m), nest(m / 2), nest(m - m / 2));
    if (k == RING) {
        std::vector<bool> a(2 * m, true);
        a[0] = a[m] = false;
        return assemble(m, a, nest(m - 1), nest(1));
    }
    drawing d = triangulate(m);
    std::vector<uint8_t> bytes(LONGEST);
    std::vector<uint16_t> work(6 * m);
    uint16_t length = 0;
    if (marks_by_ends(d.turning.data(), d.turning.size(), d.marks.data(), m, work.data(), work.size()) != 0)
        abort();
    if (plain_pack(d.turning.data(), d.turning.size(), d.marks.data(), m, 0, work.data(), work.size(), bytes.data(), bytes.size(), &length) != 0)
        abort();
    bytes.resize(length);
    return bytes;
}

std::vector<std::vector<uint8_t>> make_maps(kind k, size_t m, size_t times)
{
    std::vector<std::vector<uint8_t>> list;
    for (size_t left = times * std::min(16384 / m, size_t(256)); left > 0; left--)
        list.push_back(make_map(k, m));
    return list;
}

size_t borders(const std::vector<uint8_t> &map)
{
    return two_at(map.data(), AT_M);
}

size_t points(const std::vector<uint8_t> &map)
{
    return two_at(map.data(), AT_N);
}

std::vector<std::vector<uint8_t>> damaged(const std::vector<uint8_t> &map)
{
    std::vector<std::vector<uint8_t>> list = { {}, { map.begin(), map.end() - 1 }, map };
    list.back().push_back(0);
    for (int i = 0; i < 20; i++) {
        size_t b = below(8 * map.size());
        list.push_back(map);
        list.back()[b / 8] ^= uint8_t(1 << b % 8);
    }
    return list;
}
