// The factor of an area: pmap_factor, beside arrays of half-edges built for each call, beside the strings bit by bit, and beside a host
// that walks round the area in one session and adds by itself.
#include <cstdio>
#include <cstring>

#include "calls.h"
#include "maps.h"
#include "parts.h"
#include "pmap.h"
#include "tariff.h"

namespace {

// ---- the host by itself ----

// What a session asks at each side: across, which area is there, back, and on.
const size_t OF_SIDE = 4, MOST_CALLS = OF_SIDE * 4096;
const uint8_t of_side[OF_SIDE] = { PMAP_CALL_CROSS, PMAP_CALL_AREA, PMAP_CALL_CROSS, PMAP_CALL_ALONG };

uint8_t session_factor(const uint8_t *map, size_t length, size_t area, const uint8_t *kinds, size_t kinds_length, const double *values, size_t values_length, double *out)
{
    static uint8_t calls[MOST_CALLS], statuses[MOST_CALLS];
    static uint16_t answers[MOST_CALLS];
    struct tariff t = { kinds, kinds_length, values, values_length };
    struct mean sum = { 0.0, 0 };
    uint16_t m, n, first, sides;
    int known = 0;
    uint8_t status = pmap_open(map, length, &m, &n);
    if (status == 0)
        status = begin_factor(&t, size_t(m) - n + 2, area, out, &known);
    if (status != 0 || known)
        return status;
    pmap_area_first(map, length, area, &first);
    pmap_sides(map, length, area, &sides);
    size_t count = OF_SIDE * sides, place;
    for (size_t i = 0; i < count; i++)
        calls[i] = of_side[i % OF_SIDE];
    pmap_session(map, length, first, calls, count, statuses, count, answers, count, &place);
    for (size_t i = 1; i < count; i += OF_SIDE)
        add_side(&sum, &t, answers[i]);
    return end_factor(&sum, out);
}

factor_call *const others[] = { halfedge_factor, bitwise_factor, session_factor };

// ---- tariffs and questions ----

struct lists {
    bytes kinds;
    std::vector<double> values;
};

size_t areas(const bytes &map)
{
    return borders(map) - points(map) + 2;
}

// From 0.01 to 100, as a tariff has them.
double some_factor()
{
    return double(1 + below(10000)) / 100.0;
}

// `unknown` of 16 areas are not known, the others own or held.
lists make_lists(const bytes &map, size_t unknown)
{
    lists l;
    for (size_t k = 0; k < areas(map); k++) {
        double low = some_factor(), high = some_factor();
        l.kinds.push_back(uint8_t(below(16) < unknown ? size_t(UNKNOWN) : below(2)));
        l.values.insert(l.values.end(), { some_factor(), low < high ? low : high, low < high ? high : low });
    }
    return l;
}

size_t sides(const bytes &map, size_t area)
{
    uint16_t out = 0;
    pmap_sides(map.data(), map.size(), area, &out);
    return out;
}

size_t largest_area(const bytes &map)
{
    size_t most = 1;
    for (size_t k = 2; k <= areas(map); k++)
        if (sides(map, k) > sides(map, most))
            most = k;
    return most;
}

// A tariff for each map, in which most areas are known, and areas to ask for: those are as `which` has it.
struct questions {
    std::vector<lists> tariffs;
    std::vector<std::vector<size_t>> asked;
};

questions on_each(const maps &all, factor_of which)
{
    questions q;
    for (const bytes &map : all) {
        q.tariffs.push_back(make_lists(map, 2));
        q.asked.push_back({});
        for (size_t i = 0; i < (which == LARGEST ? 1 : 8); i++) {
            q.asked.back().push_back(which == LARGEST ? largest_area(map) : 1 + below(areas(map)));
            q.tariffs.back().kinds[q.asked.back().back() - 1] = which == KNOWN ? OWN : UNKNOWN;
        }
    }
    return q;
}

// ---- asking ----

struct found {
    uint8_t status;
    uint64_t bits;

    bool operator==(const found &f) const { return status == f.status && bits == f.bits; }
};

found ask(factor_call *whose, const bytes &map, const lists &l, size_t area)
{
    double out = -1.0;
    found f = {};
    f.status = whose(map.data(), map.size(), area, l.kinds.data(), l.kinds.size(), l.values.data(), l.values.size(), &out);
    std::memcpy(&f.bits, &out, sizeof out);
    return f;
}

bool alike(const bytes &map, const lists &l, size_t area)
{
    found proved = ask(pmap_factor, map, l, area);
    for (factor_call *whose : others)
        if (!(ask(whose, map, l, area) == proved))
            return false;
    return true;
}

// Something that check 18 refuses, at an area at random or at the end of a list.
void harm(lists &l)
{
    size_t k = below(l.kinds.size());
    switch (below(4)) {
    case 0:
        l.kinds[k] = 3;
        break;
    case 1:
        l.kinds[k] = OWN;
        l.values[PER_AREA * k] = 100.00000000000001;
        break;
    case 2:
        l.kinds.push_back(OWN);
        break;
    default:
        l.values.pop_back();
    }
}

task factor_by(factor_call *whose, const maps &all, const questions &q)
{
    return { [=, &all] {
                uint64_t sum = 0;
                for (size_t i = 0; i < all.size(); i++)
                    for (size_t area : q.asked[i]) {
                        found f = ask(whose, all[i], q.tariffs[i], area);
                        sum += f.status + f.bits;
                    }
                sink = sum;
            },
             all.size() * q.asked[0].size() };
}

double mean_sides(const maps &all, const questions &q)
{
    double sum = 0;
    for (size_t i = 0; i < all.size(); i++)
        for (size_t area : q.asked[i])
            sum += double(sides(all[i], area));
    return sum / double(all.size() * q.asked[0].size());
}

void show_kind(int k, size_t m, factor_of which)
{
    maps all = make_maps(kind(k), m);
    questions q = on_each(all, which);
    std::vector<task> tasks = { factor_by(pmap_factor, all, q) };
    for (factor_call *whose : others)
        tasks.push_back(factor_by(whose, all, q));
    std::vector<double> t = measure(tasks);
    std::printf("%-12s %9.1f %12.1f", kind_names[k], mean_sides(all, q), t[0] / 1000);
    for (size_t i = 1; i < t.size(); i++)
        show_ratio(t[i] / t[0]);
    std::printf("\n");
}

}  // namespace

bool factors_agree(const bytes &map)
{
    bool good = alike(map, make_lists(map, 4), 0) && alike(map, make_lists(map, 4), areas(map) + 1) && alike(map, make_lists(map, 4), largest_area(map));
    for (size_t i = 0; i < 60; i++) {
        lists l = make_lists(map, i % 17);
        good = good && alike(map, l, 1 + below(areas(map)));
        harm(l);
        good = good && alike(map, l, 1 + below(areas(map)));
    }
    for (const bytes &harmed : damaged(map))
        good = good && alike(harmed, make_lists(map, 4), 1 + below(areas(map)));
    if (!good)
        std::printf("a factor differs\n");
    return good;
}

task factor_task(const maps &all, factor_of which)
{
    return factor_by(pmap_factor, all, on_each(all, which));
}

void show_factors(size_t m)
{
    static const char *const about[] = { "known", "not known, of areas at random", "not known, of the area with most sides" };
    for (factor_of which : { KNOWN, AT_RANDOM, LARGEST }) {
        std::printf("\nfactors, %s, %zu borders\n%-12s %9s %12s %14s %14s %14s\n", about[which], m, "", "sides", "proved, us", "half-edges", "bit by bit", "session");
        for (int k = 0; k < ALL_KINDS; k++)
            show_kind(k, m, which);
    }
}
