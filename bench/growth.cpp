// How the times grow with the number of borders.
#include <algorithm>
#include <cstdio>
#include <string>

#include "maps.h"
#include "parts.h"

namespace {

const std::vector<size_t> sizes = { 16, 128, 1024, 2048 };

// One row of a growth table: what it is, and its times on so many kinds of maps of the first size, then of the next.
struct growth {
    const char *name;
    int kinds;
    std::vector<double> times;

    double at(size_t size, int k) const { return times[size * kinds + k]; }

    int slowest(size_t size) const
    {
        auto from = times.begin() + size * kinds;
        return int(std::max_element(from, from + kinds) - from);
    }
};

std::vector<growth> measure_growth(const std::vector<grown> &list, int kinds, size_t times)
{
    std::vector<maps> sets;
    for (size_t m : sizes)
        for (int k = 0; k < kinds; k++)
            sets.push_back(make_maps(kind(k), m, times));
    std::vector<growth> rows;
    for (const grown &g : list) {
        std::vector<task> tasks;
        for (const maps &all : sets)
            tasks.push_back(g.make(all));
        rows.push_back({ g.name, kinds, measure(tasks) });
    }
    return rows;
}

void show_growth_heads(const char *what, const char *where, int width)
{
    std::printf("\ngrowth: %s, in ns, on %s; at the end: 2048 beside 1024\n%-22s", what, where, "borders");
    for (size_t m : sizes)
        std::printf(" %10zu%*s", m, width, "");
    std::printf("\n");
}

void show_on_kind(const char *name, const growth &g, int k)
{
    std::printf("%-22s", name);
    for (size_t s = 0; s < sizes.size(); s++)
        std::printf(" %10.0f", g.at(s, k));
    std::printf(" %8.2f x\n", g.at(3, k) / g.at(2, k));
}

void show_on_slowest(const growth &g)
{
    std::printf("%-22s", g.name);
    for (size_t s = 0; s < sizes.size(); s++)
        std::printf(" %10.0f %-9s", g.at(s, g.slowest(s)), kind_names[g.slowest(s)]);
    std::printf(" %8.2f x\n", g.at(3, g.slowest(3)) / g.at(2, g.slowest(2)));
}

}  // namespace

void show_growth(const std::vector<grown> &list)
{
    const std::vector<growth> rows = measure_growth(list, KINDS, 1);
    show_growth_heads("the proved call", "random maps", 0);
    for (const growth &g : rows) {
        show_on_kind(g.name, g, RANDOM);
        if (g.name == std::string("joining, longest"))
            show_on_kind("joining, whole star", g, STAR);
    }
    show_growth_heads("the proved call", "the slowest kind of map at each size", 10);
    for (const growth &g : rows)
        show_on_slowest(g);
}

void show_growth_by_kind(const grown &one)
{
    const growth g = measure_growth({ one }, WITH_RING, MORE)[0];
    show_growth_heads(g.name, "each kind of map", 0);
    for (int k = 0; k < g.kinds; k++)
        show_on_kind(kind_names[k], g, k);
}
