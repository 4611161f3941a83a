// Finding marks beside straightforward searches, packing beside a straightforward packer, unpacking beside arrays of half-edges.
#include <algorithm>
#include <cstdio>
#include <cstdlib>

#include "calls.h"
#include "maps.h"
#include "parts.h"
#include "pmap.h"

namespace {

using turning_lists = std::vector<std::vector<uint16_t>>;
using packer = uint32_t (*)(const uint16_t *, size_t, const uint8_t *, size_t, size_t, uint16_t *, size_t, uint8_t *, size_t, uint16_t *);

// Lists to unpack a drawing of m borders into, two entries longer than it needs, and what unpacking gives.
struct lists {
    std::vector<uint16_t> turning;
    bytes marks;
    uint16_t borders = 0xaaaa;
    uint8_t status = 0;

    explicit lists(size_t m) : turning(2 * m + 2, 0xaaaa), marks(m + 2, 0xaa) {}

    // Lends the first entries of both lists.
    void unpack(unpack_call *whose, const bytes &map, size_t ends, size_t entries)
    {
        status = whose(map.data(), map.size(), turning.data(), ends, marks.data(), entries, &borders);
    }

    bool operator==(const lists &o) const
    {
        return turning == o.turning && marks == o.marks && borders == o.borders && status == o.status;
    }
};

// The drawing that a map unpacks to, and what packing and finding marks are lent: a working list two entries longer than they need.
struct desk {
    size_t m;
    lists drawing;
    std::vector<uint16_t> work;
    bytes out;
    uint16_t length = 0;

    explicit desk(const bytes &map) : m(borders(map)), drawing(m), work(6 * m + 2, 0xaaaa), out(PMAP_LONGEST)
    {
        drawing.unpack(pmap_unpack, map, 2 * m, m);
    }

    // Numbers the borders at random, with either end of each first, and leaves no marks: so a drawing may come from a drawer.
    void redraw()
    {
        std::vector<uint16_t> from = drawing.turning, to(2 * m);
        for (size_t e = 0; e < m; e++) {
            size_t k = below(e + 1);
            to[2 * e] = to[2 * k];
            to[2 * k] = uint16_t(2 * e + below(2));
        }
        for (size_t h = 1; h < 2 * m; h += 2)
            to[h] = to[h - 1] ^ 1;
        for (size_t h = 0; h < 2 * m; h++)
            drawing.turning[to[h]] = to[from[h]];
        std::fill(drawing.marks.begin(), drawing.marks.end(), uint8_t(0xaa));
    }

    // Takes a border from its points: it is then a piece by itself.
    void cut(size_t e)
    {
        std::vector<uint16_t> &turning = drawing.turning;
        for (size_t h : { 2 * e, 2 * e + 1 }) {
            *std::find(turning.begin(), turning.end(), h) = turning[h];
            turning[h] = uint16_t(h);
        }
    }

    // Lends the first entries of each list.
    uint8_t find_marks(marks_call *whose, size_t ends, size_t entries, size_t room)
    {
        return whose(drawing.turning.data(), ends, drawing.marks.data(), entries, work.data(), room);
    }

    uint8_t find_marks(marks_call *whose) { return find_marks(whose, 2 * m, m, 6 * m); }

    uint32_t pack(packer whose)
    {
        return whose(drawing.turning.data(), 2 * m, drawing.marks.data(), m, 0, work.data(), 6 * m, out.data(), out.size(), &length);
    }
};

marks_call *const searches[] = { pmap_marks, marks_by_points, marks_by_ends };

// The turning list of each map, redrawn. It ends the program if a search doesn't find marks with which the drawing packs.
turning_lists redrawn(const maps &all)
{
    turning_lists list;
    for (const bytes &map : all) {
        desk d(map);
        d.redraw();
        for (marks_call *whose : searches) {
            desk tried = d;
            if (tried.find_marks(whose) != 0 || tried.pack(pmap_pack) != 0) {
                std::printf("a search does not find marks to pack with\n");
                std::exit(1);
            }
        }
        list.emplace_back(d.drawing.turning.begin(), d.drawing.turning.end() - 2);
    }
    return list;
}

task find_by(marks_call *whose, const turning_lists &list)
{
    size_t m = list[0].size() / 2;
    return { [=, marks = bytes(m), work = std::vector<uint16_t>(6 * m)]() mutable {
                for (const std::vector<uint16_t> &turning : list)
                    sink = whose(turning.data(), 2 * m, marks.data(), m, work.data(), 6 * m);
            },
             list.size() };
}

std::vector<task> find_by_each(const maps &all)
{
    turning_lists list = redrawn(all);
    std::vector<task> tasks;
    for (marks_call *whose : searches)
        tasks.push_back(find_by(whose, list));
    return tasks;
}

task unpack_by(unpack_call *whose, const maps &all)
{
    size_t m = borders(all[0]);
    return { [=, &all, to = lists(m)]() mutable {
                for (const bytes &map : all)
                    to.unpack(whose, map, 2 * m, m);
                sink = to.turning[0];
            },
             all.size() };
}

// Packs what each map unpacks to. It ends the program if that does not give the map again.
task pack_by(packer whose, const maps &all)
{
    std::vector<desk> desks(all.begin(), all.end());
    for (size_t i = 0; i < all.size(); i++)
        if (desks[i].pack(whose) != 0 || bytes(desks[i].out.begin(), desks[i].out.begin() + desks[i].length) != all[i]) {
            std::printf("a packer does not give the map again\n");
            std::exit(1);
        }
    return { [=]() mutable {
                for (desk &d : desks)
                    sink = d.pack(whose);
            },
             all.size() };
}

// Both give the same drawing, or both refuse with the same status and leave the lists as they were.
bool alike(const bytes &map, size_t m, size_t ends, size_t entries, bool refused)
{
    lists proved(m), arrays(m), left(m);
    proved.unpack(pmap_unpack, map, ends, entries);
    arrays.unpack(halfedge_unpack, map, ends, entries);
    left.status = proved.status;
    return proved == arrays && (proved.status != 0) == refused && (!refused || proved == left);
}

// Whether the marks are of a spanning tree: both packers pack with them, or find nothing but a crossing.
bool spanning(desk d)
{
    uint32_t packed = d.pack(pmap_pack);
    return packed == d.pack(plain_pack) && (packed == 0 || PMAP_STATUS(packed) == PMAP_CROSSING);
}

// All searches give this status and leave the lists as pmap.h says; where it is 0, each has marked a spanning tree.
bool found_alike(const desk &d, size_t ends, size_t entries, size_t room, uint8_t status)
{
    std::vector<uint16_t> work = d.work;
    if (status != PMAP_LISTS && status != PMAP_ROOM && status != PMAP_RANGE)
        std::fill(work.begin(), work.end() - 2, uint16_t(0));
    size_t written = status == 0 ? d.m : 0;
    for (marks_call *whose : searches) {
        desk after = d;
        const bytes &marks = after.drawing.marks, &before = d.drawing.marks;
        if (after.find_marks(whose, ends, entries, room) != status || after.work != work)
            return false;
        if (!std::equal(marks.begin() + long(written), marks.end(), before.begin() + long(written)) || (status == 0 && !spanning(after)))
            return false;
    }
    return true;
}

bool found_alike(const desk &d, uint8_t status)
{
    return found_alike(d, 2 * d.m, d.m, 6 * d.m, status);
}

// An entry too large, two that are equal, a drawing in pieces, and one with two entries exchanged, which has marks or is in pieces.
bool harmed_alike(const desk &d)
{
    desk large = d, equal = d, pieces = d, other = d;
    size_t h = below(2 * d.m), g = (h + 1 + below(2 * d.m - 1)) % (2 * d.m);
    large.drawing.turning[h] = uint16_t(2 * d.m);
    equal.drawing.turning[h] = equal.drawing.turning[g];
    pieces.cut(h / 2);
    std::swap(other.drawing.turning[h], other.drawing.turning[g]);
    return found_alike(large, PMAP_RANGE) && found_alike(equal, PMAP_REPEATED) && found_alike(pieces, PMAP_PIECES) &&
           found_alike(other, desk(other).find_marks(pmap_marks));
}

// The table of so many kinds of maps, with `times` as many of each as make_maps gives by itself.
void show_desk(const char *title, const std::vector<const char *> &beside, int kinds, size_t times, size_t m, std::vector<task> (*tasks)(const maps &all))
{
    std::printf("\n%s, %zu borders\n%-22s %12s %14s", title, m, "", "proved, ns", "ns per border");
    for (const char *name : beside)
        std::printf(" %14s", name);
    std::printf("\n");
    for (int k = 0; k < kinds; k++) {
        maps all = make_maps(kind(k), m, times);
        std::vector<double> t = measure(tasks(all));
        std::printf("%-22s %12.0f %14.1f", kind_names[k], t[0], t[0] / double(m));
        show_ratios(t);
    }
}

}  // namespace

bool marks_agree(const bytes &map)
{
    desk d(map);
    size_t m = d.m;
    bool good = found_alike(d, 0);
    d.redraw();
    good = good && found_alike(d, 0) && found_alike(d, 2 * m, m, 6 * m + 2, 0);
    good = good && found_alike(d, 2 * m + 1, m, 6 * m, PMAP_LISTS) && found_alike(d, 2 * m, m - 1, 6 * m, PMAP_LISTS) && found_alike(d, 2 * m, m, 6 * m - 1, PMAP_ROOM);
    for (int i = 0; i < 20; i++)
        good = good && harmed_alike(d);
    if (!good)
        std::printf("finding marks differs\n");
    return good;
}

bool unpacking_agrees(const bytes &map)
{
    size_t m = borders(map);
    bool good = alike(map, m, 2 * m, m, false) && alike(map, m, 2 * m + 2, m + 2, false) && alike(map, m, 2 * m - 1, m, true) && alike(map, m, 2 * m, m - 1, true);
    for (const bytes &harmed : damaged(map))
        good = good && alike(harmed, m, 2 * m, m, true);
    if (!good)
        std::printf("unpacking differs\n");
    return good;
}

task marks_task(const maps &all)
{
    return find_by(pmap_marks, redrawn(all));
}

task pack_task(const maps &all)
{
    return pack_by(pmap_pack, all);
}

task unpack_task(const maps &all)
{
    return unpack_by(pmap_unpack, all);
}

void show_marks(size_t m)
{
    show_desk("finding marks", { "C++, by points", "C++, by ends" }, WITH_RING, MORE, m, find_by_each);
}

void show_packing(size_t m)
{
    show_desk("packing", { "plain C++" }, KINDS, 1, m, [](const maps &all) -> std::vector<task> { return { pack_by(pmap_pack, all), pack_by(plain_pack, all) }; });
}

void show_unpacking(size_t m)
{
    show_desk("unpacking", { "half-edges" }, KINDS, 1, m, [](const maps &all) -> std::vector<task> { return { unpack_by(pmap_unpack, all), unpack_by(halfedge_unpack, all) }; });
}
