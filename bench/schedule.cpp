// The schedule of a map's areas: the proved one, beside the single calls about each area, and beside arrays of half-edges.
#include <cstdio>

#include "calls.h"
#include "maps.h"
#include "pages.h"
#include "parts.h"
#include "pmap.h"
#include "texts.h"

// The proved schedule, in an archive of its own, target/staticlib/libscheduling.a: writes the text, or the line of a refusal, and
// gives its length. `out` has room for SCHEDULE_ROOM bytes.
extern "C" text_call pmap_schedule_text;

namespace {

// The easy way: two calls for each area, each of which checks the whole map.
size_t single_calls_schedule(const uint8_t *map, size_t length, uint8_t *out)
{
    uint16_t m = 0, n = 0;
    uint8_t status = pmap_open(map, length, &m, &n);
    if (status != PMAP_OK)
        return put_refusal(out, status);
    struct pages p = begin_pages(out);
    for (size_t k = 1; k <= size_t(m) - n + 2; k++) {
        uint16_t sides = 0, first = 0;
        pmap_sides(map, length, k, &sides);
        pmap_area_first(map, length, k, &first);
        put_area(&p, sides, first);
    }
    return end_pages(&p);
}

const std::vector<text_version> versions = {
    { "proved", pmap_schedule_text, SCHEDULE_ROOM },
    { "single calls", single_calls_schedule, SCHEDULE_ROOM },
    { "half-edges", halfedge_schedule, SCHEDULE_ROOM },
};

}  // namespace

bool schedules_agree(const bytes &map)
{
    bool good = texts_agree(versions, map);
    if (!good)
        std::printf("a schedule differs\n");
    return good;
}

task schedule_task(const maps &all)
{
    return text_task(versions[0], all);
}

void show_schedules(size_t m)
{
    std::printf("\nschedules, %zu borders\n%-12s %9s %12s %14s", m, "", "areas", "proved, ns", "ns per area");
    show_others(versions);
    for (int k = 0; k < KINDS; k++) {
        maps all = make_maps(kind(k), m);
        size_t areas = m - points(all[0]) + 2;
        std::vector<double> t = measure_texts(versions, all);
        std::printf("%-12s %9zu %12.0f %14.1f", kind_names[k], areas, t[0], t[0] / double(areas));
        show_ratios(t);
    }
}
