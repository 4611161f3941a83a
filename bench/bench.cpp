// Times every call of the C interface beside plain alternatives, on the same maps in one run, and checks that all agree.
#include <algorithm>
#include <cstdio>

#include "calls.h"
#include "maps.h"
#include "parts.h"
#include "pmap.h"
#include "timing.h"

namespace {

const struct calls proved_calls = {
    "proved",
    pmap_open,
    { pmap_turn, pmap_turn_back },
    { pmap_cross, pmap_along, pmap_point, pmap_area, pmap_point_first, pmap_degree, pmap_area_first, pmap_sides, pmap_neighbours },
    pmap_joining,
};

// A call by its index in call_names.
const char *const call_names[TURNS + NUMBER_CALLS + 2] = { "open", "cross", "turn", "turn back", "along", "point", "area", "point first", "degree", "area first", "sides", "neighbours", "joining" };
const size_t TURN = 2, TURN_BACK = 3, DEGREE = 8, SIDES = 10, NEIGHBOURS = 11, JOINING = TURNS + NUMBER_CALLS + 1;

std::vector<const struct calls *> compared;  // the proved calls first

struct asked {
    size_t u, v;
};

// One call: its status and all numbers, whole.
uint64_t ask(const struct calls &c, size_t call, const bytes &map, asked q)
{
    uint16_t out = 0, more = 0;
    uint8_t status, gone_round = 0;
    if (call == 0)
        status = c.open(map.data(), map.size(), &out, &more);
    else if (call == JOINING)
        status = c.joining(map.data(), map.size(), q.u, q.v, &out);
    else if (call == TURN || call == TURN_BACK)
        status = c.turn[call - TURN](map.data(), map.size(), q.u, &out, &gone_round);
    else
        status = c.number[call < TURN ? call - 1 : call - 1 - TURNS](map.data(), map.size(), q.u, &out);
    return uint64_t(gone_round) << 40 | uint64_t(status) << 32 | uint64_t(more) << 16 | out;
}

// How many numbers there are of the kind that the call takes.
size_t numbers(size_t call, const bytes &map)
{
    return call <= 6 ? 2 * borders(map) : call <= DEGREE || call == JOINING ? points(map) : borders(map) - points(map) + 2;
}

// Random numbers of that kind, and now and then one that is refused.
std::vector<asked> questions(size_t call, const bytes &map, size_t count, bool refused)
{
    size_t most = numbers(call, map);
    std::vector<asked> list;
    for (size_t i = 0; i < count; i++)
        list.push_back(refused && i % 16 == 0 ? asked{ most + 1, 0 } : asked{ 1 + below(most), 1 + below(most) });
    return list;
}

std::vector<asked> at_random(size_t call, const bytes &map)
{
    return questions(call, map, 8, false);
}

// The point of greatest degree, the area with most sides.
std::vector<asked> largest(size_t call, const bytes &map)
{
    asked most = { 1, 1 };
    for (size_t u = 2; u <= numbers(call, map); u++)
        if (ask(proved_calls, call, map, { u, u }) > ask(proved_calls, call, map, most))
            most = { u, u };
    return { most };
}

// The area with most sides, whatever is asked of it.
std::vector<asked> most_sides(size_t, const bytes &map)
{
    return largest(SIDES, map);
}

// The joining border at its worst: about the point of greatest degree, where the search goes once round and finds none, if
// there is such a second point, or else where it finds one late.
std::vector<asked> longest(size_t call, const bytes &map)
{
    size_t u = largest(DEGREE, map)[0].u, n = points(map);
    for (size_t v : { u, n, size_t(1) })
        if (ask(proved_calls, call, map, { u, v }) == 0)
            return { { u, v } };
    return { { u, n } };
}

// What is timed: every call at random numbers, and what may take longer.
struct row {
    const char *name;
    size_t call;
    std::vector<asked> (*about)(size_t call, const bytes &map);
};

std::vector<row> call_rows()
{
    std::vector<row> rows;
    for (size_t call = 0; call <= JOINING; call++)
        rows.push_back({ call_names[call], call, at_random });
    rows.push_back({ "degree, largest", DEGREE, largest });
    rows.push_back({ "sides, largest", SIDES, largest });
    rows.push_back({ "neighbours, largest", NEIGHBOURS, most_sides });
    rows.push_back({ "joining, longest", JOINING, longest });
    return rows;
}

// The questions of a row, for each map.
std::vector<std::vector<asked>> asked_of(const row &r, const maps &all)
{
    std::vector<std::vector<asked>> lists;
    for (const bytes &map : all)
        lists.push_back(r.about(r.call, map));
    return lists;
}

task call_task(const struct calls &whose, size_t call, const maps &all, const std::vector<std::vector<asked>> &lists)
{
    return { [=, &whose, &all] {
                uint64_t sum = 0;
                for (size_t i = 0; i < all.size(); i++)
                    for (asked q : lists[i])
                        sum += ask(whose, call, all[i], q);
                sink = sum;
            },
             all.size() * lists[0].size() };
}

bool call_agrees(size_t call, const bytes &map, const std::vector<asked> &list)
{
    for (asked q : list)
        for (const struct calls *c : compared)
            if (ask(*c, call, map, q) != ask(proved_calls, call, map, q)) {
                std::printf("%s of %zu, %zu: %s differs from %s\n", call_names[call], q.u, q.v, c->name, proved_calls.name);
                return false;
            }
    return true;
}

bool calls_agree(const bytes &map)
{
    for (size_t call = 0; call <= JOINING; call++)
        if (!call_agrees(call, map, questions(call, map, 300, true)))
            return false;
    for (const row &r : call_rows())
        if (!call_agrees(r.call, map, r.about(r.call, map)))
            return false;
    return true;
}

struct line {
    double proved = 0;
    std::vector<double> ratio;  // beside compared[1], compared[2], ..
};

line compare(const row &r, const maps &all)
{
    std::vector<std::vector<asked>> lists = asked_of(r, all);
    std::vector<task> tasks;
    for (const struct calls *c : compared)
        tasks.push_back(call_task(*c, r.call, all, lists));
    std::vector<double> times = measure(tasks);
    line l;
    l.proved = times[0];
    for (size_t i = 1; i < times.size(); i++)
        l.ratio.push_back(times[i] / l.proved);
    return l;
}

void show_others()
{
    for (size_t i = 1; i < compared.size(); i++)
        std::printf(" %14s", compared[i]->name);
    std::printf("\n");
}

void show_ratios(const line &l)
{
    for (double r : l.ratio)
        show_ratio(r);
    std::printf("\n");
}

void show_heads()
{
    std::printf("%-22s %12s", "", "proved, ns");
    show_others();
}

void show(const char *name, const line &l)
{
    std::printf("%-22s %12.0f", name, l.proved);
    show_ratios(l);
}

// Every call on every kind of map with m borders; the slowest time and the least ratios of each call at the end.
void compare_all(size_t m)
{
    const std::vector<row> rows = call_rows();
    std::vector<line> worst(rows.size());
    for (int k = 0; k < KINDS; k++) {
        maps all = make_maps(kind(k), m);
        std::printf("\n%s, %zu borders, %zu points: time of the proved call, and how many times longer the others take\n", kind_names[k], m, points(all[0]));
        show_heads();
        for (size_t i = 0; i < rows.size(); i++) {
            line l = compare(rows[i], all), &w = worst[i];
            show(rows[i].name, l);
            if (k == 0)
                w = l;
            w.proved = std::max(w.proved, l.proved);
            for (size_t j = 0; j < l.ratio.size(); j++)
                w.ratio[j] = std::min(w.ratio[j], l.ratio[j]);
        }
    }
    std::printf("\nall kinds, %zu borders: the slowest time and the least ratios\n", m);
    show_heads();
    for (size_t i = 0; i < rows.size(); i++)
        show(rows[i].name, worst[i]);
}

// The neighbours of the area with most sides, on every kind of map; beside the kind, how many the area has on the first map.
void show_neighbours(size_t m)
{
    std::printf("\nneighbours of the largest area, %zu borders\n%-12s %9s %12s %12s", m, "", "sides", "neighbours", "proved, us");
    show_others();
    for (int k = 0; k < ALL_KINDS; k++) {
        maps all = make_maps(kind(k), m);
        asked q = most_sides(NEIGHBOURS, all[0])[0];
        line l = compare({ "", NEIGHBOURS, most_sides }, all);
        std::printf("%-12s %9d %12d %12.1f", kind_names[k], int(ask(proved_calls, SIDES, all[0], q)), int(ask(proved_calls, NEIGHBOURS, all[0], q)), l.proved / 1000);
        show_ratios(l);
    }
}

// All that is proved, each as a task on maps; finding marks has a table of its own.
std::vector<grown> all_grown()
{
    std::vector<grown> list;
    for (const row &r : call_rows())
        list.push_back({ r.name, [r](const maps &all) { return call_task(proved_calls, r.call, all, asked_of(r, all)); } });
    list.push_back({ "factor, known", [](const maps &all) { return factor_task(all, KNOWN); } });
    list.push_back({ "factor", [](const maps &all) { return factor_task(all, AT_RANDOM); } });
    list.push_back({ "factor, largest", [](const maps &all) { return factor_task(all, LARGEST); } });
    list.push_back({ "session, 1000 calls", [](const maps &all) { return session_task(all, 1000); } });
    list.push_back({ "pack", pack_task });
    list.push_back({ "unpack", unpack_task });
    list.push_back({ "schedule", schedule_task });
    list.push_back({ "listing", listing_task });
    return list;
}

}  // namespace

int main()
{
    compared = { &proved_calls, &bitwise_calls, &halfedge_calls };
#ifdef WITH_SDSL
    compared.push_back(&succinct_calls);
#endif
    for (size_t m : { 16, 128, 1024, 2048 })
        for (int k = 0; k < WITH_RING; k++) {
            bytes map = make_map(kind(k), m);
            if (!calls_agree(map) || !sessions_agree(map) || !marks_agree(map) || !unpacking_agrees(map) || !schedules_agree(map) || !listings_agree(map) || !factors_agree(map))
                return 1;
        }
    std::printf("all agree on every answer: %d kinds of maps, 16 to 2,048 borders, %d calls, 300 questions each; sessions of 300 calls; finding marks; unpacking; schedules; listings; factors; refusals of each\n", WITH_RING, int(JOINING + 1));
    for (size_t m : { 16, 128, 2048 })
        compare_all(m);
    show_neighbours(2048);
    show_sessions(2048, 1000);
    show_short_sessions();
    show_marks(2048);
    show_packing(2048);
    show_unpacking(2048);
    show_schedules(2048);
    for (size_t m : { 16, 128, 1024, 2048 })
        show_listings(m);
    show_program(2048);
    show_factors(2048);
    show_growth(all_grown());
    show_growth_by_kind({ "finding marks", marks_task });
    return 0;
}
