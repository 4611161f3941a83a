// Whole sessions by pmap_session, beside the same calls one by one and beside arrays of half-edges that are built once.
#include <algorithm>
#include <cstdio>

#include "calls.h"
#include "maps.h"
#include "parts.h"
#include "pmap.h"

namespace {

const size_t CODES = 6, MOVES = 4;  // the codes below MOVES are moves

// A single call, by the code that a session has for it: its status, and its answer as a session has it, which is 0 if it is refused.
uint8_t single(uint8_t code, const bytes &map, size_t place, uint16_t &answer)
{
    static number_call *const number[CODES] = { pmap_cross, nullptr, nullptr, pmap_along, pmap_point, pmap_area };
    uint8_t status, gone_round = 0;
    answer = 0;
    if (code == PMAP_CALL_TURN)
        status = pmap_turn(map.data(), map.size(), place, &answer, &gone_round);
    else if (code == PMAP_CALL_TURN_BACK)
        status = pmap_turn_back(map.data(), map.size(), place, &answer, &gone_round);
    else
        status = number[code](map.data(), map.size(), place, &answer);
    answer |= gone_round ? PMAP_GONE_ROUND : 0;
    return status;
}

struct session {
    size_t first;
    bytes calls;
};

// Lists lent to a session, two entries longer than it has calls, and what it gives.
struct outcome {
    bytes statuses;
    std::vector<uint16_t> answers;
    size_t place = 77;
    uint8_t status = 0;

    explicit outcome(const session &s) : statuses(s.calls.size() + 2, 0xaa), answers(s.calls.size() + 2, 0xaaaa) {}

    // Lends the first entries of both lists.
    void run(session_call *whose, const bytes &map, const session &s, size_t few, size_t entries)
    {
        status = whose(map.data(), map.size(), s.first, s.calls.data(), s.calls.size(), statuses.data(), few, answers.data(), entries, &place);
    }

    void one_by_one(const bytes &map, const session &s)
    {
        place = s.first;
        for (size_t i = 0; i < s.calls.size(); i++) {
            statuses[i] = single(s.calls[i], map, place, answers[i]);
            if (statuses[i] == 0 && s.calls[i] < MOVES)
                place = answers[i] & ~PMAP_GONE_ROUND;
        }
    }

    bool operator==(const outcome &o) const
    {
        return statuses == o.statuses && answers == o.answers && place == o.place && status == o.status;
    }
};

session any_codes(size_t first, size_t count)
{
    session s = { first, {} };
    while (s.calls.size() < count)
        s.calls.push_back(uint8_t(below(CODES)));
    return s;
}

session at_random(const bytes &map, size_t count)
{
    return any_codes(1 + below(2 * borders(map)), count);
}

// Sessions of so many calls, one on each map. Those of one call take all codes in turn.
std::vector<session> on_each(const maps &all, size_t calls)
{
    std::vector<session> list;
    for (const bytes &map : all) {
        list.push_back(at_random(map, calls));
        if (calls == 1)
            list.back().calls[0] = uint8_t(list.size() % CODES);
    }
    return list;
}

task by_sessions(session_call *whose, const maps &all, const std::vector<session> &list)
{
    return { [=, &all, o = outcome(list[0])]() mutable {
                for (size_t i = 0; i < all.size(); i++)
                    o.run(whose, all[i], list[i], list[i].calls.size(), list[i].calls.size());
                sink = o.place;
            },
             all.size() };
}

task by_single_calls(const maps &all, const std::vector<session> &list)
{
    return { [=, &all, o = outcome(list[0])]() mutable {
                for (size_t i = 0; i < all.size(); i++)
                    o.one_by_one(all[i], list[i]);
                sink = o.place;
            },
             all.size() };
}

// Nanoseconds for one session: by pmap_session, by the single calls, by half-edges.
std::vector<double> times(const maps &all, const std::vector<session> &list)
{
    return measure({ by_sessions(pmap_session, all, list), by_single_calls(all, list), by_sessions(halfedge_session, all, list) });
}

// All three give the same.
bool accepted_alike(const bytes &map, const session &s)
{
    size_t count = s.calls.size();
    outcome proved(s), arrays(s), singles(s);
    proved.run(pmap_session, map, s, count, count + 1);
    arrays.run(halfedge_session, map, s, count + 1, count);
    singles.one_by_one(map, s);
    return proved.status == 0 && proved == arrays && proved == singles;
}

// Both refuse, with the same status, and leave everything as it was.
bool refused_alike(const bytes &map, const session &s, size_t few, size_t entries)
{
    outcome proved(s), arrays(s), left(s);
    proved.run(pmap_session, map, s, few, entries);
    arrays.run(halfedge_session, map, s, few, entries);
    left.status = proved.status;
    return proved.status != 0 && proved == arrays && proved == left;
}

}  // namespace

bool sessions_agree(const bytes &map)
{
    const size_t count = 300, places = 2 * borders(map);
    bool good = true;
    for (size_t first : { size_t(0), size_t(1), places, places + 1, SIZE_MAX, 1 + below(places) })
        for (size_t calls : { count, size_t(3), size_t(0) })
            good = good && accepted_alike(map, any_codes(first, calls));

    session s = at_random(map, count), wrong = s;
    wrong.calls[below(count)] = CODES;
    good = good && refused_alike(map, s, count - 1, count) && refused_alike(map, s, count, 0) && refused_alike(map, wrong, count, count);
    for (const bytes &harmed : damaged(map))
        good = good && refused_alike(harmed, s, count, count);
    if (!good)
        std::printf("a session differs\n");
    return good;
}

task session_task(const maps &all, size_t calls)
{
    return by_sessions(pmap_session, all, on_each(all, calls));
}

void show_sessions(size_t m, size_t calls)
{
    std::printf("\nsessions of %zu calls, %zu borders\n%-22s %12s %14s %14s %14s\n", calls, m, "", "proved, ns", "ns per call", "single calls", "half-edges");
    for (int k = 0; k < KINDS; k++) {
        maps all = make_maps(kind(k), m);
        std::vector<double> t = times(all, on_each(all, calls));
        std::printf("%-22s %12.0f %14.1f", kind_names[k], t[0], t[0] / double(calls));
        show_ratio(t[1] / t[0]);
        show_ratio(t[2] / t[0]);
        std::printf("\n");
    }
}

void show_short_sessions()
{
    const size_t sizes[] = { 16, 128, 2048 };
    std::printf("\nshort sessions, all kinds: the slowest time at 2048 borders; the least ratios of single calls, by borders, and of half-edges, at 2048\n");
    std::printf("%-22s %12s %14s %14s %14s %14s\n", "calls", "proved, ns", "single, 16", "single, 128", "single, 2048", "half-edges");
    for (size_t calls = 1; calls <= 256; calls *= 2) {
        double slowest = 0, least[3] = { 1e9, 1e9, 1e9 }, arrays = 1e9;
        for (size_t i = 0; i < 3; i++)
            for (int k = 0; k < KINDS; k++) {
                maps all = make_maps(kind(k), sizes[i]);
                std::vector<double> t = times(all, on_each(all, calls));
                least[i] = std::min(least[i], t[1] / t[0]);
                if (sizes[i] == 2048) {
                    slowest = std::max(slowest, t[0]);
                    arrays = std::min(arrays, t[2] / t[0]);
                }
            }
        std::printf("%-22zu %12.0f", calls, slowest);
        for (double ratio : least)
            show_ratio(ratio);
        show_ratio(arrays);
        std::printf("\n");
    }
}
