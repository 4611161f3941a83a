// What the parts of the bench offer each other: sessions, finding marks, packing and unpacking, schedules, listings, factors, growth. The
// calls on a map are in bench.cpp.
#ifndef PARTS_H
#define PARTS_H

#include <cstddef>
#include <cstdint>
#include <functional>
#include <vector>

#include "timing.h"

using bytes = std::vector<uint8_t>;
using maps = std::vector<bytes>;

// Whether pmap and the alternatives give the same, on this map and on damaged copies of it; if not, what differs is printed.
bool sessions_agree(const bytes &map);
bool marks_agree(const bytes &map);
bool unpacking_agrees(const bytes &map);
bool schedules_agree(const bytes &map);
bool listings_agree(const bytes &map);
bool factors_agree(const bytes &map);

// What is proved, on one map after the other, while they are there: a session of so many calls, finding marks, packing, unpacking, a
// schedule, a listing, a factor that is known, one that is not of an area at random, or of the area with most sides.
task session_task(const maps &all, size_t calls);
task marks_task(const maps &all);
task pack_task(const maps &all);
task unpack_task(const maps &all);
task schedule_task(const maps &all);
task listing_task(const maps &all);
enum factor_of { KNOWN, AT_RANDOM, LARGEST };
task factor_task(const maps &all, factor_of which);

// The tables, on every kind of map.
void show_sessions(size_t m, size_t calls);
void show_short_sessions();
void show_marks(size_t m);
void show_packing(size_t m);
void show_unpacking(size_t m);
void show_schedules(size_t m);
void show_listings(size_t m);
void show_program(size_t m);
void show_factors(size_t m);

// How the times of what is proved grow with m: on random maps, and on the kind of map that is slowest at each size; of one thing, on each
// kind of map.
struct grown {
    const char *name;
    std::function<task(const maps &)> make;
};
void show_growth(const std::vector<grown> &list);
void show_growth_by_kind(const grown &one);

#endif
