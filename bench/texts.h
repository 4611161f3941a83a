// Texts made of a map, the schedule and the listing: by whom, whether all make the same, and how long each takes.
#ifndef TEXTS_H
#define TEXTS_H

#include <vector>

#include "calls.h"
#include "parts.h"

// One way to make a text, in memory of `room` bytes.
struct text_version {
    const char *name;
    text_call *make;
    size_t room;
};

// Whether all make the same text of the map, and of damaged copies of it.
bool texts_agree(const std::vector<text_version> &versions, const bytes &map);

// The text of one map after the other.
task text_task(const text_version &v, const maps &all);

// The times of all on the same maps, the first one's first.
std::vector<double> measure_texts(const std::vector<text_version> &versions, const maps &all);

// The names of all but the first, to the end of a line of a table.
void show_others(const std::vector<text_version> &versions);

#endif
