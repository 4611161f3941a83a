// Texts made of a map: compared, and timed.
#include "texts.h"

#include <cstdio>

#include "maps.h"

static bytes text_by(const text_version &v, const bytes &map)
{
    bytes out(v.room);
    out.resize(v.make(map.data(), map.size(), out.data()));
    return out;
}

static bool alike(const std::vector<text_version> &versions, const bytes &map)
{
    for (const text_version &v : versions)
        if (text_by(v, map) != text_by(versions[0], map))
            return false;
    return true;
}

bool texts_agree(const std::vector<text_version> &versions, const bytes &map)
{
    if (!alike(versions, map))
        return false;
    for (const bytes &harmed : damaged(map))
        if (!alike(versions, harmed))
            return false;
    return true;
}

task text_task(const text_version &v, const maps &all)
{
    return { [make = v.make, &all, out = bytes(v.room)]() mutable {
                for (const bytes &map : all) {
                    size_t length = make(map.data(), map.size(), out.data());
                    sink = length + out[length / 2];
                }
            },
             all.size() };
}

std::vector<double> measure_texts(const std::vector<text_version> &versions, const maps &all)
{
    std::vector<task> tasks;
    for (const text_version &v : versions)
        tasks.push_back(text_task(v, all));
    return measure(tasks);
}

void show_others(const std::vector<text_version> &versions)
{
    for (size_t i = 1; i < versions.size(); i++)
        std::printf(" %14s", versions[i].name);
    std::printf("\n");
}
