// The listing of a map's places: the proved one, beside the single calls about each place, and beside arrays of half-edges; beside the
// proved listing of an earlier revision too, where bench/run was given one.
#include <cstdio>

#include "calls.h"
#include "card.h"
#include "lines.h"
#include "maps.h"
#include "pages.h"
#include "parts.h"
#include "pmap.h"
#include "texts.h"

// The proved listing, in an archive of its own, target/staticlib/liblisting.a: writes the text, or the line of a refusal, and gives its
// length. `out` has room for LISTING_ROOM bytes.
extern "C" text_call pmap_listing_text;
#ifdef BEFORE
extern "C" text_call before_listing_text;
#endif

namespace {

// Bit i of the bytes, the first lowest.
int bit(const uint8_t *s, size_t i)
{
    return s[i / 8] >> i % 8 & 1;
}

// The easy way: three calls for each place, each of which checks the whole map. The kind comes from the strings, which are read along.
size_t single_calls_listing(const uint8_t *map, size_t length, uint8_t *out)
{
    uint16_t m = 0, n = 0;
    uint8_t status = pmap_open(map, length, &m, &n);
    if (status != PMAP_OK)
        return put_refusal(out, status);
    const uint8_t *a = map + HEADER, *strings[2] = { a + (2 * m + 7) / 8 + (2 * n - 2 + 7) / 8, a + (2 * m + 7) / 8 };
    size_t unread[2] = { 0, 0 };
    uint8_t *at = put_heading(out);
    for (size_t place = 1; place <= 2 * size_t(m); place++) {
        uint16_t mate = 0, node = 0, area = 0;
        int round = bit(a, place - 1);
        pmap_cross(map, length, place, &mate);
        pmap_point(map, length, place, &node);
        pmap_area(map, length, place, &area);
        at = put_place(at, place, round, bit(strings[round], unread[round]++), mate, node, area);
    }
    return size_t(at - out);
}

const std::vector<text_version> versions = {
    { "proved", pmap_listing_text, LISTING_ROOM },
#ifdef BEFORE
    { "before", before_listing_text, LISTING_ROOM },
#endif
    { "single calls", single_calls_listing, LISTING_ROOM },
    { "half-edges", halfedge_listing, LISTING_ROOM },
};

}  // namespace

bool listings_agree(const bytes &map)
{
    bool good = texts_agree(versions, map);
    if (!good)
        std::printf("a listing differs\n");
    return good;
}

task listing_task(const maps &all)
{
    return text_task(versions[0], all);
}

void show_listings(size_t m)
{
    std::printf("\nlistings, %zu borders\n%-12s %12s %14s", m, "", "proved, us", "ns per place");
    show_others(versions);
    for (int k = 0; k < ALL_KINDS; k++) {
        maps all = make_maps(kind(k), m);
        std::vector<double> t = measure_texts(versions, all);
        std::printf("%-12s %12.1f %14.1f", kind_names[k], t[0] / 1000, t[0] / double(2 * m));
        show_ratios(t);
    }
}
