// Maps to measure on: six kinds, two more with one large area, and a ring, of any number of borders.
#ifndef MAPS_H
#define MAPS_H

#include <cstddef>
#include <cstdint>
#include <string>
#include <vector>

struct drawing {
    std::vector<uint16_t> turning;
    std::vector<uint8_t> marks;
};

// The kinds below KINDS are those of every table. Those from there to ALL_KINDS are for the neighbours of their largest area, the ring is
// for finding marks.
enum kind { RANDOM, LOOPS, NESTS, TRIANGLES, STAR, PATH, KINDS, TREE = KINDS, MIXED, ALL_KINDS, RING = ALL_KINDS, WITH_RING };
extern const char *const kind_names[WITH_RING];

size_t below(size_t bound);  // a random number below `bound`, the same in every run

// A map of this kind with m borders, as bytes.
std::vector<uint8_t> make_map(kind k, size_t m);

// Several of them, to be taken in turn: on one map over and over, a processor comes to know which way each branch will go, and
// what is timed is no longer what a map costs that comes once. A search for marks has so few branches that this happens on several
// maps of 2,048 borders too, where it looked up to 2.4 times as fast, but not on MORE times as many.
const size_t MORE = 4;
std::vector<std::vector<uint8_t>> make_maps(kind k, size_t m, size_t times = 1);

// m and n, as the header has them.
size_t borders(const std::vector<uint8_t> &map);
size_t points(const std::vector<uint8_t> &map);

// Bytes that no longer open: nothing, too few, too many, and some with one bit changed.
std::vector<std::vector<uint8_t>> damaged(const std::vector<uint8_t> &map);

#endif
