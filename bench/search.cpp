// Straightforward C++ searches for marks with the same checks, both by breadth: from point to point, or from end to end.
#include <algorithm>
#include <vector>

#include "calls.h"
#include "checks.h"

namespace {

using found = std::vector<uint8_t>;
using search = bool(const uint16_t *turning, size_t ends, found &marks);

// Walks round each point, to give its number to all its ends. Gives how many points there are.
size_t number_points(const uint16_t *turning, std::vector<uint16_t> &point)
{
    const uint16_t none = 0xffff;
    size_t n = 0;
    std::fill(point.begin(), point.end(), none);
    for (size_t h = 0; h < point.size(); h++) {
        if (point[h] != none)
            continue;
        for (size_t g = h; point[g] == none; g = turning[g])
            point[g] = uint16_t(n);
        n++;
    }
    return n;
}

// Both mark a border where it leads to a point that was not reached before, and give whether all were.

// The queue has one end of each point: that by which it was reached.
bool by_points(const uint16_t *turning, size_t ends, found &marks)
{
    std::vector<uint16_t> point(ends), queue;
    size_t n = number_points(turning, point);
    std::vector<uint8_t> reached(n);
    queue.reserve(n);
    auto reach = [&](uint16_t h) {
        reached[point[h]] = 1;
        queue.push_back(h);
    };
    if (ends > 0)
        reach(0);
    for (size_t i = 0; i < queue.size(); i++) {
        uint16_t h = queue[i];
        do {
            if (!reached[point[h ^ 1]]) {
                marks[h / 2] = 1;
                reach(h ^ 1);
            }
            h = turning[h];
        } while (h != queue[i]);
    }
    return queue.size() == n;
}

// The queue has all ends of each point, so that points need no numbers.
bool by_ends(const uint16_t *turning, size_t ends, found &marks)
{
    std::vector<uint16_t> queue;
    std::vector<uint8_t> reached(ends);
    queue.reserve(ends);
    auto reach = [&](uint16_t h) {
        for (; !reached[h]; h = turning[h]) {
            reached[h] = 1;
            queue.push_back(h);
        }
    };
    if (ends > 0)
        reach(0);
    for (size_t i = 0; i < queue.size(); i++) {
        uint16_t other = queue[i] ^ 1;
        if (!reached[other]) {
            marks[other / 2] = 1;
            reach(other);
        }
    }
    return queue.size() == ends;
}

uint8_t find_marks(search *spans, const uint16_t *turning, size_t ends, uint8_t *marks, size_t m, uint16_t *work, size_t work_length)
{
    if (!lengths_fit(ends, m))
        return 1;
    if (work_length < 6 * m)
        return 2;
    for (size_t h = 0; h < ends; h++)
        if (turning[h] >= ends)
            return 3;
    std::fill(work, work + 6 * m, uint16_t(0));
    if (repeated(turning, ends))
        return 4;
    found tree(m);
    if (!spans(turning, ends, tree))
        return 21;
    std::copy(tree.begin(), tree.end(), marks);
    return 0;
}

}  // namespace

extern "C" uint8_t marks_by_points(const uint16_t *turning, size_t ends, uint8_t *marks, size_t m, uint16_t *work, size_t work_length)
{
    return find_marks(by_points, turning, ends, marks, m, work, work_length);
}

extern "C" uint8_t marks_by_ends(const uint16_t *turning, size_t ends, uint8_t *marks, size_t m, uint16_t *work, size_t work_length)
{
    return find_marks(by_ends, turning, ends, marks, m, work, work_length);
}
