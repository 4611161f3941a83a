// A straightforward C++ packer with the same checks: vectors, one pass for each check, a stack for crossings.
#include <algorithm>
#include <vector>

#include "calls.h"
#include "card.h"
#include "checks.h"

namespace {

struct word {
    std::vector<bool> marked, second;
};

size_t count_points(const uint16_t *turning, size_t ends)
{
    std::vector<bool> seen(ends);
    size_t found = ends == 0;
    for (size_t h = 0; h < ends; h++) {
        found += !seen[h];
        for (size_t g = h; !seen[g]; g = turning[g])
            seen[g] = true;
    }
    return found;
}

bool joined(const uint16_t *turning, const uint8_t *marks, size_t ends)
{
    std::vector<bool> seen(ends);
    std::vector<uint16_t> queue;
    queue.reserve(ends);
    auto reach = [&](uint16_t h) {
        if (!seen[h]) {
            seen[h] = true;
            queue.push_back(h);
        }
    };
    if (ends > 0)
        reach(0);
    for (size_t i = 0; i < queue.size(); i++) {
        uint16_t h = queue[i];
        reach(turning[h]);
        if (marks[h / 2] == 1)
            reach(h ^ 1);
    }
    return queue.size() == ends;
}

// Check 7 along the tour; the pair, or 0.
uint32_t crossing(const std::vector<uint16_t> &tour, const uint8_t *marks, const std::vector<bool> &second)
{
    std::vector<uint16_t> open;
    open.reserve(tour.size());
    for (size_t p = 0; p < tour.size(); p++) {
        uint16_t e = tour[p] / 2;
        if (marks[e] == 1)
            continue;
        if (!second[p]) {
            open.push_back(e);
        } else if (open.back() == e) {
            open.pop_back();
        } else {
            uint32_t other = *(std::find(open.begin(), open.end(), e) + 1);
            uint32_t a = std::min<uint32_t>(e, other), b = std::max<uint32_t>(e, other);
            return 7 | a << 8 | b << 20;
        }
    }
    return 0;
}

size_t put(uint8_t *out, size_t at, const std::vector<bool> &bits)
{
    for (size_t i = 0; i < bits.size(); i++) {
        if (i % 8 == 0)
            out[at + i / 8] = 0;
        out[at + i / 8] |= uint8_t(bits[i] << (i % 8));
    }
    return at + (bits.size() + 7) / 8;
}

}  // namespace

extern "C" uint32_t plain_pack(const uint16_t *turning, size_t ends, const uint8_t *marks, size_t m, size_t start, uint16_t *work,
                               size_t work_length, uint8_t *out, size_t out_length, uint16_t *length)
{
    if (!lengths_fit(ends, m))
        return 1;
    if (work_length < 6 * m || out_length < LONGEST)
        return 2;
    if (m == 0 ? start != 0 : start >= ends)
        return 3;
    for (size_t h = 0; h < ends; h++)
        if (turning[h] >= ends)
            return 3;
    for (size_t e = 0; e < m; e++)
        if (marks[e] > 1)
            return 3;
    std::fill(work, work + 6 * m, uint16_t(0));
    if (repeated(turning, ends))
        return 4;
    if (!joined(turning, marks, ends))
        return 5;
    size_t n = count_points(turning, ends);
    if (size_t(std::count(marks, marks + m, 1)) > n - 1)
        return 6;
    std::vector<uint16_t> tour(ends);
    std::vector<bool> second(ends), met(m), a(ends), b[2];
    size_t h = start;
    for (size_t p = 0; p < ends; p++) {
        tour[p] = uint16_t(h);
        second[p] = met[h / 2];
        met[h / 2] = true;
        h = turning[marks[h / 2] == 1 ? h ^ 1 : h];
    }
    if (uint32_t pair = crossing(tour, marks, second))
        return pair;
    for (size_t p = 0; p < ends; p++) {
        a[p] = marks[tour[p] / 2] == 1;
        b[a[p]].push_back(second[p]);
    }
    put_header(out, m, n);
    *length = uint16_t(put(out, put(out, put(out, HEADER, a), b[1]), b[0]));
    return 0;
}
