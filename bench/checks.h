// Checks 1 and 4 of the lists of a drawing, for the plain versions that are lent one. They are in a header so that no version pays for a
// call.
#ifndef CHECKS_H
#define CHECKS_H

#include <cstddef>
#include <cstdint>
#include <vector>

inline bool lengths_fit(size_t ends, size_t m)
{
    return ends % 2 == 0 && ends <= 4096 && m == ends / 2;
}

inline bool repeated(const uint16_t *turning, size_t ends)
{
    std::vector<bool> used(ends);
    for (size_t h = 0; h < ends; h++) {
        if (used[turning[h]])
            return true;
        used[turning[h]] = true;
    }
    return false;
}

#endif
