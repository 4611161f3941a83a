// Short windows, in turns.
#include "timing.h"

#include <algorithm>
#include <chrono>
#include <cstdio>

volatile uint64_t sink;

using watch = std::chrono::steady_clock;

static double window(const task &f, size_t runs)
{
    auto from = watch::now();
    for (size_t i = 0; i < runs; i++)
        f.run();
    return std::chrono::duration<double, std::nano>(watch::now() - from).count();
}

std::vector<double> measure(const std::vector<task> &tasks)
{
    std::vector<size_t> runs;
    std::vector<double> least;
    for (const task &f : tasks) {
        size_t r = 1;
        double took = window(f, r);
        for (; took < 1e6; took = window(f, r))
            r *= took < 1e5 ? 8 : 2;
        runs.push_back(r);
        least.push_back(took / double(r));
    }
    auto from = watch::now();
    for (int round = 0; round < 15 && watch::now() - from < std::chrono::seconds(2); round++)
        for (size_t i = 0; i < tasks.size(); i++)
            least[i] = std::min(least[i], window(tasks[i], runs[i]) / double(runs[i]));
    for (size_t i = 0; i < tasks.size(); i++)
        least[i] /= double(tasks[i].count);
    return least;
}

void show_ratio(double ratio)
{
    std::printf(ratio < 1 ? " %12.2f x" : " %12.1f x", ratio);
}

void show_ratios(const std::vector<double> &times)
{
    for (size_t i = 1; i < times.size(); i++)
        show_ratio(times[i] / times[0]);
    std::printf("\n");
}
