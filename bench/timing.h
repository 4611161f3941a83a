// How long a task takes.
#ifndef TIMING_H
#define TIMING_H

#include <cstddef>
#include <cstdint>
#include <functional>
#include <vector>

// Something to time: one run of it does `count` of what the table has a time for.
struct task {
    std::function<void()> run;
    size_t count;
};

extern volatile uint64_t sink;  // where a task leaves its answer, so that no work can be left out

// Nanoseconds for one of each: the least over many short windows. The tasks take turns, so that a busy moment of the machine
// falls on all of them, and what is compared was measured in the same run.
std::vector<double> measure(const std::vector<task> &tasks);

// One number of a table: how many times longer something takes.
void show_ratio(double ratio);

// How many times longer than the first all others take, to the end of a line of a table.
void show_ratios(const std::vector<double> &times);

#endif
