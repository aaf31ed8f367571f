// What the programs of bench/alternatives have in common: each counts the same samples in ways of its own.
//
//     PROGRAM WAY SHARING THREADS BUCKETS SAMPLES BURSTS
//
// SHARING is shared or own. Each of THREADS threads records SAMPLES samples of count 1 in a linear histogram of BUCKETS buckets: in one that
// all of them share, or in its own. Before that it has recorded each value once. A burst lasts from when the first thread begins to when the
// last one is done. PROGRAM prints the least time of BURSTS bursts, in picoseconds for each sample of a thread. After each burst the units
// of each bucket, and the sum, are compared with what a plain loop over the values finds; if they differ, it says so, and the status is 1.
//
// A way to count is a class:
//
//     using Number = ..;                    what it takes a value as
//     explicit Way(const Plan&);            makes plan.histograms() histograms, or what they are made in
//     .. worker(std::size_t histogram);     called in the thread that records: what 'add' is called for, which returns whether it counted
//     Counted counted(std::size_t);         what a histogram has, when no thread records any more

#pragma once

#include <algorithm>
#include <atomic>
#include <chrono>
#include <cstddef>
#include <cstdint>
#include <cstdio>
#include <cstdlib>
#include <exception>
#include <limits>
#include <stdexcept>
#include <string>
#include <string_view>
#include <thread>
#include <vector>

#include "linear_histogram.h"

namespace plain {

using Clock = std::chrono::steady_clock;

inline constexpr std::size_t kValues = 4096;

struct Plan {
    bool shared;
    std::size_t threads;
    std::uint32_t buckets;
    std::size_t samples;

    std::size_t histograms() const { return shared ? 1 : threads; }
};

struct Options {
    std::string_view way;
    Plan plan;
    int bursts;
};

// What a histogram has: the units of each bucket, and the sum of the values.
struct Counted {
    std::vector<Word> units;
    std::int64_t sum;
};

// Unsorted values of all buckets, some beyond the greatest.
inline std::vector<std::int32_t> unsorted_values() {
    std::vector<std::int32_t> values;
    std::uint32_t state = 1;
    for (std::size_t i = 0; i < kValues; ++i) {
        state = state * 1'664'525 + 1'013'904'223;
        values.push_back(static_cast<std::int32_t>((state >> 8) % (kGreatest + 100)));
    }
    return values;
}

// What each histogram has after a burst.
inline Counted expected(const Plan& plan, const std::vector<std::int32_t>& values) {
    const std::vector<std::uint32_t> boundaries = linear(plan.buckets);
    Counted counted{std::vector<Word>(plan.buckets), 0};
    for (std::size_t i = 0; i < kValues; ++i) {
        const std::size_t times = 1 + plan.samples / kValues + (i < plan.samples % kValues ? 1 : 0);
        const std::size_t units = times * (plan.shared ? plan.threads : 1);
        const auto after = std::upper_bound(boundaries.begin(), boundaries.end(), static_cast<std::uint32_t>(values[i]));
        counted.units[static_cast<std::size_t>(after - boundaries.begin()) - 1] += units;
        counted.sum += values[i] * static_cast<std::int64_t>(units);
    }
    return counted;
}

// Throws if a histogram does not have what it should.
inline void compare(const Counted& came, const Counted& wanted) {
    if (came.units.size() != wanted.units.size()) throw std::runtime_error("it has other buckets");
    for (std::size_t i = 0; i < wanted.units.size(); ++i) {
        if (came.units[i] == wanted.units[i]) continue;
        const std::string units = std::to_string(came.units[i]) + " units, and should have " + std::to_string(wanted.units[i]);
        throw std::runtime_error("bucket " + std::to_string(i) + " has " + units);
    }
    if (came.sum == wanted.sum) return;
    throw std::runtime_error("the sum is " + std::to_string(came.sum) + ", and should be " + std::to_string(wanted.sum));
}

// Whether all samples were counted.
template <typename Worker, typename Number>
bool record(Worker& worker, std::size_t samples, const std::vector<Number>& values) {
    for (std::size_t i = 0; i < samples; ++i) {
        if (!worker.add(values[i % kValues])) return false;
    }
    return true;
}

// When a thread began, and when it was done.
struct Times {
    Clock::time_point begin, end;
};

// Picoseconds per sample of a thread. All threads are made for the burst, also if there is one alone: in a process that has a single thread
// glibc leaves out the locked instructions of its mutex.
template <typename Way>
double burst(const Plan& plan, const std::vector<std::int32_t>& values) {
    const std::vector<typename Way::Number> numbers(values.begin(), values.end());
    Way way(plan);
    std::vector<Times> times(plan.threads);
    std::atomic<std::size_t> missing{plan.threads};
    std::atomic<bool> all_counted{true};
    std::vector<std::thread> running;
    for (std::size_t i = 0; i < plan.threads; ++i) running.emplace_back([&, i] {
        auto&& worker = way.worker(plan.shared ? 0 : i);
        if (!record(worker, kValues, numbers)) all_counted = false;
        for (missing -= 1; missing != 0;) std::this_thread::yield();
        const Clock::time_point begin = Clock::now();
        if (!record(worker, plan.samples, numbers)) all_counted = false;
        times[i] = {begin, Clock::now()};
    });
    for (std::thread& thread : running) thread.join();
    if (!all_counted) throw std::runtime_error("a sample was not counted");
    const Counted wanted = expected(plan, values);
    for (std::size_t i = 0; i < plan.histograms(); ++i) compare(way.counted(i), wanted);
    Times all = times[0];
    for (const Times& own : times) all = {std::min(all.begin, own.begin), std::max(all.end, own.end)};
    const std::chrono::duration<double, std::pico> took = all.end - all.begin;
    return took.count() / static_cast<double>(plan.samples);
}

// Prints the least time of the bursts, and returns the status of the program.
template <typename Way>
int measure(const Options& options) try {
    const std::vector<std::int32_t> values = unsorted_values();
    double best = std::numeric_limits<double>::max();
    for (int i = 0; i < options.bursts; ++i) best = std::min(best, burst<Way>(options.plan, values));
    std::printf("%.0f\n", best);
    return 0;
} catch (const std::exception& fault) {
    std::fprintf(stderr, "%s\n", fault.what());
    return 1;
}

inline int usage() {
    std::fputs("usage: PROGRAM WAY shared|own THREADS BUCKETS SAMPLES BURSTS\n", stderr);
    return 2;
}

// What the words of the program say; no way if there are too few or too many.
inline Options options_of(int count, char** words) {
    if (count != 7) return {};
    const auto number = [words](int place) { return std::strtoul(words[place], nullptr, 10); };
    const Plan plan{std::string_view(words[2]) == "shared", number(3), static_cast<std::uint32_t>(number(4)), number(5)};
    return {words[1], plan, static_cast<int>(number(6))};
}

}  // namespace plain
