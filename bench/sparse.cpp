// Samples of values that a sparse histogram has, recorded by a plain C++ program with a hash map of the samples that it visited.
//
//     sparse VALUES BURSTS
//
// The histogram has VALUES values. It prints the least time of BURSTS bursts of a million samples of count 1, with these values in no
// order, in picoseconds per sample.

#include <algorithm>
#include <chrono>
#include <cstdint>
#include <cstdio>
#include <cstdlib>
#include <limits>

#include "plain_segment.h"

namespace {

constexpr std::uint32_t kSamples = 1'000'000;

// The value of a number. No two numbers have the same.
std::int64_t value_of(std::uint32_t number) { return static_cast<std::int32_t>(number * 2'654'435'761U); }

void add(plain::Recorder& recorder, std::size_t place, std::uint32_t number) {
    if (recorder.add(place, value_of(number), 1) != nullptr) std::abort();
}

double burst(std::uint32_t values) {
    plain::Segment segment(1 << 20, 1 << 16, 7);
    plain::Recorder recorder(segment, plain::kMostUnits);
    std::size_t place = 0;
    if (recorder.hist("values", plain::sparse_spec(), place) != nullptr) std::abort();
    for (std::uint32_t number = 0; number < values; number += 1) add(recorder, place, number);
    const auto start = std::chrono::steady_clock::now();
    std::uint32_t state = 1;
    for (std::uint32_t i = 0; i < kSamples; i += 1) {
        state = state * 1'664'525 + 1'013'904'223;
        add(recorder, place, (state >> 4) % values);
    }
    const std::chrono::duration<double, std::pico> took = std::chrono::steady_clock::now() - start;
    return took.count() / kSamples;
}

}  // namespace

int main(int count, char** arguments) {
    const int values = count == 3 ? std::atoi(arguments[1]) : 0;
    if (values < 1) {
        std::fputs("usage: sparse VALUES BURSTS\n", stderr);
        return 2;
    }
    double best = std::numeric_limits<double>::max();
    for (int i = 0; i < std::atoi(arguments[2]); i += 1) best = std::min(best, burst(static_cast<std::uint32_t>(values)));
    std::printf("%.0f\n", best);
}
