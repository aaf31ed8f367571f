// Samples recorded into histograms of prometheus-cpp, for as many buckets as those of record.cpp.
//
//     prometheus_record FORM SHARING THREADS BURSTS
//
// The words and what is printed are those of record.cpp; there is one FORM alone, mounted.

#include <algorithm>
#include <chrono>
#include <cstdio>
#include <cstdlib>
#include <limits>
#include <string>
#include <string_view>
#include <thread>
#include <vector>

#include <prometheus/histogram.h>
#include <prometheus/registry.h>

#include "linear_histogram.h"

namespace {

constexpr std::size_t kValues = 4096, kSamples = 1'000'000;

std::vector<double> values() {
    std::vector<double> values;
    std::uint32_t state = 1;
    for (std::size_t i = 0; i < kValues; ++i) {
        state = state * 1'664'525 + 1'013'904'223;
        values.push_back((state >> 8) % (plain::kGreatest + 100));
    }
    return values;
}

void record(prometheus::Histogram& histogram, const std::vector<double>& values) {
    for (std::size_t i = 0; i < kSamples; ++i) histogram.Observe(values[i % kValues]);
}

// Picoseconds per sample of a thread.
double burst(bool shared, std::size_t threads, const std::vector<double>& values) {
    const std::vector<std::uint32_t> boundaries = plain::linear();
    const std::vector<double> ends(boundaries.begin() + 1, boundaries.end() - 1);
    prometheus::Registry registry;
    auto& family = prometheus::BuildHistogram().Name("latency").Register(registry);
    std::vector<prometheus::Histogram*> histograms;
    for (std::size_t i = 0; i < threads; ++i) histograms.push_back(&family.Add({{"thread", std::to_string(shared ? 0 : i)}}, ends));
    const auto start = std::chrono::steady_clock::now();
    std::vector<std::thread> running;
    for (std::size_t i = 1; i < threads; ++i) running.emplace_back([&, i] { record(*histograms[i], values); });
    record(*histograms[0], values);
    for (std::thread& thread : running) thread.join();
    const std::chrono::duration<double, std::pico> took = std::chrono::steady_clock::now() - start;
    return took.count() / static_cast<double>(kSamples);
}

}  // namespace

int main(int count, char** words) {
    if (count != 5 || std::string_view(words[1]) != "mounted") {
        std::fputs("usage: prometheus_record mounted shared|own THREADS BURSTS\n", stderr);
        return 2;
    }
    const std::vector<double> observed = values();
    double best = std::numeric_limits<double>::max();
    for (int i = 0; i < std::atoi(words[4]); ++i) {
        best = std::min(best, burst(std::string_view(words[2]) == "shared", static_cast<std::size_t>(std::atoi(words[3])), observed));
    }
    std::printf("%.0f\n", best);
}
