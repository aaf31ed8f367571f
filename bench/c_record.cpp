// Samples recorded through povundiri.hpp, as record.cpp records them by plain steps.
//
//     c_record FORM SHARING THREADS BURSTS
//
// The words and what is printed are those of record.cpp. Each burst has a segment of its own, whose histograms are made before it.

#include <algorithm>
#include <chrono>
#include <cstdio>
#include <cstdlib>
#include <limits>
#include <string>
#include <string_view>
#include <thread>
#include <utility>
#include <vector>

#include <povundiri.hpp>

#include "linear_histogram.h"

namespace {

constexpr std::size_t kMostPacked = 65'535, kHistograms = 16, kValues = 4096, kMountedSamples = 1'000'000;

struct Options {
    bool packed, shared;
    std::size_t threads;
};

// What one thread records with.
struct Worker {
    povundiri::Recorder recorder;
    std::vector<povundiri::Hist> histograms;
};

Worker worker_of(povundiri::Segment& segment, const Options& options, std::size_t number) {
    const std::size_t count = options.packed ? kHistograms : 1;
    Worker worker{segment.recorder(100'000'000), {}};
    for (std::size_t i = 0; i < count; ++i) {
        const std::size_t place = options.shared ? i : number * count + i;
        worker.histograms.push_back(worker.recorder.linear("h" + std::to_string(place), plain::kLeast, plain::kGreatest, plain::kBuckets));
        if (options.packed) continue;
        worker.recorder.add_or_throw(worker.histograms.back(), 1);
        worker.recorder.add_or_throw(worker.histograms.back(), 5'000);
    }
    return worker;
}

// Unsorted values: for packed samples one value, else values of all buckets, some beyond the greatest.
std::vector<std::int32_t> values_of(bool packed) {
    std::vector<std::int32_t> values;
    std::uint32_t state = 1;
    for (std::size_t i = 0; i < kValues; ++i) {
        state = state * 1'664'525 + 1'013'904'223;
        values.push_back(packed ? 5'000 : static_cast<std::int32_t>((state >> 8) % (plain::kGreatest + 100)));
    }
    return values;
}

// Each thread takes its worker, and so its handle, by value: handles next to each other would share a cache line.
void record(Worker worker, std::size_t samples, const std::vector<std::int32_t>& values) {
    for (const povundiri::Hist histogram : worker.histograms) {
        for (std::size_t i = 0; i < samples; ++i) {
            if (!worker.recorder.add(histogram, values[i % kValues])) std::abort();
        }
    }
}

// Picoseconds per sample of a thread.
double burst(const Options& options, const std::vector<std::int32_t>& values) {
    povundiri::Segment segment(povundiri::shape(65'536, 4096));
    std::vector<Worker> workers;
    for (std::size_t i = 0; i < options.threads; ++i) workers.push_back(worker_of(segment, options, i));
    const std::size_t samples = options.packed ? kMostPacked / (options.shared ? options.threads : 1) : kMountedSamples;
    const std::size_t recorded = workers[0].histograms.size() * samples;
    const auto start = std::chrono::steady_clock::now();
    std::vector<std::thread> running;
    for (std::size_t i = 1; i < options.threads; ++i) running.emplace_back([&, i] { record(std::move(workers[i]), samples, values); });
    record(std::move(workers[0]), samples, values);
    for (std::thread& thread : running) thread.join();
    const std::chrono::duration<double, std::pico> took = std::chrono::steady_clock::now() - start;
    return took.count() / static_cast<double>(recorded);
}

}  // namespace

int main(int count, char** words) {
    if (count != 5) {
        std::fputs("usage: c_record packed|mounted shared|own THREADS BURSTS\n", stderr);
        return 2;
    }
    const Options options{std::string_view(words[1]) == "packed", std::string_view(words[2]) == "shared",
                          static_cast<std::size_t>(std::atoi(words[3]))};
    const std::vector<std::int32_t> values = values_of(options.packed);
    double best = std::numeric_limits<double>::max();
    for (int i = 0; i < std::atoi(words[4]); ++i) best = std::min(best, burst(options, values));
    std::printf("%.0f\n", best);
}
