// Looks at a running segment, and what they cost those who record in it.
//
//     look samples THREADS [PAUSE]    picoseconds for each sample of a thread; with PAUSE a further thread looks, and waits for so many
//                                     microseconds after each look
//     look segment|file|words FILE    nanoseconds for a look at a segment of 64 KiB in FILE, which four histograms were recorded in
//
// Each is the best of some turns. The samples are those of c_record.cpp: each thread has a linear histogram with counts of its own.

#include <algorithm>
#include <atomic>
#include <chrono>
#include <cstdio>
#include <cstdlib>
#include <limits>
#include <optional>
#include <string>
#include <string_view>
#include <thread>
#include <utility>
#include <vector>

#include <povundiri.hpp>

#include "linear_histogram.h"

namespace {

using Clock = std::chrono::steady_clock;

constexpr std::size_t kSamples = 2'000'000, kValues = 4096;
constexpr int kTurns = 5, kLooks = 2'000;

std::vector<std::int32_t> values() {
    std::vector<std::int32_t> values;
    std::uint32_t state = 1;
    for (std::size_t i = 0; i < kValues; ++i) {
        state = state * 1'664'525 + 1'013'904'223;
        values.push_back(static_cast<std::int32_t>((state >> 8) % (plain::kGreatest + 100)));
    }
    return values;
}

povundiri::Hist histogram(povundiri::Recorder& recorder, std::size_t number) {
    const povundiri::Hist hist = recorder.linear("h" + std::to_string(number), plain::kLeast, plain::kGreatest, plain::kBuckets);
    recorder.add_or_throw(hist, 1);
    recorder.add_or_throw(hist, 5'000);
    return hist;
}

// Picoseconds per sample of a thread. With a pause another thread looks, and waits for that long after each look.
double samples(std::size_t threads, std::optional<std::chrono::microseconds> pause) {
    static const std::vector<std::int32_t> kinds = values();
    povundiri::Segment segment(povundiri::shape_for(64 << 10));
    std::atomic<bool> done{false};
    std::thread looking;
    std::vector<std::pair<povundiri::Recorder, povundiri::Hist>> workers;
    for (std::size_t i = 0; i < threads; ++i) {
        povundiri::Recorder recorder = segment.recorder(50'000'000);
        const povundiri::Hist hist = histogram(recorder, i);
        workers.emplace_back(std::move(recorder), hist);
    }
    if (pause) looking = std::thread([&] {
        std::vector<std::uint64_t> image;
        while (!done) {
            if (segment.try_look(image) != povundiri::Status::Done) std::abort();
            if (pause->count() > 0) std::this_thread::sleep_for(*pause);
        }
    });
    const auto start = Clock::now();
    std::vector<std::thread> running;
    for (std::size_t i = 0; i < threads; ++i) running.emplace_back([worker = std::move(workers[i])]() mutable {
        for (std::size_t n = 0; n < kSamples; ++n) if (!worker.first.add(worker.second, kinds[n % kValues])) std::abort();
    });
    for (std::thread& thread : running) thread.join();
    const std::chrono::duration<double, std::pico> took = Clock::now() - start;
    done = true;
    if (looking.joinable()) looking.join();
    return took.count() / static_cast<double>(kSamples);
}

// Nanoseconds for a look.
template <typename Look>
double look(const Look& look) {
    const auto start = Clock::now();
    for (int i = 0; i < kLooks; ++i) look();
    const std::chrono::duration<double, std::nano> took = Clock::now() - start;
    return took.count() / kLooks;
}

double look_by(std::string_view way, const char* path) {
    povundiri::Opened opened = povundiri::Segment::open(path, povundiri::shape_for(64 << 10), povundiri::Policy::AdoptOrFail);
    povundiri::Recorder recorder = opened.segment.recorder();
    for (std::size_t i = 0; i < 4; ++i) histogram(recorder, i);
    std::vector<std::uint64_t> image, copy = opened.segment.look();
    const auto need = [](std::error_code fault) { if (fault) std::abort(); };
    if (way == "segment") return look([&] { need(opened.segment.try_look(image)); });
    if (way == "file") return look([&] { need(povundiri::try_look_file(path, image)); });
    return look([&] { need(povundiri::try_look(copy, image)); });
}

double measured(const std::string_view what, char** words) {
    if (what != "samples") return look_by(what, words[2]);
    std::optional<std::chrono::microseconds> pause;
    if (words[3] != nullptr) pause = std::chrono::microseconds(std::atoi(words[3]));
    return samples(static_cast<std::size_t>(std::atoi(words[2])), pause);
}

}  // namespace

int main(int count, char** words) {
    if (count < 3) {
        std::fputs("usage: look samples THREADS [PAUSE] | look segment|file|words FILE\n", stderr);
        return 2;
    }
    double best = std::numeric_limits<double>::max();
    for (int i = 0; i < kTurns; ++i) best = std::min(best, measured(words[1], words));
    std::printf("%.0f\n", best);
}
