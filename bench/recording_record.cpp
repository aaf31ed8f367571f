// Samples recorded through povundiri_recording.hpp, as record.cpp records them by plain steps.
//
//     recording_record FORM SHARING THREADS BURSTS
//     recording_record rolls MILLISECONDS
//     recording_record texts SHARDS
//     recording_record metrics COUNT
//     recording_record segments COUNT
//
// The words and what is printed are those of record.cpp. Each burst has a recording of its own, in a folder of its own. Before it, each
// thread has counted a sample, and two of each mounted histogram, whose counts are in use then; all of them begin at the same time.
//
// With `rolls` a thread counts a million samples, one of which begins a segment every MILLISECONDS. It prints, in nanoseconds, what 99.99 %
// of the samples that begin none take at most, and the slowest of the others; and then how many others there are.
//
// With `texts` as many threads have counted in 60 scales of 1 to 10,000,000 in segments of 1 MiB, each in one of its own. It prints how many
// microseconds a text for Prometheus, and a report, take at least.
//
// With `metrics` a recording in segments of 1 MiB is asked for so many new metrics. It prints how many nanoseconds the middle one takes, and
// then the middle of as many segments of that size that are made in the heap, asked for one, and dropped.
//
// With `segments` as many segments of 16 KiB are begun in a folder, which stay there. It prints how many nanoseconds the sample that begins
// one takes: the middle of the first hundred, and of the last.

#include <algorithm>
#include <atomic>
#include <chrono>
#include <cstdio>
#include <cstdlib>
#include <limits>
#include <povundiri_recording.hpp>
#include <string>
#include <string_view>
#include <thread>
#include <vector>

#include "linear_histogram.h"
#include "scratch_folder.h"

namespace {

using Clock = std::chrono::steady_clock;

constexpr std::size_t kMostPacked = 65'535, kHistograms = 16, kValues = 4096, kMountedSamples = 1'000'000;

struct Options {
    bool packed, shared;
    std::size_t threads;
};

using Worker = std::vector<povundiri::Metric>;

Worker worker_of(povundiri::Recording& recording, const Options& options, std::size_t number) {
    const std::size_t count = options.packed ? kHistograms : 1;
    Worker worker;
    if (!recording.boolean("begun").add(1)) std::abort();
    for (std::size_t i = 0; i < count; ++i) {
        const std::size_t place = options.shared ? i : number * count + i;
        worker.push_back(recording.linear("h" + std::to_string(place), plain::kLeast, plain::kGreatest, plain::kBuckets));
        if (options.packed) continue;
        if (!worker.back().add(1) || !worker.back().add(5'000)) std::abort();
    }
    return worker;
}

// Unsorted values: for packed samples one value, else values of all buckets, some beyond the greatest.
std::vector<std::int32_t> values_of(bool packed) {
    std::vector<std::int32_t> values;
    std::uint32_t state = 1;
    for (std::size_t i = 0; i < kValues; ++i) {
        state = state * 1'664'525 + 1'013'904'223;
        values.push_back(packed ? 5'000 : static_cast<std::int32_t>((state >> 8) % (plain::kGreatest + 100)));
    }
    return values;
}

void record(const Worker& worker, std::size_t samples, const std::vector<std::int32_t>& values) {
    for (const povundiri::Metric histogram : worker) {
        for (std::size_t i = 0; i < samples; ++i) {
            if (!histogram.add(values[i % kValues])) std::abort();
        }
    }
}

// Segments of as many words as those of record.cpp.
povundiri::Recording recording_in(const plain::Folder& folder) {
    povundiri::RecordingOptions options;
    options.bytes = 8 * 65'536;
    return povundiri::Recording(folder.path(), options);
}

// Picoseconds per sample of a thread.
double burst(const Options& options, const std::vector<std::int32_t>& values) {
    const plain::Folder folder;
    povundiri::Recording recording = recording_in(folder);
    const std::size_t samples = options.packed ? kMostPacked / (options.shared ? options.threads : 1) : kMountedSamples;
    std::atomic<std::size_t> waiting{0};
    Clock::time_point start;
    const auto work = [&](std::size_t number) {
        const Worker worker = worker_of(recording, options, number);
        if (++waiting == options.threads) start = Clock::now();
        while (waiting < options.threads) continue;
        record(worker, samples, values);
    };
    std::vector<std::thread> running;
    for (std::size_t i = 1; i < options.threads; ++i) running.emplace_back(work, i);
    work(0);
    for (std::thread& thread : running) thread.join();
    const std::chrono::duration<double, std::pico> took = Clock::now() - start;
    return took.count() / static_cast<double>((options.packed ? kHistograms : 1) * samples);
}

// Counts samples. Every now and then one takes nearly all units of a segment, so that the next such sample begins another segment.
void rolls(std::chrono::milliseconds apart) {
    constexpr std::uint32_t kMost = 4'290'000'000;
    const plain::Folder folder;
    povundiri::Recording recording = recording_in(folder);
    const povundiri::Metric metric = recording.linear("h", plain::kLeast, plain::kGreatest, plain::kBuckets);
    const std::vector<std::int32_t> values = values_of(false);
    std::vector<double> usual, rolling;
    auto next = Clock::now();
    for (std::size_t i = 0; i < kMountedSamples; ++i) {
        const auto start = Clock::now();
        const bool rolls_now = start >= next;
        if (!metric.add(values[i % kValues], rolls_now ? kMost : 1)) std::abort();
        const std::chrono::duration<double, std::nano> took = Clock::now() - start;
        (rolls_now ? rolling : usual).push_back(took.count());
        if (rolls_now) next = start + apart;
    }
    std::sort(usual.begin(), usual.end());
    std::printf("%.0f %.0f %zu\n", usual[usual.size() / 10'000 * 9'999], *std::max_element(rolling.begin(), rolling.end()), rolling.size());
}

// The least time of ten texts, in microseconds.
template <typename Text>
double least(const Text& text) {
    double best = std::numeric_limits<double>::max();
    for (int i = 0; i < 10; ++i) {
        const auto start = Clock::now();
        if (text().empty()) std::abort();
        best = std::min(best, std::chrono::duration<double, std::micro>(Clock::now() - start).count());
    }
    return best;
}

void texts(std::size_t shards) {
    constexpr int kScales = 60, kGreatest = 10'000'000;
    const plain::Folder folder;
    povundiri::RecordingOptions options;
    options.shards = shards;
    povundiri::Recording recording(folder.path(), options);
    std::atomic<std::size_t> waiting{0};
    const auto work = [&] {
        for (int number = 0; number < kScales; ++number) {
            const povundiri::Metric metric = recording.scale("request_" + std::to_string(number), 1, kGreatest, 5);
            for (std::int64_t value = 1; value < kGreatest; value += 1 + value / 40) {
                if (!metric.add(static_cast<std::int32_t>(value))) std::abort();
            }
        }
        ++waiting;
        while (waiting < shards) std::this_thread::yield();
    };
    std::vector<std::thread> running;
    for (std::size_t i = 0; i < shards; ++i) running.emplace_back(work);
    for (std::thread& thread : running) thread.join();
    std::printf("%.0f %.0f\n", least([&] { return recording.prometheus(); }), least([&] { return recording.report(); }));
}

double middle(std::vector<double> times) {
    std::sort(times.begin(), times.end());
    return times[times.size() / 2];
}

// How many nanoseconds each of so many calls takes.
template <typename Call>
std::vector<double> times_of(std::size_t count, const Call& call) {
    std::vector<double> times;
    for (std::size_t i = 0; i < count; ++i) {
        const auto start = Clock::now();
        call(i);
        times.push_back(std::chrono::duration<double, std::nano>(Clock::now() - start).count());
    }
    return times;
}

void metrics(std::size_t count) {
    const plain::Folder folder;
    povundiri::Recording recording(folder.path());
    std::vector<std::string> names;
    for (std::size_t i = 0; i < count; ++i) names.push_back("metric_" + std::to_string(i));
    const auto asked = times_of(count, [&](std::size_t i) { recording.linear(names[i], 1, 1000, 10); });
    const auto made = times_of(count, [&](std::size_t i) {
        povundiri::Segment segment(povundiri::shape_for(1 << 20, i + 1));
        povundiri::Recorder recorder = segment.recorder();
        if (!recorder.add(recorder.linear(names[i], 1, 1000, 10), 5)) std::abort();
    });
    std::printf("%.0f %.0f\n", middle(asked), middle(made));
}

void segments(std::size_t count) {
    constexpr std::uint32_t kMost = 4'290'000'000;
    const plain::Folder folder;
    povundiri::RecordingOptions options;
    options.bytes = 16'384;
    options.apart = 1;
    options.fold_at = UINT64_MAX;
    options.shards = 1;
    povundiri::Recording recording(folder.path(), options);
    const povundiri::Metric metric = recording.linear("h", 1, 1000, 10);
    const auto times = times_of(count, [&](std::size_t) {
        if (!metric.add(1, kMost)) std::abort();
    });
    const auto end = static_cast<std::ptrdiff_t>(std::min<std::size_t>(count, 100));
    std::printf("%.0f %.0f\n", middle({times.begin(), times.begin() + end}), middle({times.end() - end, times.end()}));
}

}  // namespace

int main(int count, char** words) {
    if (count == 3) {
        const std::string_view what(words[1]);
        const auto number = static_cast<std::size_t>(std::atoi(words[2]));
        if (what == "texts") texts(number);
        if (what == "metrics") metrics(number);
        if (what == "segments") segments(number);
        if (what == "rolls") rolls(std::chrono::milliseconds(number));
        return 0;
    }
    if (count != 5) {
        std::fputs("usage: recording_record packed|mounted shared|own THREADS BURSTS\n", stderr);
        return 2;
    }
    const Options options{std::string_view(words[1]) == "packed", std::string_view(words[2]) == "shared",
                          static_cast<std::size_t>(std::atoi(words[3]))};
    const std::vector<std::int32_t> values = values_of(options.packed);
    double best = std::numeric_limits<double>::max();
    for (int i = 0; i < std::atoi(words[4]); ++i) best = std::min(best, burst(options, values));
    std::printf("%.0f\n", best);
}
