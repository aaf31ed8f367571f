// Samples recorded by the same atomic steps as a running segment takes, as a plain C++ program writes them: the floor
// that the time of the proved program is held against.
//
//     record FORM SHARING THREADS BURSTS
//
// FORM is packed or mounted, SHARING is shared or own. Each of THREADS threads records as many samples of count 1: into
// histograms that all of them share, or into its own. It prints the least time of BURSTS bursts, in picoseconds for each
// sample of a thread.
//
// packed: all samples have one value, and each histogram takes as many as its single word can hold, so every sample is
// packed. mounted: one histogram with counts, and values that fall into its buckets in no order.

#include <algorithm>
#include <atomic>
#include <chrono>
#include <cstdint>
#include <cstdio>
#include <cstdlib>
#include <cstring>
#include <limits>
#include <memory>
#include <string_view>
#include <thread>
#include <vector>

#include "linear_histogram.h"

namespace {

using namespace plain;

constexpr Word kMostPacked = 65'535;

constexpr std::size_t kRecordWords = 48;
constexpr std::size_t kHistograms = 16;
constexpr std::size_t kValues = 4096;
constexpr std::size_t kMountedSamples = 1'000'000;

// The words that threads share.
class Segment {
public:
    explicit Segment(std::size_t size) : words_(new std::atomic<Word>[size]), size_(size) { clear(); }

    void clear() {
        for (std::size_t i = 0; i < size_; i += 1) words_[i].store(0);
    }

    std::atomic<Word>& operator[](Word at) { return words_[at]; }

private:
    std::unique_ptr<std::atomic<Word>[]> words_;
    std::size_t size_;
};

// A histogram that a recorder knows: the reference of its record and the boundaries of its buckets.
struct Known {
    Word reference;
    std::vector<std::uint32_t> boundaries;
};

// Records for one thread.
class Recorder {
public:
    Recorder(Segment& segment, Word units) : segment_(segment), units_(units) {}

    bool add(const Known& histogram, std::int32_t value, Word count) {
        if (count == 0 || units_ < count) return false;
        if (!add_to_bucket(histogram, bucket_by_halving(histogram.boundaries, value), count)) return false;
        auto amount = static_cast<std::int64_t>(std::clamp(value, 0, kMostValue)) * static_cast<std::int64_t>(count);
        if (amount != 0) segment_[histogram.reference + kSum].fetch_add(static_cast<Word>(amount));
        segment_[histogram.reference + kRedundant].fetch_add(count);
        units_ -= count;
        return true;
    }

private:
    // Packs the units into the single word, or adds them to a count if the counts are in use.
    bool add_to_bucket(const Known& histogram, std::size_t bucket, Word count) {
        auto& single = segment_[histogram.reference + kSingle];
        for (;;) {
            Word word = single.load();
            if (word >= kTop) {
                Word counts = segment_[histogram.reference + kCounts].load();
                segment_[counts + kHeader + bucket].fetch_add(count);
                return true;
            }
            Word packed = word % (Word{1} << 32);
            if (packed + count > kMostPacked) return false;
            if (word != 0 && word >> 32 != bucket) return false;
            Word next = word == 0 ? (Word{bucket} << 32) + count : word + count;
            if (single.compare_exchange_strong(word, next)) return true;
        }
    }

    Segment& segment_;
    Word units_;
};

// What a burst does: which histograms each thread knows, and how many samples it records in each of them.
struct Plan {
    std::vector<std::vector<Known>> known;
    std::size_t samples;
};

Plan plan_of(bool packed, bool shared, std::size_t threads) {
    std::size_t each = packed ? kHistograms : 1;
    Plan plan{{}, packed ? kMostPacked / (shared ? threads : 1) : kMountedSamples};
    for (std::size_t thread = 0; thread < threads; thread += 1) {
        std::vector<Known> known;
        for (std::size_t i = 0; i < each; i += 1) {
            std::size_t place = shared ? i : thread * each + i;
            known.push_back({16 + place * (kRecordWords + kHeader + 2 * kBuckets), linear()});
        }
        plan.known.push_back(std::move(known));
    }
    return plan;
}

// Stores the histograms as they are before a burst: empty, and with counts after each record if counts are to be in use.
void lay_out(Segment& segment, const Plan& plan, bool packed) {
    segment.clear();
    if (packed) return;
    for (const auto& known : plan.known) {
        for (const auto& histogram : known) {
            segment[histogram.reference + kCounts].store(histogram.reference + kRecordWords);
            segment[histogram.reference + kSingle].store(kTop);
        }
    }
}

// Unsorted values: for packed samples one value, else values of all buckets, some beyond the greatest.
std::vector<std::int32_t> values_of(bool packed) {
    std::vector<std::int32_t> values;
    std::uint32_t state = 1;
    for (std::size_t i = 0; i < kValues; i += 1) {
        state = state * 1'664'525 + 1'013'904'223;
        values.push_back(packed ? 5'000 : static_cast<std::int32_t>((state >> 8) % (kGreatest + 100)));
    }
    return values;
}

void record(Segment& segment, const std::vector<Known>& known, std::size_t samples, const std::vector<std::int32_t>& values) {
    Recorder recorder(segment, known.size() * samples);
    for (const Known& histogram : known) {
        for (std::size_t i = 0; i < samples; i += 1) {
            if (!recorder.add(histogram, values[i % kValues], 1)) std::abort();
        }
    }
}

// Picoseconds per sample of a thread.
double burst(Segment& segment, const Plan& plan, const std::vector<std::int32_t>& values) {
    auto start = std::chrono::steady_clock::now();
    std::vector<std::thread> running;
    for (std::size_t i = 1; i < plan.known.size(); i += 1) {
        running.emplace_back([&, i] { record(segment, plan.known[i], plan.samples, values); });
    }
    record(segment, plan.known[0], plan.samples, values);
    for (std::thread& thread : running) thread.join();
    std::chrono::duration<double, std::pico> took = std::chrono::steady_clock::now() - start;
    return took.count() / static_cast<double>(plan.known[0].size() * plan.samples);
}

}  // namespace

int main(int argc, char** argv) {
    if (argc != 5) {
        std::fputs("usage: record packed|mounted shared|own THREADS BURSTS\n", stderr);
        return 2;
    }
    bool packed = std::string_view(argv[1]) == "packed";
    bool shared = std::string_view(argv[2]) == "shared";
    auto threads = static_cast<std::size_t>(std::atoi(argv[3]));
    int bursts = std::atoi(argv[4]);
    Plan plan = plan_of(packed, shared, threads);
    Segment segment(1 << 20);
    std::vector<std::int32_t> values = values_of(packed);
    double best = std::numeric_limits<double>::max();
    for (int i = 0; i < bursts; i += 1) {
        lay_out(segment, plan, packed);
        best = std::min(best, burst(segment, plan, values));
    }
    std::printf("%.0f\n", best);
}
