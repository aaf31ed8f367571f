// Adds of one actor, one event a step, as a plain C++ program writes them: the floor that the time of the proved program is
// held against.
//
//     step ADDS TURNS
//
// The actor adds ADDS samples of count 1 to a histogram whose counts are in use, and keeps an entry of each. It prints the
// least times of TURNS turns, in picoseconds an add: of all adds, of the first tenth of them, and of the last.

#include <algorithm>
#include <array>
#include <chrono>
#include <cstdint>
#include <cstdio>
#include <cstdlib>
#include <limits>
#include <string>
#include <vector>

#include "linear_histogram.h"

namespace {

using namespace plain;

constexpr Word kRecord = 16, kRecordWords = 16;
constexpr std::size_t kWords = 1024, kParts = 10;

// The bucket of a value.
std::size_t bucket_of(const std::vector<std::uint32_t>& boundaries, std::int32_t value) {
    auto clamped = static_cast<std::uint32_t>(std::clamp(value, 0, kMostValue));
    return static_cast<std::size_t>(std::upper_bound(boundaries.begin(), boundaries.end(), clamped) - boundaries.begin()) - 1;
}

// What a sample counts.
struct Entry {
    std::string name;
    std::int32_t key;
    Word units;
    std::int64_t amount;
};

enum class Stage { loading_single, loading_counts, counting, summing, noting };

// A segment with one actor, whose add continues by one event a step.
class World {
public:
    World() : words_(kWords), boundaries_(linear()) {
        words_[kRecord + kCounts] = kRecord + kRecordWords;
        words_[kRecord + kSingle] = kTop;
    }

    void begin(std::int32_t value, Word units) {
        bucket_ = bucket_of(boundaries_, value);
        units_ = units;
        amount_ = static_cast<std::int64_t>(std::clamp(value, 0, kMostValue)) * static_cast<std::int64_t>(units);
        entries_.push_back({"H", static_cast<std::int32_t>(boundaries_[bucket_]), units_, amount_});
        stage_ = Stage::loading_single;
    }

    // Whether the add continues.
    bool step() {
        begun_ = entries_.size();
        switch (stage_) {
        case Stage::loading_single:
            if (words_[kRecord + kSingle] < kTop) std::abort();
            stage_ = Stage::loading_counts;
            return true;
        case Stage::loading_counts:
            at_ = words_[kRecord + kCounts] + kHeader + bucket_;
            stage_ = Stage::counting;
            return true;
        case Stage::counting:
            words_[at_] += units_;
            stage_ = amount_ == 0 ? Stage::noting : Stage::summing;
            return true;
        case Stage::summing:
            words_[kRecord + kSum] += static_cast<Word>(amount_);
            stage_ = Stage::noting;
            return true;
        case Stage::noting:
            words_[kRecord + kRedundant] += units_;
            ended_ = entries_.size();
            return false;
        }
        return false;
    }

    // What it counted. It is checked, so that the compiler leaves nothing out.
    Word counted() const { return words_[kRecord + kRedundant] + begun_ + ended_; }

private:
    std::vector<Word> words_;
    std::vector<std::uint32_t> boundaries_;
    std::vector<Entry> entries_;
    std::size_t begun_ = 0, ended_ = 0, bucket_ = 0;
    Word units_ = 0, at_ = 0;
    std::int64_t amount_ = 0;
    Stage stage_ = Stage::loading_single;
};

// Picoseconds an add, of each part of them.
std::array<double, kParts> turn(std::size_t adds) {
    World world;
    std::uint32_t state = 1;
    std::array<double, kParts> took{};
    for (double& part : took) {
        auto start = std::chrono::steady_clock::now();
        for (std::size_t i = 0; i < adds / kParts; i += 1) {
            state = state * 1'664'525 + 1'013'904'223;
            world.begin(static_cast<std::int32_t>((state >> 8) % (kGreatest + 100)), 1);
            while (world.step()) {}
        }
        std::chrono::duration<double, std::pico> passed = std::chrono::steady_clock::now() - start;
        part = passed.count() / static_cast<double>(adds / kParts);
    }
    if (world.counted() != 3 * (adds / kParts * kParts)) std::abort();
    return took;
}

}  // namespace

int main(int argc, char** argv) {
    if (argc != 3) {
        std::fputs("usage: step ADDS TURNS\n", stderr);
        return 2;
    }
    auto adds = static_cast<std::size_t>(std::atoi(argv[1]));
    int turns = std::atoi(argv[2]);
    double most = std::numeric_limits<double>::max();
    double all = most, first = most, last = most;
    for (int i = 0; i < turns; i += 1) {
        auto took = turn(adds);
        double sum = 0;
        for (double part : took) sum += part;
        all = std::min(all, sum / kParts);
        first = std::min(first, took.front());
        last = std::min(last, took.back());
    }
    std::printf("%.0f %.0f %.0f\n", all, first, last);
}
