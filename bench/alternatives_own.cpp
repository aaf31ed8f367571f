// Samples counted as a program does it by itself, in the heap (alternatives.h). WAY is
//
//     atomics    an array of atomic counts, and an atomic sum, to which it adds in relaxed order
//     mutex      plain counts and a plain sum behind a mutex, which is taken when the bucket has been found
//
// Both find the bucket as record.cpp does: with the branches of std::upper_bound values in no order would take longer.

#include <atomic>
#include <cstddef>
#include <cstdint>
#include <memory>
#include <mutex>
#include <vector>

#include "alternatives.h"

namespace {

using plain::Word;

// Two cache lines, which processors may fetch together: what one thread writes is so far from what another one uses.
constexpr std::size_t kApart = 128;

// Counts, with room before and after them.
template <typename Count>
class Counts {
public:
    explicit Counts(std::size_t length) : room_(length + 2 * kRoom) {}
    Count& operator[](std::size_t place) { return room_[kRoom + place]; }

private:
    static constexpr std::size_t kRoom = kApart / sizeof(Count);

    std::vector<Count> room_;
};

class alignas(kApart) AtomicHistogram {
public:
    explicit AtomicHistogram(std::uint32_t buckets) : boundaries_(plain::linear(buckets)), counts_(buckets) {}

    bool add(std::int32_t value) {
        counts_[plain::bucket_by_halving(boundaries_, value)].fetch_add(1, std::memory_order_relaxed);
        sum_.fetch_add(value, std::memory_order_relaxed);
        return true;
    }

    plain::Counted counted() {
        plain::Counted counted{{}, sum_};
        for (std::size_t i = 0; i + 1 < boundaries_.size(); ++i) counted.units.push_back(counts_[i]);
        return counted;
    }

private:
    std::vector<std::uint32_t> boundaries_;
    Counts<std::atomic<Word>> counts_;
    alignas(kApart) std::atomic<std::int64_t> sum_{0};
};

class alignas(kApart) LockedHistogram {
public:
    explicit LockedHistogram(std::uint32_t buckets) : boundaries_(plain::linear(buckets)), counts_(buckets) {}

    bool add(std::int32_t value) {
        const std::size_t bucket = plain::bucket_by_halving(boundaries_, value);
        const std::lock_guard<std::mutex> turn(turn_);
        counts_[bucket] += 1;
        sum_ += value;
        return true;
    }

    plain::Counted counted() {
        const std::lock_guard<std::mutex> turn(turn_);
        plain::Counted counted{{}, sum_};
        for (std::size_t i = 0; i + 1 < boundaries_.size(); ++i) counted.units.push_back(counts_[i]);
        return counted;
    }

private:
    std::vector<std::uint32_t> boundaries_;
    Counts<Word> counts_;
    alignas(kApart) std::mutex turn_;
    std::int64_t sum_ = 0;
};

// Histograms of one of these classes.
template <typename Histogram>
class Own {
public:
    using Number = std::int32_t;

    explicit Own(const plain::Plan& plan) {
        for (std::size_t i = 0; i < plan.histograms(); ++i) histograms_.push_back(std::make_unique<Histogram>(plan.buckets));
    }

    Histogram& worker(std::size_t histogram) { return *histograms_[histogram]; }
    plain::Counted counted(std::size_t histogram) { return histograms_[histogram]->counted(); }

private:
    std::vector<std::unique_ptr<Histogram>> histograms_;
};

}  // namespace

int main(int count, char** words) {
    const plain::Options options = plain::options_of(count, words);
    if (options.way == "atomics") return plain::measure<Own<AtomicHistogram>>(options);
    return options.way == "mutex" ? plain::measure<Own<LockedHistogram>>(options) : plain::usage();
}
