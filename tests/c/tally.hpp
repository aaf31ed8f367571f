// What threads have begun to count and have ended, in memory that is shared with the process that kills them.
//
// Only a thread itself writes its numbers. It adds to 'begun' before a call and to 'ended' after it, so at any moment the segment has, for
// each cell, at least what all threads have ended, and at most what they have begun.

#pragma once

#include <atomic>
#include <cstddef>
#include <cstdint>

namespace tally {

inline constexpr std::size_t kThreads = 4;

// A cell is a bucket of one of the histograms, in this order: boolean, linear, custom, sparse, those that are made on the way, and those in
// which one thread alone counts, which are boolean.
inline constexpr std::size_t kBoolean = 0, kLinear = kBoolean + 3, kCustom = kLinear + 10, kSparse = kCustom + 4;
inline constexpr std::size_t kSparseValues = 128, kMade = kSparse + kSparseValues, kMadeNames = 111, kOwn = kMade + kMadeNames;
inline constexpr std::size_t kCells = kOwn + 3 * kThreads;

struct Cell {
    std::atomic<std::uint64_t> begun, ended;
};

using Thread = Cell[kCells];

static_assert(sizeof(Cell) == 16 && std::atomic<std::uint64_t>::is_always_lock_free);

inline void grow(std::atomic<std::uint64_t>& number, std::uint64_t by) { number.store(number.load() + by); }

// Units that are begun, and ended or taken back when this ends.
class Pending {
public:
    Pending(Cell& cell, std::uint64_t units) : cell_(cell), units_(units) { grow(cell_.begun, units_); }
    Pending(const Pending&) = delete;

    void end(bool counted) {
        if (counted) {
            grow(cell_.ended, units_);
        } else {
            cell_.begun.store(cell_.begun.load() - units_);
        }
    }

private:
    Cell& cell_;
    const std::uint64_t units_;
};

}  // namespace tally
