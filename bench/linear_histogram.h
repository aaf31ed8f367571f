// A linear histogram, of 50 buckets if nothing else is said, as the plain C++ programs that record samples have it.

#pragma once

#include <algorithm>
#include <cstddef>
#include <cstdint>
#include <vector>

namespace plain {

using Word = std::uint64_t;

inline constexpr Word kTop = Word{1} << 63;
inline constexpr std::int32_t kMostValue = 2'147'483'646;

// Words of a record, from where it begins.
inline constexpr Word kCounts = 8, kSingle = 9, kSum = 11, kRedundant = 13;
// Words before the payload of a block.
inline constexpr Word kHeader = 4;

inline constexpr std::uint32_t kBuckets = 50;
inline constexpr std::int32_t kLeast = 1, kGreatest = 10'000;

// Ranges of equal width, from 0 to the greatest value.
inline std::vector<std::uint32_t> linear(std::uint32_t buckets = kBuckets) {
    std::vector<std::uint32_t> boundaries{0};
    for (std::uint32_t i = 1; i < buckets; i += 1) {
        double at = (kLeast * (buckets - 1.0 - i) + kGreatest * (i - 1.0)) / (buckets - 2);
        boundaries.push_back(static_cast<std::uint32_t>(at + 0.5));
    }
    boundaries.push_back(static_cast<std::uint32_t>(kMostValue) + 1);
    return boundaries;
}

// The bucket of a value, by halving and without a branch on the value.
inline std::size_t bucket_by_halving(const std::vector<std::uint32_t>& boundaries, std::int32_t value) {
    auto clamped = static_cast<Word>(std::clamp(value, 0, kMostValue));
    std::size_t low = 0;
    for (std::size_t count = boundaries.size() - 1; count > 1;) {
        std::size_t half = count / 2;
        low += half & static_cast<std::size_t>((Word{boundaries[low + half]} - (clamped + 1)) >> 32);
        count -= half;
    }
    return low;
}

}  // namespace plain
