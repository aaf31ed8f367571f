// What the calls of povundiri.hpp and povundiri_images.hpp take and return: shapes, spans, values, counts. Both include it.
#ifndef POVUNDIRI_VALUES_HPP
#define POVUNDIRI_VALUES_HPP

#include <algorithm>
#include <cstddef>
#include <cstdint>
#include <initializer_list>
#include <limits>
#include <memory>
#include <new>
#include <string>
#include <string_view>
#include <type_traits>
#include <utility>

#include "povundiri.h"
#include "povundiri_status.hpp"
#include "povundiri_time.hpp"

namespace povundiri {

using Shape = povundiri_shape;
using Room = povundiri_room;
using Item = povundiri_item;
using Count = povundiri_count;

inline constexpr std::uint64_t kMovingVersion = 1, kFrozenVersion = 2;

constexpr Shape shape(std::uint64_t size, std::uint64_t page, std::uint64_t id = 0, std::size_t cursors = 0,
                      std::uint64_t version = kFrozenVersion) noexcept {
    return {size, page, id, cursors, version};
}

// The shape of a segment in 'bytes' bytes, with a page and a version that are chosen here; the id is the caller's. It has as few pages as
// hold these bytes if a page has at most 4,096 words, all of one size, which is a multiple of 16 words; so it has at most 'bytes', and less
// than 16 words for each page are left over. The shape is valid from 512 bytes to 8,388,608 (8 MiB); 'create' and 'open' refuse others with
// OpenBadShape. From 32,768 bytes on, a histogram of 1,000 buckets fits in a page; below that a page is the whole segment.
constexpr Shape shape_for(std::uint64_t bytes, std::uint64_t id = 0, std::size_t cursors = 0) noexcept {
    const std::uint64_t words = bytes / 8, pages = words / 4096 + (words % 4096 != 0);
    const std::uint64_t page = pages == 0 ? 0 : words / pages / 16 * 16;
    return shape(words > 1'048'576 ? words : pages * page, page, id, cursors);
}

// ---- Arguments and results ----

// Contiguous elements, borrowed for a call: of a vector, an array, a list in braces.
template <typename T>
class Span {
public:
    constexpr Span() noexcept = default;
    constexpr Span(T* data, std::size_t size) noexcept : data_(data), size_(size) {}
    constexpr Span(std::initializer_list<std::remove_const_t<T>> list) noexcept : size_(list.size()) { data_ = list.begin(); }

    template <typename From, typename = std::enable_if_t<std::is_convertible_v<decltype(std::declval<From&>().data()), T*>>>
    constexpr Span(From&& from) noexcept : data_(from.data()), size_(from.size()) {}

    template <std::size_t N>
    constexpr Span(T (&array)[N]) noexcept : data_(array), size_(N) {}

    constexpr T* data() const noexcept { return data_; }
    constexpr std::size_t size() const noexcept { return size_; }
    constexpr bool empty() const noexcept { return size_ == 0; }
    constexpr T* begin() const noexcept { return data_; }
    constexpr T* end() const noexcept { return data_ + size_; }
    constexpr T& operator[](std::size_t place) const noexcept { return data_[place]; }

private:
    T* data_ = nullptr;
    std::size_t size_ = 0;
};

// The value of a sample: any integer. What 32 bits do not hold becomes the nearest that they do. Of a time it is the number of ticks of a
// unit: povundiri::ticks<std::chrono::microseconds>(time).
class Value {
public:
    template <typename Number, std::enable_if_t<std::is_integral_v<Number>, int> = 0>
    constexpr Value(Number number) noexcept : value_(saturated(number)) {}

    constexpr std::int32_t get() const noexcept { return value_; }

private:
    static constexpr std::int32_t kLeast = std::numeric_limits<std::int32_t>::min(), kGreatest = std::numeric_limits<std::int32_t>::max();

    template <typename Number>
    static constexpr std::int32_t saturated(Number number) noexcept {
        static_assert(sizeof(Number) <= sizeof(std::intmax_t));
        if constexpr (std::is_signed_v<Number>) {
            return static_cast<std::int32_t>(std::clamp<std::intmax_t>(number, kLeast, kGreatest));
        } else {
            return static_cast<std::int32_t>(std::min<std::uintmax_t>(number, static_cast<std::uintmax_t>(kGreatest)));
        }
    }

    std::int32_t value_;
};

// A histogram, for the recorder that returned it: for all others it is Unknown. One that no recorder returned is Unknown for all.
class Hist {
public:
    constexpr Hist() noexcept = default;

private:
    friend class Recorder;

    std::size_t number_ = 0;
    std::uint64_t tag_ = 0;
};

// What a delta or a snapshot fills: keys with their units, ascending; the sum; and of a snapshot the units, counted once more. It keeps its
// room, so a caller that fills one again and again asks for memory once.
class Counts {
public:
    Counts() noexcept = default;
    Counts(Counts&& other) noexcept
        : room_(std::move(other.room_)), size_(std::exchange(other.size_, 0)), totals_(std::exchange(other.totals_, povundiri_totals{})) {}
    Counts& operator=(Counts&& other) noexcept {
        room_ = std::move(other.room_);
        size_ = std::exchange(other.size_, 0);
        totals_ = std::exchange(other.totals_, povundiri_totals{});
        return *this;
    }

    Span<const Count> units() const noexcept { return {room_.get(), totals_.length}; }
    std::int64_t sum() const noexcept { return totals_.sum; }
    std::uint64_t redundant() const noexcept { return totals_.redundant; }

private:
    friend class Recorder;

    // If the call was not done, this is unchanged, but may have more room.
    template <typename Call>
    Status filled(const Call& call) noexcept {
        while (true) {
            povundiri_totals totals{};
            const auto status = static_cast<Status>(call(room_.get(), size_, &totals));
            if (status == Status::Done) totals_ = totals;
            if (status != Status::Short) return status;
            std::unique_ptr<Count[]> larger(new (std::nothrow) Count[totals.length]);
            if (larger == nullptr) return Status::NoMemory;
            std::copy_n(room_.get(), totals_.length, larger.get());
            room_ = std::move(larger);
            size_ = totals.length;
        }
    }

    std::unique_ptr<Count[]> room_;
    std::size_t size_ = 0;
    povundiri_totals totals_{};
};

// ---- Details: no part of the interface ----

namespace detail {

inline void need(Status status, const char* call) {
    if (status != Status::Done) raise(status, call);
}

inline void need(Status status, const char* call, std::string_view name) {
    if (status != Status::Done) raise(status, std::string(call).append(" \"").append(name).append("\""));
}

// The argument is a number: 'recorder, lease 1000'.
inline void need(Status status, const char* call, std::uint64_t number) {
    if (status != Status::Done) raise(status, std::string(call).append(" ").append(std::to_string(number)));
}

// Calls with an array and the length that is needed until it is long enough: in between another thread may have put more there.
template <typename Array, typename Call>
Status filled(Array& array, const Call& call) {
    while (true) {
        std::size_t needed = 0;
        const auto status = static_cast<Status>(call(array.data(), array.size(), &needed));
        if (status != Status::Done && status != Status::Short) return status;
        array.resize(needed);
        if (status == Status::Done) return status;
    }
}

}  // namespace detail

}  // namespace povundiri

#endif
