// Times as values of samples, for C++17 and later: how many whole ticks of a unit, such as std::chrono::microseconds, a duration has, and
// which unit of time the name of a histogram says. povundiri_metric.hpp has the metrics that count times.
#ifndef POVUNDIRI_TIME_HPP
#define POVUNDIRI_TIME_HPP

#include <algorithm>
#include <chrono>
#include <cstdint>
#include <limits>
#include <ratio>
#include <string_view>
#include <type_traits>

namespace povundiri {

// The greatest value that a histogram with buckets counts.
inline constexpr std::int32_t kGreatestValue = 2'147'483'646;

// ---- Details: no part of the interface ----

namespace detail {

template <typename Type>
inline constexpr bool is_unit = false;
template <typename Ticks, typename Period>
inline constexpr bool is_unit<std::chrono::duration<Ticks, Period>> = std::is_integral_v<Ticks>;

// How many times 'Num' / 'Den' a number is, towards zero, and at most 'most'. Nothing on the way is greater than its type holds.
template <std::intmax_t Num, std::intmax_t Den>
constexpr std::uint32_t scaled(std::uintmax_t ticks, std::uint32_t most) noexcept {
    constexpr auto kNum = static_cast<std::uintmax_t>(Num), kDen = static_cast<std::uintmax_t>(Den);
    if constexpr (kNum == 1) {
        return static_cast<std::uint32_t>(std::min<std::uintmax_t>(ticks / kDen, most));
    } else if constexpr (kDen == 1) {
        return ticks > most / kNum ? most : static_cast<std::uint32_t>(ticks * kNum);
    } else {
        __extension__ typedef unsigned __int128 Wide;
        return static_cast<std::uint32_t>(std::min<Wide>(static_cast<Wide>(ticks) * kNum / kDen, most));
    }
}

// The whole ticks of a time, towards zero, from 0 to 'most': 0 of what is negative or not a number, and 'most' of what is more.
template <typename Unit, typename Ticks, typename Period>
constexpr std::uint32_t ticks_of(std::chrono::duration<Ticks, Period> time, std::uint32_t most) noexcept {
    static_assert(is_unit<Unit>, "a unit is a duration of whole ticks, such as std::chrono::microseconds");
    static_assert(std::is_arithmetic_v<Ticks> && sizeof(Ticks) <= sizeof(std::uintmax_t) * (std::is_floating_point_v<Ticks> ? 2 : 1));
    using Ratio = std::ratio_divide<Period, typename Unit::period>;
    if (!(time.count() > 0)) return 0;
    if constexpr (std::is_floating_point_v<Ticks>) {
        const Ticks whole = time.count() * static_cast<Ticks>(Ratio::num) / static_cast<Ticks>(Ratio::den);
        return whole >= static_cast<Ticks>(most) ? most : static_cast<std::uint32_t>(whole);
    } else {
        return scaled<Ratio::num, Ratio::den>(static_cast<std::uintmax_t>(time.count()), most);
    }
}

// What stands after the last '_' or '.' of a name before its labels, which may be a unit; empty if there is none of these.
constexpr std::string_view last_word_of(std::string_view name) noexcept {
    const std::string_view base = name.substr(0, name.find('{'));
    const std::size_t at = base.find_last_of("_.");
    return at == base.npos ? std::string_view() : base.substr(at + 1);
}

// Whether a name may be that of a metric of times in this unit: it says this one, or none.
template <typename Unit>
constexpr bool may_count_in(std::string_view name) noexcept {
    using Period = typename Unit::period;
    const std::string_view word = last_word_of(name);
    if (word == "ns") return std::ratio_equal_v<Period, std::nano>;
    if (word == "us") return std::ratio_equal_v<Period, std::micro>;
    if (word == "ms") return std::ratio_equal_v<Period, std::milli>;
    if (word == "seconds") return std::ratio_equal_v<Period, std::ratio<1>>;
    return word != "bytes" && word != "kib" && word != "mib";
}

}  // namespace detail

// ---- Values and bounds ----

// The whole ticks of a unit in a time, as the value of a sample: for recorders, whose histograms have no unit of time.
//
//     recorder.add(hist, povundiri::ticks<std::chrono::microseconds>(time));
//
// It goes towards zero. A negative time and one that is not a number are 0, and one that is greater is kGreatestValue.
template <typename Unit, typename Ticks, typename Period>
constexpr std::int32_t ticks(std::chrono::duration<Ticks, Period> time) noexcept {
    return static_cast<std::int32_t>(detail::ticks_of<Unit>(time, kGreatestValue));
}

// A bound of a metric of times: any duration whose ticks are whole ticks of the unit, so no microseconds for milliseconds. What 32 bits do
// not hold becomes the greatest that they do, which no spec takes.
template <typename Unit>
class Bound {
public:
    template <typename Ticks, typename Period, std::enable_if_t<std::is_convertible_v<std::chrono::duration<Ticks, Period>, Unit>, int> = 0>
    constexpr Bound(std::chrono::duration<Ticks, Period> time) noexcept
        : value_(detail::ticks_of<Unit>(time, std::numeric_limits<std::uint32_t>::max())) {}

    constexpr std::uint32_t get() const noexcept { return value_; }

private:
    std::uint32_t value_;
};

}  // namespace povundiri

#endif
