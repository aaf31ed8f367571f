// What a recording counts with, for C++17 and later: metrics of numbers and of times, timers and counters. povundiri_recording.hpp has the
// calls that make them.
//
//     const auto latency = recording.scale<std::chrono::microseconds>("request_us", 1us, 10s, 5);
//     povundiri::Timer timer(latency);                 // counts the time from here to the end of the block
//     latency.add(std::chrono::steady_clock::now() - start);
//
// Each of them is copied and used by any threads at any time, also when its Recording has ended, and throws nothing.
#ifndef POVUNDIRI_METRIC_HPP
#define POVUNDIRI_METRIC_HPP

#include <chrono>
#include <cstddef>
#include <cstdint>
#include <limits>
#include <string_view>
#include <type_traits>
#include <utility>

#include "povundiri_recording.h"
#include "povundiri_status.hpp"
#include "povundiri_time.hpp"
#include "povundiri_values.hpp"

namespace povundiri {

namespace detail {
class FamilyState;
}

// A histogram of a recording, for any thread, also after the recording has ended. One that no recording returned counts nothing, and what
// it is given is not counted as missed either.
class Metric {
public:
    constexpr Metric() noexcept = default;

    // Counts a sample: 'count' units of a value, all or none of them. False if it was missed.
    bool add(Value value, std::uint32_t count = 1) const noexcept {
        return povundiri_recording_add(recording_, number_, value.get(), count);
    }
    // A time needs a unit of time, which a metric of numbers does not have.
    template <typename Ticks, typename Period>
    bool add(std::chrono::duration<Ticks, Period>, std::uint32_t = 1) const = delete;  // make it by scale<std::chrono::microseconds>(..)

    // What the call returned that made it: Done, or why samples are missed: RefusedOtherSpec, RefusedTooLarge (povundiri_recording_hist).
    // Empty: no call did.
    Status status() const noexcept { return status_; }

private:
    friend class Recording;
    friend class detail::FamilyState;

    // Whether there is a metric.
    static bool is_made(Status status) noexcept {
        return status == Status::Done || status == Status::RefusedOtherSpec || status == Status::RefusedTooLarge;
    }

    // Asks a recording for a histogram (Recording::try_hist).
    static Status ask(povundiri_recording* recording, std::string_view name, povundiri_spec spec, Span<const std::uint32_t> values,
                      Metric& metric) noexcept {
        std::size_t number = 0;
        const auto status =
            static_cast<Status>(povundiri_recording_hist(recording, name.data(), name.size(), spec, values.data(), values.size(), &number));
        if (!is_made(status)) return status;
        metric.recording_ = recording;
        metric.number_ = number;
        metric.status_ = status;
        return status;
    }

    povundiri_recording* recording_ = nullptr;
    std::size_t number_ = 0;
    Status status_ = Status::Empty;
};

// A metric of times, in whole ticks of a unit such as std::chrono::microseconds.
template <typename Unit>
class Timed {
    static_assert(detail::is_unit<Unit>, "a unit is a duration of whole ticks, such as std::chrono::microseconds");

public:
    constexpr Timed() noexcept = default;

    // Counts a time of any duration: its whole ticks of the unit, towards zero. A negative time, and one that is not a number, counts as 0,
    // and one of more than 2,147,483,646 ticks as that. False if it was missed.
    template <typename Ticks, typename Period>
    bool add(std::chrono::duration<Ticks, Period> time, std::uint32_t count = 1) const noexcept {
        return metric_.add(ticks<Unit>(time), count);
    }
    // A number does not say its unit.
    template <typename Number, std::enable_if_t<std::is_arithmetic_v<Number>, int> = 0>
    bool add(Number, std::uint32_t = 1) const = delete;  // write what it is, as in add(std::chrono::microseconds(number))

    // As of a metric.
    Status status() const noexcept { return metric_.status(); }

    // The same histogram as a metric of numbers, each of which is a number of ticks.
    Metric metric() const noexcept { return metric_; }

private:
    friend class Recording;
    template <typename>
    friend class Family;

    explicit Timed(Metric metric) noexcept : metric_(metric) {}

    Metric metric_;
};

// Counts how long it lives, by the steady clock: once, at its end, whatever ends it.
template <typename Unit>
class Timer {
public:
    [[nodiscard]] explicit Timer(const Timed<Unit>& timed) noexcept : timed_(timed) {}
    // The one that was moved from counts nothing.
    Timer(Timer&& other) noexcept : timed_(other.timed_), start_(other.start_), counts_(std::exchange(other.counts_, false)) {}
    Timer(const Timer&) = delete;
    Timer& operator=(const Timer&) = delete;
    Timer& operator=(Timer&&) = delete;
    ~Timer() {
        if (counts_) timed_.add(Clock::now() - start_);
    }

    // It counts nothing.
    void cancel() noexcept { counts_ = false; }

private:
    using Clock = std::chrono::steady_clock;

    Timed<Unit> timed_;
    Clock::time_point start_ = Clock::now();
    bool counts_ = true;
};

// A counter: a boolean histogram that counts true alone. Each count spends a unit of a segment, which has 4,294,967,295; so what comes by
// the million, such as bytes, is better the sum of a histogram.
class Counter {
public:
    constexpr Counter() noexcept = default;

    // Counts so many, all or none of them. A negative number counts as 0, and one of more than 32 bits as their greatest. False if it was
    // missed.
    bool add() const noexcept { return add(1U); }
    template <typename Number, std::enable_if_t<std::is_integral_v<Number>, int> = 0>
    bool add(Number count) const noexcept {
        return metric_.add(true, saturated(count));
    }

    // As of a metric.
    Status status() const noexcept { return metric_.status(); }

private:
    friend class Recording;
    template <typename>
    friend class Family;

    explicit Counter(Metric metric) noexcept : metric_(metric) {}

    template <typename Number>
    static constexpr std::uint32_t saturated(Number count) noexcept {
        constexpr std::uint32_t kMost = std::numeric_limits<std::uint32_t>::max();
        if (!(count > 0)) return 0;
        const auto whole = static_cast<std::uintmax_t>(count);
        return whole < kMost ? static_cast<std::uint32_t>(whole) : kMost;
    }

    Metric metric_;
};

}  // namespace povundiri

#endif
