// Families of metrics that differ in the values of their labels, for C++17 and later. povundiri_recording.hpp has the calls that make them.
//
//     const auto latency = recording.scale_family<std::chrono::microseconds>("http_us", {"route", "method"}, 1us, 10s, 5, 50);
//     latency.with({route, "GET"}).add(time);                  // any thread; never throws; no lock once this metric is there
#ifndef POVUNDIRI_FAMILY_HPP
#define POVUNDIRI_FAMILY_HPP

#include <algorithm>
#include <array>
#include <atomic>
#include <cstddef>
#include <cstdint>
#include <functional>
#include <memory>
#include <mutex>
#include <new>
#include <string>
#include <string_view>
#include <utility>
#include <vector>

#include "povundiri_file.h"
#include "povundiri_metric.hpp"
#include "povundiri_names.hpp"

namespace povundiri {

// ---- Details: no part of the interface ----

namespace detail {

// Metrics by their names: none of them leaves. To find one takes no lock.
class MetricTable {
public:
    explicit MetricTable(std::size_t most)
        : most_(most), slots_(new std::atomic<const Member*>[slots_for(most)]()), last_(slots_for(most) - 1) {}
    MetricTable(const MetricTable&) = delete;
    MetricTable& operator=(const MetricTable&) = delete;
    ~MetricTable() {
        for (std::size_t at = 0; at <= last_; ++at) delete slots_[at].load(std::memory_order_relaxed);
    }

    std::size_t size() const noexcept { return size_.load(std::memory_order_acquire); }
    // After this is true, each that is there is found.
    bool is_full() const noexcept { return size() >= most_; }

    const Metric* find(std::string_view name) const noexcept {
        const Member* const member = place_of(name).member;
        return member != nullptr ? &member->metric : nullptr;
    }

    // Adds one that is not there; null if there is no memory. One thread at a time does so.
    template <typename Asked>
    const Metric* add(std::string_view name, const Asked& asked) noexcept {
        std::unique_ptr<Member> member(new (std::nothrow) Member);
        if (member == nullptr || !asked(member->metric)) return nullptr;
        member->size = name.copy(member->name.data(), member->name.size());
        const Metric* const added = &member->metric;
        slots_[place_of(name).slot].store(member.release(), std::memory_order_release);
        size_.store(size() + 1, std::memory_order_release);
        return added;
    }

private:
    struct Member {
        Metric metric;
        std::size_t size = 0;
        std::array<char, NameWriter::kMost> name{};
    };

    // At least half of them stay empty.
    static std::size_t slots_for(std::size_t most) noexcept {
        std::size_t slots = 2;
        while (slots < 2 * most) slots *= 2;
        return slots;
    }

    struct Place {
        std::size_t slot;
        const Member* member;
    };

    // The slot that has the name, or the empty one for it.
    Place place_of(std::string_view name) const noexcept {
        std::size_t at = std::hash<std::string_view>()(name) & last_;
        while (true) {
            const Member* const member = slots_[at].load(std::memory_order_acquire);
            if (member == nullptr || name == std::string_view(member->name.data(), member->size)) return {at, member};
            at = (at + 1) & last_;
        }
    }

    const std::size_t most_;
    const std::unique_ptr<std::atomic<const Member*>[]> slots_;
    const std::size_t last_;
    std::atomic<std::size_t> size_{0};
};

// What the copies of a family share.
class FamilyState {
public:
    // A segment has no room for more histograms.
    static constexpr std::size_t kMost = 65'536;

    FamilyState(povundiri_recording* recording, std::string_view base, Span<const std::string_view> keys, povundiri_spec spec,
                std::size_t most)
        : recording_(recording), spec_(spec), metrics_(std::min(most, kMost)) {
        for (std::size_t at = 0; at < keys.size(); ++at) places_.push_back(at);
        std::sort(places_.begin(), places_.end(), [&](std::size_t one, std::size_t other) { return keys[one] < keys[other]; });
        for (const std::size_t place : places_) {
            befores_.push_back((befores_.empty() ? std::string(base) + "{" : ";") + std::string(keys[place]) + "=");
        }
    }

    // The metric for others, whose name says that the base and the keys make one. It comes before all calls of 'with'.
    void set_other(Metric other) noexcept { other_ = other; }

    std::size_t size() const noexcept { return metrics_.size(); }

    Metric with(Span<const std::string_view> values) noexcept {
        if (values.size() != places_.size() || is_other(values)) return other_;
        const NameWriter name = named(values);
        if (!name.is_name()) return other_;
        const bool was_full = metrics_.is_full();
        if (const Metric* const there = metrics_.find(name.text())) return *there;
        if (was_full || generation_ != povundiri_fork_number) return other_;
        const std::lock_guard<std::mutex> turn(turn_);
        if (const Metric* const there = metrics_.find(name.text())) return *there;
        if (metrics_.is_full()) return other_;
        const Metric* const added = metrics_.add(
            name.text(), [&](Metric& metric) { return Metric::is_made(Metric::ask(recording_, name.text(), spec_, {}, metric)); });
        return added != nullptr ? *added : other_;
    }

private:
    static bool is_other(Span<const std::string_view> values) noexcept {
        return std::all_of(values.begin(), values.end(), [](std::string_view value) { return value == kOther; });
    }

    NameWriter named(Span<const std::string_view> values) const noexcept {
        NameWriter writer;
        for (std::size_t at = 0; at < places_.size(); ++at) {
            writer.put_known(befores_[at]);
            writer.put_value(values[places_[at]], at + 1 == places_.size());
        }
        return writer;
    }

    povundiri_recording* const recording_;
    std::vector<std::size_t> places_;   // of the keys as they were given, by which they ascend
    std::vector<std::string> befores_;  // what a name has before each value: the base and a brace or a semicolon, the key, an equals sign
    const povundiri_spec spec_;
    const std::uint64_t generation_ = povundiri_fork_generation();
    Metric other_;
    MetricTable metrics_;
    std::mutex turn_;  // for what is added; in a child of fork nobody takes it
};

}  // namespace detail

// Metrics of type 'M' with one base, one spec and the same keys. It is copied and used by any threads at any time, also when its Recording
// has ended. One that no recording returned has no metrics: 'with' returns one that counts nothing.
template <typename M>
class Family {
public:
    Family() noexcept = default;

    // The metric with these values, in the order of the keys; it is made when it is first asked for. In its place comes the metric whose
    // values are all "_other": where the family has as many as it may have beside that one, or there is no memory; for a value that no name
    // can have; for more or fewer values than there are keys; and for a new metric in a child of fork.
    M with(Span<const std::string_view> values) const noexcept { return state_ != nullptr ? M(state_->with(values)) : M(); }

    // How many metrics it has, without the one for others.
    std::size_t size() const noexcept { return state_ != nullptr ? state_->size() : 0; }

private:
    friend class Recording;

    explicit Family(std::shared_ptr<detail::FamilyState> state) noexcept : state_(std::move(state)) {}

    std::shared_ptr<detail::FamilyState> state_;
};

}  // namespace povundiri

#endif
