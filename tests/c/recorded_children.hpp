// What the tests of children in a recording share: each is one program, linked with -Wl,--wrap= of the calls below. A child is a segment in
// the heap of this process, whose words are looked at like those of any other.
#pragma once

#include <array>
#include <atomic>
#include <cerrno>
#include <cstdint>
#include <cstdlib>
#include <string>
#include <utility>
#include <vector>

#include "recorded.hpp"
#include "shown_clock.hpp"

// ---- The system's calls, in place of which the tests have their own (-Wl,--wrap=) ----

// Whether the device of the folder is full, and whether that ends with the next file that is removed.
inline std::atomic<bool> device_is_full{false}, is_freed_by_removal{false};

// Which of the next allocations of this thread is refused, from 0 on; -1: none. How many were refused.
inline thread_local int until_refused = -1;
inline int refused = 0;

inline bool is_refused() {
    if (until_refused < 0 || until_refused-- > 0) return false;
    ++refused;
    return true;
}

// The recorders with which followers add at this moment, and whether two added with one at once. Nothing is ordered by these words.
inline std::array<std::atomic<povundiri_handle*>, 64> adding{};
inline std::atomic<bool> added_at_once{false};

inline std::atomic<povundiri_handle*>& begin_adding(povundiri_handle* recorder) {
    for (const auto& other : adding) {
        if (other.load(std::memory_order_relaxed) == recorder) added_at_once.store(true, std::memory_order_relaxed);
    }
    for (;;) {
        for (auto& place : adding) {
            povundiri_handle* none = nullptr;
            if (place.compare_exchange_strong(none, recorder, std::memory_order_relaxed)) return place;
        }
    }
}

extern "C" {
std::uint32_t __real_povundiri_proved_follower_merge(povundiri_handle* follower, povundiri_handle* recorder, const std::uint64_t* words,
                                                     std::size_t length, std::uint64_t most, std::uint8_t* name, std::size_t name_length,
                                                     povundiri_merge_totals* totals);
std::uint32_t __wrap_povundiri_proved_follower_merge(povundiri_handle* follower, povundiri_handle* recorder, const std::uint64_t* words,
                                                     std::size_t length, std::uint64_t most, std::uint8_t* name, std::size_t name_length,
                                                     povundiri_merge_totals* totals) {
    std::atomic<povundiri_handle*>& place = begin_adding(recorder);
    const std::uint32_t status = __real_povundiri_proved_follower_merge(follower, recorder, words, length, most, name, name_length, totals);
    place.store(nullptr, std::memory_order_relaxed);
    return status;
}

int __real_posix_fallocate(int descriptor, off_t from, off_t length);
int __wrap_posix_fallocate(int descriptor, off_t from, off_t length) {
    return device_is_full ? ENOSPC : __real_posix_fallocate(descriptor, from, length);
}

int __real_unlinkat(int folder, const char* name, int flags);
int __wrap_unlinkat(int folder, const char* name, int flags) {
    if (is_freed_by_removal.exchange(false)) device_is_full = false;
    return __real_unlinkat(folder, name, flags);
}

void* __real_malloc(std::size_t size);
void* __wrap_malloc(std::size_t size) { return is_refused() ? nullptr : __real_malloc(size); }
void* __real_calloc(std::size_t count, std::size_t size);
void* __wrap_calloc(std::size_t count, std::size_t size) { return is_refused() ? nullptr : __real_calloc(count, size); }
void* __real_realloc(void* at, std::size_t size);
void* __wrap_realloc(void* at, std::size_t size) { return is_refused() ? nullptr : __real_realloc(at, size); }
int __real_posix_memalign(void** at, std::size_t align, std::size_t size);
int __wrap_posix_memalign(void** at, std::size_t align, std::size_t size) {
    return is_refused() ? ENOMEM : __real_posix_memalign(at, align, size);
}
}

// ---- Children ----

using povundiri::Follower;
using povundiri::MergeReport;

using Words = std::vector<std::uint64_t>;

inline constexpr povundiri_spec kBoolean = {POVUNDIRI_BOOLEAN, 0, 0, 0}, kSparse = {POVUNDIRI_SPARSE, 0, 0, 0};
inline constexpr povundiri_spec kLinear = {POVUNDIRI_LINEAR, 1, 1000, 100};

// More units than anything costs that is not about units; most of those of a segment, and all of them.
inline constexpr std::uint64_t kEnough = 1'000'000'000;
inline constexpr std::uint32_t kMost = 4'000'000'000, kAll = 4'294'967'295;
inline constexpr std::uint64_t kKeys = 1'000'000;

class Child {
   public:
    explicit Child(std::uint64_t id, std::uint64_t bytes = 65'536)
        : segment_(povundiri::shape_for(bytes, id)), recorder_(segment_.recorder()) {}

    void add(const std::string& name, povundiri_spec spec, std::int32_t value, std::uint32_t count = 1) {
        HOLDS(recorder_.add(hist(name, spec), value, count));
    }

    // Takes what was counted of a histogram as a delta.
    void take(const std::string& name, povundiri_spec spec) {
        povundiri::Counts taken;
        DONE(recorder_.try_delta(hist(name, spec), taken));
    }

    Words look() { return segment_.look(); }

   private:
    povundiri::Hist hist(const std::string& name, povundiri_spec spec) {
        povundiri::Hist hist;
        DONE(recorder_.try_hist(name, spec, {}, hist));
        return hist;
    }

    povundiri::Segment segment_;
    povundiri::Recorder recorder_;
};

// A call, checked: its status, the units that it added and left, and the histogram that it names.
inline void follows(int line, Recording& recording, Follower& follower, const Words& words, Status wanted, std::uint64_t added,
                    std::uint64_t left, const std::string& name = "") {
    MergeReport report;
    check_returned(line, "try_follow", wanted, recording.try_follow(follower, words, kEnough, report));
    check(line, "added", report.added == added);
    check(line, "left", report.left == left);
    check(line, "name", report.name == name);
    check(line, "stopped", report.stopped == (name.empty() ? 0 : static_cast<std::uint32_t>(wanted)));
}
#define FOLLOWS(...) follows(__LINE__, __VA_ARGS__)

// Whether the folder has a histogram with so many units and this sum.
inline bool has(Recording& recording, const std::string& name, std::uint64_t units, std::int64_t sum) {
    const std::string text = "\n" + recording.report();
    return text.find("\n" + name + ",total," + std::to_string(units) + "," + std::to_string(sum) + "\n") != std::string::npos;
}

// So many histograms, each with two units whose buckets take a block of counts: 220 words each, by povundiri_recording.h.
inline void count_many(Child& child, int hists, std::uint32_t units = 1) {
    for (int i = 0; i < hists; ++i) {
        child.add("h" + std::to_string(i), kLinear, 5, units);
        child.add("h" + std::to_string(i), kLinear, 900, units);
    }
}

inline bool has_many(Recording& recording, int hists, std::uint64_t units = 1) {
    const std::string report = recording.report();
    for (int i = 0; i < hists; ++i) {
        if (units_in(report, "h" + std::to_string(i)) != static_cast<long long>(2 * units)) return false;
    }
    return report.find("!other") == std::string::npos;
}
