// Povundiri for C++17 and later: segments and recorders that end by themselves, over povundiri.h and povundiri_file.h. With it come looks,
// texts of images and sums, which are in povundiri_images.hpp.
//
//     using namespace povundiri;
//     Opened opened = Segment::open("latency.seg", shape(65'536, 4096), Policy::AdoptOrSetAside);
//     Recorder recorder = opened.segment.recorder();       // one for each thread; it joins itself when it ends
//     const Hist latency = recorder.linear("latency", 1, 1000, 50);
//     if (!recorder.add(latency, 17)) ++missed;
//
// CALLS. 'add' and 'batch' return whether they counted; they throw nothing and end no process. 'try_' calls return a Status. All others
// throw a Fault if the status is not Done, by povundiri::raise: the library has one that throws. A program that is built without exceptions
// compiles povundiri_raise.cpp into itself, with the same flag; that one ends the process instead. Files with and without exceptions may be
// in one program: nothing here depends on it. Besides, calls that fill a vector or a string may throw std::bad_alloc.
//
// THREADS. A recorder is used by one thread at a time, and goes to another in order. A segment is shared: its calls come from any threads,
// as long as none moves, assigns or ends that object meanwhile. 'recorder', 'join', 'lend', 'units', 'outstanding' and 'close' take its
// mutex; so does an 'add' that has to borrow units, once for a lease of them, and a recorder's end. Nothing else waits.
//
// ENDS. The words of a segment, and its file if there is one, live until the Segment and all its recorders have ended, in any order: also of
// statics and of thread_locals. A recorder that ends gives back its place and its units. std::quick_exit, _exit and a kill end no recorder:
// what was counted is in the file, and the next process has the other units again.
//
// FORKS. A child of fork has no part in the segments and recorders of its parent: their calls return Forked there, 'add' false, and when
// they end, nothing is touched, locked or freed. So open after daemon(3), and in each process of a server that forks its workers. _Fork
// and a raw clone(2) are not seen: such a child makes no call.
//
// Of what povundiri.h needs from its caller, these classes need pointers, room and process. They keep handles, and turns of the segment.
#ifndef POVUNDIRI_HPP
#define POVUNDIRI_HPP

#include <algorithm>
#include <atomic>
#include <chrono>
#include <cstddef>
#include <cstdint>
#include <limits>
#include <mutex>
#include <new>
#include <optional>
#include <string>
#include <string_view>
#include <system_error>
#include <utility>
#include <vector>

#include "povundiri.h"
#include "povundiri_file.h"
#include "povundiri_images.hpp"
#include "povundiri_merge.h"
#include "povundiri_status.hpp"
#include "povundiri_values.hpp"

namespace povundiri {

// ---- Details: no part of the interface ----

namespace detail {

// A number that no recorder of this process had before, and no histogram that is new has.
inline std::uint64_t new_tag() noexcept {
    static std::atomic<std::uint64_t> last{0};
    return last.fetch_add(1, std::memory_order_relaxed) + 1;
}

// What a segment and its recorders share. It ends with the last of them.
struct State {
    State() noexcept = default;
    State(const State&) = delete;
    State& operator=(const State&) = delete;
    ~State() {
        if (is_forked()) return;
        povundiri_drop(&segment);
        povundiri_file_close(&file);
    }

    bool is_forked() const noexcept { return generation != povundiri_fork_number; }

    const std::uint64_t generation = povundiri_fork_generation();
    std::atomic<std::size_t> owners{1};
    Shape shape{};
    std::mutex turn;  // for calls with the handle that follows; after a fork the child never takes it
    povundiri_handle segment{};
    povundiri_file file{};
};

// One of the owners of a state.
class Shared {
public:
    Shared() noexcept = default;
    Shared(const Shared& other) noexcept : state_(other.state_) {
        if (state_ != nullptr) state_->owners.fetch_add(1, std::memory_order_relaxed);
    }
    Shared(Shared&& other) noexcept : state_(std::exchange(other.state_, nullptr)) {}
    Shared& operator=(Shared other) noexcept {
        std::swap(state_, other.state_);
        return *this;
    }
    ~Shared() {
        if (state_ != nullptr && state_->owners.fetch_sub(1, std::memory_order_acq_rel) == 1) delete state_;
    }

    // Of a new state; none if there is no memory for it, or to watch for forks.
    static Shared made() noexcept {
        Shared shared;
        shared.state_ = new (std::nothrow) State;
        if (shared.state_ != nullptr && shared.state_->generation == 0) shared = Shared();
        return shared;
    }

    State* get() const noexcept { return state_; }
    State* operator->() const noexcept { return state_; }
    explicit operator bool() const noexcept { return state_ != nullptr; }

    // Whether calls may be made; else the reason.
    Status usable() const noexcept {
        if (state_ == nullptr) return Status::Empty;
        return state_->is_forked() ? Status::Forked : Status::Done;
    }

private:
    State* state_ = nullptr;
};

}  // namespace detail

// What a merge did (povundiri_merge.h).
using MergeReport = povundiri_merge_report;

// How many units a recorder borrows at once by default: enough for a million samples, and 256 recorders have a sixteenth of all.
inline constexpr std::uint32_t kUsualLease = 1U << 20U;

// ---- Recorders ----

// What one thread records with. It borrows units from its segment as it needs them, so 'add' succeeds until the segment itself has no units:
// at RefusedNoUnits it takes the greater of what the call needs and its lease (or half of what is left, if that is less), and everything that
// is left if even that is less. When it ends, or is assigned to, it joins its segment: its place and its units are free for others.
class Recorder {
public:
    Recorder() noexcept = default;
    Recorder(Recorder&& other) noexcept { take(other); }
    Recorder& operator=(Recorder&& other) noexcept {
        if (this != &other) {
            reset();
            take(other);
        }
        return *this;
    }
    ~Recorder() { reset(); }

    // Whether it can record: it was made, has not ended, and is of this process.
    explicit operator bool() const noexcept { return state_.usable() == Status::Done; }

    // Ends it: it is joined, and empty. In a forked child it is empty, and nothing else happens.
    void reset() noexcept;

    // Adds a sample: 'count' units of a value. False if it was not counted; 'try_add' returns why, and 'add_or_throw' throws that.
    bool add(Hist hist, Value value, std::uint32_t count = 1) noexcept { return try_add(hist, value, count) == Status::Done; }
    [[nodiscard]] Status try_add(Hist hist, Value value, std::uint32_t count = 1) noexcept {
        if (!is_own(hist)) return why_not();
        const auto status = static_cast<Status>(povundiri_add(&handle_, hist.number_, value.get(), count));
        if (status == Status::Done) return Status::Done;
        if (status != Status::RefusedNoUnits || !borrow(count)) return status;
        return static_cast<Status>(povundiri_add(&handle_, hist.number_, value.get(), count));
    }
    void add_or_throw(Hist hist, Value value, std::uint32_t count = 1) {
        const Status status = try_add(hist, value, count);
        if (status == Status::Done) return;
        raise(status, std::string("add, value ").append(std::to_string(value.get())).append(", count ").append(std::to_string(count)));
    }

    // A time needs a unit, which a histogram does not have.
    template <typename Ticks, typename Period>
    bool add(Hist, std::chrono::duration<Ticks, Period>, std::uint32_t = 1) = delete;  // ticks<std::chrono::microseconds>(time)
    template <typename Ticks, typename Period>
    Status try_add(Hist, std::chrono::duration<Ticks, Period>, std::uint32_t = 1) = delete;  // ticks<std::chrono::microseconds>(time)
    template <typename Ticks, typename Period>
    void add_or_throw(Hist, std::chrono::duration<Ticks, Period>, std::uint32_t = 1) = delete;  // ticks<std::chrono::microseconds>(time)

    // Adds units of values, in order, and then an amount to the sum (povundiri_batch). False if not all was counted: then only the items
    // before the first that found no room, as many as 'try_batch' puts into 'added', and nothing of the sum.
    bool batch(Hist hist, Span<const Item> items, std::int64_t sum) noexcept {
        std::size_t added = 0;
        return try_batch(hist, items, sum, added) == Status::Done;
    }
    [[nodiscard]] Status try_batch(Hist hist, Span<const Item> items, std::int64_t sum, std::size_t& added) noexcept {
        if (!is_own(hist)) return why_not();
        const auto call = [&] {
            return static_cast<Status>(povundiri_batch(&handle_, hist.number_, items.data(), items.size(), sum, &added));
        };
        const Status status = call();
        return status == Status::RefusedNoUnits && borrow(units_of(items, sum)) ? call() : status;
    }
    void batch_or_throw(Hist hist, Span<const Item> items, std::int64_t sum) {
        std::size_t added = 0;
        detail::need(try_batch(hist, items, sum, added), "batch, items", items.size());
    }

    // The histogram of a name, which is made if there is none.
    [[nodiscard]] Status try_hist(std::string_view name, povundiri_spec spec, Span<const std::uint32_t> values, Hist& hist) noexcept {
        const Status usable = state_.usable();
        if (usable != Status::Done) return usable;
        std::size_t number = 0;
        const auto status =
            static_cast<Status>(povundiri_hist(&handle_, name.data(), name.size(), spec, values.data(), values.size(), &number));
        if (status != Status::Done) return status;
        hist.number_ = number;
        hist.tag_ = tag_;
        return status;
    }
    [[nodiscard]] Status try_linear(std::string_view name, std::uint32_t minimum, std::uint32_t maximum, std::uint32_t buckets,
                                    Hist& hist) noexcept {
        return try_hist(name, {POVUNDIRI_LINEAR, minimum, maximum, buckets}, {}, hist);
    }
    [[nodiscard]] Status try_boolean(std::string_view name, Hist& hist) noexcept {
        return try_hist(name, {POVUNDIRI_BOOLEAN, 0, 0, 0}, {}, hist);
    }
    [[nodiscard]] Status try_custom(std::string_view name, Span<const std::uint32_t> values, Hist& hist) noexcept {
        return try_hist(name, {POVUNDIRI_CUSTOM, 0, 0, 0}, values, hist);
    }
    // Of a scale: for values of any size, each bucket at most 1 + 2^-bits times as far up as the one before it. povundiri_hist_scale says
    // which numbers these are, how many words its histogram takes, and that it needs a page of 2,016 words at most.
    [[nodiscard]] Status try_scale(std::string_view name, std::uint32_t minimum, std::uint32_t maximum, std::uint32_t bits,
                                   Hist& hist) noexcept {
        return try_hist(name, {POVUNDIRI_SCALE, minimum, maximum, bits}, {}, hist);
    }
    // Of the values from 0 to n - 1, each with a bucket of its own, and one more for n and above: linear from 1 to n with n + 1 buckets. n is
    // from 2 to 999. Below that it is SpecBadMax, above it SpecTooMany or SpecBadMax.
    [[nodiscard]] Status try_enumeration(std::string_view name, std::uint32_t n, Hist& hist) noexcept {
        return try_linear(name, 1, n, n + 1, hist);
    }
    [[nodiscard]] Status try_sparse(std::string_view name, Hist& hist) noexcept {
        return try_hist(name, {POVUNDIRI_SPARSE, 0, 0, 0}, {}, hist);
    }
    Hist linear(std::string_view name, std::uint32_t minimum, std::uint32_t maximum, std::uint32_t buckets) {
        Hist hist;
        detail::need(try_linear(name, minimum, maximum, buckets, hist), "hist", name);
        return hist;
    }
    Hist boolean(std::string_view name) {
        Hist hist;
        detail::need(try_boolean(name, hist), "hist", name);
        return hist;
    }
    Hist custom(std::string_view name, Span<const std::uint32_t> values) {
        Hist hist;
        detail::need(try_custom(name, values, hist), "hist", name);
        return hist;
    }
    Hist scale(std::string_view name, std::uint32_t minimum, std::uint32_t maximum, std::uint32_t bits) {
        Hist hist;
        detail::need(try_scale(name, minimum, maximum, bits, hist), "hist", name);
        return hist;
    }
    Hist enumeration(std::string_view name, std::uint32_t n) {
        Hist hist;
        detail::need(try_enumeration(name, n, hist), "hist", name);
        return hist;
    }
    Hist sparse(std::string_view name) {
        Hist hist;
        detail::need(try_sparse(name, hist), "hist", name);
        return hist;
    }

    // What no delta took before, and what a histogram has. A caller that asks again and again keeps the counts, and so their room.
    [[nodiscard]] Status try_delta(Hist hist, Counts& taken) noexcept { return counted(povundiri_delta, hist, taken); }
    [[nodiscard]] Status try_snapshot(Hist hist, Counts& seen) noexcept { return counted(povundiri_snapshot, hist, seen); }
    Counts delta(Hist hist) {
        Counts taken;
        detail::need(try_delta(hist, taken), "delta");
        return taken;
    }
    Counts snapshot(Hist hist) {
        Counts seen;
        detail::need(try_snapshot(hist, seen), "snapshot");
        return seen;
    }

    [[nodiscard]] Status try_set_corrupt() noexcept {
        const Status usable = state_.usable();
        return usable != Status::Done ? usable : static_cast<Status>(povundiri_set_corrupt(&handle_));
    }
    void set_corrupt() { detail::need(try_set_corrupt(), "set_corrupt"); }

    // How many entries each of its three indexes may have, for programs with little memory (povundiri.h). Calls take longer, and return the
    // same.
    [[nodiscard]] Status try_limit_indexes(std::size_t entries) noexcept {
        const Status usable = state_.usable();
        return usable != Status::Done ? usable : static_cast<Status>(povundiri_limit_indexes(&handle_, entries));
    }
    void limit_indexes(std::size_t entries) { detail::need(try_limit_indexes(entries), "limit_indexes, entries", entries); }

    [[nodiscard]] Status try_records(std::vector<std::uint64_t>& records) {
        const Status usable = state_.usable();
        if (usable != Status::Done) return usable;
        return detail::filled(records, [this](std::uint64_t* data, std::size_t size, std::size_t* needed) {
            return povundiri_records(&handle_, data, size, needed);
        });
    }
    std::vector<std::uint64_t> records() {
        std::vector<std::uint64_t> records;
        detail::need(try_records(records), "records");
        return records;
    }

    // Adds what no delta took of the image of a dead segment, once (povundiri_merge). It borrows the units that this costs, so it is refused
    // for units before anything is added. An image that reads as more than 'most_keys' keys is TooManyKeys. A status that comes with a
    // 'report.name' is that of the histogram which stopped it: what came before that is added.
    [[nodiscard]] Status try_merge(Span<const std::uint64_t> words, std::uint64_t most_keys, MergeReport& report) noexcept {
        report = {};
        report.size = sizeof report;
        const Status usable = state_.usable();
        if (usable != Status::Done) return usable;
        const auto call = [&] {
            return static_cast<Status>(povundiri_merge(&handle_, words.data(), words.size(), most_keys, &report));
        };
        const Status status = call();
        return status == Status::RefusedNoUnits && report.name[0] == '\0' && borrow(report.cost) ? call() : status;
    }
    MergeReport merge(Span<const std::uint64_t> words, std::uint64_t most_keys) {
        MergeReport report;
        const Status status = try_merge(words, most_keys, report);
        if (report.name[0] != '\0') detail::need(status, "merge, histogram", report.name);
        detail::need(status, "merge, words", words.size());
        return report;
    }

    // ListEnds, or no record, if there is none after the cursor yet.
    [[nodiscard]] Status try_next_shared(std::size_t cursor, std::uint64_t& record) noexcept {
        const Status usable = state_.usable();
        return usable != Status::Done ? usable : static_cast<Status>(povundiri_next_shared(&handle_, cursor, &record));
    }
    std::optional<std::uint64_t> next_shared(std::size_t cursor) {
        std::uint64_t record = 0;
        const Status status = try_next_shared(cursor, record);
        if (status == Status::ListEnds) return std::nullopt;
        detail::need(status, "next_shared, cursor", cursor);
        return record;
    }

    // The units that it has borrowed and not spent.
    [[nodiscard]] Status try_units(std::uint32_t& units) const noexcept {
        const Status usable = state_.usable();
        return usable != Status::Done ? usable : static_cast<Status>(povundiri_units(&handle_, &units));
    }
    std::uint32_t units() const {
        std::uint32_t units = 0;
        detail::need(try_units(units), "units");
        return units;
    }

private:
    friend class Follower;
    friend class Segment;

    // The tag of an empty recorder. No histogram has it.
    static constexpr std::uint64_t kNone = std::numeric_limits<std::uint64_t>::max();

    using Counting = std::uint32_t (*)(povundiri_handle*, std::size_t, povundiri_count*, std::size_t, povundiri_totals*);

    // Reads only this object itself: what it shares is next to the mutex, which others write.
    bool is_own(Hist hist) const noexcept { return hist.tag_ == tag_ && generation_ == povundiri_fork_number; }

    // Why a call with a histogram of another recorder is refused.
    [[gnu::cold]] Status why_not() const noexcept {
        const Status usable = state_.usable();
        return usable != Status::Done ? usable : Status::Unknown;
    }

    Status counted(Counting call, Hist hist, Counts& counts) noexcept {
        if (!is_own(hist)) return why_not();
        return counts.filled(
            [&](Count* data, std::size_t size, povundiri_totals* totals) { return call(&handle_, hist.number_, data, size, totals); });
    }

    // The units that a batch costs: those of its items, or the size of the sum divided by 2^31 and rounded up, if that is more.
    static std::uint64_t units_of(Span<const Item> items, std::int64_t sum) noexcept {
        const std::uint64_t bits = static_cast<std::uint64_t>(sum), size = sum < 0 ? 0 - bits : bits;
        std::uint64_t units = 0;
        for (const Item& item : items) units += item.count;
        return std::max(units, (size >> 31U) + (size % (std::uint64_t{1} << 31U) != 0));
    }

    bool borrow(std::uint64_t wanted) noexcept;

    void take(Recorder& other) noexcept {
        state_ = std::move(other.state_);
        handle_ = std::exchange(other.handle_, povundiri_handle{});
        tag_ = std::exchange(other.tag_, kNone);
        generation_ = other.generation_;
        lease_ = other.lease_;
    }

    detail::Shared state_;
    mutable povundiri_handle handle_{};
    std::uint64_t tag_ = kNone, generation_ = 0;
    std::uint32_t lease_ = 0;
};

inline void Recorder::reset() noexcept {
    if (state_ && !state_->is_forked()) {
        const std::lock_guard<std::mutex> turn(state_->turn);
        if (povundiri_join(&state_->segment, &handle_) != POVUNDIRI_DONE) povundiri_drop(&handle_);
    }
    handle_ = {};
    tag_ = kNone;
    state_ = detail::Shared();
}

// Whether the segment has lent at least the units that are needed. If it has too few, it keeps them.
[[gnu::cold]] inline bool Recorder::borrow(std::uint64_t wanted) noexcept {
    const std::lock_guard<std::mutex> turn(state_->turn);
    std::uint32_t own = 0, left = 0;
    if (povundiri_units(&handle_, &own) != POVUNDIRI_DONE || povundiri_units(&state_->segment, &left) != POVUNDIRI_DONE) return false;
    if (wanted > std::uint64_t{own} + left) return false;
    const std::uint64_t lent = std::min<std::uint64_t>(left, std::max<std::uint64_t>(wanted, std::min(lease_, left / 2)));
    return povundiri_lend(&state_->segment, &handle_, static_cast<std::uint32_t>(lent)) == POVUNDIRI_DONE;
}

// ---- Followers ----

// What was merged of one segment so far, by its images, while others record into it (povundiri_follower_merge). It is used by one thread at a
// time. One that is new, or was moved from, has merged nothing; images that read as more than 'most_keys' keys are TooManyKeys.
class Follower {
public:
    explicit Follower(std::uint64_t most_keys) noexcept : most_keys_(most_keys) {}
    Follower(Follower&& other) noexcept : handle_(std::exchange(other.handle_, povundiri_handle{})), most_keys_(other.most_keys_) {}
    Follower& operator=(Follower&& other) noexcept {
        if (this != &other) {
            reset();
            handle_ = std::exchange(other.handle_, povundiri_handle{});
            most_keys_ = other.most_keys_;
        }
        return *this;
    }
    ~Follower() { reset(); }

    // Makes 'follower' one that has noted what deltas took of an image, so that it adds of that what a merge would
    // (povundiri_follower_of_marks). On any but Done it is unchanged.
    [[nodiscard]] static Status try_of_marks(Span<const std::uint64_t> words, std::uint64_t most_keys, Follower& follower) noexcept {
        Follower made(most_keys);
        const auto status = static_cast<Status>(povundiri_follower_of_marks(most_keys, words.data(), words.size(), &made.handle_));
        if (status == Status::Done) follower = std::move(made);
        return status;
    }

    // Begins again: nothing is noted, and the next image may be of any segment.
    void reset() noexcept { povundiri_drop(&handle_); }

    // Adds what an image has above what is noted, if that costs at most so many units; the recorder borrows them. A status that comes with a
    // 'report.name' is that of a histogram which was left out, until a later call adds it; the others are added.
    [[nodiscard]] Status try_merge(Recorder& recorder, Span<const std::uint64_t> words, std::uint64_t most, MergeReport& report) noexcept {
        report = {};
        report.size = sizeof report;
        const Status usable = recorder.state_.usable();
        if (usable != Status::Done) return usable;
        const auto call = [&] { return povundiri_follower_merge(&handle_, &recorder.handle_, words.data(), words.size(), most, &report); };
        const Status status = with(call);
        return status == Status::RefusedNoUnits && report.name[0] == '\0' && recorder.borrow(report.cost) ? with(call) : status;
    }

    // Notes an image, adds nothing, and returns the units that it has above what was noted.
    [[nodiscard]] Status try_skip(Span<const std::uint64_t> words, std::uint64_t& units) noexcept {
        return with([&] { return povundiri_follower_skip(&handle_, words.data(), words.size(), &units); });
    }

private:
    friend class Recording;

    // It is made at the first call that needs it.
    template <typename Call>
    Status with(const Call& call) noexcept {
        if (!handle_.held) {
            const auto status = static_cast<Status>(povundiri_follower_new(most_keys_, &handle_));
            if (status != Status::Done) return status;
        }
        return static_cast<Status>(call());
    }

    povundiri_handle handle_{};
    std::uint64_t most_keys_;
};

// ---- Segments ----

// What to do with a file whose image cannot be adopted, or has no more room (povundiri_file.h).
// How a file is opened: as usual, until a member is set.
struct FileOptions : povundiri_file_options {
    FileOptions() noexcept : povundiri_file_options POVUNDIRI_FILE_OPTIONS {}
};

enum class Policy {
    AdoptOrFail = POVUNDIRI_ADOPT_OR_FAIL,
    AdoptOrSetAside = POVUNDIRI_ADOPT_OR_SET_ASIDE,
    AdoptOrBeginAnew = POVUNDIRI_ADOPT_OR_BEGIN_ANEW
};

enum class Outcome { Nothing = POVUNDIRI_NOTHING, Made = POVUNDIRI_MADE, Adopted = POVUNDIRI_ADOPTED, MadeAnew = POVUNDIRI_MADE_ANEW };

struct Opened;

// What threads record into: it makes their recorders.
class Segment {
public:
    Segment() noexcept = default;
    Segment(Segment&&) noexcept = default;
    Segment& operator=(Segment&&) noexcept = default;

    // A new segment in the heap, or in a room, which is the segment's until it and all its recorders have ended.
    explicit Segment(const Shape& shape) { detail::need(try_create(shape, *this), "create, words", shape.size); }
    Segment(const Shape& shape, Room room) { detail::need(try_create(shape, room, *this), "create, words", shape.size); }
    // 'segment' is empty: NotEmpty else.
    [[nodiscard]] static Status try_create(const Shape& shape, Segment& segment) noexcept {
        return fill(segment, shape, [&](povundiri_handle* out) { return povundiri_create(shape, out); });
    }
    [[nodiscard]] static Status try_create(const Shape& shape, Room room, Segment& segment) noexcept {
        return fill(segment, shape, [&](povundiri_handle* out) { return povundiri_create_in(room, shape, out); });
    }

    // One that continues from the words of an image.
    static Segment adopt(Span<const std::uint64_t> words, std::size_t cursors = 0) {
        Segment segment;
        detail::need(try_adopt(words, segment, cursors), "adopt, words", words.size());
        return segment;
    }
    static Segment adopt(Span<const std::uint64_t> words, Room room, std::size_t cursors = 0) {
        Segment segment;
        detail::need(try_adopt(words, room, segment, cursors), "adopt, words", words.size());
        return segment;
    }
    [[nodiscard]] static Status try_adopt(Span<const std::uint64_t> words, Segment& segment, std::size_t cursors = 0) noexcept {
        return fill(segment, shape_of(words, cursors),
                    [&](povundiri_handle* out) { return povundiri_adopt(words.data(), words.size(), cursors, out); });
    }
    [[nodiscard]] static Status try_adopt(Span<const std::uint64_t> words, Room room, Segment& segment, std::size_t cursors = 0) noexcept {
        return fill(segment, shape_of(words, cursors),
                    [&](povundiri_handle* out) { return povundiri_adopt_in(room, words.data(), words.size(), cursors, out); });
    }

    // One in a file (povundiri_open), which is closed when the segment and all its recorders have ended, or by 'close'.
    // 'try_open' returns a Status, or the system's fault in the generic category. The flag KEEP_ON_FORK is invalid: open after daemon(3).
    static Opened open(const char* path, const Shape& shape, Policy policy, const povundiri_file_options& options = FileOptions());
    [[nodiscard]] static std::error_code try_open(const char* path, const Shape& shape, Policy policy, Opened& opened,
                                                  const povundiri_file_options& options = FileOptions()) noexcept;

    // Whether it is open: it was made, is not closed, and is of this process.
    explicit operator bool() const noexcept {
        if (state_.usable() != Status::Done) return false;
        const std::lock_guard<std::mutex> turn(state_->turn);
        return state_->segment.held;
    }

    // Gives it up, without an image. Its recorders can still record; after the last of them the words are gone, or are in the file or room.
    void reset() noexcept { state_ = detail::Shared(); }

    // Its shape; for an adopted one that of its image. Zeros if it is empty.
    Shape shape() const noexcept { return state_ ? state_->shape : Shape{}; }
    std::uint64_t id() const noexcept { return shape().id; }
    std::uint64_t version() const noexcept { return shape().version; }

    // A recorder, which borrows 'lease' units at a time. It begins with as many, or half of what is left if that is less. RefusedTooMany
    // if there are 256. 'recorder' is empty: NotEmpty else.
    Recorder recorder(std::uint32_t lease = kUsualLease) {
        Recorder recorder;
        detail::need(try_recorder(recorder, lease), "recorder, lease", lease);
        return recorder;
    }
    [[nodiscard]] Status try_recorder(Recorder& recorder, std::uint32_t lease = kUsualLease) noexcept;

    // Takes a recorder back before it ends, and reports if that fails.
    void join(Recorder& recorder) { detail::need(try_join(recorder), "join"); }
    void join(Recorder&& recorder) { detail::need(try_join(recorder), "join"); }
    [[nodiscard]] Status try_join(Recorder& recorder) noexcept;

    // Moves units to a running recorder. A recorder asks by itself for what it needs.
    void lend(Recorder& recorder, std::uint32_t units) { detail::need(try_lend(recorder, units), "lend, units", units); }
    [[nodiscard]] Status try_lend(Recorder& recorder, std::uint32_t units) noexcept {
        return with(recorder, [&](povundiri_handle* segment) { return povundiri_lend(segment, &recorder.handle_, units); });
    }

    // The units that no recorder has or has spent, and how many recorders there are.
    std::uint32_t units() const {
        std::uint32_t units = 0;
        detail::need(try_units(units), "units");
        return units;
    }
    std::uint32_t outstanding() const {
        std::uint32_t outstanding = 0;
        detail::need(try_outstanding(outstanding), "outstanding");
        return outstanding;
    }
    [[nodiscard]] Status try_units(std::uint32_t& units) const noexcept {
        return in_turn([&](povundiri_handle* segment) { return povundiri_units(segment, &units); });
    }
    [[nodiscard]] Status try_outstanding(std::uint32_t& outstanding) const noexcept {
        return in_turn([&](povundiri_handle* segment) { return povundiri_outstanding(segment, &outstanding); });
    }

    // A look at it while threads record: an image, for 'report', 'export_text', 'show_text' and 'adopt' (povundiri_segment_look). It holds
    // the mutex meanwhile, so an 'add' that has to borrow units waits for it. Of a segment in a file, 'look_file' holds none.
    std::vector<std::uint64_t> look() const {
        std::vector<std::uint64_t> image;
        detail::need(try_look(image), "look");
        return image;
    }
    [[nodiscard]] Status try_look(std::vector<std::uint64_t>& image) const {
        const Status usable = state_.usable();
        if (usable != Status::Done) return usable;
        const std::lock_guard<std::mutex> turn(state_->turn);
        return detail::filled(image, [this](std::uint64_t* data, std::size_t size, std::size_t* needed) {
            return povundiri_segment_look(&state_->segment, data, size, needed);
        });
    }

    // Ends it, closes its file, and returns the image. InUse if it has recorders.
    std::vector<std::uint64_t> close() {
        std::vector<std::uint64_t> image;
        detail::need(try_close(image), "close");
        return image;
    }
    [[nodiscard]] Status try_close(std::vector<std::uint64_t>& image);

private:
    friend class SharedSegment;

    // Makes a segment of a state of its own.
    template <typename Make>
    static Status fill(Segment& segment, const Shape& shape, const Make& make) noexcept {
        if (segment) return Status::NotEmpty;
        detail::Shared state = detail::Shared::made();
        if (!state) return Status::NoMemory;
        const auto status = static_cast<Status>(make(&state->segment));
        if (status != Status::Done) return status;
        state->shape = shape;
        segment.state_ = std::move(state);
        return status;
    }

    // What the header of an image says; zeros if it is too short.
    static Shape shape_of(Span<const std::uint64_t> words, std::size_t cursors) noexcept {
        return words.size() < 5 ? Shape{} : Shape{words[2], words[3], words[4], cursors, words[1]};
    }

    template <typename Call>
    Status in_turn(const Call& call) const noexcept {
        const Status usable = state_.usable();
        if (usable != Status::Done) return usable;
        const std::lock_guard<std::mutex> turn(state_->turn);
        return static_cast<Status>(call(&state_->segment));
    }

    template <typename Call>
    Status with(const Recorder& recorder, const Call& call) const noexcept {
        const Status usable = recorder.state_.usable();
        if (usable != Status::Done) return usable;
        return state_ && state_.get() != recorder.state_.get() ? Status::OtherSegment : in_turn(call);
    }

    detail::Shared state_;
};

// What 'open' has done, and the segment.
struct Opened {
    Segment segment;
    povundiri_opened what = POVUNDIRI_OPENED;

    Outcome outcome() const noexcept { return static_cast<Outcome>(what.outcome); }
    // Why the image in the file was not adopted; else Done.
    Status refused() const noexcept { return static_cast<Status>(what.refused); }
    // The new name of the file that was set aside; else empty.
    const char* set_aside() const noexcept { return what.set_aside; }
    // Whether the adopted segment has another shape than was asked for: 'segment.shape()' is its own.
    bool other_shape() const noexcept { return what.other_shape; }
    // Whether no units are left, or the segment has the flag 'full'.
    bool spent() const noexcept { return what.spent; }
};

inline std::error_code Segment::try_open(const char* path, const Shape& shape, Policy policy, Opened& opened,
                                         const povundiri_file_options& options) noexcept {
    if (opened.segment) return Status::NotEmpty;
    if ((options.flags & POVUNDIRI_FILE_KEEP_ON_FORK) != 0) return Status::BadOptions;
    detail::Shared state = detail::Shared::made();
    if (!state) return Status::NoMemory;
    const std::uint32_t status =
        povundiri_open(path, shape, static_cast<povundiri_policy>(policy), &options, &state->file, &state->segment, &opened.what);
    if (status == POVUNDIRI_SYSTEM) return {opened.what.fault, std::generic_category()};
    if (status != POVUNDIRI_DONE) return static_cast<Status>(status);
    state->shape = opened.what.shape;
    opened.segment.state_ = std::move(state);
    return {};
}

inline Opened Segment::open(const char* path, const Shape& shape, Policy policy, const povundiri_file_options& options) {
    Opened opened;
    const std::error_code fault = try_open(path, shape, policy, opened, options);
    if (fault) raise(fault, std::string("open \"").append(path != nullptr ? path : "").append("\""));
    return opened;
}

inline Status Segment::try_recorder(Recorder& recorder, std::uint32_t lease) noexcept {
    if (recorder.state_) return Status::NotEmpty;
    const Status status = in_turn([&](povundiri_handle* segment) {
        std::uint32_t left = 0;
        const std::uint32_t asked = povundiri_units(segment, &left);
        return asked != POVUNDIRI_DONE ? asked : povundiri_recorder(segment, std::min(lease, left / 2), &recorder.handle_);
    });
    if (status != Status::Done) return status;
    recorder.state_ = state_;
    recorder.tag_ = detail::new_tag();
    recorder.generation_ = state_->generation;
    recorder.lease_ = lease;
    return status;
}

inline Status Segment::try_join(Recorder& recorder) noexcept {
    const Status status = with(recorder, [&](povundiri_handle* segment) { return povundiri_join(segment, &recorder.handle_); });
    if (status == Status::Done) {
        recorder.tag_ = Recorder::kNone;
        recorder.state_ = detail::Shared();
    }
    return status;
}

inline Status Segment::try_close(std::vector<std::uint64_t>& image) {
    const Status usable = state_.usable();
    if (usable != Status::Done) return usable;
    const std::lock_guard<std::mutex> turn(state_->turn);
    const Status status = detail::filled(image, [this](std::uint64_t* data, std::size_t size, std::size_t* needed) {
        return povundiri_close(&state_->segment, data, size, needed);
    });
    if (status == Status::Done) povundiri_file_close(&state_->file);
    return status;
}

}  // namespace povundiri

#endif
