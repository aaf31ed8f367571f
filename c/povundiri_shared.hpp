// Segments in memory that a parent makes and hands to children, for C++17 and later: over povundiri_shared.h, which says what the memory is,
// whom it trusts, how its descriptor is passed, and when a successor may have it.
//
//     povundiri::SharedMemory memory(povundiri::shape(65'536, 4096));        // in the parent; its descriptor goes to one child
//     std::string text = povundiri::report(memory.look(), 100'000);          // at any time, also after the child was killed
//
//     povundiri::SharedSegment segment({9});                                 // in the child, before its sandbox
//     povundiri::SharedRecorder recorder = segment.recorder();               // one for each thread; it joins itself when it ends
//     const povundiri::SharedHist latency = recorder.linear("latency", 1, 1000, 50);
//     if (!recorder.add(latency, 17)) ++missed;
//
// SEVERAL MEMORIES. A segment does not grow, and has 4,294,967,295 units for all who record into it, one after the other. So a child that
// lives for long is passed several memories. It counts in the first; what finds no room or too few units there is counted in the first of
// those after it that has both. Each recorder has a place in each memory from the start, and each histogram is made in each of them that has
// room for it, so that to go on takes no memory and no system call but futex. What the child counted is in all of them together, so the
// parent looks at each.
//
// CALLS, THREADS, ENDS and FORKS are as in povundiri.hpp: 'add' returns whether it counted, and throws nothing; 'try_' calls return a Status
// or an error code; all others throw. A recorder, and each histogram that it returned, is for one thread at a time. Calls of one
// SharedSegment come from any threads, as long as none moves, assigns or destroys it meanwhile. Looks at one SharedMemory do so too.
//
// Of what povundiri.h needs from its caller, these classes need pointers, room and process, and 'room' says that nobody else records
// into the memories that are open. They keep handles, and turns of the segments.
#ifndef POVUNDIRI_SHARED_HPP
#define POVUNDIRI_SHARED_HPP

#include <array>
#include <chrono>

#include "povundiri.hpp"
#include "povundiri_shared.h"

namespace povundiri {

// How many memories a child may have open as one.
inline constexpr std::size_t kMostMemories = 8;

// ---- In the parent ----

// Memory with a segment into which one child at a time records (povundiri_shared_create). It ends when this object and the children have.
class SharedMemory {
public:
    SharedMemory() noexcept = default;
    explicit SharedMemory(const Shape& shape) {
        const std::error_code fault = try_create(shape, *this);
        if (fault) raise(fault, std::string("shared memory, words ").append(std::to_string(shape.size)));
    }
    SharedMemory(SharedMemory&& other) noexcept : shared_(std::exchange(other.shared_, povundiri_shared{})) {}
    SharedMemory& operator=(SharedMemory&& other) noexcept {
        if (this != &other) {
            reset();
            shared_ = std::exchange(other.shared_, povundiri_shared{});
        }
        return *this;
    }
    ~SharedMemory() { reset(); }

    // Of this shape, with a random id in place of its own. 'memory' is empty: NotEmpty else.
    [[nodiscard]] static std::error_code try_create(const Shape& shape, SharedMemory& memory) noexcept {
        const std::uint32_t status = povundiri_shared_create(shape, &memory.shared_);
        if (status == POVUNDIRI_SYSTEM) return {memory.shared_.fault, std::generic_category()};
        return static_cast<Status>(status);
    }

    // Whether there is memory.
    explicit operator bool() const noexcept { return shared_.at != nullptr; }

    // Gives it up here. Children keep it.
    void reset() noexcept { povundiri_shared_close(&shared_); }

    // For the child: closed on exec, so in the child of fork keep it open by dup2 to another number, or by fcntl(descriptor, F_SETFD, 0).
    // -1 if it is empty.
    int descriptor() const noexcept { return povundiri_shared_descriptor(&shared_); }

    // Its shape, with the id that it was given. Zeros if it is empty.
    Shape shape() const noexcept { return shared_.shape; }
    std::uint64_t id() const noexcept { return shape().id; }

    // An image of it, while a child records and after that has ended (povundiri_shared_look). No word of it is to be trusted.
    std::vector<std::uint64_t> look() const {
        std::vector<std::uint64_t> image;
        detail::need(try_look(image), "look");
        return image;
    }
    // The image keeps its room from one look to the next.
    [[nodiscard]] Status try_look(std::vector<std::uint64_t>& image) const {
        std::size_t needed = 0;
        image.resize(static_cast<std::size_t>(shape().size));
        const auto status = static_cast<Status>(povundiri_shared_look(&shared_, image.data(), image.size(), &needed));
        image.resize(status == Status::Done ? needed : 0);
        return status;
    }

private:
    povundiri_shared shared_{};
};

// ---- In the child ----

// A histogram in each memory that has room for it, for the recorder that returned it. It notes where the recorder counts its samples; of a
// copy that does not know this yet, the next sample finds it again.
class SharedHist {
public:
    SharedHist() noexcept = default;

private:
    friend class SharedRecorder;

    std::array<Hist, kMostMemories> hists_{};
    mutable std::size_t at_ = 0;
};

// What one thread records with: a Recorder of each memory. When it ends, or is assigned to, these join their segments.
class SharedRecorder {
public:
    SharedRecorder() noexcept = default;
    SharedRecorder(SharedRecorder&& other) noexcept : recorders_(std::move(other.recorders_)), size_(std::exchange(other.size_, 0)) {}
    SharedRecorder& operator=(SharedRecorder&& other) noexcept {
        if (this != &other) {
            recorders_ = std::move(other.recorders_);
            size_ = std::exchange(other.size_, 0);
        }
        return *this;
    }

    // Whether it can record: it was made, has not ended, and is of this process.
    explicit operator bool() const noexcept { return bool(recorders_[0]); }

    // Ends it, as Recorder::reset does.
    void reset() noexcept { *this = SharedRecorder(); }

    // Adds a sample: 'count' units of a value. False if it was not counted; 'try_add' returns why: of no room and too few units the one of
    // the memory that it was counted in last.
    bool add(const SharedHist& hist, Value value, std::uint32_t count = 1) noexcept { return try_add(hist, value, count) == Status::Done; }
    [[nodiscard]] Status try_add(const SharedHist& hist, Value value, std::uint32_t count = 1) noexcept {
        const Status status = recorders_[hist.at_].try_add(hist.hists_[hist.at_], value, count);
        return is_spent(status) ? try_later(status, hist, value, count) : status;
    }

    // A time needs a unit, which a histogram does not have.
    template <typename Ticks, typename Period>
    bool add(SharedHist, std::chrono::duration<Ticks, Period>, std::uint32_t = 1) = delete;  // ticks<std::chrono::microseconds>(time)
    template <typename Ticks, typename Period>
    Status try_add(SharedHist, std::chrono::duration<Ticks, Period>, std::uint32_t = 1) = delete;  // ticks<std::chrono::microseconds>(time)

    // The histogram of a name, which is made in each memory where there is none. It is enough if one has it: of those that have no room for
    // it, that are marked as corrupt, or that have the name with another spec, the status of the first is returned only if none has it. On
    // any other status nothing is returned, and some memories may have it.
    [[nodiscard]] Status try_hist(std::string_view name, povundiri_spec spec, Span<const std::uint32_t> values, SharedHist& hist) noexcept {
        SharedHist made;
        Status answer = Status::Empty;
        for (std::size_t at = size_; at > 0; --at) {
            const Status status = recorders_[at - 1].try_hist(name, spec, values, made.hists_[at - 1]);
            if (status != Status::Done && !is_of_memory(status)) return status;
            if (status == Status::Done) made.at_ = at - 1;
            if (status == Status::Done || answer != Status::Done) answer = status;
        }
        if (answer == Status::Done) hist = made;
        return answer;
    }
    SharedHist linear(std::string_view name, std::uint32_t minimum, std::uint32_t maximum, std::uint32_t buckets) {
        return made(name, {POVUNDIRI_LINEAR, minimum, maximum, buckets}, {});
    }
    SharedHist boolean(std::string_view name) { return made(name, {POVUNDIRI_BOOLEAN, 0, 0, 0}, {}); }
    SharedHist custom(std::string_view name, Span<const std::uint32_t> values) {
        return made(name, {POVUNDIRI_CUSTOM, 0, 0, 0}, values);
    }
    SharedHist scale(std::string_view name, std::uint32_t minimum, std::uint32_t maximum, std::uint32_t bits) {
        return made(name, {POVUNDIRI_SCALE, minimum, maximum, bits}, {});
    }
    // For values from 0 to n - 1: a bucket for each, and one more from n on. 'n' is from 2 to 999.
    SharedHist enumeration(std::string_view name, std::uint32_t n) { return linear(name, 1, n, n + 1); }
    SharedHist sparse(std::string_view name) { return made(name, {POVUNDIRI_SPARSE, 0, 0, 0}, {}); }

private:
    friend class SharedSegment;

    // Why another memory may count what this one does not.
    static bool is_spent(Status status) noexcept { return status == Status::RefusedFull || status == Status::RefusedNoUnits; }

    // Why another memory may have a histogram that this one does not have.
    static bool is_of_memory(Status status) noexcept {
        return status == Status::RefusedFull || status == Status::RefusedTooLarge || status == Status::RefusedOtherSpec ||
               status == Status::RefusedCorrupt;
    }

    // Tries the memories after the one in which the histogram was counted last. If none takes the sample, why that one did not.
    [[gnu::cold]] Status try_later(Status why, const SharedHist& hist, Value value, std::uint32_t count) noexcept {
        for (std::size_t at = hist.at_ + 1; at < size_; ++at) {
            if (recorders_[at].try_add(hist.hists_[at], value, count) != Status::Done) continue;
            hist.at_ = at;
            return Status::Done;
        }
        return why;
    }

    SharedHist made(std::string_view name, povundiri_spec spec, Span<const std::uint32_t> values) {
        SharedHist hist;
        detail::need(try_hist(name, spec, values, hist), "hist", name);
        return hist;
    }

    std::array<Recorder, kMostMemories> recorders_;
    std::size_t size_ = 0;
};

// The segments in the memories that this process was passed, as one. They are closed when this and all its recorders have ended.
class SharedSegment {
public:
    SharedSegment() noexcept = default;
    SharedSegment(SharedSegment&& other) noexcept : segments_(std::move(other.segments_)), size_(std::exchange(other.size_, 0)) {}
    SharedSegment& operator=(SharedSegment&& other) noexcept {
        if (this != &other) {
            segments_ = std::move(other.segments_);
            size_ = std::exchange(other.size_, 0);
        }
        return *this;
    }

    // Opens the memories of some descriptors, in the order in which they are to be used (povundiri_shared_open): one to kMostMemories.
    explicit SharedSegment(Span<const int> descriptors, std::size_t cursors = 0) {
        const std::error_code fault = try_open(descriptors, *this, cursors);
        if (fault) raise(fault, std::string("shared segment, descriptors ").append(std::to_string(descriptors.size())));
    }
    // A Status, or the system's fault in the generic category; there also 'invalid_argument' for no descriptors or too many. Then none is
    // open. 'segment' is empty: NotEmpty else.
    [[nodiscard]] static std::error_code try_open(Span<const int> descriptors, SharedSegment& segment, std::size_t cursors = 0) noexcept {
        SharedSegment opened;
        if (segment) return Status::NotEmpty;
        if (descriptors.empty() || descriptors.size() > kMostMemories) return std::make_error_code(std::errc::invalid_argument);
        for (const int descriptor : descriptors) {
            const std::error_code fault = open_one(descriptor, cursors, opened.segments_[opened.size_]);
            if (fault) return fault;
            ++opened.size_;
        }
        segment = std::move(opened);
        return {};
    }

    // Whether it is open: it was opened, is not given up, and is of this process.
    explicit operator bool() const noexcept { return bool(segments_[0]); }

    // Gives it up. Its recorders can still record; after the last of them the memories are closed here.
    void reset() noexcept { *this = SharedSegment(); }

    // How many memories it has, and the segment in one of them, from 0 on; an empty segment if there is no such.
    std::size_t size() const noexcept { return size_; }
    Segment& segment(std::size_t at) noexcept { return segments_[at < size_ ? at : kMostMemories]; }

    // A recorder, which borrows 'lease' units at a time in each memory (Segment::recorder). 'recorder' is empty: NotEmpty else.
    SharedRecorder recorder(std::uint32_t lease = kUsualLease) {
        SharedRecorder recorder;
        detail::need(try_recorder(recorder, lease), "recorder, lease", lease);
        return recorder;
    }
    [[nodiscard]] Status try_recorder(SharedRecorder& recorder, std::uint32_t lease = kUsualLease) noexcept {
        SharedRecorder made;
        if (recorder.size_ != 0) return Status::NotEmpty;
        if (size_ == 0) return Status::Empty;
        for (; made.size_ < size_; ++made.size_) {
            const Status status = segments_[made.size_].try_recorder(made.recorders_[made.size_], lease);
            if (status != Status::Done) return status;
        }
        recorder = std::move(made);
        return Status::Done;
    }

private:
    static std::error_code open_one(int descriptor, std::size_t cursors, Segment& segment) noexcept {
        detail::Shared state = detail::Shared::made();
        if (!state) return Status::NoMemory;
        povundiri_shared shared{};
        const std::uint32_t status = povundiri_shared_open(descriptor, cursors, &shared, &state->segment);
        if (status == POVUNDIRI_SYSTEM) return {shared.fault, std::generic_category()};
        if (status != POVUNDIRI_DONE) return static_cast<Status>(status);
        state->file = shared.file;
        state->shape = shared.shape;
        segment.state_ = std::move(state);
        return {};
    }

    std::array<Segment, kMostMemories + 1> segments_;  // the last one is empty
    std::size_t size_ = 0;
};

}  // namespace povundiri

#endif
