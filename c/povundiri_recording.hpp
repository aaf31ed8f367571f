// A recording, for C++17 and later: over povundiri_recording.h, which says what it does, how large segments should be, and what forks and
// changed histograms need.
//
//     povundiri::Recording recording("metrics");                       // a folder
//     const auto latency = recording.scale<std::chrono::microseconds>("request_us", 1us, 10s, 5);
//     latency.add(std::chrono::steady_clock::now() - start);           // any thread; never throws; no lock in the usual sample
//     std::string text = recording.prometheus();                       // at any time
//
// CALLS. 'add', 'missed', 'leave' and 'end' throw nothing. 'try_' calls return a Status, or an error code: of the category
// povundiri::category(), with which a Status is compared, or the system's. All others throw as those of povundiri.hpp do: a Fault, or a
// std::system_error for a fault of the system. Besides, what fills a string may throw std::bad_alloc.
//
// THREADS. A Metric, a Timed, a Counter and a Family are copied and used by any threads at any time, also when their Recording has ended.
// Calls of one Recording come from any threads, as long as none moves, assigns, ends or destroys that object meanwhile.
//
// What counts is in povundiri_metric.hpp, names with labels are in povundiri_names.hpp, and families in povundiri_family.hpp.
//
// An empty Recording (one that was moved from, has ended, or could not be opened) has nothing: calls that return text or a number of
// segments, and those for histograms, return or throw Null, 'missed' is 0, and 'end' and 'leave' do nothing.
#ifndef POVUNDIRI_RECORDING_HPP
#define POVUNDIRI_RECORDING_HPP

#include <filesystem>
#include <memory>
#include <vector>

#include "povundiri.hpp"
#include "povundiri_family.hpp"
#include "povundiri_metric.hpp"
#include "povundiri_names.hpp"
#include "povundiri_recording.h"

namespace povundiri {

// What is usual, until a member is set.
struct RecordingOptions : povundiri_recording_options {
    RecordingOptions() noexcept : povundiri_recording_options POVUNDIRI_RECORDING_OPTIONS {}
};

// The name of a reason is povundiri_missed_text of its number.
enum class Missed : std::uint32_t {
    TooLarge = POVUNDIRI_MISSED_TOO_LARGE,
    OtherSpec = POVUNDIRI_MISSED_OTHER_SPEC,
    NoSpace = POVUNDIRI_MISSED_NO_SPACE,
    Rolling = POVUNDIRI_MISSED_ROLLING,
    Forked = POVUNDIRI_MISSED_FORKED,
    Ended = POVUNDIRI_MISSED_ENDED,
    NoMemory = POVUNDIRI_MISSED_NO_MEMORY,
    Removed = POVUNDIRI_MISSED_REMOVED,
    Child = POVUNDIRI_MISSED_CHILD,
    Values = POVUNDIRI_MISSED_VALUES
};

class Recording {
public:
    Recording() noexcept = default;
    explicit Recording(const char* folder, const RecordingOptions& options = RecordingOptions()) {
        const std::error_code fault = try_open(folder, *this, options);
        if (fault) raise(fault, std::string("recording \"").append(folder != nullptr ? folder : "").append("\""));
    }
    explicit Recording(const std::string& folder, const RecordingOptions& options = RecordingOptions())
        : Recording(folder.c_str(), options) {}
    explicit Recording(const std::filesystem::path& folder, const RecordingOptions& options = RecordingOptions())
        : Recording(folder.c_str(), options) {}
    Recording(Recording&& other) noexcept : recording_(std::exchange(other.recording_, nullptr)) {}
    Recording& operator=(Recording&& other) noexcept {
        if (this != &other) {
            end();
            recording_ = std::exchange(other.recording_, nullptr);
        }
        return *this;
    }
    ~Recording() { end(); }

    // Opens one in 'recording', which has to be empty: NotEmpty else, and it is unchanged. If no fault is returned, it holds a recording,
    // also if no segment could be made yet, as on a full disk: then 'began().fault' is not 0.
    [[nodiscard]] static std::error_code try_open(const char* folder, Recording& recording,
                                                  const RecordingOptions& options = RecordingOptions()) noexcept {
        int fault = 0;
        const std::uint32_t status = povundiri_recording_open(folder, &options, &recording.recording_, &fault);
        return code(status, fault);
    }
    [[nodiscard]] static std::error_code try_open(const std::string& folder, Recording& recording,
                                                  const RecordingOptions& options = RecordingOptions()) noexcept {
        return try_open(folder.c_str(), recording, options);
    }
    [[nodiscard]] static std::error_code try_open(const std::filesystem::path& folder, Recording& recording,
                                                  const RecordingOptions& options = RecordingOptions()) noexcept {
        return try_open(folder.c_str(), recording, options);
    }

    explicit operator bool() const noexcept { return recording_ != nullptr; }

    // How it began: in which segment, what was set aside, and why there is no segment yet. It stays until the process ends. Zeros if it is empty.
    const povundiri_began& began() const noexcept {
        static constexpr povundiri_began kNone{};
        return recording_ != nullptr ? *povundiri_recording_began(recording_) : kNone;
    }

    // Ends it, and leaves this object empty: later samples of its metrics are missed, as Ended. The destructor does so too.
    void end() noexcept { povundiri_recording_end(std::exchange(recording_, nullptr)); }

    // Gives back what this thread has of it: for a thread that has counted or asked for a histogram, and will be idle for long.
    void leave() noexcept { povundiri_recording_leave(recording_); }

    // The histogram of a name. A name or a spec that no histogram may have is returned, or thrown as a Fault, and 'metric' is unchanged. But
    // RefusedOtherSpec and RefusedTooLarge are not thrown: there is a metric all the same, and its 'status' returns them.
    [[nodiscard]] Status try_hist(std::string_view name, povundiri_spec spec, Span<const std::uint32_t> values, Metric& metric) noexcept {
        return Metric::ask(recording_, name, spec, values, metric);
    }
    Metric linear(std::string_view name, std::uint32_t minimum, std::uint32_t maximum, std::uint32_t buckets) {
        return made(name, {POVUNDIRI_LINEAR, minimum, maximum, buckets}, {});
    }
    Metric boolean(std::string_view name) { return made(name, {POVUNDIRI_BOOLEAN, 0, 0, 0}, {}); }
    Metric custom(std::string_view name, Span<const std::uint32_t> values) { return made(name, {POVUNDIRI_CUSTOM, 0, 0, 0}, values); }
    Metric scale(std::string_view name, std::uint32_t minimum, std::uint32_t maximum, std::uint32_t bits) {
        return made(name, {POVUNDIRI_SCALE, minimum, maximum, bits}, {});
    }
    // For values from 0 to n - 1: a bucket for each, and one more from n on. 'n' is from 2 to 999.
    Metric enumeration(std::string_view name, std::uint32_t n) { return linear(name, 1, n, n + 1); }
    Metric sparse(std::string_view name) { return made(name, {POVUNDIRI_SPARSE, 0, 0, 0}, {}); }

    // The same of times, which are counted in whole ticks of a unit: 'recording.scale<std::chrono::microseconds>(..)'. The bounds are
    // durations too, and one of more ticks than 32 bits hold is refused as a spec. A name that says another unit is BadUnit: the unit is what
    // stands after the last '_' or '.' before its labels, if that is ns, us, ms, seconds, bytes, kib or mib.
    template <typename Unit>
    [[nodiscard]] Status try_hist(std::string_view name, povundiri_spec spec, Span<const std::uint32_t> values,
                                  Timed<Unit>& timed) noexcept {
        return detail::may_count_in<Unit>(name) ? try_hist(name, spec, values, timed.metric_) : Status::BadUnit;
    }
    template <typename Unit>
    Timed<Unit> linear(std::string_view name, Bound<Unit> minimum, Bound<Unit> maximum, std::uint32_t buckets) {
        return timed<Unit>(name, {POVUNDIRI_LINEAR, minimum.get(), maximum.get(), buckets}, {});
    }
    template <typename Unit>
    Timed<Unit> custom(std::string_view name, Span<const Bound<Unit>> values) {
        std::vector<std::uint32_t> numbers;
        for (const Bound<Unit>& value : values) numbers.push_back(value.get());
        return timed<Unit>(name, {POVUNDIRI_CUSTOM, 0, 0, 0}, numbers);
    }
    template <typename Unit>
    Timed<Unit> scale(std::string_view name, Bound<Unit> minimum, Bound<Unit> maximum, std::uint32_t bits) {
        return timed<Unit>(name, {POVUNDIRI_SCALE, minimum.get(), maximum.get(), bits}, {});
    }

    // A counter. Its name ends with "_total" before its labels: BadName else, which 'try_counter' returns.
    Counter counter(std::string_view name) {
        detail::need_total(name);
        return Counter(boolean(name));
    }
    [[nodiscard]] Status try_counter(std::string_view name, Counter& counter) noexcept {
        return detail::is_total(name) ? try_hist(name, {POVUNDIRI_BOOLEAN, 0, 0, 0}, {}, counter.metric_) : Status::RefusedBadName;
    }

    // Families: a metric for each set of values of these keys, of which it has at most 'most', and one whose values are all "_other". They
    // are to fit in a segment together (povundiri_recording.h): 64 scales from 1 to 10,000,000 with 5 bits fill the usual 1 MiB. BadName is
    // thrown if the base and the keys make no name.
    template <typename Unit>
    Family<Timed<Unit>> scale_family(std::string_view base, Span<const std::string_view> keys, Bound<Unit> minimum, Bound<Unit> maximum,
                                     std::uint32_t bits, std::size_t most) {
        if (!detail::may_count_in<Unit>(base)) detail::need(Status::BadUnit, "family", base);
        return family<Timed<Unit>>(base, keys, {POVUNDIRI_SCALE, minimum.get(), maximum.get(), bits}, most);
    }
    Family<Metric> scale_family(std::string_view base, Span<const std::string_view> keys, std::uint32_t minimum, std::uint32_t maximum,
                                std::uint32_t bits, std::size_t most) {
        return family<Metric>(base, keys, {POVUNDIRI_SCALE, minimum, maximum, bits}, most);
    }
    Family<Counter> counter_family(std::string_view base, Span<const std::string_view> keys, std::size_t most) {
        detail::need_total(base);
        return family<Counter>(base, keys, {POVUNDIRI_BOOLEAN, 0, 0, 0}, most);
    }

    // How many units this process has missed: for a reason, and for all.
    std::uint64_t missed(Missed reason) const noexcept {
        return povundiri_recording_missed(recording_, static_cast<std::uint32_t>(reason));
    }
    std::uint64_t missed() const noexcept {
        std::uint64_t all = 0;
        for (std::uint32_t reason = 0; povundiri_missed_text(reason) != nullptr; ++reason) {
            const std::uint64_t more = povundiri_recording_missed(recording_, reason);
            all = more < UINT64_MAX - all ? all + more : UINT64_MAX;
        }
        return all;
    }

    // Adds what came of a child's segment, by its image: what that has above what the follower has noted, if it costs at most so many units
    // (povundiri_recording_follow). A status that comes with a 'report.name' is that of a histogram which was left out, until a later call
    // adds it; the others are added. With another one nothing has happened, and 'follow' throws.
    [[nodiscard]] Status try_follow(Follower& follower, Span<const std::uint64_t> words, std::uint64_t most, MergeReport& report) noexcept {
        report = {};
        report.size = sizeof report;
        return follower.with(
            [&] { return povundiri_recording_follow(recording_, &follower.handle_, words.data(), words.size(), most, &report); });
    }
    MergeReport follow(Follower& follower, Span<const std::uint64_t> words, std::uint64_t most) {
        MergeReport report;
        const Status status = try_follow(follower, words, most, report);
        if (report.name[0] == '\0') detail::need(status, "follow, words", words.size());
        return report;
    }

    // Adds what no delta took of the image of a dead segment, once (povundiri_recording_merge); the rest as above.
    [[nodiscard]] Status try_merge(Span<const std::uint64_t> words, std::uint64_t most_keys, MergeReport& report) noexcept {
        report = {};
        report.size = sizeof report;
        return static_cast<Status>(povundiri_recording_merge(recording_, words.data(), words.size(), most_keys, &report));
    }
    MergeReport merge(Span<const std::uint64_t> words, std::uint64_t most_keys) {
        MergeReport report;
        const Status status = try_merge(words, most_keys, report);
        if (report.name[0] == '\0') detail::need(status, "merge, words", words.size());
        return report;
    }

    // Notes an image and adds nothing: the units that it has above what was noted are missed, as Child. It returns how many.
    [[nodiscard]] Status try_give_up(Follower& follower, Span<const std::uint64_t> words, std::uint64_t& units) noexcept {
        MergeReport report = {};
        report.size = sizeof report;
        const Status status = follower.with(
            [&] { return povundiri_recording_give_up(recording_, &follower.handle_, words.data(), words.size(), &report); });
        units = report.left;
        return status;
    }
    std::uint64_t give_up(Follower& follower, Span<const std::uint64_t> words) {
        std::uint64_t units = 0;
        detail::need(try_give_up(follower, words, units), "give_up, words", words.size());
        return units;
    }

    // What the folder has, and what all its processes have missed: its report as CSV, its metrics for Prometheus, its text for people. They
    // fail with Busy if folds have ended sixteen times meanwhile, and as povundiri_folder_sums says; 'prometheus' also with BadPrefix.
    // 'try_prometheus' leaves its text unchanged then. A 'width' of 0 is 80 cells.
    std::string report() {
        return text("report",
                    [this](char** at, std::size_t* size, int* fault) { return povundiri_recording_report(recording_, at, size, fault); });
    }
    std::string prometheus(const char* prefix = nullptr) {
        return text("prometheus", [this, prefix](char** at, std::size_t* size, int* fault) {
            return povundiri_recording_export(recording_, prefix, at, size, fault);
        });
    }
    [[nodiscard]] std::error_code try_prometheus(std::string& text, const char* prefix = nullptr) {
        return try_text(text, [this, prefix](char** at, std::size_t* size, int* fault) {
            return povundiri_recording_export(recording_, prefix, at, size, fault);
        });
    }
    std::string show(std::uint16_t width = 0) {
        return text("show", [this, width](char** at, std::size_t* size, int* fault) {
            return povundiri_recording_show(recording_, width, at, size, fault);
        });
    }

    // Adds the final segments of the folder to its totals (povundiri_folder_fold), and returns how many. Busy: somebody else folds.
    std::uint64_t fold() {
        std::uint64_t folded = 0;
        const std::error_code fault = try_fold(folded);
        if (fault) raise(fault, "fold");
        return folded;
    }
    [[nodiscard]] std::error_code try_fold(std::uint64_t& folded) noexcept {
        int fault = 0;
        const std::uint32_t status = povundiri_recording_fold(recording_, &folded, &fault);
        return code(status, fault);
    }

    // Makes the spare, looks for the present segment and folds if that is due: for a thread of its own, each second or so. Status::System is of
    // the fold, which 'try_fold' says.
    Status maintain() noexcept { return static_cast<Status>(povundiri_recording_maintain(recording_)); }

private:
    static std::error_code code(std::uint32_t status, int fault) noexcept {
        if (status == POVUNDIRI_SYSTEM) return {fault, std::generic_category()};
        return static_cast<Status>(status);
    }

    Metric made(std::string_view name, povundiri_spec spec, Span<const std::uint32_t> values) {
        Metric metric;
        const Status status = try_hist(name, spec, values, metric);
        if (!Metric::is_made(status)) detail::need(status, "hist", name);
        return metric;
    }

    template <typename Unit>
    Timed<Unit> timed(std::string_view name, povundiri_spec spec, Span<const std::uint32_t> values) {
        if (!detail::may_count_in<Unit>(name)) detail::need(Status::BadUnit, "hist", name);
        return Timed<Unit>(made(name, spec, values));
    }

    template <typename M>
    Family<M> family(std::string_view base, Span<const std::string_view> keys, povundiri_spec spec, std::size_t most) {
        const auto state = std::make_shared<detail::FamilyState>(recording_, base, keys, spec, most);
        std::vector<Label> others;
        for (const std::string_view key : keys) others.push_back({key, detail::kOther});
        state->set_other(made(povundiri::name(base, others), spec, {}));
        return Family<M>(state);
    }

    template <typename Call>
    static std::error_code try_text(std::string& text, const Call& call) {
        char* at = nullptr;
        std::size_t size = 0;
        int fault = 0;
        const std::uint32_t status = call(&at, &size, &fault);
        const std::unique_ptr<char, void (*)(void*)> owned(at, std::free);
        if (status == POVUNDIRI_DONE) text.assign(at, size);
        return code(status, fault);
    }

    template <typename Call>
    static std::string text(const char* what, const Call& call) {
        std::string text;
        const std::error_code fault = try_text(text, call);
        if (fault) raise(fault, what);
        return text;
    }

    povundiri_recording* recording_ = nullptr;
};

}  // namespace povundiri

#endif
