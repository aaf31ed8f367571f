// The most values of a sparse metric: 'recorded_values FOLDER'. Each group works in a folder of its own below that. It is linked with
// -Wl,--wrap=posix_fallocate.
#include <atomic>
#include <cerrno>
#include <cstdio>
#include <limits>
#include <random>
#include <set>
#include <thread>
#include <vector>

#include "recorded.hpp"

namespace {

constexpr povundiri_spec kSparse = {POVUNDIRI_SPARSE, 0, 0, 0};
constexpr std::int32_t kLeast = std::numeric_limits<std::int32_t>::min(), kGreatest = std::numeric_limits<std::int32_t>::max();

// Whether the system refuses segments.
std::atomic<bool> refuses{false};

}  // namespace

extern "C" int __real_posix_fallocate(int descriptor, off_t from, off_t length);
extern "C" int __wrap_posix_fallocate(int descriptor, off_t from, off_t length) {
    return refuses ? EIO : __real_posix_fallocate(descriptor, from, length);
}

namespace {

RecordingOptions bounded(std::uint64_t most) {
    RecordingOptions options = small();
    options.most_values = most;
    return options;
}

// How many values a sparse histogram has in a report.
std::size_t values_in(const std::string& report, const std::string& name) {
    const std::string begins = "\n" + name + ",sparse,", text = "\n" + report;
    std::size_t count = 0;
    for (std::size_t at = text.find(begins); at != text.npos; at = text.find(begins, at + 1)) ++count;
    return count;
}

// The first values are counted for as long as the process runs, also in later segments, and others are missed; each metric has its own, and
// other kinds have no bound.
void bound() {
    constexpr int kMost = 100, kValues = 1000, kRounds = 5;
    const std::string path = folder("bound");
    Recording recording;
    HOLDS(opens(path, recording, bounded(kMost)));
    const Metric one = metric_of(recording, "one", kSparse), two = metric_of(recording, "two", kSparse);
    const Metric linear = metric_of(recording, "linear", {POVUNDIRI_LINEAR, 1, 1000, 50});
    for (int round = 0; round < kRounds; ++round) {
        for (int value = 0; value < kValues; ++value) HOLDS(one.add(value, 1'000'000) == (value < kMost) && linear.add(value));
        for (int value = -kMost; value < 0; ++value) HOLDS(two.add(value));
    }
    HOLDS(!two.add(0, 5) && two.add(-1) && two.add(0, 0) && one.add(kMost, 0));
    const std::uint64_t missed = kRounds * std::uint64_t{kValues - kMost} * 1'000'000 + 5;
    HOLDS(recording.missed(Missed::Values) == missed && recording.missed() == missed);
    const std::string report = recording.report();
    HOLDS(values_in(report, "one") == kMost && values_in(report, "two") == kMost && units_in(report, "linear") == kRounds * kValues);
    HOLDS(units_in(report, "one") == 1'000'000LL * kRounds * kMost && units_in(report, "two") == kRounds * kMost + 1);
    HOLDS(report.find("\n!missed,values," + std::to_string(missed) + "\n") != report.npos);
    HOLDS(recording.prometheus().find("_missed_total{reason=\"values\"} " + std::to_string(missed) + "\n") != std::string::npos);
    // The same metric is the same histogram, with the same values.
    HOLDS(!metric_of(recording, "one", kSparse).add(kMost) && metric_of(recording, "one", kSparse).add(0));
    HOLDS(metric_of(recording, "three", kSparse).add(kMost));
    recording.end();
    HOLDS(!one.add(kMost) && !one.add(0));
    // Another process, or a recording that begins later, has other values.
    HOLDS(opens(path, recording, bounded(1)) && metric_of(recording, "one", kSparse).add(kValues));
    HOLDS(!metric_of(recording, "one", kSparse).add(0) && values_in(recording.report(), "one") == kMost + 1);
}

// Each value is a value of its own, and none is taken for a free place.
void each_value() {
    const std::vector<std::int32_t> values = {kLeast, kLeast + 1, -2, -1, 0, 1, kGreatest - 1, kGreatest};
    Recording recording;
    HOLDS(opens(folder("each"), recording, bounded(values.size())));
    const Metric metric = metric_of(recording, "s", kSparse);
    for (int round = 0; round < 2; ++round) {
        for (const std::int32_t value : values) HOLDS(metric.add(value));
        HOLDS(!metric.add(2) && !metric.add(-3));
    }
    HOLDS(values_in(recording.report(), "s") == values.size() && recording.missed(Missed::Values) == 4);
}

// What is usual, and no bound at all.
void usual() {
    constexpr int kUsual = 65'536, kValues = 70'000;
    for (const std::uint64_t most : {std::uint64_t{0}, UINT64_MAX}) {
        Recording recording;
        RecordingOptions options = one_shard();
        options.apart = 1;
        options.most_values = most;
        HOLDS(opens(folder(most == 0 ? "usual" : "all"), recording, options));
        const Metric metric = metric_of(recording, "s", kSparse);
        const int counted = most == 0 ? kUsual : kValues;
        for (int value = 0; value < kValues; ++value) HOLDS(metric.add(value * 30'011) == (value < counted));
        HOLDS(recording.missed() == static_cast<std::uint64_t>(kValues - counted) && recording.missed(Missed::Values) == recording.missed());
        HOLDS(units_in(recording.report(), "s") == counted);
    }
}

// Threads put values at once: there are no more than the most, all places are used, and a value that was counted once is always counted.
void threads() {
    constexpr int kThreads = 8, kRounds = 40, kValues = 1000, kMost = 300;
    Recording recording;
    HOLDS(opens(folder("threads"), recording, bounded(kMost)));
    const Metric metric = metric_of(recording, "s", kSparse);
    std::atomic<long long> counted{0}, missed{0};
    std::atomic<int> lost{0};
    std::vector<std::thread> all;
    for (int number = 0; number < kThreads; ++number) {
        all.emplace_back([&, number] {
            std::mt19937 chance(static_cast<unsigned>(number));
            std::set<int> known;
            for (int sample = 0; sample < kRounds * kValues; ++sample) {
                const int value = static_cast<int>(chance() % kValues);
                const bool is = metric.add(value);
                lost += !is && known.count(value) != 0;
                if (is) known.insert(value);
                ++(is ? counted : missed);
            }
        });
    }
    for (std::thread& thread : all) thread.join();
    const std::string report = recording.report();
    HOLDS(lost == 0 && values_in(report, "s") == kMost && units_in(report, "s") == counted);
    HOLDS(recording.missed(Missed::Values) == static_cast<std::uint64_t>(missed) && recording.missed() == recording.missed(Missed::Values));
    HOLDS(counted + missed == 1LL * kThreads * kRounds * kValues && missed > 0);
}

// A thread that holds the mutex, until it may go on, since it is asked for a random number.
std::atomic<int> held{0};

std::uint64_t random_of(void*) {
    static std::atomic<std::uint64_t> last{1};
    if (held == 1) {
        held = 2;
        while (held == 2) std::this_thread::yield();
    }
    return ++last * 0x9E3779B97F4A7C15U;
}

// A value that is known, or one too many, waits for nobody: not for a thread that has the mutex, as it begins a segment.
void without_mutex() {
    constexpr std::uint32_t kMany = 4'000'000'000;
    RecordingOptions options = bounded(2);
    options.random = random_of;
    Recording recording;
    refuses = false;
    HOLDS(opens(folder("mutex"), recording, options));
    const Metric metric = metric_of(recording, "s", kSparse), other = metric_of(recording, "b");
    // From now on there is no spare.
    refuses = true;
    HOLDS(other.add(1, kMany) && other.add(1, kMany));
    refuses = false;
    usleep(20'000);
    HOLDS(metric.add(1) && metric.add(2));
    held = 1;
    std::thread thread([&] { HOLDS(other.add(1, kMany)); });
    while (held != 2) std::this_thread::yield();
    std::atomic<bool> ends{false};
    std::thread watch([&] {
        for (int i = 0; i < 1000 && !ends; ++i) usleep(10'000);
        held = 3;
    });
    for (int i = 0; i < 1000; ++i) HOLDS(metric.add(1) && metric.add(2) && !metric.add(3 + i));
    HOLDS(held == 2 && recording.missed(Missed::Values) == 1000);
    ends = true;
    watch.join();
    thread.join();
    HOLDS(recording.missed() == 1000 && units_in(recording.report(), "s") == 2002);
}

// A metric that is flooded by values from outside takes no room from the others, once it has all that it may have. Each of its values comes
// once, and it is their number that ends it: so how fast the machine is makes no difference.
void flooded() {
    constexpr int kMetrics = 20, kMost = 500, kTooMany = 500'000;
    const std::string path = folder("flooded");
    Recording recording;
    HOLDS(opens(path, recording, bounded(kMost)));
    const Metric flood = metric_of(recording, "user", kSparse);
    std::vector<Metric> metrics;
    for (int i = 0; i < kMetrics; ++i) metrics.push_back(metric_of(recording, ("m" + std::to_string(i)).c_str()));
    std::atomic<bool> ends{false};
    std::atomic<int> floods{0};
    std::thread thread([&] {
        // An odd factor makes other words of other words.
        for (std::uint32_t i = 0; i < kMost + kTooMany; ++i) floods += flood.add(static_cast<std::int32_t>(i * 2'654'435'761U)) ? 1 : 0;
        ends = true;
    });
    long long counted = 0, all = 0;
    for (bool is_last = false; !is_last;) {
        is_last = ends;
        for (const Metric& metric : metrics) counted += metric.add(1);
        all += kMetrics;
    }
    thread.join();
    const std::string report = recording.report();
    HOLDS(counted == all);
    HOLDS(floods == kMost);
    HOLDS(recording.missed(Missed::Values) == kTooMany);
    HOLDS(recording.missed() == kTooMany);
    HOLDS(values_in(report, "user") == kMost);
    HOLDS(segments_in(path) < 5);
}

int run() {
    int failed = group("a bound of values", bound);
    failed += group("each value", each_value);
    failed += group("the usual bound, and none", usual);
    failed += group("threads", threads);
    failed += group("no mutex", without_mutex);
    failed += group("a flood", flooded);
    return failed;
}

}  // namespace

int main(int count, char** words) {
    if (count != 2) return 2;
    home = words[1];
    return run() != 0;
}
