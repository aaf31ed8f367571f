// Recordings in one process and its children: 'recorded FOLDER [threads]'. Each group works in a folder of its own below that. With
// 'threads' only those are run that have threads and no children: for the thread sanitizer. It is linked with -Wl,--wrap=clock_gettime and
// -Wl,--wrap=posix_fallocate.
#include <pthread.h>
#include <sys/mman.h>
#include <sys/resource.h>

#include <atomic>
#include <cerrno>
#include <chrono>
#include <csignal>
#include <cstdio>
#include <cstdlib>
#include <thread>
#include <vector>

#include "recorded.hpp"
#include "shown_clock.hpp"

namespace {

std::atomic<bool> device_is_full{false};

// With which fault a segment is refused, how often still, and how often one was tried.
std::atomic<int> refusal{0}, refusals_left{0}, times_tried{0};

}  // namespace

extern "C" int __real_posix_fallocate(int descriptor, off_t from, off_t length);
extern "C" int __wrap_posix_fallocate(int descriptor, off_t from, off_t length) {
    ++times_tried;
    if (refusals_left > 0) {
        --refusals_left;
        return refusal;
    }
    return device_is_full ? ENOSPC : __real_posix_fallocate(descriptor, from, length);
}

namespace {

void metrics() {
    Recording recording;
    Metric metric, none;
    HOLDS(opens(folder("metrics"), recording));
    HOLDS(recording.began().number == 1 && !recording.began().adopted && recording.began().fault == 0);
    std::size_t one = 9, other = 9, scale = 9;
    const povundiri_spec boolean = {POVUNDIRI_BOOLEAN, 1, 2, 3}, again = {POVUNDIRI_BOOLEAN, 0, 0, 0};
    povundiri_recording* own = nullptr;
    int fault = 0;
    ANSWERS(NULL, povundiri_recording_open(nullptr, nullptr, &own, &fault));
    HOLDS(povundiri_recording_open(folder("metrics").c_str(), nullptr, &own, &fault) == 0 && povundiri_recording_began(own)->number == 2);
    ANSWERS(NOT_EMPTY, povundiri_recording_open(folder("metrics").c_str(), nullptr, &own, &fault));
    ANSWERS(NULL, povundiri_recording_open(nullptr, nullptr, &own, &fault));
    HOLDS(povundiri_recording_began(own)->number == 2);
    HOLDS(Recording::try_open(folder("metrics").c_str(), recording) == Status::NotEmpty && recording.began().number == 1);
    HOLDS(povundiri_recording_hist(own, "b", 1, boolean, nullptr, 0, &one) == 0);
    HOLDS(povundiri_recording_hist(own, "b and more", 1, again, nullptr, 0, &other) == 0);
    HOLDS(povundiri_recording_scale(own, "s", 1, 1000, 2, &scale) == 0);
    HOLDS(one == 0 && other == 0 && scale == 1);
    ANSWERS(NULL, povundiri_recording_scale(own, nullptr, 1, 1000, 2, &scale));
    ANSWERS(NULL, povundiri_recording_hist(nullptr, "b", 1, boolean, nullptr, 0, &one));
    HOLDS(!povundiri_recording_add(own, 2, 1, 1) && !povundiri_recording_add(nullptr, 0, 1, 1) && povundiri_recording_add(own, 0, 1, 0));
    povundiri_recording_end(own);
    RETURNS(RefusedBadName, recording.try_hist("", again, {}, metric));
    RETURNS(BadKind, recording.try_hist("k", {9, 0, 0, 0}, {}, metric));
    RETURNS(SpecBadMin, recording.try_hist("k", {POVUNDIRI_LINEAR, 0, 10, 3}, {}, metric));
    HOLDS(!metric.add(1) && !none.add(1) && none.status() == Status::Empty && recording.missed() == 0);
    metric = metric_of(recording, "b");
    HOLDS(metric.add(true) && metric.add(1, 4));
    HOLDS(units_in(recording.report(), "b") == 5);
    HOLDS(recording.prometheus("my").find("\nmy_missed_total{reason=\"rolling\"} 0\n") != std::string::npos);
    HOLDS(!recording.show().empty());
}

// What was recorded is there again, and the segment is continued.
void again() {
    for (int turn = 1; turn <= 3; ++turn) {
        Recording recording;
        HOLDS(opens(folder("again"), recording));
        HOLDS(recording.began().number == 1 && recording.began().adopted == (turn > 1));
        HOLDS(metric_of(recording, "b").add(1, 7));
        HOLDS(units_in(recording.report(), "b") == 7 * turn);
    }
    // Another shape: a new segment. Both are in the report.
    Recording recording;
    HOLDS(opens(folder("again"), recording, small()));
    HOLDS(recording.began().number == 2 && metric_of(recording, "b").add(1, 7));
    HOLDS(units_in(recording.report(), "b") == 28);
    HOLDS(recording.fold() == 1 && units_in(recording.report(), "b") == 28);
}

// A segment with a whole image that may not be continued, since its group may write it: it stays and is counted, and no fault of its image
// is reported.
void not_continued() {
    const std::string path = folder("writable"), first = path + "/0000000001.seg";
    Recording recording;
    HOLDS(opens(path, recording) && metric_of(recording, "b").add(1, 3));
    recording.end();
    HOLDS(chmod(first.c_str(), 0620) == 0 && opens(path, recording));
    HOLDS(recording.began().number == 2 && !recording.began().adopted && recording.began().fault == 0);
    ANSWERS(DONE, recording.began().refused);
    HOLDS(metric_of(recording, "b").add(1, 4) && units_in(recording.report(), "b") == 7);
}

// The counts of one histogram do not fit in a page, and those of the other do not fit there after its record.
void too_large() {
    Recording recording;
    RecordingOptions options = small();
    options.bytes = 8'192;
    HOLDS(opens(folder("large"), recording, options));
    const Metric boolean = metric_of(recording, "b");
    std::uint64_t counted = 0, missed = 0;
    for (const std::uint32_t buckets : {900u, 500u}) {
        Metric metric;
        RETURNS(RefusedTooLarge, recording.try_hist(std::to_string(buckets), {POVUNDIRI_LINEAR, 1, 100'000, buckets}, {}, metric));
        for (int i = 0; i < 50; ++i) {
            (metric.add(1 + 2000 * i, 3) ? counted : missed) += 3;
            HOLDS(boolean.add(1));
        }
    }
    HOLDS(missed >= 150 && counted + missed == 300 && recording.missed(Missed::TooLarge) == missed && recording.missed() == missed);
    HOLDS(units_in(recording.report(), "b") == 100);
    // No more than a few segments were begun for it.
    std::uint64_t segments = 0;
    HOLDS(povundiri_folder_count(folder("large").c_str(), &segments) == 0 && segments < 10);
}

// Threads count in histograms that do not fit together in a segment of 16 KiB: the third segment has room for all, since each is twice as
// large as the one before. By the header a histogram takes 15 words, one for its name, and 4 and 2 for each bucket: 20 of them take 35,200
// bytes.
void growth_of_segments() {
    constexpr int kThreads = 3, kMetrics = 20, kSamples = 5000;
    const std::string path = folder("growth");
    Clock clock;
    RecordingOptions options = one_shard();
    options.bytes = 16'384;
    Recording recording;
    HOLDS(opens(path, recording, options));
    std::vector<Metric> metrics;
    for (int i = 0; i < kMetrics; ++i) {
        metrics.push_back(metric_of(recording, ("h" + std::to_string(i)).c_str(), {POVUNDIRI_LINEAR, 1, 1000, 100}));
    }
    recording.leave();
    std::atomic<long long> counted[kMetrics] = {}, missed{0};
    std::vector<std::thread> threads;
    for (int thread = 0; thread < kThreads; ++thread) {
        threads.emplace_back([&] {
            for (std::int32_t value = 0; value < kSamples; ++value) {
                for (std::size_t i = 0; i < kMetrics; ++i) (metrics[i].add(value % 1000) ? counted[i] : missed) += 1;
            }
        });
    }
    for (std::thread& thread : threads) thread.join();
    const auto all = static_cast<std::uint64_t>(missed);
    HOLDS(recording.missed() == all && recording.missed(Missed::Rolling) == all && all > 0);
    HOLDS(segments_in(path) == 3 && bytes_of(path + "/0000000001.seg") == 16'384 + 16);
    HOLDS(bytes_of(path + "/0000000002.seg") == 32'768 + 16 && bytes_of(path + "/0000000003.seg") == 65'536 + 16);
    const auto are_counted = [&](const std::string& report) {
        for (int i = 0; i < kMetrics; ++i) {
            if (counted[i] == 0 || units_in(report, "h" + std::to_string(i)) != counted[i]) return false;
        }
        return true;
    };
    HOLDS(are_counted(recording.report()));
    HOLDS(recording.fold() == 2 && segments_in(path) == 1 && are_counted(recording.report()));
}

// Segments of the largest size that are too small are a second apart. A value of a sparse histogram takes 64 bytes: so 8 MiB have room for
// fewer than 131,072 of them.
void largest() {
    constexpr int kMost = 400'000;
    Clock clock;
    RecordingOptions options = small();
    options.bytes = 4 << 20;
    options.most_values = UINT64_MAX;
    Recording recording;
    HOLDS(opens(folder("largest"), recording, options));
    const Metric sparse = metric_of(recording, "s", {POVUNDIRI_SPARSE, 0, 0, 0});
    int value = 0;
    while (value < kMost && sparse.add(value)) ++value;
    HOLDS(value > 131'072 && value < kMost && segments_in(folder("largest")) == 2);
    HOLDS(bytes_of(folder("largest") + "/0000000002.seg") == (8 << 20) + 16);
    int missed = 1;
    while (missed < 1000 && !sparse.add(value + missed)) ++missed;
    HOLDS(missed == 1000 && recording.missed() == 1000 && recording.missed(Missed::Rolling) == 1000);
    clock.pass(990);
    HOLDS(!sparse.add(value) && sparse.add(value - 1) && segments_in(folder("largest")) == 2);
    clock.pass(10);
    HOLDS(sparse.add(value) && segments_in(folder("largest")) == 3 && recording.missed() == 1001);
    HOLDS(units_in(recording.report(), "s") == value + 2);
}

// A histogram that is too large for the first segments is counted in those that have grown.
void fits_later() {
    Clock clock;
    RecordingOptions options = small();
    options.bytes = 8'192;
    Recording recording;
    HOLDS(opens(folder("later"), recording, options));
    const Metric sparse = metric_of(recording, "s", {POVUNDIRI_SPARSE, 0, 0, 0});
    Metric large;
    RETURNS(RefusedTooLarge, recording.try_hist("l", {POVUNDIRI_LINEAR, 1, 100'000, 900}, {}, large));
    long long counted = 0;
    for (int i = 0; i < 50; ++i) counted += large.add(1 + 2000 * i);
    HOLDS(counted < 50 && recording.missed() == static_cast<std::uint64_t>(50 - counted));
    const std::uint64_t missed = recording.missed(Missed::TooLarge);
    for (int value = 0; value < 1000; ++value) HOLDS(sparse.add(value));
    for (int i = 0; i < 50; ++i) HOLDS(large.add(1 + 2000 * i));
    HOLDS(recording.missed() == missed && recording.missed(Missed::TooLarge) == missed);
    HOLDS(units_in(recording.report(), "l") == counted + 50 && units_in(recording.report(), "s") == 1000);
    DONE(recording.try_hist("l", {POVUNDIRI_LINEAR, 1, 100'000, 900}, {}, large));
}

// A release that changes the buckets of a histogram counts at once: the segment that it continues is followed by the next one, whether the
// histogram is asked for or a thread that knows it counts. Both are in the totals.
void other_spec() {
    const povundiri_spec before = {POVUNDIRI_LINEAR, 1, 1000, 10}, after = {POVUNDIRI_LINEAR, 1, 2000, 20};
    const std::string path = folder("spec");
    for (int restart = 0; restart < 4; ++restart) {
        Recording recording;
        HOLDS(opens(path, recording) && recording.began().adopted == (restart > 0));
        Metric metric;
        DONE(recording.try_hist("l", restart == 0 ? before : after, {}, metric));
        HOLDS(metric.status() == Status::Done && metric.add(5, 1000) && recording.missed() == 0);
        // The next segment is begun once, and continued by those after it.
        HOLDS(segments_in(path) == (restart == 0 ? 1 : 2));
    }
    Recording recording;
    HOLDS(opens(path, recording) && recording.began().number == 2 && recording.began().adopted);
    HOLDS(recording.report().find("\n!other,l,1,3000\n") != std::string::npos && units_in(recording.report(), "l") == 1000);
    // A segment that this process has begun is not left: it asks for the name with both, and might go on for ever.
    Metric one, other;
    DONE(recording.try_hist("l", before, {}, one));
    HOLDS(segments_in(path) == 3);
    RETURNS(RefusedOtherSpec, recording.try_hist("l", after, {}, other));
    HOLDS(other.status() == Status::RefusedOtherSpec && !other.add(5, 2) && recording.missed(Missed::OtherSpec) == 2 && one.add(5));
    HOLDS(recording.report().find("\n!missed,other_spec,2\n") != std::string::npos && segments_in(path) == 3);
}

void ended() {
    Recording recording;
    HOLDS(opens(folder("ended"), recording));
    const Metric metric = metric_of(recording, "b");
    povundiri_recording* own = nullptr;
    int fault = 0;
    std::size_t number = 9;
    HOLDS(metric.add(1));
    HOLDS(povundiri_recording_open(folder("ended").c_str(), nullptr, &own, &fault) == 0 && povundiri_recording_began(own)->number == 2);
    HOLDS(povundiri_recording_hist(own, "b", 1, {POVUNDIRI_BOOLEAN, 0, 0, 0}, nullptr, 0, &number) == 0);
    HOLDS(povundiri_recording_add(own, number, 1, 2));
    povundiri_recording_end(own);
    povundiri_recording_end(own);
    HOLDS(!povundiri_recording_add(own, number, 1, 3) && povundiri_recording_missed(own, POVUNDIRI_MISSED_ENDED) == 3);
    HOLDS(units_in(recording.report(), "b") == 3);
    // The other's segment is final: a fold takes it, and not this one's.
    HOLDS(recording.fold() == 1 && metric.add(1) && units_in(recording.report(), "b") == 4);
}

// Above 250 threads at once, further ones share a recorder. They count in many histograms, too.
void many_threads() {
    constexpr int kThreads = 1000, kSamples = 50, kMetrics = 40;
    constexpr std::uint32_t kMost = 4'000'000'000;
    Recording recording;
    HOLDS(opens(folder("threads"), recording));
    const Metric metric = metric_of(recording, "b");
    std::vector<Metric> metrics;
    for (int i = 0; i < kMetrics; ++i) metrics.push_back(metric_of(recording, ("m" + std::to_string(i)).c_str()));
    std::atomic<int> counted{0};
    Gate gate;
    std::vector<std::thread> threads;
    for (std::size_t i = 0; i < kThreads; ++i) {
        threads.emplace_back([&, i] {
            counted += metric.add(1);
            gate.wait();
            for (int sample = 1; sample < kSamples; ++sample) counted += metric.add(sample % 2);
            HOLDS(metrics[i % kMetrics].add(1));
        });
    }
    gate.open_for(kThreads);
    for (std::thread& thread : threads) thread.join();
    HOLDS(counted == kThreads * kSamples && recording.missed() == 0);
    HOLDS(units_in(recording.report(), "b") == kThreads * kSamples);
    for (int i = 0; i < kMetrics; ++i) HOLDS(units_in(recording.report(), "m" + std::to_string(i)) == kThreads / kMetrics);
    // None of them holds the first segment any more, when another is begun.
    std::uint64_t segments = 0;
    HOLDS(metric.add(1, kMost) && metric.add(1, kMost) && recording.fold() == 1);
    HOLDS(povundiri_folder_count(folder("threads").c_str(), &segments) == 0 && segments == 1);
    HOLDS(units_in(recording.report(), "b") == kThreads * kSamples + 2LL * kMost);
}

// What each of the threads does that count by turns in two recordings: so many rounds, with one metric more in each of the first ones. The
// many units let both recordings roll.
constexpr int kTurners = 4, kTurnMetrics = 60, kRounds = 200;
constexpr std::uint32_t kManyByTurns = 40'000'000;

void count_by_turns(Recording& one, Recording& other) {
    std::vector<Metric> ones, others;
    for (std::size_t round = 0; round < kRounds; ++round) {
        if (round < kTurnMetrics) {
            const std::string name = "m" + std::to_string(round);
            ones.push_back(metric_of(one, name.c_str()));
            if (round % 2 == 0) others.push_back(metric_of(other, name.c_str()));
        }
        HOLDS(ones[round % ones.size()].add(1) && others[round % others.size()].add(1, 2));
        HOLDS(ones[0].add(0, kManyByTurns) && others[0].add(0, kManyByTurns));
        if (round % 50 == 49) one.leave();
    }
}

// Numbers of metrics that only another recording has; and one that has ended.
void numbers_of_another() {
    Recording third;
    povundiri_recording* own = nullptr;
    int fault = 0;
    std::size_t number = 9;
    HOLDS(povundiri_recording_open(folder("own").c_str(), nullptr, &own, &fault) == 0);
    HOLDS(povundiri_recording_hist(own, "b", 1, {POVUNDIRI_BOOLEAN, 0, 0, 0}, nullptr, 0, &number) == 0 && number == 0);
    HOLDS(opens(folder("third"), third));
    Metric last;
    for (int i = 0; i < 20; ++i) last = metric_of(third, ("m" + std::to_string(i)).c_str());
    for (std::size_t i = 0; i < 30; ++i) HOLDS(last.add(1) && povundiri_recording_add(own, i, 1, 1) == (i == 0) && last.add(1));
    povundiri_recording_end(own);
    HOLDS(last.add(1) && !povundiri_recording_add(own, 0, 1, 3) && last.add(1));
    HOLDS(povundiri_recording_missed(own, POVUNDIRI_MISSED_ENDED) == 3 && third.missed() == 0);
    HOLDS(units_in(third.report(), "m19") == 62 && third.fold() == 0);
    third.end();
    HOLDS(!last.add(1));
}

// Threads count by turns in two recordings that roll, with ever more metrics: no sample goes to the wrong recording, even if one of them
// was left or has ended.
void by_turns() {
    RecordingOptions options = small();
    options.bytes = 65'536;
    Recording one, other;
    HOLDS(opens(folder("turns-one"), one, options) && opens(folder("turns-other"), other, options));
    std::vector<std::thread> threads;
    for (int i = 0; i < kTurners; ++i) threads.emplace_back([&] { count_by_turns(one, other); });
    for (std::thread& thread : threads) thread.join();
    HOLDS(one.missed() == 0 && other.missed() == 0);
    for (const bool is_one : {true, false}) {
        const std::string report = (is_one ? one : other).report();
        const int metrics = is_one ? kTurnMetrics : kTurnMetrics / 2;
        long long units = 0;
        for (int i = 0; i < metrics; ++i) units += units_in(report, "m" + std::to_string(is_one ? i : 2 * i));
        HOLDS(units == kTurners * kRounds * (kManyByTurns + (is_one ? 1LL : 2LL)));
        HOLDS(units_in(report, "m1") == (is_one ? units_in(report, "m3") : -1));
    }
    numbers_of_another();
}

// A thread's key whose destructor counts a sample, as often as its value says. Destructors are called in the order of the keys, several
// times over.
Metric counted_at_end;
std::atomic<int> samples_at_end{0};

template <int number>
pthread_key_t ending_key() {
    static pthread_key_t key;
    static const bool is_made = pthread_key_create(&key, [](void* left) {
        samples_at_end += counted_at_end.add(1);
        int* const times = static_cast<int*>(left);
        if (--*times > 0) pthread_setspecific(key, times);
    }) == 0;
    HOLDS(is_made);
    return key;
}

// Samples in destructors of a thread, before and after what the recordings of the process do there: they are counted, and the thread holds
// no segment.
void ending_threads() {
    constexpr int kThreads = 20, kTimes = 3;
    constexpr std::uint32_t kMost = 4'000'000'000;
    Recording recording;
    HOLDS(opens(folder("ending"), recording));
    counted_at_end = metric_of(recording, "b");
    int times[kThreads][2];
    for (auto& each : times) {
        each[0] = each[1] = kTimes;
        std::thread([&] {
            HOLDS(counted_at_end.add(1));
            HOLDS(pthread_setspecific(ending_key<0>(), &each[0]) == 0 && pthread_setspecific(ending_key<1>(), &each[1]) == 0);
        }).join();
    }
    HOLDS(samples_at_end == 2 * kTimes * kThreads && recording.missed() == 0);
    HOLDS(units_in(recording.report(), "b") == samples_at_end + kThreads);
    HOLDS(counted_at_end.add(1, kMost) && counted_at_end.add(1, kMost) && recording.fold() == 1);
}

// What readers found beside threads that count: how often a number had fallen, how often a sample was missing, and how often there was one.
struct Found {
    std::atomic<int> fallen{0}, missing{0}, read{0};
};

void read_beside(const std::atomic<long long>& counted, const std::atomic<bool>& ends, Found& found) {
    long long last = 0;
    do {
        const long long ended = counted, units = units_beside(folder("beside"), "s");
        if (units == -2) continue;
        found.fallen += units < last ? 1 : 0;
        found.missing += units < ended ? 1 : 0;
        found.read += units > 0 ? 1 : 0;
        last = units == -1 ? 0 : units;
    } while (!ends);
}

// The first fold waits for a reading, for a minute at most: where processors are busy, folds may else end amid each of them.
void fold_beside(Recording& recording, const std::atomic<bool>& ends, const Found& found, std::atomic<int>& folded) {
    for (int i = 0; i < 60'000 && !ends && found.read == 0; ++i) std::this_thread::sleep_for(std::chrono::milliseconds(1));
    do {
        std::uint64_t more = 0;
        HOLDS(!recording.try_fold(more));
        folded += static_cast<int>(more);
        std::this_thread::sleep_for(std::chrono::milliseconds(2));
    } while (!ends);
}

// How many threads come one after the other, how many samples each counts, and the units of every tenth of them.
constexpr long long kLives = 20, kSamplesOfLife = 300, kManyOfLife = 200'000'000;

void count_in_lives(int number, const Metric& sparse, std::atomic<long long>& counted) {
    for (int life = 0; life < kLives; ++life) {
        std::thread([&, number, life] {
            for (int sample = 0; sample < kSamplesOfLife; ++sample) {
                const std::uint32_t count = sample % 10 == 0 ? kManyOfLife : 1;
                counted += sparse.add(number + 7 * life + sample, count) ? count : 0;
            }
        }).join();
    }
}

// Threads that come and go beside rolls, folds and readers: nothing is missed, no reader sees a number fall. A segment has units for 21
// samples of the many.
void beside() {
    constexpr int kThreads = 4;
    Recording recording;
    HOLDS(opens(folder("beside"), recording, small()));
    const Metric sparse = metric_of(recording, "s", {POVUNDIRI_SPARSE, 0, 0, 0});
    std::atomic<long long> counted{0};
    std::atomic<int> folded{0};
    std::atomic<bool> ends{false};
    Found found;
    std::vector<std::thread> threads, others;
    others.emplace_back([&] { read_beside(counted, ends, found); });
    others.emplace_back([&] { fold_beside(recording, ends, found, folded); });
    for (int i = 0; i < kThreads; ++i) threads.emplace_back([&, i] { count_in_lives(i, sparse, counted); });
    for (std::thread& thread : threads) thread.join();
    ends = true;
    for (std::thread& thread : others) thread.join();
    HOLDS(counted == kThreads * kLives * kSamplesOfLife / 10 * (kManyOfLife + 9) && recording.missed() == 0);
    folded += static_cast<int>(recording.fold());
    HOLDS(found.fallen == 0 && found.missing == 0 && folded > 100 && found.read > 0);
    HOLDS(units_in(recording.report(), "s") == counted);
}

// What a month has: more units than a segment, by many segments that are folded. The sums are exact.
void month() {
    constexpr int kSamples = 4000;
    constexpr std::uint32_t kCount = 250'000'000, kMost = 3'000'000'000;
    Recording recording;
    RecordingOptions options = small();
    options.bytes = 4'096;
    HOLDS(opens(folder("month"), recording, options));
    const Metric boolean = metric_of(recording, "b"), sparse = metric_of(recording, "s", {POVUNDIRI_SPARSE, 0, 0, 0});
    std::uint64_t folded = 0;
    for (int sample = 0; sample < kSamples; ++sample) {
        HOLDS(sparse.add(sample, kCount));
        if (sample % 1000 == 0) HOLDS(boolean.add(1, kMost));
        if (sample % 200 == 0) folded += recording.fold();
    }
    HOLDS(folded > 200 && recording.missed() == 0);
    HOLDS(units_in(recording.report(), "s") == 1'000'000'000'000 && units_in(recording.report(), "b") == 12'000'000'000);
    recording.fold();
    HOLDS(units_in(recording.report(), "s") == 1'000'000'000'000 && units_in(recording.report(), "b") == 12'000'000'000);
}

// A thread that is idle holds the segment that it has recorded into, until it leaves.
void idle() {
    Recording recording;
    HOLDS(opens(folder("idle"), recording, small()));
    const Metric metric = metric_of(recording, "b"), sparse = metric_of(recording, "s", {POVUNDIRI_SPARSE, 0, 0, 0});
    std::atomic<int> stage{0};
    std::thread thread([&] {
        HOLDS(metric.add(1));
        stage = 1;
        while (stage != 2) std::this_thread::yield();
        recording.leave();
        stage = 3;
        while (stage != 4) std::this_thread::yield();
        HOLDS(metric.add(1));
    });
    while (stage != 1) std::this_thread::yield();
    int added = 0;
    for (; added < 20'000; ++added) HOLDS(sparse.add(added));
    HOLDS(recording.missed() == 0);
    const std::uint64_t folded = recording.fold();
    HOLDS(folded > 3);
    stage = 2;
    while (stage != 3) std::this_thread::yield();
    HOLDS(recording.fold() == 1);
    stage = 4;
    thread.join();
    HOLDS(units_in(recording.report(), "b") == 2 && units_in(recording.report(), "s") == added);
}

void forks() {
    Recording recording;
    HOLDS(opens(folder("forks"), recording));
    const Metric metric = metric_of(recording, "b");
    std::atomic<bool> ends{false};
    std::atomic<long long> counted{0};
    std::vector<std::thread> threads;
    for (int i = 0; i < 3; ++i) {
        threads.emplace_back([&] {
            while (!ends) counted += metric.add(1);
        });
    }
    HOLDS(metric.add(1));
    for (int i = 0; i < 20; ++i) {
        HOLDS(in_child([&] {
            if (metric.add(1, 5) || recording.missed(Missed::Forked) != 5 || recording.missed() != 5) return false;
            Recording own;
            if (!opens(folder("forks"), own)) return false;
            Metric mine;
            if (own.try_hist("c", {POVUNDIRI_BOOLEAN, 0, 0, 0}, {}, mine) != Status::Done || !mine.add(1, 2)) return false;
            own.end();
            return !metric.add(1);
        }));
    }
    ends = true;
    for (std::thread& thread : threads) thread.join();
    HOLDS(units_in(recording.report(), "b") == counted + 1 && units_in(recording.report(), "c") == 40);
    HOLDS(recording.missed() == 0);
}

// Where no segment can be made, what is missed is counted, and once one can be, recording begins.
void no_space() {
    HOLDS(in_child([] {
        struct rlimit limit;
        if (getrlimit(RLIMIT_FSIZE, &limit) != 0) return false;
        const rlim_t was = limit.rlim_cur;
        limit.rlim_cur = 1000;
        std::signal(SIGXFSZ, SIG_IGN);
        if (setrlimit(RLIMIT_FSIZE, &limit) != 0) return false;
        Recording recording;
        if (!opens(folder("space"), recording) || recording.began().fault != EFBIG || recording.began().number != 0) return false;
        Metric metric;
        if (recording.try_hist("b", {POVUNDIRI_BOOLEAN, 0, 0, 0}, {}, metric) != Status::Done) return false;
        for (int i = 0; i < 100; ++i) {
            if (metric.add(1, 3)) return false;
        }
        if (recording.missed(Missed::NoSpace) != 300 || recording.missed() != 300) return false;
        limit.rlim_cur = was;
        if (setrlimit(RLIMIT_FSIZE, &limit) != 0) return false;
        std::this_thread::sleep_for(std::chrono::milliseconds(1100));
        return metric.add(1, 2) && units_in(recording.report(), "b") == 2;
    }));
}

// Where the system refuses a segment for a moment, it is tried five times more at once, and then after 10 ms, which doubles up to a second.
// With a full device it is a second at once.
void refused() {
    constexpr std::uint32_t kMost = 4'000'000'000;
    Clock clock;
    Recording recording;
    HOLDS(opens(folder("refused"), recording, small()));
    const Metric metric = metric_of(recording, "b");
    HOLDS(metric.add(1, kMost));
    refusal = EIO;
    refusals_left = 5;
    // The second segment is the spare. For the third one five tries are refused: one when the next spare is made, and four for the sample.
    HOLDS(metric.add(1, kMost) && refusals_left == 4 && metric.add(1, kMost) && refusals_left == 0 && recording.missed() == 0);
    for (const int fault : {EIO, ENOSPC, EDQUOT, EROFS, EACCES, ENOENT}) {
        std::uint64_t missed = recording.missed();
        recording.end();
        HOLDS(opens(folder("refused"), recording, small()) && metric_of(recording, "b").add(1, kMost) && metric_of(recording, "b").add(1, kMost));
        const Metric again = metric_of(recording, "b");
        missed = recording.missed();
        refusal = fault;
        refusals_left = 1'000;
        // The spare is begun, and none after it.
        HOLDS(again.add(1, kMost) && !again.add(1, kMost));
        const bool is_short = fault == EIO;
        int wait = is_short ? 10 : 1000, tries = times_tried;
        for (int i = 0; i < 10; ++i) {
            clock.pass(wait - 1);
            HOLDS(!again.add(1, kMost) && times_tried == tries);
            clock.pass(1);
            HOLDS(!again.add(1, kMost) && times_tried == ++tries);
            wait = wait < 500 ? 2 * wait : 1000;
        }
        refusals_left = 0;
        clock.pass(1000);
        HOLDS(again.add(1, kMost) && recording.missed() == missed + 21 * std::uint64_t{kMost});
        HOLDS(recording.missed(Missed::NoSpace) == recording.missed());
    }
}

// Where a larger segment is refused, the next one has the size of the present one, a second later.
void may_not_grow() {
    HOLDS(in_child([] {
        struct rlimit limit;
        if (getrlimit(RLIMIT_FSIZE, &limit) != 0) return false;
        limit.rlim_cur = 20'000;
        if (setrlimit(RLIMIT_FSIZE, &limit) != 0) return false;
        Clock clock;
        Recording recording;
        Metric sparse;
        if (!opens(folder("grow"), recording, small())) return false;
        if (recording.try_hist("s", {POVUNDIRI_SPARSE, 0, 0, 0}, {}, sparse) != Status::Done) return false;
        long long counted = 0, missed = 0;
        for (int second = 0; second < 2; ++second) {
            for (int value = 0; value < 1000; ++value) (sparse.add(1000 * second + value) ? counted : missed) += 1;
            if (segments_in(folder("grow")) != static_cast<std::uint64_t>(second + 1)) return false;
            clock.pass(1000);
        }
        return sparse.add(-1) && segments_in(folder("grow")) == 3 && bytes_of(folder("grow") + "/0000000003.seg") == 16'384 + 16 &&
               missed > 1000 && recording.missed(Missed::NoSpace) == static_cast<std::uint64_t>(missed) &&
               recording.missed() == static_cast<std::uint64_t>(missed) && units_in(recording.report(), "s") == counted + 1;
    }));
}

// Totals that are longer than a limit of the files' length allows: the fold is refused, no signal comes, and the sum is what it was.
void long_totals() {
    HOLDS(in_child([] {
        Recording recording;
        Metric sparse;
        if (!opens(folder("limit"), recording, small())) return false;
        if (recording.try_hist("s", {POVUNDIRI_SPARSE, 0, 0, 0}, {}, sparse) != Status::Done) return false;
        for (int value = 0; value < 4000; ++value) {
            if (!sparse.add(value)) return false;
        }
        struct rlimit limit;
        if (getrlimit(RLIMIT_FSIZE, &limit) != 0) return false;
        limit.rlim_cur = 20'000;
        std::signal(SIGXFSZ, SIG_DFL);
        if (setrlimit(RLIMIT_FSIZE, &limit) != 0) return false;
        std::uint64_t folded = 0;
        return recording.try_fold(folded) == std::errc::file_too_large && folded == 0 && units_in(recording.report(), "s") == 4000;
    }));
}

// The same as no_space(), if the device becomes full while the process records, and then has room again.
void full_disk() {
    Recording recording;
    HOLDS(opens(folder("disk"), recording, small()));
    const Metric sparse = metric_of(recording, "s", {POVUNDIRI_SPARSE, 0, 0, 0});
    long long counted = 0, missed = 0;
    device_is_full = true;
    for (int value = 0; value < 3000; ++value) (sparse.add(value, 3) ? counted : missed) += 3;
    HOLDS(counted > 0 && missed > 0 && recording.missed(Missed::NoSpace) == static_cast<std::uint64_t>(missed));
    HOLDS(recording.missed() == recording.missed(Missed::NoSpace) && units_in(recording.report(), "s") == counted);
    device_is_full = false;
    std::this_thread::sleep_for(std::chrono::milliseconds(1100));
    HOLDS(sparse.add(-1, 5) && units_in(recording.report(), "s") == counted + 5);
    HOLDS(recording.missed() == static_cast<std::uint64_t>(missed));
}

// A recording's folder in which this user may make no file.
void unwritable() {
    const std::string path = folder("closed"), mark = path + "/recording";
    HOLDS(mkdir(path.c_str(), 0755) == 0 && std::fclose(std::fopen(mark.c_str(), "w")) == 0 && chmod(path.c_str(), 0555) == 0);
    if (geteuid() == 0) HOLDS(chown(path.c_str(), 65534, 65534) == 0);
    HOLDS(in_child([&] {
        if (geteuid() == 0 && (setgid(65534) != 0 || setuid(65534) != 0)) return false;
        Recording recording;
        if (!opens(path, recording) || recording.began().fault != EACCES || recording.began().number != 0) return false;
        Metric metric;
        if (recording.try_hist("b", {POVUNDIRI_BOOLEAN, 0, 0, 0}, {}, metric) != Status::Done) return false;
        for (int i = 0; i < 100; ++i) {
            if (metric.add(1, 3)) return false;
        }
        if (recording.missed(Missed::NoSpace) != 300 || recording.missed() != 300) return false;
        std::uint64_t folded = 0;
        return recording.report().find("!missed,no_space,300\n") != std::string::npos &&
               recording.try_fold(folded) == std::errc::permission_denied;
    }));
    HOLDS(chmod(path.c_str(), 0755) == 0);
}

// A program that ends while threads record, with a recording that is never destroyed, loses nothing: there is all that was counted, and
// of each thread at most one sample more, after which it was stopped.
void exits() {
    constexpr int kThreads = 4;
    void* const shared = mmap(nullptr, sizeof(std::atomic<long long>), PROT_READ | PROT_WRITE, MAP_SHARED | MAP_ANONYMOUS, -1, 0);
    static std::atomic<long long>* const counted = static_cast<std::atomic<long long>*>(shared);
    HOLDS(shared != MAP_FAILED && in_child([] {
        static Recording recording;
        if (!opens(folder("exits"), recording, small())) return false;
        static Metric metric;
        if (recording.try_hist("s", {POVUNDIRI_SPARSE, 0, 0, 0}, {}, metric) != Status::Done) return false;
        for (int i = 0; i < kThreads; ++i) {
            std::thread([] {
                for (int value = 0;; ++value) *counted += metric.add(value % 1000) ? 1 : 0;
            }).detach();
        }
        std::this_thread::sleep_for(std::chrono::milliseconds(100));
        std::exit(0);
    }));
    Recording recording;
    HOLDS(opens(folder("exits"), recording, small()));
    const long long units = units_in(recording.report(), "s");
    HOLDS(*counted > 0 && units >= *counted && units <= *counted + kThreads);
    HOLDS(recording.report().find("!bad") == std::string::npos);
}

int run(bool only_threads) {
    int failed = group("threads beside rolls and folds", beside);
    failed += group("many threads", many_threads);
    failed += group("two recordings by turns", by_turns);
    failed += group("samples as threads end", ending_threads);
    failed += group("an idle thread", idle);
    failed += group("segments that grow", growth_of_segments);
    failed += group("segments of the largest size", largest);
    if (only_threads) return failed;
    failed += group("metrics", metrics);
    failed += group("again", again);
    failed += group("a segment that is not continued", not_continued);
    failed += group("a histogram that is too large", too_large);
    failed += group("a histogram that fits later", fits_later);
    failed += group("another spec", other_spec);
    failed += group("ended", ended);
    failed += group("a month", month);
    failed += group("forks", forks);
    failed += group("a limit of the files' length", no_space);
    failed += group("segments beyond that limit", may_not_grow);
    failed += group("a segment that is refused", refused);
    failed += group("totals beyond that limit", long_totals);
    failed += group("a full disk", full_disk);
    failed += group("an unwritable folder", unwritable);
    failed += group("exits", exits);
    return failed;
}

}  // namespace

int main(int count, char** words) {
    ending_key<0>();
    return in_folder(count, words, run);
}
