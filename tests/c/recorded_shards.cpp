// Recordings of several present segments: 'recorded_shards FOLDER [threads]'. Each group works in folders of its own below that. With
// 'threads' only those are run that have threads and no children: for the thread sanitizer. It is linked with -Wl,--wrap=posix_fallocate
// and -Wl,--wrap=clock_gettime.
#include <sched.h>

#include <algorithm>
#include <atomic>
#include <cerrno>
#include <cstdio>
#include <cstdlib>
#include <filesystem>
#include <fstream>
#include <functional>
#include <random>
#include <set>
#include <thread>
#include <vector>

#include "recorded.hpp"
#include "recorded_threads.hpp"
#include "shown_clock.hpp"

namespace {

namespace files = std::filesystem;

constexpr std::uint64_t kShards[] = {1, 2, 4, 16};
constexpr std::uint32_t kMost = 4'000'000'000, kMany = 200'000'000;
constexpr povundiri_spec kSparse = {POVUNDIRI_SPARSE, 0, 0, 0};

// The bytes of a segment of small() in its file.
constexpr std::uint64_t kSmall = 16'384 + 16;

// With which fault a segment is refused, or 0.
std::atomic<int> refusal{0};

}  // namespace

extern "C" int __real_posix_fallocate(int descriptor, off_t from, off_t length);
extern "C" int __wrap_posix_fallocate(int descriptor, off_t from, off_t length) {
    return refusal != 0 ? refusal.load() : __real_posix_fallocate(descriptor, from, length);
}

namespace {

// A folder for each number of shards.
std::string folder_of(const std::string& name, std::uint64_t shards) { return folder((name + "-" + std::to_string(shards)).c_str()); }

RecordingOptions of(std::uint64_t shards) {
    RecordingOptions options = small();
    options.shards = shards;
    return options;
}

std::set<std::string> names_in(const std::string& path) {
    std::set<std::string> names;
    for (const auto& entry : files::directory_iterator(path)) names.insert(entry.path().filename());
    return names;
}

std::uint64_t bytes_in(const std::string& path) {
    std::uint64_t bytes = 0;
    std::error_code gone;
    for (const auto& entry : files::directory_iterator(path)) {
        const std::uint64_t size = files::file_size(entry.path(), gone);
        if (!gone) bytes += size;
    }
    return bytes;
}

// How many files of this folder this process has mapped, also such as have no name, and how many descriptors are open.
std::size_t mapped_in(const std::string& path) {
    std::ifstream maps("/proc/self/maps");
    std::size_t count = 0;
    for (std::string line; std::getline(maps, line);) count += line.find(files::canonical(path).string() + "/") != line.npos;
    return count;
}

std::size_t descriptors() {
    return static_cast<std::size_t>(std::distance(files::directory_iterator("/proc/self/fd"), files::directory_iterator()));
}

// A service of one thread has what it has with one shard, however many it may have: one segment and one spare, so as many mappings and
// descriptors; so has one whose main thread asks for the histograms, and another one counts.
void one_thread() {
    for (const bool asks_first : {false, true}) {
        std::size_t mapped = 0, opened = 0;
        for (const std::uint64_t shards : {std::uint64_t{1}, std::uint64_t{0}, std::uint64_t{16}}) {
            const std::string path = folder_of(asks_first ? "asks" : "one", shards);
            const std::size_t before = descriptors();
            Recording recording;
            HOLDS(opens(path, recording, of(shards)));
            Metric metric;
            if (asks_first) metric = metric_of(recording, "b");
            std::thread([&] {
                if (!asks_first) metric = metric_of(recording, "b");
                HOLDS(metric.add(1) && metric_of(recording, "c").add(1) && recording.missed() == 0);
            }).join();
            HOLDS(names_in(path) == (std::set<std::string>{"0000000001.seg", "recording"}) && bytes_of(path + "/0000000001.seg") == kSmall);
            if (shards == 1) {
                mapped = mapped_in(path);
                opened = descriptors() - before;
            }
            HOLDS(mapped > 0 && opened > 0 && mapped_in(path) == mapped && descriptors() - before == opened);
            recording.leave();
            recording.end();
            // The mark stays mapped: a thread may be about to miss something.
            HOLDS(mapped_in(path) == 1 && descriptors() == before);
        }
    }
}

// Threads take shards by the order in which they count first, a thread that only asks has none, and an older thread stays where it was.
void spread() {
    for (const std::uint64_t shards : kShards) {
        const std::string path = folder_of("spread", shards);
        Recording recording;
        HOLDS(opens(path, recording, of(shards)));
        const Metric metric = metric_of(recording, "b");
        Threads threads(20);
        threads.each([&](std::size_t) { HOLDS(metric_of(recording, "c").status() == Status::Done && segments_in(path) == 1); });
        for (int round = 0; round < 2; ++round) {
            threads.each([&](std::size_t i) {
                HOLDS(metric.add(1) && segments_in(path) == (round == 0 ? std::min<std::uint64_t>(i + 1, shards) : shards));
            });
        }
        threads.all([&](std::size_t) { recording.leave(); });
        HOLDS(recording.fold() == 0 && segments_in(path) == shards && recording.missed() == 0);
        HOLDS(units_in(recording.report(), "b") == 40 && units_in(recording.report(), "c") == 0);
    }
}

// As many as the process may run on are usual, at most 16.
void usual_number() {
    const std::string path = folder("usual");
    cpu_set_t processors;
    HOLDS(sched_getaffinity(0, sizeof processors, &processors) == 0);
    const auto all = static_cast<std::uint64_t>(CPU_COUNT(&processors));
    Recording recording;
    HOLDS(opens(path, recording, RecordingOptions()));
    const Metric metric = metric_of(recording, "b");
    Threads(40).all([&](std::size_t) { HOLDS(metric.add(1)); });
    HOLDS(segments_in(path) == std::min<std::uint64_t>(all, 16) && units_in(recording.report(), "b") == 40);
    // On one of them alone.
    HOLDS(in_child([] {
        cpu_set_t one;
        CPU_ZERO(&one);
        CPU_SET(static_cast<std::size_t>(sched_getcpu()), &one);
        Recording own;
        if (sched_setaffinity(0, sizeof one, &one) != 0 || !opens(folder("usual_one"), own, RecordingOptions())) return false;
        const Metric mine = metric_of(own, "b");
        Threads(5).all([&](std::size_t) { HOLDS(mine.add(1)); });
        return segments_in(folder("usual_one")) == 1 && units_in(own.report(), "b") == 5;
    }));
}

// Counts in lives of threads, of which each tenth sample has so many units that a segment has room for about twenty.
void count_in_lives(const Metric& metric, std::size_t number, int lives, std::atomic<long long>& counted) {
    for (int life = 0; life < lives; ++life) {
        std::thread([&] {
            for (int sample = 0; sample < 100; ++sample) {
                const std::uint32_t count = sample % 10 == 0 ? kMany : 1;
                counted += metric.add(static_cast<std::int32_t>(number) + 7 * life + sample, count) ? count : 0;
            }
        }).join();
    }
}

// A reader finds at least what had ended, and no fewer than before.
void read_beside(const std::string& path, const std::atomic<long long>& counted, const std::atomic<bool>& ends) {
    long long last = 0;
    do {
        const long long ended = counted, units = units_beside(path, "s");
        if (units == -2) continue;
        HOLDS(units >= last && units >= ended);
        last = units;
    } while (!ends);
}

void fold_beside(Recording& recording, const std::atomic<bool>& ends) {
    do {
        std::uint64_t folded = 0;
        HOLDS(!recording.try_fold(folded));
        (void)recording.maintain();
        usleep(1'000);
    } while (!ends);
}

// Threads that come and go, beside rolls, folds and readers: nothing is missed, and the sum is exact.
void beside() {
    for (const std::uint64_t shards : kShards) {
        constexpr std::size_t kThreads = 6;
        constexpr int kLives = 12;
        const std::string path = folder_of("beside", shards);
        Recording recording;
        HOLDS(opens(path, recording, of(shards)));
        const Metric sparse = metric_of(recording, "s", kSparse);
        HOLDS(sparse.add(0));
        std::atomic<long long> counted{1};
        std::atomic<bool> ends{false};
        std::vector<std::thread> threads, others;
        others.emplace_back([&] { read_beside(path, counted, ends); });
        others.emplace_back([&] { fold_beside(recording, ends); });
        for (std::size_t i = 0; i < kThreads; ++i) threads.emplace_back([&, i] { count_in_lives(sparse, i, kLives, counted); });
        for (std::thread& thread : threads) thread.join();
        ends = true;
        for (std::thread& thread : others) thread.join();
        HOLDS(counted == 1 + kThreads * kLives * 10 * (kMany + 9LL) && recording.missed() == 0);
        HOLDS(units_in(recording.report(), "s") == counted);
        recording.leave();
        recording.fold();
        HOLDS(segments_in(path) == shards && units_in(recording.report(), "s") == counted);
    }
}

// A thousand threads, eight at a time: there are as many segments as shards, and all are final once the recording has ended.
void short_threads() {
    for (const std::uint64_t shards : kShards) {
        const std::string path = folder_of("short", shards);
        Recording recording;
        HOLDS(opens(path, recording, of(shards)));
        const Metric metric = metric_of(recording, "b");
        std::vector<std::thread> threads;
        for (int i = 0; i < 8; ++i) {
            threads.emplace_back([&] {
                for (int life = 0; life < 125; ++life) std::thread([&] { HOLDS(metric.add(1)); }).join();
            });
        }
        for (std::thread& thread : threads) thread.join();
        HOLDS(segments_in(path) == shards && recording.missed() == 0 && units_in(recording.report(), "b") == 1000);
        recording.end();
        std::uint64_t folded = 0;
        int fault = 0;
        HOLDS(povundiri_folder_fold(path.c_str(), &folded, &fault) == 0 && folded == shards && units_beside(path, "b") == 1000);
    }
}

// More threads at once than have recorders of their own in a segment: further ones share one, in each shard.
void many_threads() {
    for (const std::uint64_t shards : {std::uint64_t{1}, std::uint64_t{2}, std::uint64_t{16}}) {
        const std::string path = folder_of("many", shards);
        Recording recording;
        HOLDS(opens(path, recording, of(shards)));
        const Metric metric = metric_of(recording, "b");
        {
            Threads threads(600);
            for (int round = 0; round < 3; ++round) threads.all([&](std::size_t) { HOLDS(metric.add(1)); });
            threads.all([&](std::size_t i) { HOLDS(i % 37 != 0 || metric.add(1, kMost)); });
            threads.all([&](std::size_t) { HOLDS(metric.add(1)); });
        }
        HOLDS(recording.missed() == 0 && units_in(recording.report(), "b") == 4 * 600 + 17LL * kMost);
        recording.leave();
        recording.fold();
        HOLDS(segments_in(path) == shards && units_in(recording.report(), "b") == 4 * 600 + 17LL * kMost);
    }
}

// All threads roll at the same time: none waits for another, and none misses a sample, although these segments follow one another at once.
void roll_together() {
    for (const std::uint64_t shards : kShards) {
        RecordingOptions options = of(shards);
        options.apart = 0;
        Recording recording;
        HOLDS(opens(folder_of("together", shards), recording, options));
        const Metric metric = metric_of(recording, "b");
        Threads threads(shards);
        for (int round = 0; round < 10; ++round) {
            threads.all([&](std::size_t) { HOLDS(metric.add(1, kMost)); });
            usleep(2'000 * static_cast<unsigned>(shards));
        }
        HOLDS(recording.missed() == 0 && segments_in(folder_of("together", shards)) == 10 * shards);
        HOLDS(units_in(recording.report(), "b") == 10LL * static_cast<long long>(shards) * kMost);
    }
}

// Over a longer time there is one in each `apart`, in all shards together; the first of each may be followed at once.
void apart() {
    for (const std::uint64_t shards : kShards) {
        const std::string path = folder_of("apart", shards);
        Clock clock;
        RecordingOptions options = of(shards);
        options.apart = 1'000'000'000;
        Recording recording;
        HOLDS(opens(path, recording, options));
        const Metric metric = metric_of(recording, "b");
        std::atomic<int> counted{0};
        {
            Threads threads(shards);
            threads.all([&](std::size_t) { HOLDS(metric.add(1)); });
            threads.all([&](std::size_t) { HOLDS(metric.add(1, kMost) && metric.add(1, kMost) && !metric.add(1, kMost)); });
            HOLDS(segments_in(path) == 2 * shards && recording.missed() == shards * std::uint64_t{kMost});
            threads.all([&](std::size_t) {
                for (int tenth = 0; tenth < 1000; ++tenth) {
                    shown += 100'000'000 / static_cast<std::int64_t>(shards);
                    counted += metric.add(1, kMost);
                }
            });
        }
        // A hundred seconds have passed, and some microseconds.
        HOLDS(counted > 80 && counted <= 101 + static_cast<int>(shards));
        HOLDS(recording.missed(Missed::Rolling) == recording.missed());
    }
}

// A child of fork has no part in it, however many threads roll as it is forked.
void forks() {
    for (const std::uint64_t shards : kShards) {
        const std::string path = folder_of("forks", shards);
        Recording recording;
        HOLDS(opens(path, recording, of(shards)));
        const Metric metric = metric_of(recording, "b");
        std::atomic<bool> ends{false};
        std::atomic<long long> counted{0};
        std::vector<std::thread> threads;
        for (int i = 0; i < 4; ++i) {
            threads.emplace_back([&] {
                for (int sample = 0; !ends; ++sample) {
                    const std::uint32_t count = sample % 50 == 0 ? kMost : 1;
                    counted += metric.add(1, count) ? count : 0;
                }
            });
        }
        for (int i = 0; i < 30; ++i) {
            HOLDS(in_child([&] {
                if (metric.add(1, 5) || recording.missed(Missed::Forked) != 5 || recording.missed() != 5) return false;
                Recording own;
                if (!opens(path, own, of(shards))) return false;
                const Metric mine = metric_of(own, "c");
                Threads(shards + 1).all([&](std::size_t) { HOLDS(mine.add(1) && !metric.add(1)); });
                const bool is_counted = own.missed() == 0 && mine.add(1, 2);
                recording.leave();
                recording.end();
                own.end();
                return is_counted && failed_here == 0 && !mine.add(1) && recording.missed() == 0;
            }));
        }
        ends = true;
        for (std::thread& thread : threads) thread.join();
        const auto of_children = 30 * static_cast<long long>(shards + 3);
        HOLDS(units_in(recording.report(), "b") == counted && units_in(recording.report(), "c") == of_children);
        HOLDS(recording.missed() == 0);
    }
}

// A run of a service: its threads count at the same time. Returns the number of the first segment.
std::uint64_t run_service(const std::string& path, std::uint64_t shards, std::size_t threads, std::uint32_t count = 1) {
    Recording recording;
    HOLDS(opens(path, recording, of(shards)));
    const Metric metric = metric_of(recording, "b");
    Threads(threads).all([&](std::size_t) { HOLDS(metric.add(1, count)); });
    HOLDS(recording.missed() == 0);
    return recording.began().number;
}

// A service that is restarted has as many segments as shards, and not more each time; so too where it has fewer shards meanwhile, or two of
// them run at once.
void restarts() {
    for (const std::uint64_t shards : kShards) {
        const std::string path = folder_of("restarts", shards);
        for (int run = 0; run < 8; ++run) {
            HOLDS(run_service(path, shards, 20) == (run == 0 ? 1 : shards) && segments_in(path) == shards);
        }
        for (int run = 0; run < 3; ++run) run_service(path, 1, 20);
        for (int run = 0; run < 3; ++run) run_service(path, shards, 1);
        HOLDS(segments_in(path) == shards && units_beside(path, "b") == 20 * 11 + 3);
        for (int run = 0; run < 2; ++run) {
            Recording recording;
            HOLDS(opens(path, recording, of(shards)));
            const Metric metric = metric_of(recording, "b");
            Threads both(20);
            both.all([&](std::size_t) { HOLDS(metric.add(1)); });
            run_service(path, shards, 20);
            HOLDS(segments_in(path) == 2 * shards);
        }
        HOLDS(units_beside(path, "b") == 20 * 15 + 3);
    }
}

// Which segment is continued: the one of the greatest number that may be. Those that are full, of another size, or in use are passed over.
void continued() {
    const std::string path = folder("continued");
    HOLDS(run_service(path, 4, 4) == 1 && segments_in(path) == 4);
    // The fifth is of another size.
    RecordingOptions other = of(4);
    other.bytes = 32'768;
    Recording recording;
    HOLDS(opens(path, recording, other) && recording.began().number == 5 && !recording.began().adopted);
    recording.end();
    HOLDS(opens(path, recording, of(1)) && recording.began().number == 4 && recording.began().adopted);
    const Metric sparse = metric_of(recording, "s", kSparse);
    int values = 0;
    while (segments_in(path) == 5) HOLDS(sparse.add(values++));
    recording.end();
    HOLDS(segments_in(path) == 6 && bytes_of(path + "/0000000006.seg") == kSmall);
    // The fourth is full now, and the fifth of another size.
    Recording sixth, third;
    HOLDS(opens(path, sixth, of(1)) && sixth.began().number == 6 && sixth.began().adopted);
    HOLDS(opens(path, third, of(1)) && third.began().number == 3 && third.began().adopted);
    HOLDS(metric_of(sixth, "b").add(1, 10) && metric_of(third, "b").add(1, 100));
    HOLDS(units_in(third.report(), "b") == 4 + 110 && units_in(third.report(), "s") == values);
    sixth.end();
    third.end();
    // What is left may be folded, and nothing of it is counted twice.
    HOLDS(opens(path, recording, of(2)) && recording.began().number == 6 && recording.fold() == 5);
    HOLDS(metric_of(recording, "b").add(1, 1000) && units_in(recording.report(), "b") == 4 + 1110);
}

// A newest segment that is damaged gets another name, and an older one is continued.
void damaged() {
    const std::string path = folder("damaged"), newest = path + "/0000000002.seg";
    HOLDS(run_service(path, 2, 2) == 1 && segments_in(path) == 2);
    std::FILE* const file = std::fopen(newest.c_str(), "r+");
    HOLDS(file != nullptr && std::fseek(file, 8, SEEK_SET) == 0 && std::fputc('x', file) == 'x' && std::fclose(file) == 0);
    Recording recording;
    HOLDS(opens(path, recording, of(2)) && recording.began().number == 1 && recording.began().adopted);
    ANSWERS(IMAGE_BAD_COOKIE, recording.began().refused);
    HOLDS(files::path(recording.began().set_aside).filename() == "0000000002.damaged" && bytes_of(newest) == -1);
    HOLDS(metric_of(recording, "b").add(1, 7) && units_in(recording.report(), "b") == 8);
}

// Where no segment can be made, threads of other shards count in the first one, and nothing is missed; later each has its own.
void refused_shards() {
    for (const int fault : {EIO, ENOSPC, EDQUOT}) {
        const std::string path = folder_of("refused", static_cast<std::uint64_t>(fault));
        Recording recording;
        refusal = 0;
        HOLDS(opens(path, recording, of(4)));
        const Metric metric = metric_of(recording, "b");
        refusal = fault;
        Threads threads(12);
        // The second shard has the spare.
        threads.each([&](std::size_t i) { HOLDS(metric.add(1) && segments_in(path) == (i == 0 ? 1 : 2)); });
        for (int i = 0; i < 3; ++i) threads.all([&](std::size_t) { HOLDS(metric.add(1)); });
        HOLDS(recording.missed() == 0 && units_in(recording.report(), "b") == 48 && segments_in(path) == 2);
        refusal = 0;
        usleep(1'100'000);
        // The next segment of the first shard is begun: threads that count there go home then.
        threads.each([&](std::size_t i) { HOLDS(i != 0 || (metric.add(1, kMost) && metric.add(1, kMost))); });
        threads.each([&](std::size_t) { HOLDS(metric.add(1)); });
        HOLDS(recording.missed() == 0 && segments_in(path) == 5 && units_in(recording.report(), "b") == 60 + 2LL * kMost);
    }
}

// However many threads need segments at once, the files of the folder have no more bytes than they may; and there are no more shards than
// have room beside a spare.
void limit() {
    for (const std::uint64_t most : {std::uint64_t{2}, std::uint64_t{3}, std::uint64_t{5}, std::uint64_t{20}}) {
        const std::string path = folder_of("limit", most);
        RecordingOptions options = of(16);
        options.fold_at = UINT64_MAX;
        // Beside the segments, the mark, and the totals of a fold.
        options.most_bytes = most * kSmall + 4'096 + 4'096;
        Recording recording;
        HOLDS(opens(path, recording, options));
        const Metric metric = metric_of(recording, "b");
        std::atomic<std::uint64_t> greatest{0};
        std::atomic<bool> ends{false};
        std::thread watch([&] {
            while (!ends) greatest = std::max(greatest.load(), bytes_in(path));
        });
        std::atomic<long long> counted{0}, missed{0};
        {
            Threads threads(24);
            threads.all([&](std::size_t) { HOLDS(metric.add(1)); });
            HOLDS(segments_in(path) == std::min<std::uint64_t>(most - 1, 16) && recording.missed() == 0);
            threads.all([&](std::size_t) {
                for (int i = 0; i < 20; ++i) (metric.add(1, kMost) ? counted : missed) += kMost;
                recording.leave();
            });
        }
        ends = true;
        watch.join();
        HOLDS(greatest <= options.most_bytes && bytes_in(path) <= options.most_bytes && counted > 0);
        HOLDS(recording.missed() == static_cast<std::uint64_t>(missed) && recording.missed(Missed::NoSpace) == recording.missed());
        HOLDS(units_in(recording.report(), "b") == counted + 24);
    }
}

// A recording ends as threads roll: each sample was counted or missed, and each segment is final once its threads have ended.
void ends_amid_rolls() {
    for (const std::uint64_t shards : kShards) {
        const std::string path = folder_of("ends", shards);
        long long all = 0;
        for (int run = 0; run < 5; ++run) {
            Recording recording;
            HOLDS(opens(path, recording, of(shards)));
            const Metric metric = metric_of(recording, "b");
            std::atomic<long long> counted{0}, missed{0};
            std::atomic<bool> has_ended{false};
            std::vector<std::thread> threads;
            for (int i = 0; i < 6; ++i) {
                threads.emplace_back([&] {
                    for (int after = 0; after < 5; after += has_ended) (metric.add(1, kMost / 4) ? counted : missed) += kMost / 4;
                });
            }
            usleep(10'000);
            const std::uint64_t before = recording.missed();
            recording.end();
            has_ended = true;
            for (std::thread& thread : threads) thread.join();
            all += counted;
            HOLDS(before == 0 && missed >= 24LL * (kMost / 4) && !metric.add(1));
        }
        std::uint64_t folded = 0;
        int fault = 0;
        HOLDS(povundiri_folder_fold(path.c_str(), &folded, &fault) == 0 && segments_in(path) == 0 && units_beside(path, "b") == all);
    }
}

// Somebody empties the folder: the next text sees it for each shard, and what all of them had is missed.
void removed() {
    for (const std::uint64_t shards : kShards) {
        const std::string path = folder_of("removed", shards);
        Recording recording;
        HOLDS(opens(path, recording, of(shards)));
        const Metric metric = metric_of(recording, "b");
        recording.leave();
        const auto all = 20 * static_cast<long long>(shards);
        Threads threads(shards);
        threads.all([&](std::size_t) { HOLDS(metric.add(1, 20)); });
        files::remove_all(path);
        HOLDS(units_in(recording.report(), "b") == -1 && segments_in(path) == shards);
        threads.all([&](std::size_t) { HOLDS(metric.add(1, 3)); });
        HOLDS(recording.missed(Missed::Removed) == static_cast<std::uint64_t>(all) &&
              recording.missed() == recording.missed(Missed::Removed));
        HOLDS(units_in(recording.report(), "b") == 3 * static_cast<long long>(shards) && names_in(path).count("recording") == 1);
        // One of the segments alone.
        HOLDS(std::remove((path + "/0000000001.seg").c_str()) == 0 &&
              units_in(recording.report(), "b") == (shards == 1 ? -1 : 3 * static_cast<long long>(shards - 1)));
        threads.all([&](std::size_t) { HOLDS(metric.add(1)); });
        HOLDS(units_in(recording.report(), "b") == 4 * static_cast<long long>(shards) - 3);
        HOLDS(recording.missed() == static_cast<std::uint64_t>(all) + 3);
    }
}

// A folder that is moved is followed by all shards, also by those that begin later.
void moved() {
    const std::string path = folder("moved"), to = folder("moved-to");
    Recording recording;
    HOLDS(opens(path, recording, of(4)));
    const Metric metric = metric_of(recording, "b");
    Threads threads(4);
    threads.each([&](std::size_t i) { HOLDS(i > 1 || metric.add(1)); });
    files::rename(path, to);
    threads.all([&](std::size_t) { HOLDS(metric.add(1, kMost) && metric.add(1, kMost)); });
    HOLDS(segments_in(to) == 8 && bytes_of(path) == -1 && recording.missed() == 0);
    HOLDS(units_in(recording.report(), "b") == 2 + 8LL * kMost);
}

// A word of a folder's mark (docs/FORMAT.md): its id, and where the units begin that were missed, by reason. 0: there is none.
constexpr std::size_t kId = 2, kMissed = 16;

std::uint64_t word_of(const std::string& path, std::size_t at) {
    std::ifstream mark(path + "/recording", std::ios::binary);
    std::uint64_t word = 0;
    mark.seekg(static_cast<std::streamoff>(8 * at));
    mark.read(reinterpret_cast<char*>(&word), sizeof word);
    return mark ? word : 0;
}

std::uint64_t marked(const std::string& path, Missed reason) { return word_of(path, kMissed + static_cast<std::size_t>(reason)); }

// Threads of all shards miss units and roll, while the mark is removed and texts are read: it has the same id again, and in the end each unit
// once.
void removed_marks() {
    for (const std::uint64_t shards : kShards) {
        const std::string path = folder_of("marks", shards);
        RecordingOptions options = of(shards);
        options.most_values = 1;
        Recording recording;
        HOLDS(opens(path, recording, options));
        const Metric metric = metric_of(recording, "s", kSparse);
        const std::uint64_t id = recording.began().id;
        std::atomic<bool> ends{false};
        std::vector<std::thread> threads;
        HOLDS(metric.add(0) && id != 0 && word_of(path, kId) == id);
        for (int i = 0; i < 6; ++i) {
            threads.emplace_back([&] {
                for (int sample = 0; !ends; ++sample) (void)(sample % 1000 == 0 ? metric.add(0, kMost / 4) : metric.add(1, 3));
            });
        }
        while (recording.missed(Missed::Values) == 0) usleep(50);
        for (int i = 0; i < 20; ++i) {
            HOLDS(std::remove((path + "/recording").c_str()) == 0);
            usleep(500);
            HOLDS(recording.report().find("!missed,values,") != std::string::npos && word_of(path, kId) == id);
        }
        ends = true;
        for (std::thread& thread : threads) thread.join();
        HOLDS(!recording.report().empty() && recording.missed(Missed::Values) > 1000);
        for (const Missed reason : {Missed::NoSpace, Missed::Rolling, Missed::Removed, Missed::Values}) {
            HOLDS(marked(path, reason) == recording.missed(reason));
        }
        recording.end();
        HOLDS(!metric.add(0, 7) && marked(path, Missed::Ended) == 7);
    }
}

// One shard alone has seen that a folder was emptied, or removed: another one gives the next mark the same id, and at the end what is missed
// is in the mark that is there.
void one_sees_it() {
    for (const bool is_removed : {false, true}) {
        const std::string path = folder_of("sees", is_removed);
        RecordingOptions options = of(3);
        // Who makes a spare does not look whether there are many segments, so it does not look at the folder for all shards.
        options.fold_at = UINT64_MAX;
        Recording recording;
        HOLDS(opens(path, recording, options));
        const Metric metric = metric_of(recording, "b");
        const std::uint64_t before = recording.began().id;
        std::uint64_t id = 0;
        Threads threads(3);
        threads.each([&](std::size_t) { HOLDS(metric.add(1)); });
        if (is_removed) files::remove_all(path);
        if (!is_removed) {
            for (const std::string& name : names_in(path)) HOLDS(std::remove((path + "/" + name).c_str()) == 0);
        }
        threads.each([&](std::size_t i) { HOLDS(i != 1 || (metric.add(1, kMost) && metric.add(1, kMost))); });
        id = word_of(path, kId);
        HOLDS(id != 0 && id != before);
        if (!is_removed) {
            HOLDS(std::remove((path + "/recording").c_str()) == 0);
            threads.each([&](std::size_t i) { HOLDS(i != 0 || (metric.add(1, kMost) && metric.add(1, kMost))); });
            HOLDS(word_of(path, kId) == id);
        }
        recording.end();
        HOLDS(!metric.add(1, 5) && marked(path, Missed::Ended) == 5);
    }
}

// A sparse histogram has as many values as it may in the process, whichever threads count them.
void values() {
    constexpr int kBound = 100;
    RecordingOptions options = of(16);
    options.most_values = kBound;
    Recording recording;
    HOLDS(opens(folder("values"), recording, options));
    const Metric metric = metric_of(recording, "s", kSparse);
    std::atomic<int> counted{0};
    Threads threads(16);
    threads.all([&](std::size_t i) {
        for (int value = 0; value < 50; ++value) counted += metric.add(50 * static_cast<int>(i) + value);
    });
    HOLDS(counted == kBound && recording.missed(Missed::Values) == 16 * 50 - kBound &&
          recording.missed() == recording.missed(Missed::Values));
    HOLDS(units_in(recording.report(), "s") == kBound);
}

// A name that the program asks for with two specs: the first one has it in each segment, whichever a thread counts there first.
void two_specs() {
    Recording recording;
    HOLDS(opens(folder("specs"), recording, of(4)));
    const Metric one = metric_of(recording, "x", {POVUNDIRI_LINEAR, 1, 100, 10});
    Metric other;
    RETURNS(RefusedOtherSpec, recording.try_hist("x", kSparse, {}, other));
    Threads threads(8);
    threads.each([&](std::size_t) { HOLDS(!other.add(5, 2) && one.add(5, 3)); });
    HOLDS(recording.missed(Missed::OtherSpec) == 16 && recording.missed() == 16 && segments_in(folder("specs")) == 4);
    HOLDS(units_in(recording.report(), "x") == 24 && recording.report().find("!other") == std::string::npos);
}

// Buckets that a new release changes are counted at once in each shard, whose continued segment is left for that.
void other_spec() {
    const povundiri_spec before = {POVUNDIRI_LINEAR, 1, 1000, 10}, after = {POVUNDIRI_LINEAR, 1, 2000, 20};
    const std::string path = folder("spec");
    for (int restart = 0; restart < 4; ++restart) {
        Recording recording;
        HOLDS(opens(path, recording, of(4)));
        const Metric metric = metric_of(recording, "l", restart == 0 ? before : after), boolean = metric_of(recording, "b");
        Threads threads(8);
        threads.all([&](std::size_t) { HOLDS(boolean.add(1) && metric.add(5) && recording.missed() == 0); });
        HOLDS(segments_in(path) == (restart == 0 ? 4 : 8) && units_in(recording.report(), "b") == 8 * (restart + 1));
        HOLDS(units_in(recording.report(), "l") == 8);
    }
}

// Segments grow in each shard that is too small; a histogram that is too large for the first ones is counted as soon as they have.
void growth() {
    for (const std::uint64_t shards : kShards) {
        const std::string path = folder_of("growth", shards);
        RecordingOptions options = of(shards);
        options.bytes = 8'192;
        Recording recording;
        HOLDS(opens(path, recording, options));
        const Metric sparse = metric_of(recording, "s", kSparse);
        Metric large;
        RETURNS(RefusedTooLarge, recording.try_hist("l", {POVUNDIRI_LINEAR, 1, 100'000, 900}, {}, large));
        std::atomic<long long> counted{0}, missed{0};
        Threads threads(shards);
        threads.all([&](std::size_t) {
            for (int value = 0; value < 3000; ++value) (sparse.add(value) ? counted : missed) += 1;
        });
        threads.all([&](std::size_t) {
            usleep(100'000);
            for (int i = 0; i < 50; ++i) (large.add(1 + 2000 * i) ? counted : missed) += 1;
        });
        usleep(100'000);
        threads.all([&](std::size_t) { HOLDS(large.add(1) && sparse.add(1)); });
        HOLDS(recording.missed() == static_cast<std::uint64_t>(missed) && recording.missed(Missed::TooLarge) == 0);
        HOLDS(recording.missed(Missed::Rolling) == recording.missed() && counted > missed);
        HOLDS(units_in(recording.report(), "s") + units_in(recording.report(), "l") == counted + 2 * static_cast<long long>(shards));
        DONE(recording.try_hist("l", {POVUNDIRI_LINEAR, 1, 100'000, 900}, {}, large));
    }
}

// An idle thread holds the segment of its own shard, and none of another one.
void idle() {
    Recording recording;
    HOLDS(opens(folder("idle"), recording, of(2)));
    const Metric metric = metric_of(recording, "b");
    recording.leave();
    Threads threads(4);
    threads.each([&](std::size_t) { HOLDS(metric.add(1)); });
    // The first shard rolls twice: its other thread holds the first segment.
    threads.each([&](std::size_t i) { HOLDS(i != 0 || (metric.add(1, kMost) && metric.add(1, kMost) && metric.add(1, kMost))); });
    HOLDS(recording.fold() == 1);
    threads.each([&](std::size_t i) {
        if (i == 2) recording.leave();
    });
    HOLDS(recording.fold() == 1 && recording.fold() == 0 && units_in(recording.report(), "b") == 4 + 3LL * kMost);
}

// Threads ask for metrics, new ones and known ones, as others count: all get the same numbers, and no sample goes to another name.
void ask_together() {
    for (const std::uint64_t shards : kShards) {
        Recording recording;
        HOLDS(opens(folder_of("ask", shards), recording, of(shards)));
        constexpr int kNames = 150;
        Threads threads(8);
        threads.all([&](std::size_t i) {
            for (int number = 0; number < kNames; ++number) {
                const int name = static_cast<int>(i) % 2 == 0 ? number : kNames - 1 - number;
                const Metric metric = metric_of(recording, ("m" + std::to_string(name)).c_str());
                while (!metric.add(1, static_cast<std::uint32_t>(1 + name))) usleep(100);
            }
        });
        const std::string report = recording.report();
        for (int name = 0; name < kNames; ++name) HOLDS(units_in(report, "m" + std::to_string(name)) == 8 * (1 + name));
        HOLDS(recording.missed(Missed::Rolling) == recording.missed());
    }
}

int run(bool only_threads) {
    int failed = group("threads beside rolls and folds", beside);
    failed += group("short threads", short_threads);
    failed += group("many threads", many_threads);
    failed += group("spread", spread);
    failed += group("rolls together", roll_together);
    failed += group("the end amid rolls", ends_amid_rolls);
    failed += group("restarts", restarts);
    failed += group("segments that grow", growth);
    failed += group("threads that ask", ask_together);
    failed += group("values", values);
    failed += group("a limit of bytes", limit);
    failed += group("an idle thread", idle);
    failed += group("marks that are removed", removed_marks);
    if (only_threads) return failed;
    failed += group("one thread", one_thread);
    failed += group("the usual number", usual_number);
    failed += group("apart", apart);
    failed += group("forks", forks);
    failed += group("which is continued", continued);
    failed += group("a damaged segment", damaged);
    failed += group("shards without a segment", refused_shards);
    failed += group("removed", removed);
    failed += group("moved", moved);
    failed += group("one shard sees it", one_sees_it);
    failed += group("two specs", two_specs);
    failed += group("another spec", other_spec);
    return failed;
}

}  // namespace

int main(int count, char** words) {
    if (count != 2 && count != 3) return 2;
    home = words[1];
    return run(count == 3) != 0;
}
