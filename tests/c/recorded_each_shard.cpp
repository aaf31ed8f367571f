// What all shards of a recording know together: the greatest number of the folder, how many segments it may have, and the metrics that were
// asked for: 'recorded_each_shard FOLDER [threads]'. Each group works in folders of its own below that. With 'threads' only those are run
// that have threads and no children: for the thread sanitizer. It is linked with -Wl,--wrap=openat and so on.
#include <fcntl.h>

#include <algorithm>
#include <atomic>
#include <cerrno>
#include <cstdarg>
#include <cstdlib>
#include <cstring>
#include <filesystem>
#include <fstream>
#include <map>
#include <mutex>
#include <set>
#include <string>
#include <thread>
#include <utility>
#include <vector>

#include "recorded.hpp"
#include "recorded_threads.hpp"

namespace {

namespace files = std::filesystem;

constexpr std::uint64_t kShards[] = {2, 4, 16};
constexpr std::uint32_t kMost = 4'200'000'000;
constexpr povundiri_spec kBoolean = {POVUNDIRI_BOOLEAN, 0, 0, 0}, kLinear = {POVUNDIRI_LINEAR, 1, 1000, 10};
constexpr povundiri_spec kOther = {POVUNDIRI_LINEAR, 1, 1000, 11}, kLarge = {POVUNDIRI_LINEAR, 1, 1'000'000, 900};

// How often a folder was listed.
std::atomic<int> listings{0};

// A folder that loses its mark, once, just before a folder is listed.
std::string unmarked;

// Each name that a segment got and kept, in all folders, as often as one got it.
std::mutex names_mutex;
std::map<std::string, int> names_given;

void give(int folder, const char* name, int times) {
    char path[4096];
    const std::string link = "/proc/self/fd/" + std::to_string(folder);
    const ssize_t length = readlink(link.c_str(), path, sizeof path);
    const std::lock_guard<std::mutex> turn(names_mutex);
    if (length > 0 && std::strstr(name, ".seg") != nullptr) {
        names_given[std::string(path, static_cast<std::size_t>(length)) + "/" + name] += times;
    }
}

// Which of the next allocations of this thread is refused, from 0 on; -1: none.
thread_local int until_refused = -1;

bool is_refused() { return until_refused >= 0 && until_refused-- == 0; }

}  // namespace

extern "C" {
int __real_openat(int in, const char* path, int flags, ...);
int __wrap_openat(int in, const char* path, int flags, ...) {
    va_list more;
    va_start(more, flags);
    const int mode = (flags & O_CREAT) != 0 || (flags & O_TMPFILE) == O_TMPFILE ? va_arg(more, int) : 0;
    va_end(more);
    const bool lists = std::strcmp(path, ".") == 0 && (flags & O_TMPFILE) != O_TMPFILE;
    listings += lists;
    if (lists && !unmarked.empty()) HOLDS(std::remove((std::exchange(unmarked, "") + "/recording").c_str()) == 0);
    return __real_openat(in, path, flags, mode);
}

int __real_linkat(int from_folder, const char* from, int to_folder, const char* to, int flags);
int __wrap_linkat(int from_folder, const char* from, int to_folder, const char* to, int flags) {
    const int status = __real_linkat(from_folder, from, to_folder, to, flags);
    if (status == 0) give(to_folder, to, 1);
    return status;
}

int __real_renameat2(int from_folder, const char* from, int to_folder, const char* to, unsigned flags);
int __wrap_renameat2(int from_folder, const char* from, int to_folder, const char* to, unsigned flags) {
    const int status = __real_renameat2(from_folder, from, to_folder, to, flags);
    if (status == 0) {
        give(from_folder, from, -1);
        give(to_folder, to, 1);
    }
    return status;
}

void* __real_malloc(std::size_t size);
void* __wrap_malloc(std::size_t size) { return is_refused() ? nullptr : __real_malloc(size); }
void* __real_calloc(std::size_t count, std::size_t size);
void* __wrap_calloc(std::size_t count, std::size_t size) { return is_refused() ? nullptr : __real_calloc(count, size); }
void* __real_realloc(void* at, std::size_t size);
void* __wrap_realloc(void* at, std::size_t size) { return is_refused() ? nullptr : __real_realloc(at, size); }
int __real_posix_memalign(void** at, std::size_t align, std::size_t size);
int __wrap_posix_memalign(void** at, std::size_t align, std::size_t size) {
    return is_refused() ? ENOMEM : __real_posix_memalign(at, align, size);
}
}

namespace {

// A folder for each number of shards.
std::string folder_of(const std::string& name, std::uint64_t shards) { return folder((name + "-" + std::to_string(shards)).c_str()); }

RecordingOptions of(std::uint64_t shards) {
    RecordingOptions options = small();
    options.shards = shards;
    return options;
}

// The numbers of the segments in a folder.
std::set<int> numbers_in(const std::string& path) {
    std::set<int> numbers;
    for (const auto& entry : files::directory_iterator(path)) {
        if (entry.path().extension() == ".seg") numbers.insert(std::stoi(entry.path().stem()));
    }
    return numbers;
}

std::set<int> up_to(std::uint64_t last) {
    std::set<int> numbers;
    for (std::uint64_t number = 1; number <= last; ++number) numbers.insert(static_cast<int>(number));
    return numbers;
}

// The shards roll by turns, some of them often: what one has begun the next one knows, so none looks through the folder or tries numbers.
void by_turns() {
    for (const std::uint64_t shards : kShards) {
        const std::string path = folder_of("turns", shards);
        Recording recording;
        HOLDS(opens(path, recording, of(shards)));
        const Metric metric = metric_of(recording, "b");
        Threads threads(shards);
        threads.each([&](std::size_t) { HOLDS(metric.add(1, kMost)); });
        std::uint64_t last = shards;
        listings = 0;
        for (int round = 0; round < 3; ++round) {
            threads.each([&](std::size_t i) {
                for (int roll = 0; roll < (i == 0 ? 40 : 1); ++roll) {
                    HOLDS(metric.add(1, kMost) && *numbers_in(path).rbegin() == static_cast<int>(++last));
                }
            });
        }
        HOLDS(listings == 0 && numbers_in(path) == up_to(last) && last == 4 * shards + 3 * 39);
        HOLDS(recording.missed() == 0 && units_in(recording.report(), "b") == static_cast<long long>(last) * kMost);
    }
}

// All shards roll at the same time: each number is given once, and none is left out.
void at_once() {
    for (const std::uint64_t shards : kShards) {
        const std::string path = folder_of("once", shards);
        RecordingOptions options = of(shards);
        options.fold_at = UINT64_MAX;
        Recording recording;
        HOLDS(opens(path, recording, options));
        const Metric metric = metric_of(recording, "b");
        std::atomic<std::uint64_t> counted{0};
        Threads threads(shards);
        for (int round = 0; round < 10; ++round) {
            threads.all([&](std::size_t) { counted += metric.add(1, kMost); });
            usleep(1'000);
        }
        const std::uint64_t missed = recording.missed(Missed::Rolling) / kMost;
        HOLDS(counted + missed == 10 * shards && recording.missed() == missed * kMost && counted > 0);
        HOLDS(numbers_in(path) == up_to(counted) && units_in(recording.report(), "b") == static_cast<long long>(counted) * kMost);
    }
}

// A fold after each roll of a shard: the next number is above those of all that was removed, in each shard and after a restart.
void folds_between() {
    for (const std::uint64_t shards : kShards) {
        const std::string path = folder_of("folds", shards);
        int last = 0;
        long long units = 0;
        for (int run = 0; run < 2; ++run) {
            Recording recording;
            // The second run has segments of another size, so it continues none.
            RecordingOptions options = of(shards);
            options.bytes <<= run;
            HOLDS(opens(path, recording, options));
            const Metric metric = metric_of(recording, "b");
            recording.leave();
            Threads threads(shards);
            threads.each([&](std::size_t) { HOLDS(metric.add(1, kMost)); });
            HOLDS(*numbers_in(path).rbegin() == last + static_cast<int>(shards));
            last += static_cast<int>(shards);
            for (int round = 0; round < 3; ++round) {
                threads.each([&](std::size_t) {
                    HOLDS(metric.add(1, kMost) && *numbers_in(path).rbegin() == ++last);
                    (void)recording.fold();
                });
            }
            units += 4 * static_cast<long long>(shards) * kMost;
            HOLDS(segments_in(path) == shards && recording.missed() == 0 && units_in(recording.report(), "b") == units);
        }
    }
}

// Two recordings roll in one folder, each in several shards, beside folds: no number is given to two segments, and the sum is exact.
void two_at_once() {
    names_given.clear();
    for (const std::uint64_t shards : kShards) {
        const std::string path = folder_of("two", shards);
        Recording one, other;
        HOLDS(opens(path, one, of(shards)) && opens(path, other, of(shards)));
        const Metric metrics[] = {metric_of(one, "b"), metric_of(other, "b")};
        std::atomic<long long> counted{0}, missed{0};
        std::atomic<bool> ends{false};
        std::thread folds([&] {
            while (!ends) {
                std::uint64_t folded = 0;
                const std::error_code fault = one.try_fold(folded);
                // A thread that makes a spare may fold.
                HOLDS(!fault || fault == Status::Busy);
                usleep(500);
            }
        });
        {
            Threads threads(2 * shards);
            threads.all([&](std::size_t i) {
                for (int sample = 0; sample < 100; ++sample) (metrics[i % 2].add(1, kMost) ? counted : missed) += kMost;
            });
        }
        ends = true;
        folds.join();
        HOLDS(counted > 0 && static_cast<std::uint64_t>(missed) == one.missed() + other.missed());
        HOLDS(one.missed() == one.missed(Missed::Rolling) && other.missed() == other.missed(Missed::Rolling));
        HOLDS(units_in(one.report(), "b") == counted);
    }
    const std::lock_guard<std::mutex> turn(names_mutex);
    HOLDS(names_given.size() > 100);
    for (const auto& [name, times] : names_given) {
        if (times > 1) std::printf("%s was given %d times\n", name.c_str(), times);
        HOLDS(times <= 1);
    }
}

// One shard sees that the folder was removed, and begins in a new one. So do the others, and number on there.
void made_anew() {
    for (const std::uint64_t shards : kShards) {
        const std::string path = folder_of("anew", shards);
        RecordingOptions options = of(shards);
        // Who makes a spare does not look whether there are many segments, so it does not look at the folder for all shards.
        options.fold_at = UINT64_MAX;
        Recording recording;
        HOLDS(opens(path, recording, options));
        const Metric metric = metric_of(recording, "b");
        recording.leave();
        Threads threads(shards);
        for (int round = 0; round < 3; ++round) threads.each([&](std::size_t) { HOLDS(metric.add(1, kMost)); });
        HOLDS(recording.fold() == 2 * shards);
        files::remove_all(path);
        threads.each([&](std::size_t i) { HOLDS(i != shards - 1 || metric.add(1, kMost)); });
        HOLDS(numbers_in(path) == up_to(1));
        threads.each([&](std::size_t i) { HOLDS(i == shards - 1 || metric.add(1, kMost)); });
        HOLDS(numbers_in(path) == up_to(shards) && units_in(recording.report(), "b") == static_cast<long long>(shards) * kMost);
        HOLDS(recording.missed() == shards * kMost && recording.missed(Missed::Removed) == recording.missed());
    }
}

// Children of fork record in the folder of their parent, and ask it for metrics, while it rolls and asks in all its shards.
void forks() {
    for (const std::uint64_t shards : kShards) {
        const std::string path = folder_of("forks", shards);
        Recording recording;
        HOLDS(opens(path, recording, of(shards)));
        const Metric metric = metric_of(recording, "b");
        Threads threads(shards);
        threads.each([&](std::size_t) { HOLDS(metric.add(1, kMost) && metric.add(1, kMost)); });
        for (int child = 0; child < 5; ++child) {
            const std::string name = "c" + std::to_string(child);
            HOLDS(in_child([&] {
                Recording own;
                const Metric parents = metric_of(recording, name.c_str(), kLinear);
                if (parents.add(1) || metric_of(recording, "b").add(1) || !opens(path, own, of(shards))) return false;
                const Metric mine = metric_of(own, "b");
                bool counted = true;
                for (int i = 0; i < 5; ++i) counted = counted && mine.add(1, kMost) && metric_of(own, name.c_str(), kOther).add(1);
                recording.end();
                return counted && own.missed() == 0 && failed_here == 0;
            }));
            HOLDS(metric_of(recording, name.c_str(), kLinear).add(1, 3));
            threads.each([&](std::size_t) { HOLDS(metric.add(1, kMost)); });
        }
        HOLDS(recording.missed() == 0 && units_in(recording.report(), "b") == (7LL * static_cast<long long>(shards) + 25) * kMost);
        const std::set<int> numbers = numbers_in(path);
        HOLDS(*numbers.begin() == 1 && *numbers.rbegin() == static_cast<int>(numbers.size()));
    }
}

// With four times `fold_at` segments, whichever shards begin them, a thread that makes a spare folds. It counts them when there may be as
// many; where as many stay, since threads hold them, when `fold_at` more have begun.
void due() {
    const std::string path = folder("due"), held = folder("due-held");
    RecordingOptions options = of(4);
    options.fold_at = 5;
    Recording recording;
    HOLDS(opens(path, recording, options));
    const Metric metric = metric_of(recording, "b");
    Threads threads(4);
    std::size_t most = 0;
    threads.each([&](std::size_t) { HOLDS(metric.add(1, kMost)); });
    for (int round = 0; round < 10; ++round) {
        threads.each([&](std::size_t) {
            HOLDS(metric.add(1, kMost));
            most = std::max(most, numbers_in(path).size());
        });
    }
    HOLDS(most > 10 && most <= 20 && recording.missed() == 0 && units_in(recording.report(), "b") == 44LL * kMost);
    options.shards = 1;
    Recording full;
    HOLDS(opens(held, full, options));
    const Metric filled = metric_of(full, "b");
    std::vector<std::thread> holders;
    Gate gate;
    for (int i = 0; i < 30; ++i) {
        HOLDS(filled.add(1, kMost));
        full.leave();
        holders.emplace_back([&] {
            HOLDS(filled.add(1));
            gate.wait();
        });
        gate.wait_for(i + 1);
    }
    HOLDS(segments_in(held) == 30);
    const int before = listings;
    for (int i = 0; i < 50; ++i) HOLDS(filled.add(1, kMost));
    // Every fifth time at most it is counted, and then folded: who may, what is there, and what is removed.
    HOLDS(listings - before >= 10 && listings - before <= 10 * 4 && segments_in(held) <= 30 + 5 && full.missed() == 0);
    gate.open_for(30);
    for (std::thread& thread : holders) thread.join();
    HOLDS(units_in(full.report(), "b") == 80LL * kMost + 30);
}

// The id of a folder, by its mark (docs/FORMAT.md); 0: there is none.
std::uint64_t id_in(const std::string& path) {
    std::ifstream mark(path + "/recording", std::ios::binary);
    std::uint64_t words[3] = {};
    mark.read(reinterpret_cast<char*>(words), sizeof words);
    return mark ? words[2] : 0;
}

// A folder that loses its mark as it is about to be folded is marked again with the id that the recording knows.
void unmarked_amid() {
    const std::string path = folder("unmarked");
    Recording recording;
    HOLDS(opens(path, recording, of(2)));
    const Metric metric = metric_of(recording, "b");
    for (int i = 0; i < 3; ++i) HOLDS(metric.add(1, kMost));
    unmarked = path;
    HOLDS(recording.fold() == 2 && unmarked.empty() && recording.began().id != 0 && id_in(path) == recording.began().id);
}

// What a segment of 8,192 bytes without another histogram returns to a name and a spec.
Status alone(const std::string& name, povundiri_spec spec, const std::vector<std::uint32_t>& values) {
    povundiri::Segment segment(povundiri::shape_for(8'192, 1));
    povundiri::Recorder recorder = segment.recorder();
    povundiri::Hist hist;
    Status status = recorder.try_hist(name, spec, values, hist);
    if (status == Status::Done) status = recorder.try_add(hist, 0);
    if (status == Status::Done) status = recorder.try_add(hist, INT32_MAX);
    return status == Status::RefusedFull ? Status::RefusedTooLarge : status;
}

struct Asked {
    std::string name;
    povundiri_spec spec;
    std::vector<std::uint32_t> values;
};

// Names and specs that a segment refuses, each for another reason, and some at the ends of what it takes.
std::vector<Asked> asked_for() {
    const std::string longest(128, 'n'), longer(129, 'n');
    std::vector<Asked> asked;
    for (const std::string& name : {std::string(), std::string("a,b"), std::string("!a"), std::string("a\"b"), std::string("a b"),
                                    std::string("\x7f"), std::string("\xc3\xa4"), longer, longest, std::string("~"), std::string("a!")}) {
        asked.push_back({name, kLinear, {}});
    }
    const std::vector<povundiri_spec> specs = {kLarge,
                                               kBoolean,
                                               {POVUNDIRI_SPARSE, 0, 0, 0},
                                               {99, 0, 0, 0},
                                               {POVUNDIRI_LINEAR, 0, 1000, 10},
                                               {POVUNDIRI_LINEAR, 1000, 1, 10},
                                               {POVUNDIRI_LINEAR, 1, 1000, 0},
                                               {POVUNDIRI_LINEAR, 1, 1000, 2},
                                               {POVUNDIRI_LINEAR, 1, 1000, 1001},
                                               {POVUNDIRI_LINEAR, 1, 5, 100},
                                               {POVUNDIRI_LINEAR, 1, UINT32_MAX, 10},
                                               {POVUNDIRI_SCALE, 1, 1000, 0},
                                               {POVUNDIRI_SCALE, 1, 1000, 99},
                                               {POVUNDIRI_SCALE, 1000, 1, 3},
                                               {POVUNDIRI_SCALE, 1, 10'000'000, 5},
                                               {POVUNDIRI_SCALE, 1, 100'000'000, 9}};
    for (const povundiri_spec& spec : specs) asked.push_back({"s", spec, {}});
    // Of some the histogram fits, and not its second bucket.
    for (std::uint32_t buckets = 50; buckets <= 1000; buckets += 50) {
        asked.push_back({"n" + std::to_string(buckets), {POVUNDIRI_LINEAR, 1, 1'000'000, buckets}, {}});
    }
    const povundiri_spec custom = {POVUNDIRI_CUSTOM, 0, 0, 0};
    for (const std::vector<std::uint32_t>& values : {std::vector<std::uint32_t>{}, {0}, {5}, {1, 2, 3}, {3, 1, 2}, {1, 1}, {UINT32_MAX}}) {
        asked.push_back({"c", custom, values});
    }
    asked.push_back({"c", custom, std::vector<std::uint32_t>(2000, 7)});
    return asked;
}

// A name and a spec get the status that a segment returns to them without another histogram, whatever was asked for before them: also where
// what is kept to try metrics is new, has the name with another spec, or is full.
void refused_alike() {
    std::map<Status, int> met;
    RecordingOptions options = small();
    options.bytes = 8'192;
    Recording first, full;
    HOLDS(opens(folder("alike"), first, options) && opens(folder("alike-full"), full, options));
    const std::vector<Asked> asked = asked_for();
    for (std::size_t i = 0; i < asked.size(); ++i) {
        const Asked& each = asked[i];
        const Status wanted = alone(each.name, each.spec, each.values);
        Recording fresh;
        HOLDS(opens(folder_of("alike-fresh", i), fresh, options));
        for (Recording* const recording : {&fresh, &first, &full, &full}) {
            Metric metric;
            // Of two specs of a name the present segment has the first one. The first metrics of all are in it.
            const Status status = recording->try_hist(each.name, each.spec, each.values, metric);
            const bool is_other = status == Status::RefusedOtherSpec && wanted == Status::Done && recording != &fresh;
            if (status != wanted && !is_other) std::printf("row %zu, %s: ", i, each.name.c_str());
            HOLDS(status == wanted || is_other);
            if (recording == &full) {
                for (int more = 0; more < 20; ++more) {
                    DONE(full.try_hist("f" + std::to_string(i) + "_" + std::to_string(more), kLinear, {}, metric));
                }
            }
        }
        ++met[wanted];
    }
    HOLDS(met.size() > 5 && met[Status::Done] > 5 && met[Status::RefusedBadName] > 5 && met[Status::RefusedTooLarge] > 0);
}

// A metric by the C call, whose number is told, with a sample of its own value.
struct Told {
    std::uint32_t status;
    std::size_t number;
    bool is_counted;
};

Told told_of(povundiri_recording* recording, int name, povundiri_spec spec) {
    Told told = {POVUNDIRI_NULL, SIZE_MAX, false};
    const std::string text = "m" + std::to_string(name);
    told.status = povundiri_recording_hist(recording, text.data(), text.size(), spec, nullptr, 0, &told.number);
    told.is_counted = povundiri_recording_add(recording, told.number, 1 + name, 1);
    return told;
}

// Threads ask for the same names, half of them with another spec, as others count: the same number for the same name and spec, and the spec
// that was asked for first counts in all shards.
void ask_at_once() {
    for (const std::uint64_t shards : kShards) {
        constexpr int kNames = 60;
        const std::string path = folder_of("ask", shards);
        RecordingOptions options = of(shards);
        povundiri_recording* recording = nullptr;
        int fault = 0;
        options.bytes = 1 << 20;
        ANSWERS(DONE, povundiri_recording_open(path.c_str(), &options, &recording, &fault));
        std::vector<std::vector<std::size_t>> found(8, std::vector<std::size_t>(kNames));
        std::atomic<int> done{0}, counted{0};
        {
            Threads threads(8);
            threads.all([&](std::size_t i) {
                for (int each = 0; each < kNames; ++each) {
                    const int name = i % 4 < 2 ? each : kNames - 1 - each;
                    const Told told = told_of(recording, name, i % 2 == 0 ? kLinear : kOther);
                    HOLDS(told.status == POVUNDIRI_DONE || told.status == POVUNDIRI_REFUSED_OTHER_SPEC);
                    found[i][static_cast<std::size_t>(name)] = told.number;
                    done += told.status == POVUNDIRI_DONE;
                    counted += told.is_counted;
                }
            });
        }
        std::set<std::size_t> numbers;
        for (std::size_t i = 0; i < found.size(); ++i) {
            HOLDS(found[i] == found[i % 2]);
            numbers.insert(found[i].begin(), found[i].end());
        }
        HOLDS(numbers.size() == 2 * kNames && *numbers.rbegin() == 2 * kNames - 1 && done >= 4 * kNames && counted == 4 * kNames);
        HOLDS(povundiri_recording_missed(recording, POVUNDIRI_MISSED_OTHER_SPEC) == 4 * kNames);
        povundiri_recording_end(recording);
        for (int name = 0; name < kNames; ++name) HOLDS(units_beside(path, "m" + std::to_string(name)) == 4);
    }
}

// Many metrics, more than fit in one page: all are taken. One is too large until segments have grown.
void many_metrics() {
    Recording recording;
    RecordingOptions options = small();
    options.bytes = 8'192;
    HOLDS(opens(folder("metrics"), recording, options));
    Metric large, metric;
    for (int i = 0; i < 500; ++i) {
        DONE(recording.try_hist("m" + std::to_string(i), i % 2 == 0 ? kLinear : kOther, {}, metric));
        if (i % 100 == 0) RETURNS(RefusedTooLarge, recording.try_hist("large" + std::to_string(i), kLarge, {}, large));
        if (i % 50 == 0) RETURNS(RefusedBadName, recording.try_hist("m,", kLinear, {}, metric));
    }
    HOLDS(!(large.add(1) && large.add(900'000)) && metric.add(5));
}

// Of a recording that has ended the same is taken and refused, though there is nothing to count in.
void after_the_end() {
    povundiri_recording* recording = nullptr;
    std::size_t number = 9;
    int fault = 0;
    ANSWERS(DONE, povundiri_recording_open(folder("ended").c_str(), nullptr, &recording, &fault));
    povundiri_recording_end(recording);
    for (std::size_t i = 0; i < 100; ++i) {
        HOLDS(told_of(recording, static_cast<int>(i), kLinear).status == POVUNDIRI_DONE);
        ANSWERS(REFUSED_BAD_NAME, povundiri_recording_hist(recording, "a,", 2, kLinear, nullptr, 0, &number));
        ANSWERS(BAD_KIND, povundiri_recording_hist(recording, "a", 1, {99, 0, 0, 0}, nullptr, 0, &number));
    }
    HOLDS(number == 9 && povundiri_recording_missed(recording, POVUNDIRI_MISSED_ENDED) == 100);
}

// Each allocation of asking is refused in turn, when what is kept to try metrics is not there, has room and is full: that is said, and the
// next time it is taken.
void no_memory() {
    int said = 0, taken = 0;
    for (const int before : {0, 1, 200}) {
        for (int refused = 0; refused < 60; ++refused) {
            Recording recording;
            HOLDS(opens(folder_of("memory" + std::to_string(before), static_cast<std::uint64_t>(refused)), recording, small()));
            Metric metric;
            for (int i = 0; i < before; ++i) DONE(recording.try_hist("m" + std::to_string(i), kLinear, {}, metric));
            until_refused = refused;
            const Status status = recording.try_hist("h", kLinear, {}, metric);
            const bool was_refused = until_refused == -1;
            until_refused = -1;
            const bool is_said = status == Status::NoMemory || status == Status::OpenNoMemory || status == Status::RefusedNoMemory;
            HOLDS(status == Status::Done || (is_said && was_refused));
            said += is_said;
            taken += status == Status::Done;
            DONE(recording.try_hist("h", kLinear, {}, metric));
            DONE(recording.try_hist("i", kOther, {}, metric));
            HOLDS(metric_of(recording, "h", kLinear).add(5) && metric.add(5) && recording.missed() == 0);
            HOLDS(units_in(recording.report(), "h") == 1 && units_in(recording.report(), "i") == 1);
        }
    }
    HOLDS(said > 10 && taken > 10);
}

int run(bool only_threads) {
    int failed = group("shards that roll at once", at_once);
    failed += group("shards that roll by turns", by_turns);
    failed += group("folds between rolls", folds_between);
    failed += group("a folder that is made anew", made_anew);
    failed += group("two recordings and folds", two_at_once);
    failed += group("metrics that are asked for at once", ask_at_once);
    failed += group("when folds are due", due);
    if (only_threads) return failed;
    failed += group("children of fork", forks);
    failed += group("what is refused", refused_alike);
    failed += group("a mark that is removed amid a fold", unmarked_amid);
    failed += group("many metrics", many_metrics);
    failed += group("after the end", after_the_end);
    failed += group("no memory for a metric", no_memory);
    return failed;
}

}  // namespace

int main(int count, char** words) { return in_folder(count, words, run); }
