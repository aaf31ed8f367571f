// What recordings have lost or hidden without a word, as services do it: 'silence FOLDER'. Each group is such a use, with the usual options
// where that is how services do it, in a folder of its own below that. It is linked with -Wl,--wrap=readdir and so on.
#include <dirent.h>
#include <fcntl.h>
#include <grp.h>
#include <sched.h>
#include <sys/mount.h>

#include <atomic>
#include <chrono>
#include <cstdio>
#include <cstring>
#include <filesystem>
#include <functional>
#include <iterator>
#include <new>
#include <random>
#include <thread>
#include <vector>

#include "recorded.hpp"

namespace {

// How many names of folders were read, how many bytes of files at a place, and how many bytes were asked of the heap.
std::atomic<std::uint64_t> names_read{0}, bytes_read{0}, bytes_asked{0};

}  // namespace

extern "C" {
dirent* __real_readdir(DIR* names);
dirent* __wrap_readdir(DIR* names) {
    dirent* const entry = __real_readdir(names);
    names_read += entry != nullptr;
    return entry;
}

ssize_t __real_pread(int descriptor, void* at, std::size_t bytes, off_t from);
ssize_t __wrap_pread(int descriptor, void* at, std::size_t bytes, off_t from) {
    const ssize_t got = __real_pread(descriptor, at, bytes, from);
    if (got > 0) bytes_read += static_cast<std::uint64_t>(got);
    return got;
}

void* __real_malloc(std::size_t size);
void* __wrap_malloc(std::size_t size) {
    bytes_asked += size;
    return __real_malloc(size);
}
void* __real_calloc(std::size_t count, std::size_t size);
void* __wrap_calloc(std::size_t count, std::size_t size) {
    bytes_asked += count * size;
    return __real_calloc(count, size);
}
void* __real_realloc(void* at, std::size_t size);
void* __wrap_realloc(void* at, std::size_t size) {
    bytes_asked += size;
    return __real_realloc(at, size);
}
int __real_posix_memalign(void** at, std::size_t align, std::size_t size);
int __wrap_posix_memalign(void** at, std::size_t align, std::size_t size) {
    bytes_asked += size;
    return __real_posix_memalign(at, align, size);
}
}

namespace {

namespace files = std::filesystem;

constexpr unsigned kNobody = 65'534;

bool is_nobody() { return setgroups(0, nullptr) == 0 && setgid(kNobody) == 0 && setuid(kNobody) == 0; }

std::string folder_of_nobody(const char* name) {
    const std::string path = folder(name);
    HOLDS(mkdir(path.c_str(), 0700) == 0 && chown(path.c_str(), kNobody, kNobody) == 0);
    return path;
}

// Two samples in each of as many new histograms, which take segments of small(). Returns how many of them were counted.
int many(Recording& recording, const char* prefix, int histograms) {
    int counted = 0;
    for (int i = 0; i < histograms; ++i) {
        const Metric metric = recording.linear(prefix + std::to_string(i), 1, 900, 100);
        counted += metric.add(1);
        counted += metric.add(800);
    }
    return counted;
}

// The workers of a server start at once.
void prefork() {
    constexpr int kWorkers = 24, kTimes = 4, kSamples = 1000;
    const std::string path = folder("prefork");
    for (int turn = 0; turn < kTimes; ++turn) {
        const int right = children_at_once(kWorkers, [&] {
            Recording recording;
            if (!opens(path, recording) || recording.began().number == 0) return false;
            const Metric metric = recording.linear("latency", 1, 1000, 10);
            for (int value = 0; value < kSamples; ++value) metric.add(value);
            return recording.missed() == 0;
        });
        HOLDS(right == kWorkers);
        Recording recording;
        std::uint64_t folded = 0;
        HOLDS(opens(path, recording) && !recording.try_fold(folded));
    }
    HOLDS(units_beside(path, "latency") == 1LL * kTimes * kWorkers * kSamples);
}

// Somebody removes what is in the folder of a running service, or makes the folder anew: the units are said to be missed, and all goes on.
void removed_under(const char* name, const std::function<void(const std::string&)>& removes) {
    const std::string path = folder(name);
    std::string text;
    Recording recording;
    HOLDS(opens(path, recording, small()));
    const Metric metric = recording.linear("latency", 1, 1000, 10);
    for (int i = 0; i < 1000; ++i) HOLDS(metric.add(i));
    removes(path);
    int counted = 0;
    for (int i = 0; i < 1000; ++i) counted += metric.add(i);
    HOLDS(!recording.try_prometheus(text) && many(recording, "m", 40) == 80 && many(recording, "n", 40) == 80);
    for (int i = 0; i < 1000; ++i) HOLDS(metric.add(i));
    const std::string missed = "_missed_total{reason=\"removed\"} " + std::to_string(1000 + counted) + "\n";
    HOLDS(!recording.try_prometheus(text) && text.find(missed) != text.npos);
    HOLDS(units_in(recording.report(), "latency") == 1000 && recording.missed() == 1000 + static_cast<std::uint64_t>(counted));
    recording.end();
    HOLDS(opens(path, recording, small()) && units_in(recording.report(), "latency") == 1000);
}

void rm_under() {
    removed_under("star", [](const std::string& path) {
        for (const auto& entry : files::directory_iterator(path)) files::remove_all(entry.path());
    });
    removed_under("mkdir", [](const std::string& path) {
        files::remove_all(path);
        HOLDS(mkdir(path.c_str(), 0700) == 0);
    });
}

// A cleaner removes files whose times are old: so it does with 'recording', which nothing touches.
void tmpfiles() {
    const std::string path = folder("tmpfiles");
    std::string text;
    std::uint64_t folded = 0;
    Recording recording, again;
    HOLDS(opens(path, recording) && recording.linear("latency", 1, 1000, 10).add(5, 1000));
    HOLDS(std::remove((path + "/recording").c_str()) == 0 && !recording.try_prometheus(text) && !recording.try_fold(folded));
    recording.end();
    HOLDS(std::remove((path + "/recording").c_str()) == 0 && opens(path, again) && units_in(again.report(), "latency") == 1000);
}

// Root folds the folder of a user's service, or runs the service once.
void other_user(const char* name, const std::function<void(const std::string&)>& by_root) {
    const std::string path = folder_of_nobody(name);
    int go[2], ready[2];
    HOLDS(pipe(go) == 0 && pipe(ready) == 0);
    const pid_t user = fork();
    if (user == 0) {
        char byte = 0;
        Recording recording, again;
        RecordingOptions options = small();
        if (!is_nobody() || !opens(path, recording, options) || !recording.linear("latency", 1, 1000, 10).add(1, 1000)) _exit(1);
        recording.end();
        // So the first segment is final.
        options.bytes = 32'768;
        if (!opens(path, recording, options) || !recording.linear("latency", 1, 1000, 10).add(1, 1000)) _exit(1);
        if (write(ready[1], "x", 1) != 1 || read(go[0], &byte, 1) != 1) _exit(1);
        std::string text;
        std::uint64_t folded = 0;
        if (recording.try_prometheus(text) || recording.try_fold(folded) || many(recording, "m", 120) != 240) _exit(1);
        recording.end();
        _exit(opens(path, again, options) && again.began().fault == 0 && units_in(again.report(), "latency") == 2000 ? 0 : 1);
    }
    char byte = 0;
    int status = 1;
    HOLDS(read(ready[0], &byte, 1) == 1);
    by_root(path);
    HOLDS(write(go[1], "x", 1) == 1 && waitpid(user, &status, 0) == user && status == 0);
    for (const int end : {go[0], go[1], ready[0], ready[1]}) close(end);
}

void fold_of_root() {
    other_user("folded", [](const std::string& path) {
        std::uint64_t folded = 0;
        int fault = 0;
        ANSWERS(DONE, povundiri_folder_fold(path.c_str(), &folded, &fault));
        HOLDS(folded == 1);
    });
}

void run_of_root() {
    other_user("run", [](const std::string& path) {
        Recording recording;
        HOLDS(Recording::try_open(path, recording, small()) == Status::NotOwner && segments_in(path) == 2);
    });
}

// Memory in which the options are made has anything in it.
void options_garbage() {
    alignas(RecordingOptions) unsigned char place[sizeof(RecordingOptions)];
    std::memset(place, 0x41, sizeof place);
    auto* const options = new (place) RecordingOptions;
    options->bytes = 1 << 20;
    Recording recording;
    HOLDS(opens(folder("garbage"), recording, *options) && recording.linear("latency", 1, 1000, 10).add(5));
    HOLDS(units_in(recording.report(), "latency") == 1 && recording.missed() == 0);
}

// A file that is numbered above all that segments can have: the next number is that after the last segment's.
void stray_number() {
    for (const char* const name : {"18446744073709551615.damaged", "18446744073709551615.seg", "1000000000000000000.seg"}) {
        const std::string path = folder(name);
        Recording recording, again;
        HOLDS(opens(path, recording) && recording.began().number == 1);
        recording.end();
        std::FILE* const file = std::fopen((path + "/" + name).c_str(), "w");
        HOLDS(file != nullptr && std::fclose(file) == 0 && std::remove((path + "/0000000001.seg").c_str()) == 0);
        HOLDS(opens(path, recording) && recording.began().number == 1 && recording.linear("latency", 1, 1000, 10).add(5, 1000));
        HOLDS(units_in(recording.report(), "latency") == 1000);
        recording.end();
        HOLDS(opens(path, again) && units_in(again.report(), "latency") == 1000);
    }
}

// Where no number is left, no segment is begun.
void last_number() {
    const std::string path = folder("last");
    Recording recording;
    HOLDS(opens(path, recording));
    recording.end();
    HOLDS(std::rename((path + "/0000000001.seg").c_str(), (path + "/999999999999999999.damaged").c_str()) == 0);
    HOLDS(opens(path, recording) && recording.began().number == 0 && recording.began().fault == EOVERFLOW);
}

std::ptrdiff_t descriptors() { return std::distance(files::directory_iterator("/proc/self/fd"), files::directory_iterator()); }

// Threads of a pool are idle, each in a segment of its own, which no fold takes: no descriptor for any of them.
void idle_threads() {
    constexpr int kThreads = 100;
    const std::string path = folder("idle");
    const std::ptrdiff_t before = descriptors();
    Recording recording;
    HOLDS(opens(path, recording, small()));
    const Metric metric = recording.linear("latency", 1, 1000, 10);
    std::vector<std::thread> threads;
    Gate gate;
    for (int i = 0; i < kThreads; ++i) {
        HOLDS(metric.add(1, 4'200'000'000));
        recording.leave();
        threads.emplace_back([&] {
            HOLDS(metric.add(5));
            gate.wait();
        });
        gate.wait_for(i + 1);
    }
    (void)recording.fold();
    HOLDS(segments_in(path) >= kThreads && descriptors() <= before + 3 && recording.missed() == 0);
    HOLDS(units_in(recording.report(), "latency") == kThreads * 4'200'000'001LL);
    gate.open_for(kThreads);
    for (std::thread& thread : threads) thread.join();
}

// A small device becomes full of segments.
void full_disk_fold() {
    HOLDS(in_child([] {
        const std::string device = folder("device");
        if (mkdir(device.c_str(), 0700) != 0 || unshare(CLONE_NEWNS) != 0) return false;
        if (mount("none", "/", nullptr, MS_REC | MS_PRIVATE, nullptr) != 0) return false;
        if (mount("tmpfs", device.c_str(), "tmpfs", 0, "size=4608k,mode=0700") != 0) return false;
        RecordingOptions options;
        options.apart = 1;
        options.fold_at = UINT64_MAX;
        Recording recording;
        if (!opens(device + "/metrics", recording, options)) return false;
        const Metric metric = recording.scale("request_us", 1, 10'000'000, 5);
        int counted = 0;
        for (int i = 0; i < 20; ++i) counted += metric.add(i, 4'200'000'000U);
        for (int i = 0; i < 20; ++i) counted += metric.add(i, 1);
        return counted == 40 && recording.missed() == 0 && units_in(recording.report(), "request_us") == 20 * 4'200'000'001LL;
    }));
}

std::uint64_t bytes_in(const std::string& path) {
    std::uint64_t bytes = 0;
    for (const auto& entry : files::directory_iterator(path)) bytes += files::file_size(entry.path());
    return bytes;
}

// Counts values from outside for as long; or until some are missed as too many, which comes at the latest after a minute.
void flood(const Metric& metric, std::mt19937& chance, int milliseconds) {
    const auto until = std::chrono::steady_clock::now() + std::chrono::milliseconds(milliseconds);
    while (std::chrono::steady_clock::now() < until) metric.add(static_cast<std::int32_t>(chance() >> 1));
}

void flood_until_full(const Recording& recording, const Metric& metric, std::mt19937& chance) {
    for (int i = 0; i < 600 && recording.missed(Missed::Values) == 0; ++i) flood(metric, chance, 100);
    HOLDS(recording.missed(Missed::Values) > 0);
}

// A sparse metric with the values of users: once it has all that it may have, the folder grows no more.
void cardinality() {
    const std::string path = folder("cardinality");
    std::mt19937 chance(1);
    Recording recording;
    HOLDS(opens(path, recording));
    const Metric metric = recording.sparse("user");
    flood_until_full(recording, metric, chance);
    const std::uint64_t bytes = bytes_in(path), other = recording.missed() - recording.missed(Missed::Values);
    HOLDS(bytes < 64 << 20);
    flood(metric, chance, 1500);
    HOLDS(bytes_in(path) == bytes && recording.missed() - recording.missed(Missed::Values) == other);
    const std::string report = recording.report();
    std::size_t values = 0;
    for (std::size_t at = report.find("\nuser,sparse,"); at != report.npos; at = report.find("\nuser,sparse,", at + 1)) ++values;
    HOLDS(values > 0 && values <= 65'536);
}

// Beside such a metric the ordinary ones miss nothing, once it has its values.
void flooded() {
    const std::string path = folder("flooded");
    Recording recording;
    HOLDS(opens(path, recording));
    const Metric users = recording.sparse("user");
    std::atomic<bool> ends{false};
    std::atomic<int> missed{0};
    std::vector<std::thread> threads;
    std::mt19937 chance(1);
    for (int number = 0; number < 2; ++number) {
        threads.emplace_back([&, number] {
            std::vector<Metric> metrics;
            std::mt19937 own(static_cast<unsigned>(number));
            for (int i = 0; i < 50; ++i) metrics.push_back(recording.scale("latency_" + std::to_string(50 * number + i), 1, 10'000'000, 5));
            while (!ends) {
                for (const Metric& metric : metrics) missed += metric.add(static_cast<int>(own() % 1'000'000)) ? 0 : 1;
                std::this_thread::sleep_for(std::chrono::milliseconds(20));
            }
        });
    }
    flood_until_full(recording, users, chance);
    flood(users, chance, 2000);
    missed = 0;
    flood(users, chance, 2000);
    HOLDS(missed == 0 && recording.missed(Missed::Values) > 0);
    ends = true;
    for (std::thread& thread : threads) thread.join();
}

// A folder of another user, in which anybody may write; and a fold beside a file that somebody has linked there.
void trust_folder() {
    const std::string path = folder_of_nobody("trusted"), precious = folder("precious");
    Recording recording;
    std::uint64_t folded = 0;
    int fault = 0;
    std::FILE* const file = std::fopen(precious.c_str(), "w");
    HOLDS(file != nullptr && std::fputs("precious", file) >= 0 && std::fclose(file) == 0 && chmod(path.c_str(), 0777) == 0);
    HOLDS(Recording::try_open(path, recording) == std::errc::operation_not_permitted && files::is_empty(path));
    HOLDS(chmod(path.c_str(), 0700) == 0 && in_child([&] {
        return is_nobody() && opens(path, recording) && recording.linear("latency", 1, 1000, 10).add(5, 7);
    }));
    HOLDS(link(precious.c_str(), (path + "/totals.new").c_str()) == 0);
    ANSWERS(DONE, povundiri_folder_fold(path.c_str(), &folded, &fault));
    HOLDS(folded == 1 && bytes_of(precious) == 8);
}

// A daemon opens the recording as root, and then becomes the user whose folder it is.
void drop_privileges() {
    const std::string path = folder_of_nobody("dropped");
    HOLDS(in_child([&] {
        RecordingOptions options = small();
        options.flags = POVUNDIRI_FILE_ANY_OWNER;
        Recording recording;
        if (!opens(path, recording, options)) return false;
        const Metric metric = recording.linear("latency", 1, 1000, 10);
        if (!is_nobody()) return false;
        int counted = 0;
        for (int i = 0; i < 1000; ++i) counted += metric.add(i, 100'000'000);
        return counted == 1000 && recording.missed() == 0 && units_in(recording.report(), "latency") == 100'000'000'000;
    }));
}

// A service asks for a thousand metrics. Each is tried in a page that is kept, which has 32,768 bytes, and not in one of its own.
void registering() {
    Recording recording;
    HOLDS(opens(folder("registering"), recording));
    const Metric first = recording.linear("first", 1, 1000, 10);
    const std::uint64_t before = bytes_asked;
    for (int i = 0; i < 1000; ++i) HOLDS(recording.linear("metric_" + std::to_string(i), 1, 1000, 10).status() == Status::Done);
    HOLDS(bytes_asked - before < 1000 * 4096 && first.add(5) && recording.missed() == 0);
}

// A folder has many segments, and totals of two megabytes. What a segment begins with does not become more for that: no name of the folder
// is read, and little of the totals.
void generations() {
    constexpr std::uint32_t kMost = 4'200'000'000;
    const std::string path = folder("generations");
    RecordingOptions options = small();
    options.bytes = 65'536;
    Recording recording;
    HOLDS(opens(path, recording, options));
    // Some two thousand names of a hundred buckets.
    for (int i = 0; i < 20; ++i) many(recording, ("m" + std::to_string(i) + "_").c_str(), 100);
    HOLDS(recording.fold() > 0);
    options.fold_at = UINT64_MAX;
    recording.end();
    Recording again;
    HOLDS(opens(path, again, options));
    const Metric latency = again.linear("latency", 1, 1000, 10);
    for (int i = 0; i < 500; ++i) HOLDS(latency.add(1, kMost));
    const long totals = bytes_of(path + "/totals");
    const std::uint64_t names = names_read, bytes = bytes_read;
    for (int i = 0; i < 20; ++i) HOLDS(latency.add(1, kMost));
    HOLDS(names_read == names && bytes_read - bytes < 20 * 100'000);
    HOLDS(totals > 1'000'000 && segments_in(path) >= 520 && again.missed() == 0);
}

int run() {
    const auto of_root = [](const char* name, void (*checks)()) { return group_of_root(name, checks, "only root can do that"); };
    int failed = group("prefork", prefork);
    failed += group("rm_under", rm_under);
    failed += group("tmpfiles", tmpfiles);
    failed += of_root("other_user, a fold", fold_of_root);
    failed += of_root("other_user, a run", run_of_root);
    failed += group("options_garbage", options_garbage);
    failed += group("stray_number", stray_number);
    failed += group("last_number", last_number);
    failed += group("idle_threads", idle_threads);
    failed += of_root("full_disk_fold", full_disk_fold);
    failed += group("cardinality", cardinality);
    failed += group("flooded", flooded);
    failed += group("registering", registering);
    failed += group("generations, roll1", generations);
    failed += of_root("trust_folder", trust_folder);
    failed += of_root("drop_privileges", drop_privileges);
    return failed;
}

}  // namespace

int main(int count, char** words) { return in_folder(count, words, run); }
