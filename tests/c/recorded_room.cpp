// Recordings that keep their folder small: on a full device, below a limit of bytes, without a scrape, and by a thread of their own:
// 'recorded_room FOLDER'. Each group works in a folder of its own below that. It is linked with -Wl,--wrap=posix_fallocate.
#include <fcntl.h>
#include <sched.h>
#include <sys/mount.h>

#include <algorithm>
#include <atomic>
#include <cerrno>
#include <cstdio>
#include <filesystem>
#include <functional>
#include <thread>
#include <utility>
#include <vector>

#include "recorded.hpp"

namespace {

namespace files = std::filesystem;

constexpr std::uint32_t kMost = 4'000'000'000;
constexpr povundiri_spec kSparse = {POVUNDIRI_SPARSE, 0, 0, 0};

// The bytes of a segment of small() in its file.
constexpr std::uint64_t kSmall = 16'384 + 16;

// With which fault a segment is refused, or 0; and how often one was tried.
std::function<int()> refuse;
std::atomic<int> times_tried{0};

// Refuses as long as it stands.
class Refusal {
   public:
    explicit Refusal(std::function<int()> how) { refuse = std::move(how); }
    ~Refusal() { refuse = nullptr; }
    Refusal(const Refusal&) = delete;
    Refusal& operator=(const Refusal&) = delete;
};

}  // namespace

extern "C" int __real_posix_fallocate(int descriptor, off_t from, off_t length);
extern "C" int __wrap_posix_fallocate(int descriptor, off_t from, off_t length) {
    ++times_tried;
    const int fault = refuse ? refuse() : 0;
    return fault != 0 ? fault : __real_posix_fallocate(descriptor, from, length);
}

namespace {

// Options for small segments that no text folds.
RecordingOptions never_folded() {
    RecordingOptions options = small();
    options.fold_at = UINT64_MAX;
    return options;
}

std::uint64_t bytes_in(const std::string& path) {
    std::uint64_t bytes = 0;
    for (const auto& entry : files::directory_iterator(path)) bytes += files::file_size(entry.path());
    return bytes;
}

// A device of this process alone, of so many bytes.
bool mounts(const std::string& path, const char* size) {
    return mkdir(path.c_str(), 0700) == 0 && unshare(CLONE_NEWNS) == 0 && mount("none", "/", nullptr, MS_REC | MS_PRIVATE, nullptr) == 0 &&
           mount("tmpfs", path.c_str(), "tmpfs", 0, size) == 0;
}

// Samples each of which takes a segment are counted on a small device, since it is folded in time; the next start finds no room either.
void small_device() {
    HOLDS(in_child([] {
        const std::string device = folder("device"), path = device + "/metrics";
        if (!mounts(device, "size=256k,mode=0700")) return false;
        Recording recording;
        if (!opens(path, recording, never_folded())) return false;
        const Metric metric = metric_of(recording, "b");
        for (int i = 0; i < 200; ++i) {
            if (!metric.add(1, kMost)) return false;
        }
        recording.end();
        // What is left of the device is filled, but for a page.
        std::FILE* const file = std::fopen((device + "/filler").c_str(), "w");
        while (std::fputc(0, file) == 0 && std::fflush(file) == 0) continue;
        std::fclose(file);
        if (truncate((device + "/filler").c_str(), files::file_size(device + "/filler") / 4096 * 4096 - 8192) != 0) return false;
        RecordingOptions options = never_folded();
        options.bytes = 20'480;
        return opens(path, recording, options) && recording.began().fault == 0 && metric_of(recording, "b").add(1) &&
               recording.missed() == 0 && units_in(recording.report(), "b") == 200LL * kMost + 1;
    }));
}

// Of threads that need a segment at once one folds, and the others wait for it. No thread's spare takes the pages that a fold needs for the
// new totals, so nothing is missed.
void small_device_of_threads() {
    HOLDS(in_child([] {
        constexpr int kThreads = 4, kSamples = 100;
        const std::string device = folder("device_of_threads"), path = device + "/metrics";
        Recording recording;
        if (!mounts(device, "size=512k,mode=0700") || !opens(path, recording, never_folded())) return false;
        const Metric metric = metric_of(recording, "b");
        std::atomic<int> counted{0};
        std::vector<std::thread> threads;
        for (int i = 0; i < kThreads; ++i) {
            threads.emplace_back([&] {
                for (int sample = 0; sample < kSamples; ++sample) counted += metric.add(1, kMost);
                recording.leave();
            });
        }
        for (std::thread& thread : threads) thread.join();
        return counted == kThreads * kSamples && recording.missed() == 0 &&
               units_in(recording.report(), "b") == 1LL * counted * kMost;
    }));
}

// Where nothing can be folded, a segment takes the room that would be left for a fold: a file takes five pages, and the device has sixteen.
void last_room() {
    HOLDS(in_child([] {
        const std::string device = folder("last_room"), path = device + "/metrics";
        Recording first, second;
        if (!mounts(device, "size=64k,mode=0700") || !opens(path, first, never_folded())) return false;
        if (!metric_of(first, "b").add(1, 2) || !opens(path, second, never_folded())) return false;
        return second.began().fault == 0 && second.began().number == 2 && metric_of(second, "b").add(1, 3) && second.missed() == 0 &&
               units_in(second.report(), "b") == 5;
    }));
}

// As with a full device, if the system says so of a quota, where there are eight segments.
void quota() {
    const std::string path = folder("quota");
    Recording recording;
    HOLDS(opens(path, recording, never_folded()));
    const Metric metric = metric_of(recording, "b");
    {
        const Refusal refusal([&] { return segments_in(path) >= 8 ? EDQUOT : 0; });
        for (int i = 0; i < 100; ++i) HOLDS(metric.add(1, kMost));
    }
    HOLDS(recording.missed() == 0 && segments_in(path) <= 8 && units_in(recording.report(), "b") == 100LL * kMost);
    // Other faults are no reason to fold.
    const std::uint64_t segments = segments_in(path);
    const Refusal refusal([] { return EIO; });
    int counted = 0;
    for (int i = 0; i < 3; ++i) counted += metric.add(1, kMost);
    HOLDS(counted < 2 && segments_in(path) == segments + static_cast<std::uint64_t>(counted));
}

// Where a fold makes no room, what needs a segment is missed, and tried again a second later; each of these times it is folded once.
void no_room() {
    const std::string path = folder("no_room");
    Recording recording;
    HOLDS(opens(path, recording, never_folded()));
    const Metric metric = metric_of(recording, "b");
    int counted = 0;
    times_tried = 0;
    {
        const Refusal refusal([] { return ENOSPC; });
        for (int i = 0; i < 1000; ++i) counted += metric.add(1, kMost);
        HOLDS(counted == 2 && recording.missed(Missed::NoSpace) == 998 * std::uint64_t{kMost});
        HOLDS(times_tried < 20 && segments_in(path) == 1 && bytes_of(path + "/totals") > 0);
        HOLDS(metric.add(1, 1000) && recording.missed() == 998 * std::uint64_t{kMost});
    }
    usleep(1'050'000);
    HOLDS(metric.add(1, kMost) && units_in(recording.report(), "b") == 3LL * kMost + 1000);
}

// The files of a folder have at most as many bytes as the options say, and it is folded for that; what has no room then is missed.
void limit() {
    const std::string path = folder("limit");
    RecordingOptions options = never_folded();
    options.most_bytes = 10 * kSmall;
    Recording recording;
    HOLDS(opens(path, recording, options));
    const Metric metric = metric_of(recording, "b"), sparse = metric_of(recording, "s", kSparse);
    std::uint64_t most = 0;
    for (int i = 0; i < 100; ++i) {
        HOLDS(metric.add(1, kMost));
        most = std::max(most, bytes_in(path));
    }
    HOLDS(recording.missed() == 0 && most <= options.most_bytes && most > options.most_bytes / 2);
    std::uint64_t counted = 0, missed = 0;
    for (int value = 0; value < 20'000; ++value) {
        (sparse.add(value) ? counted : missed) += 1;
        if (value % 50 == 0) most = std::max(most, bytes_in(path));
    }
    HOLDS(counted > 0 && missed > 0 && recording.missed(Missed::NoSpace) == missed && recording.missed() == missed);
    HOLDS(most <= options.most_bytes && units_in(recording.report(), "s") == static_cast<long long>(counted));
    recording.end();
    options.most_bytes = 2 * options.bytes - 1;
    HOLDS(Recording::try_open(folder("limit_none"), recording, options) == Status::BadOptions && bytes_of(folder("limit_none")) == -1);
    options.bytes = 0;
    options.most_bytes = (2 << 20) - 1;
    HOLDS(Recording::try_open(folder("limit_none"), recording, options) == Status::BadOptions);
    options.most_bytes += 1;
    HOLDS(opens(folder("limit_usual"), recording, options));
}

// A start makes room as well, and says so if there is none.
void limit_at_start() {
    const std::string path = folder("limit_start");
    RecordingOptions options = never_folded();
    options.most_bytes = 4 * kSmall;
    Recording recording;
    for (int start = 0; start < 10; ++start) {
        // The segment of the start before has another size.
        options.bytes = start % 2 == 0 ? 16'384 : 8'192;
        HOLDS(opens(path, recording, options) && recording.began().fault == 0 && recording.began().number > 0);
        HOLDS(metric_of(recording, "b").add(1, kMost) && bytes_in(path) <= options.most_bytes);
        recording.end();
    }
    std::FILE* const file = std::fopen((path + "/0000000001.damaged").c_str(), "w");
    HOLDS(file != nullptr && std::fclose(file) == 0 && truncate((path + "/0000000001.damaged").c_str(), 5 * kSmall) == 0);
    // There is no segment of this size that could be continued.
    options.bytes = 12'288;
    HOLDS(opens(path, recording, options) && recording.began().fault == EDQUOT && recording.began().number == 0);
    HOLDS(!metric_of(recording, "b").add(1, 5) && recording.missed(Missed::NoSpace) == 5 && units_in(recording.report(), "b") == 10LL * kMost);
}

// Without a scrape there are at most four times as many segments as a scrape would leave; and all of them if none is to be folded.
void without_scrape() {
    const std::string path = folder("many"), all = folder("all");
    RecordingOptions options = small();
    options.fold_at = 5;
    Recording recording;
    HOLDS(opens(path, recording, options));
    const Metric metric = metric_of(recording, "b");
    std::uint64_t most = 0;
    for (int i = 0; i < 100; ++i) {
        HOLDS(metric.add(1, kMost));
        most = std::max(most, segments_in(path));
    }
    HOLDS(most >= 19 && most <= 20 && recording.missed() == 0 && units_in(recording.report(), "b") == 100LL * kMost);
    recording.end();
    HOLDS(opens(all, recording, never_folded()));
    for (int i = 0; i < 300; ++i) HOLDS(metric_of(recording, "b").add(1, kMost));
    HOLDS(segments_in(all) == 300 && bytes_of(all + "/totals") == -1);
}

// What is due is done by a call for it.
void maintained() {
    const std::string path = folder("maintained");
    RecordingOptions options = small();
    options.fold_at = 4;
    Recording recording;
    RETURNS(Null, recording.maintain());
    ANSWERS(NULL, povundiri_recording_maintain(nullptr));
    {
        // There is no spare: one is made.
        const Refusal refusal([] { return times_tried > 1 ? EIO : 0; });
        times_tried = 0;
        HOLDS(opens(path, recording, options) && times_tried > 1);
    }
    usleep(20'000);
    times_tried = 0;
    RETURNS(Done, recording.maintain());
    HOLDS(times_tried == 1);
    RETURNS(Done, recording.maintain());
    HOLDS(times_tried == 1);
    const Metric metric = metric_of(recording, "b");
    for (int i = 0; i < 3; ++i) HOLDS(metric.add(1, kMost));
    RETURNS(Done, recording.maintain());
    HOLDS(segments_in(path) == 3 && metric.add(1, kMost) && segments_in(path) == 4);
    RETURNS(Done, recording.maintain());
    HOLDS(segments_in(path) == 1 && units_in(recording.report(), "b") == 4LL * kMost && recording.missed() == 0);
    // The present segment is removed: the next one is begun, before any sample.
    HOLDS(std::remove((path + "/0000000004.seg").c_str()) == 0 && segments_in(path) == 0);
    RETURNS(Done, recording.maintain());
    HOLDS(segments_in(path) == 1);
    HOLDS(metric.add(1, 7) && recording.missed(Missed::Removed) == kMost && units_in(recording.report(), "b") == 3LL * kMost + 7);
    // What the fold says is returned.
    HOLDS(std::rename((path + "/totals").c_str(), (path + "/kept").c_str()) == 0 && mkdir((path + "/totals").c_str(), 0700) == 0);
    RETURNS(Done, recording.maintain());
    options.fold_at = 1;
    Recording other;
    HOLDS(opens(path, other, options));
    RETURNS(System, other.maintain());
}

// A thread does so beside others that count: no text, and no more segments than that.
void maintained_beside() {
    constexpr int kThreads = 4, kSamples = 300;
    const std::string path = folder("beside");
    RecordingOptions options = small();
    options.fold_at = 4;
    Recording recording;
    HOLDS(opens(path, recording, options));
    const Metric metric = metric_of(recording, "b");
    std::atomic<bool> ends{false};
    std::atomic<int> counted{0};
    std::vector<std::thread> threads;
    std::thread own([&] {
        while (!ends) RETURNS(Done, recording.maintain());
    });
    for (int i = 0; i < kThreads; ++i) {
        threads.emplace_back([&] {
            for (int sample = 0; sample < kSamples; ++sample) counted += metric.add(1, 1'000'000'000);
        });
    }
    for (std::thread& thread : threads) thread.join();
    ends = true;
    own.join();
    RETURNS(Done, recording.maintain());
    HOLDS(counted == kThreads * kSamples && recording.missed() == 0 && segments_in(path) < 4);
    HOLDS(units_in(recording.report(), "b") == 1'000'000'000LL * kThreads * kSamples);
}

int run() {
    const auto of_root = [](const char* name, void (*checks)()) { return group_of_root(name, checks, "only root can mount a device"); };
    int failed = of_root("a full device", small_device);
    failed += of_root("a full device for threads", small_device_of_threads);
    failed += of_root("the room that is left for a fold", last_room);
    failed += group("a full quota", quota);
    failed += group("no room after a fold", no_room);
    failed += group("a limit of bytes", limit);
    failed += group("a limit of bytes at a start", limit_at_start);
    failed += group("without a scrape", without_scrape);
    failed += group("a call that does what is due", maintained);
    failed += group("a thread that does what is due", maintained_beside);
    return failed;
}

}  // namespace

int main(int count, char** words) { return in_folder(count, words, run); }
