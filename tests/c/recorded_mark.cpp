// The mark of a recording's folder, the file 'recording', by the words that it has: what processes missed there, also those that were
// killed, how it is made, and what becomes of it: 'recorded_mark FOLDER'. Each group works in a folder of its own below that. It is linked
// with -Wl,--wrap=CALL for each call of CALLS (tests/parts/recordings.py).
#include <fcntl.h>
#include <grp.h>
#include <sched.h>
#include <sys/file.h>
#include <sys/mman.h>
#include <sys/mount.h>
#include <sys/resource.h>

#include <algorithm>
#include <atomic>
#include <cerrno>
#include <chrono>
#include <csignal>
#include <cstdarg>
#include <cstdint>
#include <cstdio>
#include <cstring>
#include <filesystem>
#include <fstream>
#include <functional>
#include <iterator>
#include <random>
#include <thread>
#include <utility>
#include <vector>

#include "recorded.hpp"

namespace {

namespace files = std::filesystem;

// A call to the system that fails with this number, if it is of this name, and of a file whose name begins so. None: an empty name.
struct Failing {
    std::string call, file;
    int fault;
};
Failing failing;

// How many calls there were; and before which of them this process kills itself. 0: never.
int calls, stop_at;

// Whether a call fails. The process may be killed before it.
bool fails(const char* call, const char* file) {
    if (++calls == stop_at) kill(getpid(), SIGKILL);
    if (failing.call != call || std::string(file).rfind(failing.file, 0) != 0) return false;
    errno = failing.fault;
    return true;
}

// The name of an open file.
std::string name_of(int descriptor) {
    std::error_code none;
    return files::read_symlink("/proc/self/fd/" + std::to_string(descriptor), none).filename();
}

}  // namespace

extern "C" int __real_openat(int in, const char* path, int flags, ...);
extern "C" int __wrap_openat(int in, const char* path, int flags, ...) {
    va_list more;
    va_start(more, flags);
    const int mode = (flags & O_CREAT) != 0 || (flags & O_TMPFILE) == O_TMPFILE ? va_arg(more, int) : 0;
    va_end(more);
    return fails("openat", path) ? -1 : __real_openat(in, path, flags, mode);
}

// Half of the bytes come first.
extern "C" ssize_t __real_write(int descriptor, const void* from, std::size_t bytes);
extern "C" ssize_t __wrap_write(int descriptor, const void* from, std::size_t bytes) {
    return fails("write", name_of(descriptor).c_str()) ? -1 : __real_write(descriptor, from, bytes > 1 ? bytes / 2 : bytes);
}

extern "C" int __real_fsync(int descriptor);
extern "C" int __wrap_fsync(int descriptor) { return fails("fsync", name_of(descriptor).c_str()) ? -1 : __real_fsync(descriptor); }

extern "C" int __real_linkat(int from_folder, const char* from, int to_folder, const char* to, int flags);
extern "C" int __wrap_linkat(int from_folder, const char* from, int to_folder, const char* to, int flags) {
    return fails("linkat", to) ? -1 : __real_linkat(from_folder, from, to_folder, to, flags);
}

extern "C" int __real_renameat(int from_folder, const char* from, int to_folder, const char* to);
extern "C" int __wrap_renameat(int from_folder, const char* from, int to_folder, const char* to) {
    return fails("renameat", to) ? -1 : __real_renameat(from_folder, from, to_folder, to);
}

extern "C" int __real_fchmodat(int in, const char* path, mode_t mode, int flags);
extern "C" int __wrap_fchmodat(int in, const char* path, mode_t mode, int flags) {
    return fails("fchmodat", path) ? -1 : __real_fchmodat(in, path, mode, flags);
}

extern "C" int __real_unlinkat(int in, const char* path, int flags);
extern "C" int __wrap_unlinkat(int in, const char* path, int flags) {
    return fails("unlinkat", path) ? -1 : __real_unlinkat(in, path, flags);
}

extern "C" void* __real_mmap(void* at, std::size_t length, int protection, int flags, int descriptor, off_t offset);
extern "C" void* __wrap_mmap(void* at, std::size_t length, int protection, int flags, int descriptor, off_t offset) {
    return fails("mmap", name_of(descriptor).c_str()) ? MAP_FAILED : __real_mmap(at, length, protection, flags, descriptor, offset);
}

namespace {

constexpr std::uint32_t kMost = 4'000'000'000;
constexpr povundiri_spec kSparse = {POVUNDIRI_SPARSE, 0, 0, 0};

// The words of a mark, as docs/FORMAT.md has them.
constexpr std::size_t kWords = 512, kBytes = 8 * kWords, kId = 2, kMissed = 16;
constexpr std::uint64_t kCookie = 0x6B72614D, kForm = 1;

using Words = std::vector<std::uint64_t>;

std::string bytes_at(const std::string& path) {
    std::ifstream file(path, std::ios::binary);
    return {std::istreambuf_iterator<char>(file), std::istreambuf_iterator<char>()};
}

void put_bytes(const std::string& path, const std::string& bytes) {
    std::ofstream file(path, std::ios::binary | std::ios::trunc);
    HOLDS(static_cast<bool>(file << bytes << std::flush));
}

std::string bytes_of_words(const Words& words) { return {reinterpret_cast<const char*>(words.data()), 8 * words.size()}; }

std::string mark_in(const std::string& path) { return path + "/recording"; }

// The words of a whole mark; none if it is not whole.
Words words_in(const std::string& path) {
    const std::string bytes = bytes_at(mark_in(path));
    Words words(kWords);
    if (bytes.size() != kBytes) return {};
    std::memcpy(words.data(), bytes.data(), kBytes);
    const auto is_zero = [](std::uint64_t word) { return word == 0; };
    const bool is_whole = words[0] == kCookie && words[1] == kForm && words[kId] != 0 &&
                          std::all_of(words.begin() + kId + 1, words.begin() + kMissed, is_zero) &&
                          std::all_of(words.begin() + kMissed + 10, words.end(), is_zero);
    return is_whole ? words : Words();
}

bool is_whole(const std::string& path) { return !words_in(path).empty(); }

std::uint64_t id_in(const std::string& path) { return is_whole(path) ? words_in(path)[kId] : 0; }

// The units of a reason in the mark; below, in a text. All ones: there are none.
constexpr std::uint64_t kNone = ~std::uint64_t{0};

std::uint64_t marked(const std::string& path, Missed reason = Missed::Values) {
    return is_whole(path) ? words_in(path)[kMissed + static_cast<std::size_t>(reason)] : kNone;
}

std::uint64_t told(Recording& recording, const char* reason = "values") {
    std::string text;
    if (recording.try_prometheus(text)) return kNone;
    const std::string line = std::string("\npovundiri_missed_total{reason=\"") + reason + "\"} ";
    const std::size_t at = text.find(line);
    return at == text.npos ? kNone : std::stoull(text.substr(at + line.size()));
}

std::vector<std::string> names_in(const std::string& path) {
    std::vector<std::string> names;
    std::error_code none;
    for (const auto& entry : files::directory_iterator(path, none)) names.push_back(entry.path().filename());
    std::sort(names.begin(), names.end());
    return names;
}

// The marks in a folder that have not got their name.
std::vector<std::string> new_marks_in(const std::string& path) {
    std::vector<std::string> found;
    for (const std::string& name : names_in(path)) {
        if (name.rfind("recording-", 0) == 0) found.push_back(path + "/" + name);
    }
    return found;
}

bool ages(const std::string& path) {
    const timespec times[2] = {{std::time(nullptr) - 100, 0}, {std::time(nullptr) - 100, 0}};
    return utimensat(AT_FDCWD, path.c_str(), times, 0) == 0;
}

// A recording of which any sample but one misses its units, as values.
class Missing {
   public:
    explicit Missing(const std::string& path, std::uint64_t most_values = 1) : path_(path) {
        RecordingOptions options = small();
        options.most_values = most_values;
        is_open_ = opens(path, recording, options);
        if (is_open_) metric_ = metric_of(recording, "s", kSparse);
        if (is_open_) (void)metric_.add(0);
    }
    // Whether so many were missed.
    bool misses(std::uint32_t units) {
        const std::uint64_t before = recording.missed(Missed::Values);
        return is_open_ && !metric_.add(1, units) && recording.missed(Missed::Values) == before + units;
    }
    bool is_open() const { return is_open_; }
    Recording recording;

   private:
    std::string path_;
    Metric metric_;
    bool is_open_ = false;
};

// A folder in which an earlier process missed 11 units, and has a segment; or whose mark was made by an earlier version, without words.
std::string folder_with_misses(const char* name) {
    const std::string path = folder(name);
    Missing earlier(path);
    HOLDS(earlier.misses(11) && marked(path) == 11 && segments_in(path) == 1);
    return path;
}

std::string folder_with_empty(const char* name, const std::string& bytes = "") {
    const std::string path = folder(name);
    { HOLDS(Missing(path).is_open()); }
    put_bytes(mark_in(path), bytes);
    HOLDS(bytes_of(mark_in(path)) == static_cast<long>(bytes.size()));
    return path;
}

bool folds(const std::string& path) {
    int fault = 0;
    return povundiri_folder_fold(path.c_str(), nullptr, &fault) == POVUNDIRI_DONE;
}

// What its processes missed is in the mark, by reason; no fold changes it, and a process that misses nothing tells it.
void words() {
    const std::string path = folder("words"), other = folder("other_words");
    std::uint64_t id = 0;
    {
        Missing missing(path);
        HOLDS(missing.is_open() && is_whole(path) && files::status(mark_in(path)).permissions() == files::perms(0600));
        id = id_in(path);
        HOLDS(missing.recording.began().id == id && missing.misses(5) && marked(path) == 5 && told(missing.recording) == 5);
        (void)metric_of(missing.recording, "b");
        const Metric another = [&] {
            Metric made;
            HOLDS(missing.recording.try_hist("b", {POVUNDIRI_LINEAR, 1, 10, 5}, {}, made) == Status::RefusedOtherSpec);
            return made;
        }();
        HOLDS(!another.add(1, 7) && marked(path, Missed::OtherSpec) == 7 && marked(path) == 5);
        missing.recording.end();
        HOLDS(!another.add(1, 3) && marked(path, Missed::Ended) == 3);
    }
    const Words before = words_in(path);
    HOLDS(folds(path) && segments_in(path) == 0 && words_in(path) == before);
    Missing missing(path);
    HOLDS(missing.is_open() && missing.recording.missed() == 0 && missing.recording.began().id == id && id_in(path) == id);
    HOLDS(told(missing.recording) == 5 && told(missing.recording, "other_spec") == 7 && told(missing.recording, "forked") == 0);
    HOLDS(missing.recording.report().find("\n!missed,other_spec,7\n!missed,ended,3\n!missed,values,5\n") != std::string::npos);
    HOLDS(missing.recording.show().find("missed, other_spec: 7\nmissed, ended: 3\nmissed, values: 5\n") != std::string::npos);
    HOLDS(Missing(other).is_open() && id_in(other) != 0 && id_in(other) != id);
}

// What processes of a test tell one another.
template <typename T>
T& shared_memory() {
    void* const at = mmap(nullptr, sizeof(T), PROT_READ | PROT_WRITE, MAP_SHARED | MAP_ANONYMOUS, -1, 0);
    HOLDS(at != MAP_FAILED);
    return *new (at) T();
}

void wait_until(const std::function<bool()>& holds) {
    for (int i = 0; i < 60'000 && !holds(); ++i) std::this_thread::sleep_for(std::chrono::milliseconds(1));
    HOLDS(holds());
}

void kill_all(const std::vector<pid_t>& workers) {
    for (const pid_t worker : workers) {
        int status = 0;
        HOLDS(kill(worker, SIGKILL) == 0 && waitpid(worker, &status, 0) == worker && WIFSIGNALED(status));
    }
}

// What each worker of a server missed is in the text of each of them, and after all were killed in that of the next process.
void workers() {
    constexpr std::size_t kWorkers = 64;
    struct Told {
        std::atomic<unsigned> ready, told, right;
    };
    constexpr std::uint64_t kAll = kWorkers * (kWorkers + 1) / 2;
    const std::string path = folder("workers");
    Told& all = shared_memory<Told>();
    std::vector<pid_t> workers;
    for (std::uint32_t i = 1; i <= kWorkers; ++i) {
        workers.push_back(fork());
        if (workers.back() != 0) continue;
        Missing missing(path);
        all.ready += missing.misses(i) ? 1 : 0;
        while (all.ready < kWorkers) usleep(1000);
        all.right += told(missing.recording) == kAll && missing.recording.missed() == i ? 1 : 0;
        all.told += 1;
        while (true) pause();
    }
    wait_until([&] { return all.told == kWorkers; });
    HOLDS(all.right == kWorkers && marked(path) == kAll);
    kill_all(workers);
    Missing missing(path);
    HOLDS(missing.recording.missed() == 0 && told(missing.recording) == kAll && folds(path) && told(missing.recording) == kAll);
}

// A process is killed as it misses: what had been missed is in the mark, and nothing that was not begun.
void killed() {
    struct Tally {
        std::atomic<std::uint64_t> begun, ended;
    };
    const std::string path = folder("killed");
    Tally& tally = shared_memory<Tally>();
    std::mt19937 chance(7);
    for (int i = 0; i < 20; ++i) {
        const std::uint64_t before = tally.ended;
        const pid_t child = fork();
        if (child == 0) {
            Missing missing(path);
            while (true) {
                tally.begun += 3;
                if (!missing.misses(3)) _exit(1);
                tally.ended += 3;
            }
        }
        wait_until([&] { return tally.ended > before; });
        usleep(chance() % 20'000);
        kill_all({child});
        HOLDS(tally.ended <= marked(path) && marked(path) <= tally.begun);
        tally.begun = marked(path);
    }
    HOLDS(tally.ended > 1000);
}

// A child of fork adds to the mark of its parent, who tells it, and not to what the parent missed.
void forks() {
    const std::string path = folder("forks");
    Missing missing(path);
    HOLDS(missing.misses(5));
    const auto forked = [&](std::uint64_t before) {
        Recording& recording = missing.recording;
        const Metric metric = metric_of(recording, "s", kSparse);
        if (recording.missed() != 0 || metric.add(0, 7) || recording.missed() != 7 || recording.missed(Missed::Forked) != 7) return false;
        return marked(path, Missed::Forked) == before + 7 && told(recording, "forked") == before + 7 && told(recording) == 5;
    };
    HOLDS(in_child([&] { return forked(0) && in_child([&] { return forked(7); }); }) && marked(path, Missed::Forked) == 14);
    HOLDS(told(missing.recording, "forked") == 14 && missing.recording.missed() == 5 && missing.misses(1) && marked(path) == 6);
    // A child without a mark keeps its own.
    HOLDS(std::remove(mark_in(path).c_str()) == 0 && in_child([&] {
              return !metric_of(missing.recording, "s", kSparse).add(0, 7) && told(missing.recording, "forked") == 7 &&
                     told(missing.recording) == 0;
          }));
    HOLDS(told(missing.recording) == 6 && told(missing.recording, "forked") == 0);
}

// Who removes the mark removes what processes missed that have ended; what others missed is there again, each unit once.
void removed() {
    const std::string path = folder_with_misses("removed");
    Missing one(path), other(path);
    const std::uint64_t id = id_in(path);
    HOLDS(one.misses(5) && other.misses(70) && marked(path) == 86 && std::remove(mark_in(path).c_str()) == 0);
    HOLDS(one.misses(2) && told(one.recording) == 7 && marked(path) == 7 && id_in(path) == id);
    HOLDS(other.misses(1) && told(other.recording) == 78 && told(one.recording) == 78 && one.misses(1) && marked(path) == 79);
    HOLDS(one.recording.missed() == 8 && other.recording.missed() == 71);
    // An empty folder is another one.
    one.recording.end();
    other.recording.end();
    Missing last(path);
    for (const std::string& name : names_in(path)) HOLDS(std::remove((path + "/" + name).c_str()) == 0);
    HOLDS(last.misses(4) && told(last.recording) == 4 && is_whole(path) && id_in(path) != id);
}

// Another mark in its place, the old one again, and one that was cut or overwritten.
void replaced() {
    const std::string path = folder("replaced"), mark = mark_in(path), old = path + ".old";
    Missing missing(path);
    Words words = words_in(path);
    HOLDS(missing.misses(5));
    words[kId] = 77;
    words[kMissed + static_cast<std::size_t>(Missed::Values)] = 1000;
    files::rename(mark, old);
    put_bytes(mark, bytes_of_words(words));
    HOLDS(missing.misses(1) && told(missing.recording) == 1006 && marked(path) == 1006 && missing.misses(1) && marked(path) == 1007);
    files::rename(mark, mark + ".other");
    files::rename(old, mark);
    HOLDS(told(missing.recording) == 7 && missing.misses(1) && marked(path) == 8 && id_in(path) != 77);
    files::rename(mark + ".other", mark);
    HOLDS(told(missing.recording) == 1008 && std::remove(mark.c_str()) == 0 && told(missing.recording) == 8 && id_in(path) == 77);
    // A look sees it in time, so no step on a page that is gone ends the process.
    for (const std::string& bytes : {std::string(), std::string(kBytes, 0)}) {
        put_bytes(mark, bytes);
        (void)missing.recording.maintain();
        const std::uint64_t before = missing.recording.missed();
        HOLDS(missing.misses(1) && told(missing.recording) == before + 1 && marked(path) == before + 1 && id_in(path) == 77);
    }
    // What is no mark stays: what is missed is kept, and is in the next mark.
    put_bytes(mark, "none of ours");
    (void)missing.recording.maintain();
    const std::uint64_t before = missing.recording.missed();
    HOLDS(missing.misses(3) && told(missing.recording) == kNone && bytes_at(mark) == "none of ours" && std::remove(mark.c_str()) == 0);
    HOLDS(told(missing.recording) == before + 3 && marked(path) == before + 3 && id_in(path) == 77);
}

// Threads miss while the mark is removed again and again: each of their units is in the last one, once.
void threads() {
    constexpr int kThreads = 4, kTimes = 40;
    const std::string path = folder("threads");
    Missing missing(path);
    const Metric metric = metric_of(missing.recording, "s", kSparse);
    std::atomic<bool> ends{false};
    std::vector<std::thread> threads;
    for (int i = 0; i < kThreads; ++i) {
        threads.emplace_back([&] {
            while (!ends) (void)metric.add(1, 3);
        });
    }
    for (int i = 0; i < kTimes; ++i) {
        HOLDS(std::remove(mark_in(path).c_str()) == 0);
        usleep(1000);
        (void)missing.recording.maintain();
        HOLDS(is_whole(path));
    }
    ends = true;
    for (std::thread& thread : threads) thread.join();
    (void)missing.recording.maintain();
    HOLDS(missing.recording.missed(Missed::Values) > 1000 && marked(path) == missing.recording.missed(Missed::Values));
    // After many more it maps none, and still tells what it missed itself.
    for (int i = 0; i < kTimes; ++i)
        HOLDS(std::remove(mark_in(path).c_str()) == 0 && told(missing.recording) == missing.recording.missed());
    HOLDS(missing.misses(9) && told(missing.recording) == missing.recording.missed() && marked(path) == 0);
}

// A mark without words gets them at the next start or fold, and keeps its mode; readers leave it alone.
void upgraded() {
    for (const std::string& bytes : {std::string(), std::string(kBytes, 0)}) {
        const std::string path = folder_with_empty(bytes.empty() ? "empty" : "zeros", bytes), mark = mark_in(path);
        HOLDS(chmod(mark.c_str(), 0640) == 0 && units_beside(path, "s") == 1 && bytes_at(mark) == bytes);
        Missing missing(path);
        HOLDS(missing.misses(3) && marked(path) == 3 && missing.recording.began().id == id_in(path) && new_marks_in(path).empty());
        HOLDS(files::status(mark).permissions() == files::perms(0640));
    }
    const std::string path = folder_with_empty("folded");
    HOLDS(folds(path) && is_whole(path) && segments_in(path) == 0 && new_marks_in(path).empty());
    const std::string never = folder("never");
    HOLDS(mkdir(never.c_str(), 0700) == 0);
    put_bytes(mark_in(never), "");
    HOLDS(folds(never) && is_whole(never));
}

// While somebody folds, no start waits, and the mark stays; what is missed is kept until then.
void beside_a_fold() {
    const std::string path = folder_with_empty("beside");
    HOLDS(folds(path));
    put_bytes(mark_in(path), "");
    const int lock = open((path + "/fold.lock").c_str(), O_RDONLY);
    HOLDS(lock >= 0 && flock(lock, LOCK_EX | LOCK_NB) == 0);
    const auto before = std::chrono::steady_clock::now();
    Missing missing(path);
    HOLDS(std::chrono::steady_clock::now() - before < std::chrono::seconds(60));
    HOLDS(missing.misses(3) && told(missing.recording) == 3 && bytes_of(mark_in(path)) == 0 && missing.recording.began().id == 0);
    HOLDS(close(lock) == 0 && told(missing.recording) == 3 && marked(path) == 3);
    // A mark that is cut meanwhile is left after a look, so no step on its page ends the process.
    const int again = open((path + "/fold.lock").c_str(), O_RDONLY);
    HOLDS(again >= 0 && flock(again, LOCK_EX | LOCK_NB) == 0 && truncate(mark_in(path).c_str(), 0) == 0);
    HOLDS(missing.recording.maintain() == Status::Done && missing.misses(2) && told(missing.recording) == 5 &&
          bytes_of(mark_in(path)) == 0);
    HOLDS(close(again) == 0 && told(missing.recording) == 5 && marked(path) == 5);
}

// Processes that start at once give the mark its words once, whether it is empty or not there.
void at_once() {
    constexpr int kProcesses = 6, kTimes = 15;
    for (int i = 0; i < 2 * kTimes; ++i) {
        const std::string name = "once_" + std::to_string(i), path = i % 2 == 0 ? folder_with_empty(name.c_str()) : folder(name.c_str());
        int gate[2];
        std::vector<pid_t> processes;
        HOLDS(pipe(gate) == 0);
        for (int process = 0; process < kProcesses; ++process) {
            processes.push_back(fork());
            if (processes.back() != 0) continue;
            char byte;
            close(gate[1]);
            if (read(gate[0], &byte, 1) != 0) _exit(1);
            Missing missing(path);
            const bool is = missing.misses(3);
            wait_until([&] { return is_whole(path); });
            missing.recording.end();
            _exit(is ? 0 : 1);
        }
        HOLDS(close(gate[0]) == 0 && close(gate[1]) == 0);
        for (const pid_t process : processes) {
            int status = 1;
            HOLDS(waitpid(process, &status, 0) == process && status == 0);
        }
        HOLDS(marked(path) == 3 * kProcesses && new_marks_in(path).empty());
    }
}

// What is no mark makes the folder none of a recording, and nothing is changed.
void foreign() {
    const std::string path = folder_with_misses("foreign"), mark = mark_in(path);
    const Words whole = words_in(path);
    const auto with = [&](std::size_t at, std::uint64_t word) {
        Words changed = whole;
        changed[at] = word;
        return bytes_of_words(changed);
    };
    const std::string bytes = bytes_of_words(whole);
    for (const std::string& other : {with(0, kCookie + 1), with(0, 0), with(0, 0x408305DC), with(1, 0), with(1, 2), with(kId, 0),
                                     bytes.substr(0, kBytes - 1), bytes + '\0', bytes.substr(0, 8), std::string(1, 'x'), std::string(8, 0),
                                     bytes + bytes, std::string(2 * kBytes, 0), std::string(kBytes, 'x')}) {
        put_bytes(mark, other);
        const std::vector<std::string> before = names_in(path);
        Recording recording;
        povundiri_handle sums = {};
        int fault = 7, at_fold = 7;
        HOLDS(Recording::try_open(path, recording, small()) == Status::FolderInUse && !recording);
        ANSWERS(NO_RECORDING, povundiri_folder_sums(path.c_str(), &sums, nullptr, &fault));
        ANSWERS(NO_RECORDING, povundiri_folder_fold(path.c_str(), nullptr, &at_fold));
        HOLDS(fault == 0 && at_fold == 0 && !sums.held && names_in(path) == before && bytes_at(mark) == other);
    }
    put_bytes(mark, bytes);
    HOLDS(Missing(path).is_open() && marked(path) == 11);
}

// Which names are those of marks that have not got theirs: they are removed when they are old, and are no others.
void names() {
    const std::string path = folder("names");
    HOLDS(mkdir(path.c_str(), 0700) == 0);
    put_bytes(path + "/recording-0123456789abcdef", "half");
    HOLDS(Missing(path).is_open() && new_marks_in(path).size() == 1 && std::remove(mark_in(path).c_str()) == 0);
    HOLDS(units_beside(path, "s") == 1 && Missing(path).is_open() && new_marks_in(path).size() == 1);
    const std::vector<std::string> others = {"recording-",
                                             "recording-0123456789abcde",
                                             "recording-0123456789abcdef0",
                                             "recording-0123456789ABCDEF",
                                             "recording-0x23456789abcdef",
                                             "recording-0123456789abcdeg",
                                             "recording- 123456789abcdef",
                                             "recording-notes",
                                             "recording_0123456789abcdef"};
    for (const std::string& name : others) put_bytes(path + "/" + name, "mine");
    for (const std::string& name : names_in(path)) HOLDS(name.rfind("recording", 0) != 0 || name == "recording" || ages(path + "/" + name));
    HOLDS(Missing(path).is_open() && bytes_of(path + "/recording-0123456789abcdef") == -1);
    for (const std::string& name : others) HOLDS(bytes_at(path + "/" + name) == "mine");
    HOLDS(std::remove(mark_in(path).c_str()) == 0);
    Recording recording;
    HOLDS(Recording::try_open(path, recording, small()) == Status::FolderInUse);
}

// The device has no room for the words of a mark, or this process may not write them: all goes on, and they come later.
void no_room() {
    for (const auto& [call, fault] :
         {std::pair("write", ENOSPC), std::pair("write", EDQUOT), std::pair("fsync", ENOSPC), std::pair("openat", ENOSPC)}) {
        const std::string path = folder((std::string("no_room_") + call + std::to_string(fault)).c_str());
        failing = {call, "recording-", fault};
        Missing one(path), other(path);
        HOLDS(one.misses(3) && other.misses(40) && told(one.recording) == 3 && told(other.recording) == 40);
        HOLDS(bytes_of(mark_in(path)) == 0 && new_marks_in(path).empty() && one.recording.began().id == 0);
        failing.call.clear();
        HOLDS(told(one.recording) == 3 && marked(path) == 3 && told(other.recording) == 43 && marked(path) == 43);
    }
    HOLDS(in_child([] {
        const rlimit limit = {1000, 1000};
        const std::string path = folder("limited");
        Recording recording;
        if (setrlimit(RLIMIT_FSIZE, &limit) != 0 || !opens(path, recording, small()) || recording.began().fault != EFBIG) return false;
        return !metric_of(recording, "b").add(1, 7) && told(recording, "no_space") == 7 && bytes_of(mark_in(path)) == 0;
    }));
}

// Another fault, where the mark is empty, leaves it so. Where there is none the folder is not opened, and nothing is left in it.
void refused() {
    for (const char* call : {"openat", "write", "fsync", "fchmodat", "renameat"}) {
        const std::string path = folder_with_empty((std::string("refused_") + call).c_str());
        failing = {call, call == std::string("renameat") ? "recording" : "recording-", EACCES};
        Missing missing(path);
        HOLDS(missing.misses(3) && told(missing.recording) == 3 && bytes_of(mark_in(path)) == 0 && new_marks_in(path).empty());
        HOLDS(folds(path) && bytes_of(mark_in(path)) == 0 && new_marks_in(path).empty());
        failing.call.clear();
        HOLDS(told(missing.recording) == 3 && marked(path) == 3);
    }
    for (const char* call : {"openat", "write", "fsync", "linkat"}) {
        const std::string path = folder((std::string("unmarked_") + call).c_str());
        Recording recording;
        failing = {call, call == std::string("linkat") ? "recording" : "recording-", EIO};
        HOLDS(Recording::try_open(path, recording, small()) == std::errc::io_error && files::is_empty(path));
        failing.call.clear();
    }
    // It cannot be mapped.
    const std::string path = folder_with_misses("unmapped");
    failing = {"mmap", "recording", ENOMEM};
    Missing missing(path);
    HOLDS(missing.misses(3) && marked(path) == 11 && told(missing.recording) == 14 && missing.recording.began().id == 0);
    failing.call.clear();
    HOLDS(told(missing.recording) == 14 && marked(path) == 14 && missing.misses(1) && marked(path) == 15);
    // It cannot be opened for a text: it is mapped.
    failing = {"openat", "recording", EIO};
    std::string text;
    HOLDS(missing.recording.try_prometheus(text) == std::errc::io_error);
    failing.call.clear();
}

// A folder that may not be written, and a mark of another user: what is missed is told beside what the mark says, which stays.
void read_only() {
    const std::string path = folder_with_misses("read_only"), mark = mark_in(path);
    const std::string bytes = bytes_at(mark);
    const auto is_told_beside = [&](const RecordingOptions& options) {
        Recording recording;
        if (!opens(path, recording, options) || recording.began().fault == 0) return false;
        if (metric_of(recording, "b").add(1, 7) || recording.missed(Missed::NoSpace) != 7) return false;
        return told(recording, "no_space") == 7 && told(recording) == 11 && bytes_at(mark) == bytes;
    };
    HOLDS(in_child([&] {
        if (unshare(CLONE_NEWNS) != 0 || mount("none", "/", nullptr, MS_REC | MS_PRIVATE, nullptr) != 0) return false;
        if (mount(path.c_str(), path.c_str(), nullptr, MS_BIND, nullptr) != 0) return false;
        if (mount(nullptr, path.c_str(), nullptr, MS_BIND | MS_REMOUNT | MS_RDONLY, nullptr) != 0) return false;
        return is_told_beside(small());
    }));
    HOLDS(in_child([&] {
        RecordingOptions options = small();
        options.flags = POVUNDIRI_FILE_ANY_OWNER;
        if (chmod(path.c_str(), 0755) != 0) return false;
        for (const std::string& name : names_in(path)) HOLDS(chmod((path + "/" + name).c_str(), 0644) == 0);
        return setgroups(0, nullptr) == 0 && setgid(65'534) == 0 && setuid(65'534) == 0 && is_told_beside(options);
    }));
}

// Another user gives an empty mark no words, since the owner's files would be that user's.
void of_another_user() {
    constexpr unsigned kOwner = 65'534, kOther = 65'533, kGroup = 65'532;
    const std::string path = folder("shared"), mark = mark_in(path);
    const auto becomes = [](unsigned user) {
        const gid_t group = kGroup;
        return setgroups(1, &group) == 0 && setgid(user) == 0 && setuid(user) == 0;
    };
    RecordingOptions options = small();
    options.flags = POVUNDIRI_FILE_ANY_OWNER | POVUNDIRI_FILE_GROUP_WRITES;
    options.mode = 0660;
    HOLDS(mkdir(path.c_str(), 0770) == 0 && chmod(path.c_str(), 0770) == 0 && chown(path.c_str(), kOwner, kGroup) == 0);
    put_bytes(mark, "");
    HOLDS(chmod(mark.c_str(), 0660) == 0 && chown(mark.c_str(), kOwner, kGroup) == 0);
    const auto opens_as = [&](unsigned user) {
        Recording recording;
        return becomes(user) && opens(path, recording, options) && recording.began().fault == 0;
    };
    HOLDS(in_child([&] { return opens_as(kOther); }) && bytes_of(mark) == 0 && bytes_of(path + "/fold.lock") == -1);
    HOLDS(in_child([&] { return opens_as(kOwner); }) && is_whole(path));
    struct stat about;
    HOLDS(lstat(mark.c_str(), &about) == 0 && about.st_uid == kOwner && about.st_gid == kGroup && (about.st_mode & 0777) == 0660);
    // Who may write the mark adds to it.
    HOLDS(in_child([&] {
        Recording recording;
        options.most_values = 1;
        if (!becomes(kOther) || !opens(path, recording, options)) return false;
        const Metric metric = metric_of(recording, "s", kSparse);
        return metric.add(0) && !metric.add(1, 7);
    }));
    HOLDS(marked(path) == 7);
}

// A start, or a fold, is killed before each of its calls: the mark is the one before or a whole one, and the next start does the rest.
void killed_at_each(const char* name, bool is_empty, const std::function<bool(const std::string&)>& call) {
    bool ends = false;
    int at = 1, halves = 0;
    for (; !ends && at < 300; ++at) {
        const std::string numbered = name + std::to_string(at),
                          path = is_empty ? folder_with_empty(numbered.c_str()) : folder(numbered.c_str());
        const pid_t child = fork();
        int status = 1;
        if (child == 0) {
            calls = 0;
            stop_at = at;
            _exit(call(path) ? 0 : 1);
        }
        HOLDS(waitpid(child, &status, 0) == child && (WIFSIGNALED(status) || status == 0));
        ends = status == 0;
        const long bytes = bytes_of(mark_in(path));
        HOLDS(is_whole(path) || bytes == (is_empty ? 0 : -1));
        HOLDS(bytes != -1 || !std::filesystem::exists(path) || segments_in(path) == 0);
        for (const std::string& left : new_marks_in(path)) {
            halves += bytes_of(left) > 0 && bytes_of(left) < static_cast<long>(kBytes);
            HOLDS(ages(left));
        }
        Missing missing(path);
        HOLDS(missing.misses(3) && marked(path) == 3 && told(missing.recording) == 3 && new_marks_in(path).empty());
    }
    HOLDS(ends && at > 10 && halves > 0);
}

void killed_as_it_starts() {
    killed_at_each("starts_", false, [](const std::string& path) { return Missing(path).is_open(); });
}

void killed_as_it_upgrades() {
    killed_at_each("upgrades_", true, [](const std::string& path) { return Missing(path).is_open(); });
}

void killed_as_it_folds() { killed_at_each("folds_", true, folds); }

int run() {
    const bool is_root = geteuid() == 0;
    int failed = group("the words of a mark", words);
    failed += group("64 workers", workers);
    failed += group("killed as it misses", killed);
    failed += group("forks", forks);
    failed += group("a removed mark", removed);
    failed += group("a replaced mark", replaced);
    failed += group("threads and marks that are removed", threads);
    failed += group("a mark without words", upgraded);
    failed += group("a mark without words beside a fold", beside_a_fold);
    failed += group("starts at once", at_once);
    failed += group("what is no mark", foreign);
    failed += group("names of new marks", names);
    failed += group("no room for a mark", no_room);
    failed += group("a mark that is refused", refused);
    failed +=
        is_root ? group("a mark that may not be written", read_only) : left_out("a mark that may not be written", "only root can do that");
    failed += is_root ? group("an empty mark and another user", of_another_user)
                      : left_out("an empty mark and another user", "only root can become one");
    failed += group("killed as it starts", killed_as_it_starts);
    failed += group("killed as it gives a mark its words", killed_as_it_upgrades);
    failed += group("killed as it folds", killed_as_it_folds);
    return failed;
}

}  // namespace

int main(int count, char** words) {
    if (count != 2) return 2;
    home = words[1];
    return run() != 0;
}
