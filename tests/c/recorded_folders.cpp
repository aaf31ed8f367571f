// The folders of recordings: whose they are, what a start removes and continues there, which number the next segment gets, which
// descriptors a recording keeps, and folds with few: 'recorded_folders FOLDER'. Each group works in a folder of its own below that. It is
// linked with -Wl,--wrap=open and so on.
#include <fcntl.h>
#include <sched.h>
#include <sys/file.h>
#include <sys/mount.h>
#include <sys/resource.h>

#include <algorithm>
#include <cerrno>
#include <csignal>
#include <cstdarg>
#include <cstdio>
#include <cstring>
#include <ctime>
#include <filesystem>
#include <iterator>
#include <string_view>
#include <thread>
#include <utility>
#include <vector>

#include "recorded.hpp"

namespace {

// A folder that is folded, once, just before a segment is opened for recording.
std::string folded_between;

// How many segments are opened to be folded before one is refused, once; -1: none is.
int opened_until_fault = -1;

// What the system does with files that have no name: it makes none, or gives them none, as where there is no /proc.
enum class Unnamed { Named, NotMade, NotNamed };
Unnamed unnamed = Unnamed::Named;

// A folder that is folded, once, just before a segment gets its name; and whether the system can rename a file over none.
std::string folded_amid;
bool renames = true;

// How often a folder was listed, and how many bytes were read of files at a place.
int listings = 0;
std::uint64_t bytes_read = 0;

// A folder in which another process begins to record whenever this one is about to lock a spare, which takes long.
std::string opened_between;

std::uint64_t fold_of(const std::string& path) {
    std::uint64_t folded = 0;
    int fault = 0;
    ANSWERS(DONE, povundiri_folder_fold(path.c_str(), &folded, &fault));
    return folded;
}

void fold_between() { HOLDS(fold_of(std::exchange(folded_between, "")) == 1); }

void open_between() {
    const std::string path = std::exchange(opened_between, "");
    HOLDS(in_child([&] {
        Recording recording;
        return opens(path, recording) && recording.began().number > 0;
    }));
    usleep(150'000);
    opened_between = path;
}

// Whether a descriptor is that of a file without a name, or of a spare.
bool is_spare(int descriptor) {
    char name[4096];
    const std::string path = "/proc/self/fd/" + std::to_string(descriptor);
    const ssize_t length = readlink(path.c_str(), name, sizeof name);
    const std::string_view file(name, length < 0 ? 0 : static_cast<std::size_t>(length));
    return file.find("/spare-") != file.npos || file.find(" (deleted)") != file.npos;
}

}  // namespace

extern "C" int __real_flock(int descriptor, int how);
extern "C" int __wrap_flock(int descriptor, int how) {
    if (!opened_between.empty() && is_spare(descriptor)) open_between();
    return __real_flock(descriptor, how);
}

extern "C" int __real_linkat(int from_folder, const char* from, int to_folder, const char* to, int flags);
extern "C" int __wrap_linkat(int from_folder, const char* from, int to_folder, const char* to, int flags) {
    if (!folded_amid.empty() && std::strstr(to, ".seg") != nullptr) HOLDS(fold_of(std::exchange(folded_amid, "")) > 0);
    if (unnamed == Unnamed::Named || std::strncmp(from, "/proc/", 6) != 0) return __real_linkat(from_folder, from, to_folder, to, flags);
    errno = ENOENT;
    return -1;
}

extern "C" int __real_renameat2(int from_folder, const char* from, int to_folder, const char* to, unsigned flags);
extern "C" int __wrap_renameat2(int from_folder, const char* from, int to_folder, const char* to, unsigned flags) {
    if (renames) return __real_renameat2(from_folder, from, to_folder, to, flags);
    errno = EINVAL;
    return -1;
}

extern "C" ssize_t __real_pread(int descriptor, void* at, std::size_t bytes, off_t from);
extern "C" ssize_t __wrap_pread(int descriptor, void* at, std::size_t bytes, off_t from) {
    const ssize_t got = __real_pread(descriptor, at, bytes, from);
    if (got > 0) bytes_read += static_cast<std::uint64_t>(got);
    return got;
}

extern "C" int __real_openat(int in, const char* path, int flags, ...);
extern "C" int __wrap_openat(int in, const char* path, int flags, ...) {
    va_list more;
    va_start(more, flags);
    const int mode = (flags & O_CREAT) != 0 || (flags & O_TMPFILE) == O_TMPFILE ? va_arg(more, int) : 0;
    va_end(more);
    if (unnamed == Unnamed::NotMade && (flags & O_TMPFILE) == O_TMPFILE) {
        errno = EOPNOTSUPP;
        return -1;
    }
    listings += std::strcmp(path, ".") == 0 && (flags & O_TMPFILE) != O_TMPFILE;
    const bool is_segment = std::string(path).find(".seg") != std::string::npos, is_recorded = (flags & O_ACCMODE) == O_RDWR;
    if (is_segment && is_recorded && !folded_between.empty()) fold_between();
    const int descriptor = __real_openat(in, path, flags, mode);
    if (descriptor < 0 || !is_segment || is_recorded || opened_until_fault < 0 || opened_until_fault-- > 0) return descriptor;
    close(descriptor);
    errno = ENFILE;
    return -1;
}

namespace {

bool ages(const std::string& path, std::time_t seconds) {
    const timespec times[2] = {{std::time(nullptr) - seconds, 0}, {std::time(nullptr) - seconds, 0}};
    return utimensat(AT_FDCWD, path.c_str(), times, 0) == 0;
}

// A file with this text, which is as many seconds old.
bool is_made(const std::string& path, const char* text, std::time_t age = 0) {
    std::FILE* const file = std::fopen(path.c_str(), "w");
    return file != nullptr && std::fputs(text, file) >= 0 && std::fclose(file) == 0 && ages(path, age);
}

std::vector<std::string> spares_in(const std::string& path) {
    std::vector<std::string> found;
    for (const auto& entry : std::filesystem::directory_iterator(path)) {
        if (entry.path().filename().string().rfind("spare-", 0) == 0) found.push_back(entry.path());
    }
    return found;
}

// Something has the name of a recording's mark, and is none: nothing is removed there, or made.
void marks() {
    const std::string path = folder("marked"), mark = path + "/recording", spare = path + "/spare-1-0123456789abcdef";
    HOLDS(mkdir(path.c_str(), 0700) == 0 && is_made(spare, "not a segment", 70) && is_made(folder("empty"), ""));
    const auto is_refused = [&] {
        Recording recording;
        povundiri_handle sums = {};
        int fault = 0, other = 0;
        return Recording::try_open(path.c_str(), recording) == Status::FolderInUse && bytes_of(spare) == 13 &&
               povundiri_folder_sums(path.c_str(), &sums, nullptr, &fault) == POVUNDIRI_NO_RECORDING && fault == 0 &&
               povundiri_folder_fold(path.c_str(), nullptr, &other) == POVUNDIRI_NO_RECORDING && other == 0 &&
               bytes_of(path + "/fold.lock") == -1 && segments_in(path) == 0;
    };
    HOLDS(is_refused());
    HOLDS(is_made(mark, "my notes\n") && is_refused() && bytes_of(mark) == 9 && std::remove(mark.c_str()) == 0);
    HOLDS(mkdir(mark.c_str(), 0700) == 0 && is_refused() && rmdir(mark.c_str()) == 0);
    HOLDS(symlink(folder("empty").c_str(), mark.c_str()) == 0 && is_refused() && std::remove(mark.c_str()) == 0);
    HOLDS(mkfifo(mark.c_str(), 0600) == 0 && is_refused() && std::remove(mark.c_str()) == 0);
    HOLDS(is_made(mark, ""));
    Recording recording;
    HOLDS(opens(path, recording) && bytes_of(spare) == -1);
}

// An old spare that nobody holds is removed. A young one is not, a file without the name of a spare is not, and a spare that somebody holds
// is not either.
void spares() {
    const std::string path = folder("spares");
    const std::vector<std::string> others = {"spare-",
                                             "spare-notes",
                                             "spare-1",
                                             "spare-1-",
                                             "spare-1-0123456789abcde",
                                             "spare-1-0123456789abcdef0",
                                             "spare-1-0123456789ABCDEF",
                                             "spare-1234567890123456789-0123456789abcdef",
                                             "spare-1-0123456789abcdeg",
                                             "spare-01-0123456789abcdef",
                                             "spare-0-0123456789abcdef",
                                             "spare--1-0123456789abcdef",
                                             "spare-+1-0123456789abcdef",
                                             "spare- 1-0123456789abcdef",
                                             "spare-1- 123456789abcdef",
                                             "spare-1-0x23456789abcdef",
                                             "spare-1-0123456789abcdef.txt",
                                             "spare-1_0123456789abcdef",
                                             "Spare-1-0123456789abcdef",
                                             "spare-99999999999999999999-0123456789abcdef",
                                             "my-spare-1-0123456789abcdef"};
    const std::vector<std::string> left = {"spare-1-0123456789abcdef", "spare-4194304-0000000000000000", "spare-77-ffffffffffffffff"};
    const std::string young = path + "/spare-1-1111111111111111";
    Recording held, recording;
    unnamed = Unnamed::NotMade;
    HOLDS(opens(path, held));
    unnamed = Unnamed::Named;
    HOLDS(spares_in(path).size() == 1 && ages(spares_in(path)[0], 1000));
    for (const std::string& name : others) HOLDS(is_made(path + "/" + name, "x", 1000));
    for (const std::string& name : left) HOLDS(is_made(path + "/" + name, "x", 70));
    HOLDS(is_made(young, "x", 50));
    HOLDS(mkdir((path + "/spare-2-0123456789abcdef").c_str(), 0700) == 0 && opens(path, recording));
    for (const std::string& name : others) HOLDS(bytes_of(path + "/" + name) == 1);
    for (const std::string& name : left) HOLDS(bytes_of(path + "/" + name) == -1);
    HOLDS(bytes_of(path + "/spare-2-0123456789abcdef") >= 0 && bytes_of(young) == 1);
    // The spare of the one that holds it was not swept: the next segment is begun with it.
    HOLDS(metric_of(held, "b").add(1, 4'000'000'000) && metric_of(held, "b").add(1, 4'000'000'000) && held.missed() == 0);
    HOLDS(units_in(held.report(), "b") == 8'000'000'000);
}

// How many spares a process leaves that is killed as it records.
std::size_t left_by_kill(const std::string& path) {
    const pid_t child = fork();
    if (child == 0) {
        Recording recording;
        if (opens(path, recording, small()) && metric_of(recording, "b").add(1, 3)) kill(getpid(), SIGKILL);
        _exit(1);
    }
    int status = 0;
    HOLDS(child > 0 && waitpid(child, &status, 0) == child && WIFSIGNALED(status) && WTERMSIG(status) == SIGKILL);
    return spares_in(path).size();
}

// Others begin to record in the folder whenever this process makes a spare, and its lock comes late: none removes it. A kill leaves a spare
// only where spares have names.
void swept() {
    const std::vector<std::pair<Unnamed, const char*>> ways = {
        {Unnamed::Named, "unnamed"}, {Unnamed::NotMade, "not_made"}, {Unnamed::NotNamed, "not_named"}};
    for (const auto& [way, name] : ways) {
        RecordingOptions options = one_shard();
        options.apart = 1;
        const std::string path = folder(name);
        Recording recording;
        HOLDS(mkdir(path.c_str(), 0700) == 0);
        unnamed = way;
        opened_between = path;
        HOLDS(opens(path, recording, options));
        opened_between.clear();
        HOLDS(recording.began().fault == 0 && recording.began().number > 0);
        for (int i = 0; i < 3; ++i) HOLDS(metric_of(recording, "b").add(1, 4'000'000'000));
        HOLDS(recording.missed() == 0 && units_in(recording.report(), "b") == 12'000'000'000);
        recording.end();
        HOLDS(spares_in(path).empty());
        const std::size_t left = left_by_kill(path);
        // Each of these starts begins a segment: there is none of its size.
        options.bytes = 32'768;
        HOLDS(left == (way == Unnamed::Named ? 0 : 1) && opens(path, recording, options) && spares_in(path).size() == 2 * left);
        for (const std::string& spare : spares_in(path)) HOLDS(ages(spare, 61));
        recording.end();
        options.bytes = 65'536;
        HOLDS(opens(path, recording, options) && spares_in(path).size() == left);
        HOLDS(units_in(recording.report(), "b") == 12'000'000'003);
        unnamed = Unnamed::Named;
    }
}

// Workers of a server that start at once each begin a segment, and miss nothing.
void workers() {
    constexpr int kWorkers = 60, kSamples = 100;
    const std::string path = folder("workers");
    const int right = children_at_once(kWorkers, [&] {
        Recording recording;
        if (!opens(path, recording, small()) || recording.began().number == 0) return false;
        for (int sample = 0; sample < kSamples; ++sample) metric_of(recording, "b").add(1);
        return recording.missed() == 0;
    });
    HOLDS(right == kWorkers && units_beside(path, "b") == kWorkers * kSamples && spares_in(path).empty());
}

// How many names a file has.
nlink_t files_named(const std::string& path) {
    struct stat about;
    return lstat(path.c_str(), &about) == 0 ? about.st_nlink : 0;
}

// A fold takes the newest segment just before it is continued: the next number is begun, and that one's file is not made again.
void taken() {
    const std::string path = folder("taken"), first = path + "/0000000001.seg";
    Recording recording;
    HOLDS(opens(path, recording) && metric_of(recording, "b").add(1, 3));
    recording.end();
    folded_between = path;
    HOLDS(opens(path, recording) && folded_between.empty());
    HOLDS(!recording.began().adopted && recording.began().number == 2 && recording.began().fault == 0 && bytes_of(first) == -1);
    ANSWERS(DONE, recording.began().refused);
    HOLDS(metric_of(recording, "b").add(1, 4) && units_in(recording.report(), "b") == 7 && segments_in(path) == 1);
}

// A file of the newest number in which nothing was begun, as a crash of the machine may leave it: a segment is begun there, and none is
// continued.
void unmade() {
    const std::string path = folder("unmade"), second = path + "/0000000002.seg";
    Recording recording;
    HOLDS(opens(path, recording) && metric_of(recording, "b").add(1, 3));
    recording.end();
    HOLDS(is_made(second, "") && chmod(second.c_str(), 0600) == 0 && opens(path, recording));
    HOLDS(!recording.began().adopted && recording.began().number == 2 && recording.began().fault == 0 && segments_in(path) == 2);
    HOLDS(metric_of(recording, "b").add(1, 4) && units_in(recording.report(), "b") == 7);
    recording.end();
    HOLDS(opens(path, recording) && recording.began().adopted && recording.began().number == 2);
}

// A folder of final segments, each of which has as many units.
class Finals {
   public:
    explicit Finals(const char* name) : path_(folder(name)) {}

    bool make(std::uint32_t segments) {
        Recording recording;
        Metric metric;
        if (!opens(path_, recording, small())) return false;
        if (recording.try_hist("b", {POVUNDIRI_BOOLEAN, 0, 0, 0}, {}, metric) != Status::Done) return false;
        for (std::uint32_t i = 0; i < segments; ++i) units_ += metric.add(1, kCount) ? kCount : 0;
        recording.end();
        return stand(segments);
    }

    // Folds with a limit of descriptors, and returns the system's fault, or 0.
    int fold(rlim_t descriptors, std::uint64_t& folded) const {
        struct rlimit limit, few;
        int fault = -1;
        if (getrlimit(RLIMIT_NOFILE, &limit) != 0) return -1;
        few = limit;
        few.rlim_cur = descriptors;
        if (setrlimit(RLIMIT_NOFILE, &few) != 0) return -1;
        const std::uint32_t status = povundiri_folder_fold(path_.c_str(), &folded, &fault);
        return setrlimit(RLIMIT_NOFILE, &limit) == 0 && status == (fault == 0 ? POVUNDIRI_DONE : POVUNDIRI_SYSTEM) ? fault : -1;
    }

    // Whether there are this many segments, the sum is whole, and no new totals are left.
    bool stand(std::uint64_t segments) const {
        return segments_in(path_) == segments && units_beside(path_, "b") == units_ && bytes_of(path_ + "/totals.new") == -1;
    }

    bool has_totals() const { return bytes_of(path_ + "/totals") != -1; }

   private:
    static constexpr std::uint32_t kCount = 3'000'000'000;
    std::string path_;
    long long units_ = 0;
};

// More final segments than the process may open at once: they are folded in rounds. If it may not open four files, none is folded.
void few_descriptors() {
    HOLDS(in_child([] {
        Finals finals("few");
        std::uint64_t folded = 9;
        const int lowest = dup(0);
        if (lowest < 0 || close(lowest) != 0 || lowest > 30 || !finals.make(64)) return false;
        for (int more = 0; more < 4; ++more) {
            if (finals.fold(static_cast<rlim_t>(lowest + more), folded) != EMFILE || folded != 0) return false;
            if (!finals.stand(64) || finals.has_totals()) return false;
        }
        if (finals.fold(40, folded) != 0 || folded != 64 || !finals.stand(0) || !finals.has_totals()) return false;
        return finals.make(8) && finals.fold(static_cast<rlim_t>(lowest + 4), folded) == 0 && folded == 8 && finals.stand(0);
    }));
}

// The system has no descriptor left for a moment, after each number of segments that were opened.
void no_descriptor() {
    Finals finals("none_left");
    std::uint64_t folded = 9;
    for (int opened = 0; opened < 8; ++opened) {
        HOLDS(finals.make(8));
        opened_until_fault = opened;
        HOLDS(finals.fold(1024, folded) == (opened == 0 ? ENFILE : 0) && folded == (opened == 0 ? 0 : 8) && opened_until_fault == -1);
        HOLDS(finals.stand(opened == 0 ? 8 : 0));
        if (opened == 0) HOLDS(finals.fold(1024, folded) == 0 && folded == 8);
    }
}

std::ptrdiff_t descriptors() {
    return std::distance(std::filesystem::directory_iterator("/proc/self/fd"), std::filesystem::directory_iterator());
}

// Whether somebody has the lock of a file.
bool is_locked(const std::string& path) {
    const int descriptor = open(path.c_str(), O_RDONLY | O_CLOEXEC);
    const bool is = descriptor >= 0 && flock(descriptor, LOCK_EX | LOCK_NB) != 0 && errno == EWOULDBLOCK;
    HOLDS(descriptor >= 0 && close(descriptor) == 0);
    return is;
}

std::string segment(const std::string& path, int number) {
    const std::string digits = std::to_string(number);
    return path + "/" + std::string(10 - digits.size(), '0') + digits + ".seg";
}

// Threads that each have a recorder in another segment of a recording, and are idle.
class Holders {
   public:
    Holders(const Metric& metric, int threads) {
        for (int i = 0; i < threads; ++i) {
            std::thread([&] { HOLDS(metric.add(1, kMost)); }).join();
            threads_.emplace_back([this, metric] {
                HOLDS(metric.add(1));
                gate_.wait();
            });
            gate_.wait_for(i + 1);
        }
    }
    void leave() {
        gate_.open_for(static_cast<int>(threads_.size()));
        for (std::thread& thread : threads_) thread.join();
    }

   private:
    static constexpr std::uint32_t kMost = 4'200'000'000;
    Gate gate_;
    std::vector<std::thread> threads_;
};

// Each segment that a thread is in is locked, and none that all have left. Returns how many descriptors the segments have.
std::ptrdiff_t descriptors_of(const std::string& path, int segments) {
    Recording recording;
    HOLDS(opens(path, recording, small()));
    const Metric metric = metric_of(recording, "b");
    recording.leave();
    const std::ptrdiff_t before = descriptors();
    Holders holders(metric, segments);
    const std::ptrdiff_t after = descriptors();
    HOLDS(segments_in(path) == static_cast<std::uint64_t>(segments));
    for (int number = 1; number <= segments; ++number) HOLDS(is_locked(segment(path, number)));
    HOLDS(recording.fold() == 0);
    holders.leave();
    for (int number = 1; number <= segments; ++number) HOLDS(is_locked(segment(path, number)) == (number == segments));
    HOLDS(recording.fold() == static_cast<std::uint64_t>(segments - 1) && recording.missed() == 0);
    // A child that lives on has nothing of the present segment, which is final once its process has ended the recording.
    int ends[2];
    char byte = 0;
    HOLDS(pipe(ends) == 0);
    const pid_t child = fork();
    if (child == 0) {
        if (write(ends[1], "x", 1) == 1) pause();
        _exit(1);
    }
    HOLDS(child > 0 && read(ends[0], &byte, 1) == 1);
    recording.end();
    HOLDS(!is_locked(segment(path, segments)) && kill(child, SIGKILL) == 0 && waitpid(child, nullptr, 0) == child);
    HOLDS(close(ends[0]) == 0 && close(ends[1]) == 0);
    return after - before;
}

// Threads that are idle in old segments keep no descriptor.
void few_open() { HOLDS(descriptors_of(folder("few_open"), 20) <= 0); }

// The mapping of a file on overlayfs keeps no lock: so the descriptors stay.
void overlaid() { HOLDS(descriptors_of(folder("overlay/merged/metrics"), 5) >= 4); }

// Mounts an overlayfs for this process alone.
bool mounts_overlay() {
    const std::string top = folder("overlay");
    for (const char* name : {"", "/lower", "/upper", "/work", "/merged"}) HOLDS(mkdir((top + name).c_str(), 0700) == 0);
    const std::string words = "lowerdir=" + top + "/lower,upperdir=" + top + "/upper,workdir=" + top + "/work";
    return unshare(CLONE_NEWNS) == 0 && mount("none", "/", nullptr, MS_REC | MS_PRIVATE, nullptr) == 0 &&
           mount("overlay", (top + "/merged").c_str(), "overlay", 0, words.c_str()) == 0;
}

// Another file has the name of new totals too: a fold leaves it as it is.
void linked() {
    const std::string kept = folder("kept");
    Finals finals("linked");
    std::uint64_t folded = 0;
    HOLDS(finals.make(3) && is_made(kept, "precious") && link(kept.c_str(), folder("linked/totals.new").c_str()) == 0);
    HOLDS(finals.fold(1024, folded) == 0 && folded == 3 && finals.stand(0) && finals.has_totals());
    HOLDS(bytes_of(kept) == 8 && files_named(kept) == 1);
    // A link of that name is not followed, and one to nothing is no obstacle.
    HOLDS(finals.make(2) && symlink(kept.c_str(), folder("linked/totals.new").c_str()) == 0);
    HOLDS(finals.fold(1024, folded) == 0 && folded == 2 && finals.stand(0) && bytes_of(kept) == 8);
}

// Most units of a segment: the next such sample takes the next one.
constexpr std::uint32_t kMost = 4'200'000'000;

// The names of segments in a folder, by their order, and one by its number.
std::vector<std::string> segments_of(const std::string& path) {
    std::vector<std::string> found;
    for (const auto& entry : std::filesystem::directory_iterator(path)) {
        if (entry.path().extension() == ".seg") found.push_back(entry.path().filename());
    }
    std::sort(found.begin(), found.end());
    return found;
}

std::string name_of(int number) { return std::filesystem::path(segment("", number)).filename(); }

// A folder is listed as a recording begins, and not as it begins segments; and as it may have four times `fold_at` of them.
void remembered() {
    const std::string path = folder("remembered");
    Recording recording;
    HOLDS(opens(path, recording, small()));
    const Metric metric = metric_of(recording, "b");
    HOLDS(metric.add(1, kMost) && metric.add(1, kMost));
    listings = 0;
    for (int i = 2; i < 250; ++i) HOLDS(metric.add(1, kMost));
    HOLDS(listings == 0 && segments_in(path) == 250 && segments_of(path).back() == name_of(250));
    for (int i = 250; i < 300; ++i) HOLDS(metric.add(1, kMost));
    HOLDS(segments_in(path) < 60 && recording.missed() == 0 && units_in(recording.report(), "b") == 300LL * kMost);
    HOLDS(segments_of(path).back() == name_of(300));
}

// Others have begun many segments since, or set one aside: the next number is the first free one above. The folder is listed once for that.
void taken_numbers() {
    const std::string path = folder("numbers");
    Recording recording, other;
    HOLDS(opens(path, recording, small()) && opens(path, other, small()));
    const Metric metric = metric_of(recording, "b"), others = metric_of(other, "b");
    for (int i = 0; i < 50; ++i) HOLDS(others.add(1, kMost));
    HOLDS(metric.add(1, kMost) && segments_of(path).back() == name_of(51));
    listings = 0;
    HOLDS(metric.add(1, kMost) && listings == 1 && segments_of(path).back() == name_of(52));
    HOLDS(others.add(1, kMost) && listings == 1 && segments_of(path).back() == name_of(53));
    HOLDS(is_made(path + "/0000000054.damaged", "damaged"));
    HOLDS(metric.add(1, kMost) && segments_of(path).back() == name_of(55));
    HOLDS(recording.missed() + other.missed() == 0 && units_in(recording.report(), "b") == 54LL * kMost);
}

// Numbers of more than 18 digits are none. With that of 18 nines there is no next one: no segment is begun, and that is said.
void greatest_numbers() {
    const std::string path = folder("greatest"), last = path + "/999999999999999999.damaged";
    const std::vector<std::string> others = {"1000000000000000000.damaged", "18446744073709551615.damaged", "18446744073709551616.seg"};
    Recording recording;
    HOLDS(opens(path, recording, small()) && metric_of(recording, "b").add(1, kMost));
    recording.end();
    for (const std::string& name : others) HOLDS(is_made(path + "/" + name, "stray"));
    RecordingOptions options = small();
    options.bytes = 32'768;
    HOLDS(opens(path, recording, options) && recording.began().number == 2);
    HOLDS(metric_of(recording, "b").add(1, kMost) && metric_of(recording, "b").add(1, kMost) && bytes_of(segment(path, 3)) > 0);
    for (const std::string& name : others) HOLDS(std::remove((path + "/" + name).c_str()) == 0);
    HOLDS(recording.missed() == 0 && units_in(recording.report(), "b") == 3LL * kMost);
    recording.end();
    options.bytes = 65'536;
    HOLDS(is_made(last, "damaged") && opens(path, recording, options));
    HOLDS(recording.began().number == 0 && recording.began().fault == EOVERFLOW && !metric_of(recording, "b").add(1, 5));
    HOLDS(recording.missed(Missed::NoSpace) == 5 && recording.missed() == 5 && segments_of(path).size() == 3);
}

// Segments of others, which this process did not know, are folded just before its next one gets its name: that gets no number that a
// removed segment had.
void passed_by(int segments, bool can_rename) {
    const std::string path = folder(("passed-" + std::to_string(segments) + (can_rename ? "" : "-linked")).c_str());
    Recording idle, other;
    HOLDS(opens(path, idle, small()) && opens(path, other, small()));
    const Metric metric = metric_of(idle, "b"), others = metric_of(other, "b");
    HOLDS(metric.add(1, kMost));
    for (int i = 0; i < segments; ++i) HOLDS(others.add(1, kMost));
    other.end();
    renames = can_rename;
    folded_amid = path;
    HOLDS(metric.add(1, kMost) && folded_amid.empty());
    renames = true;
    const std::string next = name_of(segments + 2);
    HOLDS(segments_of(path) == (std::vector<std::string>{name_of(1), next}) && files_named(segment(path, segments + 2)) == 1);
    HOLDS(metric.add(1, kMost) && segments_of(path).back() == name_of(segments + 3) && fold_of(path) == 2);
    HOLDS(idle.missed() == 0 && units_in(idle.report(), "b") == (segments + 3LL) * kMost);
}

void passed() {
    for (const bool can_rename : {true, false}) {
        for (const int segments : {1, 2, 10}) passed_by(segments, can_rename);
    }
}

// The number of the first segment that is begun in a new folder with these totals.
std::uint64_t begun_after(const std::string& totals, off_t zeros = 0) {
    static int folders = 0;
    const std::string path = folder(("totals" + std::to_string(++folders)).c_str()), file = path + "/totals";
    Recording recording;
    HOLDS(mkdir(path.c_str(), 0700) == 0 && is_made(file, totals.c_str()));
    HOLDS(zeros == 0 || truncate(file.c_str(), zeros) == 0);
    bytes_read = 0;
    HOLDS(opens(path, recording));
    return recording.began().number;
}

std::string repeated(const std::string& text, int times) {
    std::string all;
    for (int i = 0; i < times; ++i) all += text;
    return all;
}

// Lines `of` of number 1, so many bytes of them together: seven or more.
std::string of_lines(std::size_t bytes) {
    const std::string line = "of,1,2\n";
    std::string lines = repeated(line, static_cast<int>(bytes / line.size() - 1));
    const std::string last = "of,1," + std::string(bytes - lines.size() - 6, '2');
    return lines + last + "\n";
}

// The next number is above those of all lines `of` of totals, which are read from their end on, wherever the greatest is.
void named_in_totals() {
    const std::string begins = "totals,1\nimages,3\n", ends = "fold,2\nend,9\n", greatest = "of,77,18446744073709551615\n";
    HOLDS(begun_after(begins + "of,7,1\nof,9,2\nof,3,4\n" + ends) == 10 && begun_after(begins + "of,5,1\nend,4\n") == 6);
    HOLDS(begun_after(begins + ends) == 1 && begun_after(begins + "end,3\n") == 1);
    HOLDS(begun_after(begins + "of,999999999999999997,1\n" + ends) == 999'999'999'999'999'998);
    HOLDS(begun_after(begins + "of,1000000000000000000,1\nof,18446744073709551615,2\nof,6,3\n" + ends) == 7);
    // More lines than are read at once, which are 16,384 bytes, with the greatest anywhere about the place where they are parted.
    for (std::size_t within = 0; within <= greatest.size() + 2; ++within) {
        const std::string after = of_lines(16'384 + 1 - within - ends.size());
        HOLDS(begun_after(begins + of_lines(700) + greatest + after + ends) == 78);
    }
    HOLDS(begun_after(begins + greatest + of_lines(100'000) + ends) == 78);
    const std::string histogram = "hist,1,h,custom," + repeated("123456,", 10'000) + "1\n";
    HOLDS(begun_after(begins + histogram + greatest + ends) == 78);
    HOLDS(begun_after(begins + histogram + greatest + of_lines(16'384 - ends.size()) + ends) == 78);
    HOLDS(begun_after(begins + histogram + ends) == 1);
    // Of four million bytes little is read.
    const std::string large = begins + repeated(histogram, 60);
    HOLDS(begun_after(large + greatest + ends) == 78 && bytes_read < 100'000);
    HOLDS(begun_after(large + ends) == 1 && bytes_read < 100'000);
}

// What is no totals any more is looked through: those that are cut off, have something behind them, or zeros, or nothing.
void no_totals() {
    const std::string begins = "totals,1\nimages,3\n", named = begins + "of,50,1\nof,7,2\n", ends = "fold,2\nend,9\n";
    HOLDS(begun_after(named) == 51 && begun_after(named + "of,6") == 51 && begun_after(named + ends + "x") == 51);
    HOLDS(begun_after(named + repeated("0123456789abcdef\n", 2000)) == 51 && begun_after(named + repeated("x", 40'000)) == 51);
    HOLDS(begun_after(named + ends + repeated("key,1,1\n", 5000)) == 51 && begun_after("") == 1 && begun_after("of,3,1\n") == 4);
    HOLDS(begun_after("", off_t{1} << 24) == 1 && begun_after("x", off_t{1} << 24) == 1);
}

// What is remembered is of one folder. One that is emptied stays the same one; one that is made anew begins with 1; one into which an older
// copy of itself is put goes on above what it had.
void which_folder() {
    namespace files = std::filesystem;
    const std::string path = folder("which"), copy = folder("which-copy");
    const auto empty = [&] {
        for (const auto& entry : files::directory_iterator(path)) files::remove(entry.path());
    };
    Recording recording;
    HOLDS(opens(path, recording, small()));
    const Metric metric = metric_of(recording, "b");
    for (int i = 0; i < 3; ++i) HOLDS(metric.add(1, kMost));
    recording.leave();
    files::copy(path, copy);
    for (int i = 0; i < 3; ++i) HOLDS(metric.add(1, kMost));
    empty();
    HOLDS(metric.add(1, kMost) && segments_of(path) == (std::vector<std::string>{name_of(7)}));
    empty();
    files::copy(copy, path);
    HOLDS(metric.add(1, kMost) && segments_of(path).back() == name_of(8) && segments_in(path) == 4);
    HOLDS(units_in(recording.report(), "b") == 4LL * kMost);
    files::remove_all(path);
    HOLDS(metric.add(1, kMost) && segments_of(path) == (std::vector<std::string>{name_of(1)}));
    HOLDS(metric.add(1, kMost) && segments_of(path).back() == name_of(2) && units_in(recording.report(), "b") == 2LL * kMost);
}

int run() {
    int failed = group("what is no recording's folder", marks);
    failed += group("spares", spares);
    failed += group("starts beside one another", swept);
    failed += group("workers that start at once", workers);
    failed += group("a fold before a start", taken);
    failed += group("a file in which nothing was begun", unmade);
    failed += group("new totals that are another file", linked);
    failed += group("few descriptors", few_descriptors);
    failed += group("no descriptor for a moment", no_descriptor);
    failed += group("what a roll remembers", remembered);
    failed += group("numbers that others have taken", taken_numbers);
    failed += group("the greatest numbers", greatest_numbers);
    failed += group("a fold amid a roll", passed);
    failed += group("numbers that totals name", named_in_totals);
    failed += group("what is no totals", no_totals);
    failed += group("which folder is remembered", which_folder);
    failed += group("idle threads in old segments", few_open);
    failed += mounts_overlay() ? group("the same on overlayfs", overlaid) : left_out("the same on overlayfs", std::strerror(errno));
    return failed;
}

}  // namespace

int main(int count, char** words) { return in_folder(count, words, run); }
