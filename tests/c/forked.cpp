// Forked children of a process with segments and recorders: forked FOLDER. Their calls are refused, and when they end, nothing is touched
// or locked; the parent continues as if there had been no child. And objects that end after main, in any order.

#include <pthread.h>
#include <sys/wait.h>
#include <unistd.h>

#include <array>
#include <atomic>
#include <cstdlib>
#include <memory>
#include <string>
#include <thread>

#include "checks.hpp"

// A child leaves what its parent made as it is: that is no leak.
static bool is_child = false;
extern "C" int __lsan_is_turned_off() { return is_child; }

namespace {

using povundiri::Counts;
using povundiri::Hist;
using povundiri::Opened;
using povundiri::Policy;
using povundiri::Recorder;
using povundiri::Segment;
using povundiri::Status;

constexpr povundiri::Shape kShape = povundiri::shape(4096, 256, 7, 1);
constexpr std::uint32_t kAll = UINT32_MAX;
constexpr unsigned kMostSeconds = 20;

std::string folder;

std::string path_of(const char* name) { return folder + "/" + name; }

// The status of a child that does this; -1 if it is ended by a signal, as by the alarm of one that waits for ever.
template <typename Work>
int status_of_child(const Work& work) {
    std::fflush(stdout);
    const pid_t child = fork();
    if (child == 0) {
        is_child = true;
        alarm(kMostSeconds);
        work();
        _exit(failed_here != 0);
    }
    int status = 0;
    HOLDS(child > 0 && waitpid(child, &status, 0) == child);
    return WIFEXITED(status) ? WEXITSTATUS(status) : -1;
}

struct Home {
    Segment segment;
    Recorder recorder;
    Hist hist;
};

// One with a recorder that has counted once, in memory or in a file.
Home made(const char* name) {
    Home home;
    if (name == nullptr) {
        DONE(Segment::try_create(kShape, home.segment));
    } else {
        Opened opened;
        HOLDS(!Segment::try_open(path_of(name).c_str(), kShape, Policy::AdoptOrFail, opened));
        home.segment = std::move(opened.segment);
    }
    DONE(home.segment.try_recorder(home.recorder, 100));
    DONE(home.recorder.try_boolean("b", home.hist));
    DONE(home.recorder.try_add(home.hist, 1));
    return home;
}

void is_as_it_was(Home& home) {
    std::uint32_t number = 0;
    DONE(home.recorder.try_add(home.hist, 1));
    DONE(home.recorder.try_units(number));
    HOLDS(number == 98);
    DONE(home.segment.try_outstanding(number));
    HOLDS(number == 1);
    home.recorder.reset();
    DONE(home.segment.try_units(number));
    HOLDS(number == kAll - 2);
}

void is_refused(Home& home) {
    Counts counts;
    std::vector<std::uint64_t> words;
    std::uint64_t record = 0;
    std::uint32_t number = 0;
    std::size_t added = 0;
    Recorder more;
    HOLDS(!home.segment && !home.recorder && !home.recorder.add(home.hist, 1));
    RETURNS(Forked, home.recorder.try_add(home.hist, 1));
    RETURNS(Forked, home.recorder.try_add(Hist(), 1));
    RETURNS(Forked, home.recorder.try_batch(home.hist, {{1, 1}}, 1, added));
    RETURNS(Forked, home.recorder.try_boolean("b", home.hist));
    RETURNS(Forked, home.recorder.try_delta(home.hist, counts));
    RETURNS(Forked, home.recorder.try_snapshot(home.hist, counts));
    RETURNS(Forked, home.recorder.try_records(words));
    RETURNS(Forked, home.recorder.try_next_shared(0, record));
    RETURNS(Forked, home.recorder.try_set_corrupt());
    RETURNS(Forked, home.recorder.try_limit_indexes(1));
    RETURNS(Forked, home.recorder.try_units(number));
    RETURNS(Forked, home.segment.try_recorder(more));
    RETURNS(Forked, home.segment.try_join(home.recorder));
    RETURNS(Forked, home.segment.try_lend(home.recorder, 1));
    RETURNS(Forked, home.segment.try_units(number));
    RETURNS(Forked, home.segment.try_outstanding(number));
    RETURNS(Forked, home.segment.try_close(words));
}

// One of its own, which a child may have.
void has_its_own(Home& home) {
    Home own = made(nullptr);
    RETURNS(OtherSegment, home.segment ? Status::Done : Status::OtherSegment);
    RETURNS(Forked, own.segment.try_join(home.recorder));
    is_as_it_was(own);
}

void refused_in(const char* name) {
    Home home = made(name);
    const auto child = [&home] {
        is_refused(home);
        has_its_own(home);
        Home moved(std::move(home));
        is_refused(moved);
        moved.recorder = Recorder();
        moved.segment = Segment();
        RETURNS(Empty, moved.recorder.try_set_corrupt());
        RETURNS(Empty, moved.recorder.try_limit_indexes(1));
    };
    HOLDS(status_of_child(child) == 0);
    is_as_it_was(home);
}

void refused_in_memory() { refused_in(nullptr); }

void refused_in_a_file() { refused_in("refused.seg"); }

// A grandchild is refused what is of its parent, and of that one's.
void refused_to_grandchildren() {
    Home home = made("grandchildren.seg");
    const auto child = [&home] {
        Home own = made(nullptr);
        const auto grandchild = [&] {
            is_refused(own);
            is_refused(home);
        };
        HOLDS(status_of_child(grandchild) == 0);
        is_as_it_was(own);
    };
    HOLDS(status_of_child(child) == 0);
    is_as_it_was(home);
}

// A child that only exits ends the statics and the thread_locals that it was forked with.
void child_that_exits() {
    static Home home = made("exits.seg");
    thread_local Recorder local;
    DONE(home.segment.try_recorder(local, 5));
    HOLDS(status_of_child([] { std::exit(0); }) == 0);
    local.reset();
    is_as_it_was(home);
    home = Home();
}

// The thread that forks is the only one of the child. It ends there, and so does its thread_local.
void thread_that_ends() {
    Home home = made("ends.seg");
    std::thread([&home] {
        thread_local Recorder local;
        DONE(home.segment.try_recorder(local, 5));
        HOLDS(status_of_child([] { pthread_exit(nullptr); }) == 0);
        HOLDS(status_of_child([&home] { std::thread([&home] { const Recorder ends(std::move(home.recorder)); }).join(); }) == 0);
    }).join();
    is_as_it_was(home);
}

// While threads take the mutex all the time, children are forked in which nobody gives it back.
void fork_while_locked() {
    constexpr int kThreads = 3, kForks = 100;
    Home home = made("locked.seg");
    std::atomic<bool> ends{false};
    std::array<std::thread, kThreads> running;
    for (std::thread& thread : running) {
        thread = std::thread([&] {
            std::uint32_t units = 0;
            while (!ends) {
                Recorder recorder;
                if (home.segment.try_recorder(recorder, 1) != Status::Done || home.segment.try_units(units) != Status::Done) return;
            }
        });
    }
    int well = 0;
    for (int i = 0; i < kForks; ++i) {
        const auto child = [&home] {
            const Recorder recorder(std::move(home.recorder));
            const Segment segment(std::move(home.segment));
        };
        well += status_of_child(child) == 0;
    }
    ends = true;
    for (std::thread& thread : running) thread.join();
    HOLDS(well == kForks);
    is_as_it_was(home);
}

// Children open files of their own, and that of the parent once the parent has closed it.
void server_that_forks() {
    Home home = made("server.seg");
    const auto worker = [](const char* name) {
        Home own = made(name);
        is_as_it_was(own);
    };
    for (const char* name : {"worker_1.seg", "worker_2.seg"}) HOLDS(status_of_child([&] { worker(name); }) == 0);
    const auto busy = [] {
        Opened opened;
        HOLDS(Segment::try_open(path_of("server.seg").c_str(), kShape, Policy::AdoptOrFail, opened) == std::errc::device_or_resource_busy);
    };
    HOLDS(status_of_child(busy) == 0);
    is_as_it_was(home);
    home = Home();
    const auto next = [] {
        Opened opened;
        HOLDS(!Segment::try_open(path_of("server.seg").c_str(), kShape, Policy::AdoptOrFail, opened));
        HOLDS(opened.outcome() == povundiri::Outcome::Adopted && bool(opened.segment));
    };
    HOLDS(status_of_child(next) == 0);
}

// A daemon opens its file after daemon(3).
void daemon_that_opens() {
    int ends[2];
    HOLDS(pipe(ends) == 0);
    const auto launcher = [&ends] {
        if (daemon(1, 1) != 0) _exit(1);
        Home home = made("daemon.seg");
        is_as_it_was(home);
        const char good = failed_here == 0 ? 'y' : 'n';
        if (write(ends[1], &good, 1) != 1) _exit(1);
    };
    HOLDS(status_of_child(launcher) == 0);
    close(ends[1]);
    char good = 0;
    HOLDS(read(ends[0], &good, 1) == 1 && good == 'y');
    close(ends[0]);
    povundiri::FileOptions kept;
    kept.flags = POVUNDIRI_FILE_KEEP_ON_FORK;
    Opened opened;
    HOLDS(Segment::try_open(path_of("kept.seg").c_str(), kShape, Policy::AdoptOrFail, opened, kept) == Status::BadOptions);
}

// What a process leaves in its file when it ends: it counted three units.
void leaves(const char* name) {
    Opened opened;
    HOLDS(!Segment::try_open(path_of(name).c_str(), kShape, Policy::AdoptOrFail, opened));
    std::uint32_t units = 0;
    DONE(opened.segment.try_units(units));
    HOLDS(opened.outcome() == povundiri::Outcome::Adopted && units == kAll - 3);
}

Hist count(Recorder& recorder) {
    Hist hist;
    DONE(recorder.try_boolean("b", hist));
    DONE(recorder.try_add(hist, 1, 3));
    return hist;
}

void fill(Segment& segment, const char* name) {
    Opened opened;
    HOLDS(!Segment::try_open(path_of(name).c_str(), kShape, Policy::AdoptOrFail, opened));
    segment = std::move(opened.segment);
}

[[noreturn]] void exit_here() {
    is_child = false;
    std::exit(failed_here != 0);
}

// Counts with a recorder of a segment in this file, and ends the process.
[[noreturn]] void end_with(Segment& segment, Recorder& recorder, const char* name) {
    fill(segment, name);
    DONE(segment.try_recorder(recorder));
    count(recorder);
    exit_here();
}

// Statics end in the reverse of the order in which they began, and thread_locals before them.
void statics_in_any_order() {
    const auto segment_first = [] {
        static Segment segment;
        static Recorder recorder;
        end_with(segment, recorder, "segment_first.seg");
    };
    const auto recorder_first = [] {
        static Recorder recorder;
        static Segment segment;
        end_with(segment, recorder, "recorder_first.seg");
    };
    const auto local_segment = [] {
        static Recorder recorder;
        thread_local Segment segment;
        end_with(segment, recorder, "local_segment.seg");
    };
    const auto local_recorder = [] {
        static Segment segment;
        thread_local Recorder recorder;
        end_with(segment, recorder, "local_recorder.seg");
    };
    HOLDS(status_of_child(segment_first) == 0);
    leaves("segment_first.seg");
    HOLDS(status_of_child(recorder_first) == 0);
    leaves("recorder_first.seg");
    HOLDS(status_of_child(local_segment) == 0);
    leaves("local_segment.seg");
    HOLDS(status_of_child(local_recorder) == 0);
    leaves("local_recorder.seg");
}

// A thread that still uses its recorder when main has ended, and the segment with it.
void thread_behind_main() {
    const auto process = [] {
        static Segment segment;
        static std::atomic<bool> counted{false};
        fill(segment, "behind_main.seg");
        std::thread([] {
            thread_local Recorder recorder;
            DONE(segment.try_recorder(recorder));
            const Hist hist = count(recorder);
            Counts counts;
            counted = true;
            while (true) DONE(recorder.try_snapshot(hist, counts));
        }).detach();
        while (!counted) std::this_thread::yield();
        exit_here();
    };
    HOLDS(status_of_child(process) == 0);
    leaves("behind_main.seg");
}

// The two ways to end a process that destroy no object: the file has what was counted, and all other units.
void quick_ends() {
    const auto process = [](bool is_quick) {
        static Segment segment;
        static Recorder recorder;
        fill(segment, is_quick ? "quick.seg" : "at_once.seg");
        DONE(segment.try_recorder(recorder));
        count(recorder);
        if (is_quick) std::quick_exit(failed_here != 0);
        _exit(failed_here != 0);
    };
    HOLDS(status_of_child([&] { process(true); }) == 0);
    leaves("quick.seg");
    HOLDS(status_of_child([&] { process(false); }) == 0);
    leaves("at_once.seg");
}

}  // namespace

int main(int count, char** words) {
    if (count != 2) return 2;
    folder = words[1];
    int failed = group("refused in a child, of a segment in memory", refused_in_memory);
    failed += group("refused in a child, of a segment in a file", refused_in_a_file);
    failed += group("refused to grandchildren", refused_to_grandchildren);
    failed += group("a child that only exits", child_that_exits);
    failed += group("a thread's end in a child", thread_that_ends);
    failed += group("a fork while the mutex is held", fork_while_locked);
    failed += group("a server that forks its workers", server_that_forks);
    failed += group("a daemon", daemon_that_opens);
    failed += group("statics and thread_locals in any order", statics_in_any_order);
    failed += group("a thread after the end of main", thread_behind_main);
    failed += group("quick_exit and _exit", quick_ends);
    return failed != 0;
}
