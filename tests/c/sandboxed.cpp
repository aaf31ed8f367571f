// Children that record into shared memory under a filter of system calls, which allows write, futex and exit_group, and ends the process at
// any other: two threads, each of which adds 100,000 samples to histograms with buckets. The parent finds them all.
//
// A child is this program again, with a way and the numbers of its descriptors. Write is for what the child reports at its end, exit_group for
// the end itself, and futex for a thread that waits for the other one: to borrow units from the segment in C++, or at its end, since threads do
// not return.

#include <fcntl.h>
#include <linux/audit.h>
#include <linux/filter.h>
#include <linux/seccomp.h>
#include <sys/prctl.h>
#include <sys/syscall.h>
#include <sys/wait.h>
#include <unistd.h>

#include <atomic>
#include <cerrno>
#include <cstddef>
#include <cstdlib>
#include <cstring>
#include <functional>
#include <mutex>
#include <sstream>
#include <string>
#include <thread>
#include <vector>

#include "checks.hpp"
#include "povundiri_shared.hpp"

namespace {

using povundiri::Shape;
using povundiri::SharedHist;
using povundiri::SharedMemory;
using povundiri::SharedRecorder;
using povundiri::SharedSegment;
using povundiri::Status;

constexpr int kThreads = 2, kSamples = 100'000;
constexpr Shape kShape = povundiri::shape(16'384, 4096);
constexpr std::uint32_t kCustom[] = {10, 100, 1000};
constexpr unsigned kMostSeconds = 100;
// A lease for which a thread borrows often, and units at once with which all samples spend more than two segments have.
constexpr std::uint32_t kFew = 64, kMany = 42'950;

// ---- The child ----

std::atomic<int> done{0};
std::mutex stays;

[[noreturn]] void stop(const char* what) {
    const char line = '\n';
    const bool said = write(STDERR_FILENO, what, std::strlen(what)) > 0 && write(STDERR_FILENO, &line, 1) == 1;
    _exit(said ? 3 : 4);
}

// From now on this thread may make no other call to the system.
void filter() {
    sock_filter rules[] = {
        BPF_STMT(BPF_LD | BPF_W | BPF_ABS, offsetof(seccomp_data, arch)),
        BPF_JUMP(BPF_JMP | BPF_JEQ | BPF_K, AUDIT_ARCH_X86_64, 1, 0),
        BPF_STMT(BPF_RET | BPF_K, SECCOMP_RET_KILL_PROCESS),
        BPF_STMT(BPF_LD | BPF_W | BPF_ABS, offsetof(seccomp_data, nr)),
        BPF_JUMP(BPF_JMP | BPF_JEQ | BPF_K, __NR_write, 3, 0),
        BPF_JUMP(BPF_JMP | BPF_JEQ | BPF_K, __NR_futex, 2, 0),
        BPF_JUMP(BPF_JMP | BPF_JEQ | BPF_K, __NR_exit_group, 1, 0),
        BPF_STMT(BPF_RET | BPF_K, SECCOMP_RET_KILL_PROCESS),
        BPF_STMT(BPF_RET | BPF_K, SECCOMP_RET_ALLOW),
    };
    sock_fprog program{sizeof rules / sizeof rules[0], rules};
    if (prctl(PR_SET_NO_NEW_PRIVS, 1, 0, 0, 0) != 0 || prctl(PR_SET_SECCOMP, SECCOMP_MODE_FILTER, &program) != 0) stop("no filter");
}

// The last thread ends the process; the others wait for that.
[[noreturn]] void end() {
    if (++done == kThreads) _exit(write(STDOUT_FILENO, "done", 4) == 4 ? 0 : 5);
    stays.lock();
    stop("it was let go");
}

// What a thread adds in a round: to the linear histogram the value, and to the others what follows from it.
template <typename Add>
void add_all(int turn, const Add& add) {
    if (!add(0, turn % 1000) || !add(1, turn % 2) || !add(2, turn % 1000) || !add(3, turn % 100)) stop("not counted");
}

// In C++, in one of the ways.
void record(SharedSegment& segment, const std::string& way) {
    const std::uint32_t count = way == "several" ? kMany : 1;
    const bool late = way == "late";
    SharedRecorder recorder = segment.recorder(way == "borrows" ? kFew : povundiri::kUsualLease);
    const SharedHist hists[] = {recorder.linear("linear", 1, 1000, 10), recorder.boolean("boolean"), recorder.custom("custom", kCustom),
                                recorder.enumeration("enumeration", 100)};
    const auto add = [&](int hist, int value) { return recorder.add(hists[hist], value, count); };
    if (late) filter();
    for (int turn = 0; turn < kSamples / 4; ++turn) {
        add_all(turn, add);
        if (turn == 0 && !late) filter();
    }
    if (way == "calls") syscall(__NR_getppid);
    if (way == "allocates") {
        void* volatile block = std::malloc(std::size_t{1} << 26U);
        std::free(block);
    }
    end();
}

// In C, where nothing is shared but the words.
void record_plain(povundiri_handle recorder) {
    std::size_t hists[4];
    const bool made = povundiri_hist_linear(&recorder, "linear", 1, 1000, 10, &hists[0]) == POVUNDIRI_DONE &&
                      povundiri_hist_boolean(&recorder, "boolean", &hists[1]) == POVUNDIRI_DONE &&
                      povundiri_hist_custom(&recorder, "custom", kCustom, 3, &hists[2]) == POVUNDIRI_DONE &&
                      povundiri_hist_linear(&recorder, "enumeration", 1, 100, 101, &hists[3]) == POVUNDIRI_DONE;
    if (!made) stop("no histograms");
    const auto add = [&](int hist, int value) { return povundiri_add(&recorder, hists[hist], value, 1) == POVUNDIRI_DONE; };
    for (int turn = 0; turn < kSamples / 4; ++turn) {
        add_all(turn, add);
        if (turn == 0) filter();
    }
    end();
}

template <typename Work>
[[noreturn]] void run_threads(const Work& work) {
    stays.lock();
    std::vector<std::thread> threads;
    for (int number = 0; number < kThreads; ++number) threads.emplace_back(work);
    for (std::thread& thread : threads) thread.join();
    stop("a thread returned");
}

[[noreturn]] void plain_child(int descriptor) {
    povundiri_shared shared{};
    povundiri_handle segment{};
    povundiri_handle recorders[kThreads]{};
    if (povundiri_shared_open(descriptor, 0, &shared, &segment) != POVUNDIRI_DONE) stop("not opened");
    for (povundiri_handle& recorder : recorders) {
        if (povundiri_recorder(&segment, kSamples, &recorder) != POVUNDIRI_DONE) stop("no recorder");
    }
    std::atomic<int> next{0};
    run_threads([&] { record_plain(recorders[next++]); });
}

[[noreturn]] void child(const std::string& way, const std::vector<int>& descriptors) {
    alarm(kMostSeconds);
    if (way == "plain") plain_child(descriptors.at(0));
    SharedSegment segment(descriptors);
    for (const int descriptor : descriptors) close(descriptor);
    run_threads([&] { record(segment, way); });
}

// ---- The parent ----

// Starts a child, and waits for its end: its status, or 1000 and its signal.
int run(const std::string& way, const std::vector<SharedMemory>& memories) {
    std::vector<std::string> words{"sandboxed", way};
    for (const SharedMemory& memory : memories) words.push_back(std::to_string(memory.descriptor()));
    std::vector<char*> pointers;
    for (std::string& word : words) pointers.push_back(word.data());
    pointers.push_back(nullptr);
    const pid_t started = fork();
    if (started == 0) {
        for (const SharedMemory& memory : memories) fcntl(memory.descriptor(), F_SETFD, 0);
        const int nowhere = open("/dev/null", O_WRONLY);
        dup2(nowhere, STDOUT_FILENO);
        execv("/proc/self/exe", pointers.data());
        _exit(91);
    }
    int status = 0;
    HOLDS(waitpid(started, &status, 0) == started);
    return WIFEXITED(status) ? WEXITSTATUS(status) : 1000 + WTERMSIG(status);
}

// Of a histogram: from which value on each bucket counts, and the last one's end.
struct Expected {
    const char* name;
    const char* kind;
    std::vector<int> ends;
    int values;  // 0 to this, each as often
};

// The report of what two threads add.
std::string expected(std::uint64_t count) {
    std::vector<int> each;
    for (int value = 0; value <= 100; ++value) each.push_back(value);
    const Expected all[] = {{"boolean", "boolean", {0, 1, 2}, 2},
                            {"custom", "custom", {0, 10, 100, 1000}, 1000},
                            {"enumeration", "linear", each, 100},
                            {"linear", "linear", {0, 1, 126, 251, 376, 501, 625, 750, 875, 1000}, 1000}};
    std::ostringstream text;
    for (const Expected& one : all) {
        const std::uint64_t often = count * kThreads * kSamples / 4 / static_cast<std::uint64_t>(one.values);
        const std::string begins = std::string(one.name) + "," + one.kind + ",";
        for (std::size_t at = 0; at + 1 < one.ends.size(); ++at) {
            const auto width = static_cast<std::uint64_t>(one.ends[at + 1] - one.ends[at]);
            text << begins << one.ends[at] << "," << one.ends[at + 1] << "," << width * often << "\n";
        }
        const auto values = static_cast<std::uint64_t>(one.values);
        text << one.name << ",total," << values * often << "," << values * (values - 1) / 2 * often << "\n";
    }
    return text.str();
}

std::string report_of(const SharedMemory& memory) { return povundiri::report(memory.look(), 1000); }

void counts_in(const std::string& way) {
    std::vector<SharedMemory> memories(1);
    HOLDS(!SharedMemory::try_create(kShape, memories[0]) && run(way, memories) == 0 && report_of(memories[0]) == expected(1));
}

void in_c() { counts_in("plain"); }
void in_cpp() { counts_in("usual"); }
void that_borrow() { counts_in("borrows"); }
void from_the_first_sample() { counts_in("late"); }

// The sum of reports, by lines: of each histogram the units of its buckets, the total and the sum.
std::string added(const std::vector<SharedMemory>& memories) {
    std::vector<std::pair<std::string, std::vector<std::uint64_t>>> sums;
    for (const SharedMemory& memory : memories) {
        std::istringstream report(report_of(memory));
        for (std::string line; std::getline(report, line);) {
            const bool is_total = line.find(",total,") != std::string::npos;
            std::size_t at = line.rfind(',');
            if (is_total) at = line.rfind(',', at - 1);
            std::vector<std::uint64_t> numbers;
            std::istringstream fields(line.substr(at + 1));
            for (std::string field; std::getline(fields, field, ',');) numbers.push_back(std::stoull(field));
            std::size_t place = 0;
            while (place < sums.size() && sums[place].first != line.substr(0, at)) ++place;
            if (place == sums.size()) sums.emplace_back(line.substr(0, at), std::vector<std::uint64_t>(numbers.size()));
            for (std::size_t i = 0; i < numbers.size(); ++i) sums[place].second[i] += numbers[i];
        }
    }
    std::ostringstream text;
    for (const auto& [name, numbers] : sums) {
        text << name;
        for (const std::uint64_t number : numbers) text << "," << number;
        text << "\n";
    }
    return text.str();
}

// More units than one segment has: the child goes on in the second one.
void that_go_on() {
    std::vector<SharedMemory> memories(3);
    for (SharedMemory& memory : memories) HOLDS(!SharedMemory::try_create(kShape, memory));
    HOLDS(run("several", memories) == 0 && added(memories) == expected(kMany));
    HOLDS(report_of(memories[0]).find("linear,total,") != std::string::npos);
    HOLDS(report_of(memories[1]).find("linear,total,0,") == std::string::npos);
}

// The filter ends a child that makes another call, or that needs memory.
void what_is_refused() {
    std::vector<SharedMemory> memories(1);
    HOLDS(!SharedMemory::try_create(kShape, memories[0]));
    HOLDS(run("calls", memories) == 1000 + SIGSYS);
    HOLDS(run("allocates", memories) == 1000 + SIGSYS);
}

}  // namespace

int main(int count, char** words) {
    if (count > 2) {
        std::vector<int> descriptors;
        for (int at = 2; at < count; ++at) descriptors.push_back(std::atoi(words[at]));
        child(words[1], descriptors);
    }
    int failed = group("children in C", in_c);
    failed += group("children in C++", in_cpp);
    failed += group("children that borrow", that_borrow);
    failed += group("children, from the first sample on", from_the_first_sample);
    failed += group("children that go on in another memory", that_go_on);
    failed += group("what the filter refuses", what_is_refused);
    return failed != 0;
}
