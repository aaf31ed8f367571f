// A parent whose children may be killed at any moment. It starts four, each this program again, with two threads that record how long
// requests take, into memory that the parent made. It kills them at random with -9 and starts others, and looks at all ten times a second:
// what came since the look before is added to the parent's own recording, each sample once. At the end it prints, for each name, how many
// samples the children had confirmed, how many the parent has, and how many they had called for; a tally that all share has the numbers of
// the children. It fails if these do not rise in this order, or if a look has less than the one before.
//
//     make -C examples children
#include <fcntl.h>
#include <povundiri_recording.hpp>
#include <povundiri_shared.hpp>
#include <signal.h>
#include <sys/mman.h>
#include <sys/prctl.h>
#include <sys/wait.h>
#include <unistd.h>

#include <atomic>
#include <chrono>
#include <cstdio>
#include <cstdlib>
#include <random>
#include <string>
#include <thread>
#include <vector>

namespace {

using Clock = std::chrono::steady_clock;
using Number = unsigned long long;

constexpr std::array<const char*, 2> kNames{"read_us", "write_us"};
constexpr int kChildren = 4, kLooks = 50;
// How much memory a child has, how many keys its histograms may have, and how many units a look may bring: a child may claim anything.
constexpr std::uint64_t kBytes = 65'536, kMostKeys = 100'000, kMostUnits = 1'000'000;

// What the children have called for, and what was confirmed, of each name.
struct Tally {
    std::array<std::atomic<Number>, 2> called, confirmed;
};

Tally& mapped(int descriptor) {
    void* const at = mmap(nullptr, sizeof(Tally), PROT_READ | PROT_WRITE, MAP_SHARED, descriptor, 0);
    return at == MAP_FAILED ? throw std::system_error(errno, std::generic_category(), "tally") : *static_cast<Tally*>(at);
}

// ---- A child ----

// Answers requests, each of which takes up to half a millisecond, until it is killed.
void serve(povundiri::SharedSegment& segment, Tally& tally, std::size_t name) try {
    povundiri::SharedRecorder recorder = segment.recorder();
    const povundiri::SharedHist hist = recorder.scale(kNames[name], 1, 10'000'000, 5);
    std::mt19937 chance(std::random_device{}());
    while (true) {
        const auto start = Clock::now();
        std::this_thread::sleep_for(std::chrono::microseconds(chance() % 500));
        const auto taken = std::chrono::duration_cast<std::chrono::microseconds>(Clock::now() - start);
        ++tally.called[name];
        if (recorder.add(hist, taken.count())) ++tally.confirmed[name];
    }
} catch (const std::exception& fault) {
    std::fprintf(stderr, "child: %s\n", fault.what());
}

int be_child(int memory, int tally) {
    prctl(PR_SET_PDEATHSIG, SIGKILL);  // it ends with its parent
    povundiri::SharedSegment segment({memory});
    Tally& numbers = mapped(tally);  // what comes after this may be in a sandbox
    std::thread second([&] { serve(segment, numbers, 1); });
    serve(segment, numbers, 0);
    std::_Exit(1);
}

// ---- The parent ----

// A child, its memory, and what the parent has of that.
struct Child {
    povundiri::SharedMemory memory{povundiri::shape_for(kBytes)};
    povundiri::Follower follower{kMostKeys};
    pid_t process = -1;
};

void start(Child& child, int tally) {
    const std::string memory = std::to_string(child.memory.descriptor()), numbers = std::to_string(tally);
    child.process = fork();
    if (child.process != 0) return;
    for (const int descriptor : {child.memory.descriptor(), tally}) fcntl(descriptor, F_SETFD, 0);  // exec closes those of the others
    execl("/proc/self/exe", "children", memory.c_str(), numbers.c_str(), nullptr);
    _exit(127);
}

// Adds what came since the last look.
void follow(povundiri::Recording& recording, Child& child) {
    recording.follow(child.follower, child.memory.look(), kMostUnits);
}

// Kills a child. The last look, by the same follower, has all that it counted.
void end(povundiri::Recording& recording, Child& child) {
    kill(child.process, SIGKILL);
    waitpid(child.process, nullptr, 0);
    follow(recording, child);
}

// How many samples a report has of a name.
Number units(const std::string& report, const std::string& name) {
    const std::string total = "\n" + name + ",total,", text = "\n" + report;
    const std::size_t at = text.find(total);
    return at == std::string::npos ? 0 : std::stoull(text.substr(at + total.size()));
}

int be_parent(const char* folder) {
    const int memory = memfd_create("tally", MFD_CLOEXEC);
    if (memory < 0 || ftruncate(memory, sizeof(Tally)) != 0) throw std::system_error(errno, std::generic_category(), "tally");
    const Tally& tally = mapped(memory);
    povundiri::Recording recording(folder);
    std::vector<Child> children(kChildren);
    std::mt19937 chance(std::random_device{}());
    for (Child& child : children) start(child, memory);
    for (int look = 0; look < kLooks; ++look) {
        std::this_thread::sleep_for(std::chrono::microseconds(90'000 + chance() % 20'000));
        for (Child& child : children) follow(recording, child);
        Child& one = children[chance() % kChildren];
        end(recording, one);
        if (chance() % 2 == 0) one = Child();  // fresh memory, and a new follower; else the next child goes on in the same memory
        start(one, memory);
    }
    for (Child& child : children) end(recording, child);
    bool right = true;
    for (std::size_t name = 0; name < kNames.size(); ++name) {
        const Number confirmed = tally.confirmed[name], has = units(recording.report(), kNames[name]), called = tally.called[name];
        std::printf("%s: %llu confirmed <= %llu in the parent <= %llu called\n", kNames[name], confirmed, has, called);
        right = right && confirmed > 0 && confirmed <= has && has <= called;
    }
    return right ? 0 : (std::puts("WRONG: samples are lost or made up"), 1);
}

}  // namespace

int main(int count, char** words) try {
    return count == 3 ? be_child(std::atoi(words[1]), std::atoi(words[2])) : be_parent(count == 2 ? words[1] : "children");
} catch (const std::exception& fault) {
    return std::fprintf(stderr, "%s\n", fault.what()), 1;
}
