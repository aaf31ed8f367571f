// Children of one thread each, which record into memory that this program made, and are followed into a recording of its own, ten times a
// second.
//
//     follow cost CHILDREN               how much of a processor the following takes, in thousandths of a percent
//     follow sample CHILDREN [beside]    picoseconds for each sample of one of the children, alone, or while it and the others are followed
//
// Each child has 64 KiB, three histograms of a scale with 5 bits, and counts a thousand samples a second in each of them, twenty at a time:
// each time that it wakes up takes time of the processor that it wakes up on. The one whose samples are measured counts forty million without
// a pause instead, in one histogram.

#include <poll.h>
#include <signal.h>
#include <sys/prctl.h>
#include <sys/wait.h>
#include <unistd.h>

#include <chrono>
#include <cstdio>
#include <cstdlib>
#include <ctime>
#include <random>
#include <string>
#include <string_view>
#include <thread>
#include <vector>

#include <povundiri_recording.hpp>
#include <povundiri_shared.hpp>

#include "scratch_folder.h"

namespace {

using Clock = std::chrono::steady_clock;

constexpr const char* kNames[] = {"request_us", "queue_us", "write_us"};
constexpr std::uint64_t kBytes = 64 << 10, kMostKeys = 100'000, kMostUnits = 1'000'000'000;
constexpr std::size_t kSamples = 40'000'000, kValues = 4096;
constexpr int kLooks = 30;
constexpr auto kBetween = std::chrono::milliseconds(100), kPause = std::chrono::milliseconds(20);
constexpr std::size_t kAtOnce = 20;

// ---- A child ----

povundiri::SharedHist histogram(povundiri::SharedRecorder& recorder, const char* name) { return recorder.scale(name, 1, 1'000'000, 5); }

std::vector<std::int32_t> values() {
    std::mt19937 chance(1);
    std::vector<std::int32_t> values;
    for (std::size_t i = 0; i < kValues; ++i) values.push_back(static_cast<std::int32_t>(chance() % 1'000'000));
    return values;
}

[[noreturn]] void record(povundiri::SharedRecorder& recorder) {
    std::vector<povundiri::SharedHist> hists;
    for (const char* name : kNames) hists.push_back(histogram(recorder, name));
    const std::vector<std::int32_t> kinds = values();
    for (std::size_t i = 0;; ++i) {
        for (const povundiri::SharedHist& hist : hists) if (!recorder.add(hist, kinds[i % kValues])) std::_Exit(1);
        if (i % kAtOnce == 0) std::this_thread::sleep_for(kPause);
    }
}

// Writes how many picoseconds a sample takes.
void measure(povundiri::SharedRecorder& recorder, int to) {
    const povundiri::SharedHist hist = histogram(recorder, kNames[0]);
    const std::vector<std::int32_t> kinds = values();
    for (const std::int32_t value : kinds) if (!recorder.add(hist, value)) std::_Exit(1);
    const auto start = Clock::now();
    for (std::size_t i = 0; i < kSamples; ++i) if (!recorder.add(hist, kinds[i % kValues])) std::_Exit(1);
    const std::chrono::duration<double, std::pico> took = Clock::now() - start;
    const double each = took.count() / static_cast<double>(kSamples);
    if (write(to, &each, sizeof each) != sizeof each) std::_Exit(1);
}

// ---- The parent ----

struct Child {
    povundiri::SharedMemory memory{povundiri::shape_for(kBytes)};
    povundiri::Follower follower{kMostKeys};
    pid_t process = -1;
};

// Starts a child that records, or one that is measured and writes what that says to a descriptor.
void start(Child& child, int to = -1) {
    child.process = fork();
    if (child.process != 0) return;
    prctl(PR_SET_PDEATHSIG, SIGKILL);
    povundiri::SharedSegment segment({child.memory.descriptor()});
    povundiri::SharedRecorder recorder = segment.recorder();
    if (to < 0) record(recorder);
    measure(recorder, to);
    std::_Exit(0);
}

void kill_all(const std::vector<Child>& children) {
    for (const Child& child : children) kill(child.process, SIGKILL);
    for (const Child& child : children) waitpid(child.process, nullptr, 0);
}

void follow(povundiri::Recording& recording, std::vector<Child>& children) {
    for (Child& child : children) recording.follow(child.follower, child.memory.look(), kMostUnits);
}

double processor_seconds() {
    timespec time{};
    clock_gettime(CLOCK_PROCESS_CPUTIME_ID, &time);
    return static_cast<double>(time.tv_sec) + 1e-9 * static_cast<double>(time.tv_nsec);
}

// The share of a processor, in percent. What comes at the first look, as histograms are made, is not in it.
double cost(std::size_t number) {
    const plain::Folder folder;
    std::vector<Child> children(number);
    for (Child& child : children) start(child);
    povundiri::Recording recording(folder.path());
    std::this_thread::sleep_for(kBetween);
    follow(recording, children);
    const auto begin = Clock::now();
    const double before = processor_seconds();
    for (int look = 1; look <= kLooks; ++look) {
        std::this_thread::sleep_until(begin + look * kBetween);
        follow(recording, children);
    }
    const std::chrono::duration<double> took = Clock::now() - begin;
    const double share = 100 * (processor_seconds() - before) / took.count();
    kill_all(children);
    return share;
}

// Nanoseconds for each sample of the last child.
double sample(std::size_t number, bool is_followed) {
    const plain::Folder folder;
    std::vector<Child> children(number);
    int ends[2];
    if (pipe(ends) != 0) std::abort();
    for (std::size_t i = 0; i + 1 < number; ++i) start(children[i]);
    start(children.back(), ends[1]);
    povundiri::Recording recording(folder.path());
    pollfd ready{ends[0], POLLIN, 0};
    while (poll(&ready, 1, static_cast<int>(kBetween.count())) == 0) if (is_followed) follow(recording, children);
    double each = 0;
    if (read(ends[0], &each, sizeof each) != sizeof each) std::abort();
    kill_all(children);
    return each / 1000;
}

}  // namespace

int main(int count, char** words) try {
    if (count < 3) {
        std::fputs("usage: follow cost CHILDREN | follow sample CHILDREN [beside]\n", stderr);
        return 2;
    }
    const auto number = static_cast<std::size_t>(std::atoi(words[2]));
    const double found = words[1] == std::string_view("cost") ? cost(number) : sample(number, count > 3);
    std::printf("%.0f\n", 1000 * found);
} catch (const std::exception& fault) {
    std::fprintf(stderr, "%s\n", fault.what());
    return 1;
}
