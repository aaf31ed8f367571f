// Threads that come and go record into a folder until they are killed, at a random moment, or for a while.
//
//     recording FOLDER TALLY SEED BYTES APART SHARDS SECONDS [MODE]
//
// TALLY is a file of cells that is shared with the process that kills the program: for each thread and metric, the units that it has begun
// to count, and those of calls that have ended (as in tally.hpp). SECONDS is how long it records; 0: until it is killed. What was missed is
// taken back from what was begun. MODE is '-', or some of:
//     r   a thread reads the report of the folder again and again: no units fall, and they are between what had ended and what was begun
//     f   a thread folds again and again
//     i   a thread has recorded one sample, and is idle
//     o   the last metric does not fit in a segment of 8,192 bytes
//     g   so many values of a sparse histogram that segments of less than 2 MiB are full, and grow
#include <fcntl.h>
#include <sys/mman.h>
#include <unistd.h>

#include <atomic>
#include <chrono>
#include <cstdio>
#include <cstdlib>
#include <cstring>
#include <map>
#include <random>
#include <sstream>
#include <string>
#include <system_error>
#include <thread>
#include <vector>

#include "povundiri_recording.hpp"

namespace {

constexpr std::size_t kThreads = 8, kMetrics = 5;
// How many milliseconds longer a run lasts at most until a reader has read once.
constexpr int kMostWaits = 120'000;

struct Cell {
    std::atomic<std::uint64_t> begun, ended;
};

using Tally = Cell[kThreads][kMetrics];

[[noreturn]] void stop(const std::string& what) {
    std::fprintf(stderr, "%s\n", what.c_str());
    std::fflush(stderr);
    std::_Exit(3);
}

struct Words {
    std::string folder, tally, mode;
    std::uint64_t seed, bytes, apart, shards, seconds;
};

Tally& tally_of(const std::string& path) {
    const int descriptor = open(path.c_str(), O_RDWR | O_CREAT, 0600);
    if (descriptor < 0 || ftruncate(descriptor, sizeof(Tally)) != 0) stop("tally");
    void* const at = mmap(nullptr, sizeof(Tally), PROT_READ | PROT_WRITE, MAP_SHARED, descriptor, 0);
    if (at == MAP_FAILED) stop("tally");
    return *static_cast<Tally*>(at);
}

std::atomic<bool> ends{false};

// How many reports were read.
std::atomic<unsigned long long> readings{0};

// One life of a thread: some thousand samples; those of the sparse histogram have `values` different values.
void live(const std::vector<povundiri::Metric>& metrics, Cell (&cells)[kMetrics], std::uint32_t seed, std::uint32_t values) {
    std::mt19937 chance(seed);
    const std::uint32_t samples = 200 + chance() % 4000;
    for (std::uint32_t i = 0; i < samples && !ends; ++i) {
        const std::size_t metric = chance() % metrics.size();
        const std::uint32_t count = chance() % 100 == 0 ? chance() % 3'000'000 + 1 : 1 + chance() % 3;
        const auto value = static_cast<std::int32_t>(metric == 3 ? chance() % values : chance() % 100'000);
        cells[metric].begun += count;
        if (metrics[metric].add(value, count)) {
            cells[metric].ended += count;
        } else {
            cells[metric].begun -= count;
        }
    }
}

std::map<std::string, std::uint64_t> units_in(const std::string& report) {
    std::map<std::string, std::uint64_t> units;
    std::istringstream lines(report);
    for (std::string line; std::getline(lines, line);) {
        std::istringstream fields(line);
        std::string name, kind, count;
        std::getline(std::getline(std::getline(fields, name, ','), kind, ','), count, ',');
        if (name == "!bad" || name == "!stopped" || name == "!other") stop(line);
        if (kind == "total") units[name] = std::stoull(count);
    }
    return units;
}

const char* const kNames[] = {"scale", "boolean", "linear", "sparse", "custom"};

using Sums = std::vector<std::uint64_t>;

Sums sums_of(const Tally& tally, std::atomic<std::uint64_t> Cell::*which) {
    Sums sums(kMetrics);
    for (const auto& cells : tally) {
        for (std::size_t i = 0; i < kMetrics; ++i) sums[i] += (cells[i].*which).load();
    }
    return sums;
}

// The report of the folder, or nothing if too many folds have ended meanwhile.
std::string report_of(povundiri::Recording& recording) {
    try {
        return recording.report();
    } catch (const std::system_error& fault) {
        if (fault.code() != povundiri::Status::Busy) stop(std::string("report: ") + fault.what());
        return "";
    }
}

void read(povundiri::Recording& recording, const Tally& tally) {
    Sums last(kMetrics);
    while (!ends) {
        const Sums ended = sums_of(tally, &Cell::ended);
        const std::string report = report_of(recording);
        if (report.empty()) continue;
        const auto units = units_in(report);
        const Sums begun = sums_of(tally, &Cell::begun);
        for (std::size_t i = 0; i < kMetrics; ++i) {
            const auto found = units.find(kNames[i]);
            const std::uint64_t now = found == units.end() ? 0 : found->second;
            if (now < last[i]) stop(std::string("fell: ") + kNames[i]);
            if (now < ended[i]) stop(std::string("missing: ") + kNames[i]);
            if (now > begun[i]) stop(std::string("too many: ") + kNames[i]);
            last[i] = now;
        }
        readings += 1;
    }
}

void fold(povundiri::Recording& recording) {
    while (!ends) {
        std::uint64_t folded = 0;
        const std::error_code fault = recording.try_fold(folded);
        if (fault && fault != povundiri::Status::Busy) stop("fold: " + fault.message());
        std::this_thread::sleep_for(std::chrono::milliseconds(2));
    }
}

// A sample, and then nothing: the thread holds the segment that it was counted in.
void idle(const povundiri::Metric& metric, Cell& cell) {
    cell.begun += 1;
    if (metric.add(1)) {
        cell.ended += 1;
    } else {
        cell.begun -= 1;
    }
    while (!ends) std::this_thread::sleep_for(std::chrono::milliseconds(1));
}

std::uint64_t number(const char* word) { return std::strtoull(word, nullptr, 10); }

void run(const Words& words) {
    Tally& tally = tally_of(words.tally);
    povundiri::RecordingOptions options;
    options.bytes = words.bytes;
    options.apart = words.apart;
    options.shards = words.shards;
    povundiri::Recording recording;
    const std::error_code fault = povundiri::Recording::try_open(words.folder.c_str(), recording, options);
    if (fault) stop("open: " + fault.message());
    std::vector<povundiri::Metric> metrics = {recording.scale("scale", 1, 100'000, 2), recording.boolean("boolean"),
                                              recording.linear("linear", 1, 1000, 10), recording.sparse("sparse")};
    metrics.push_back(words.mode.find('o') != std::string::npos ? recording.linear("custom", 1, 100'000, 500)
                                                                : recording.custom("custom", {10, 100}));
    const std::uint32_t values = words.mode.find('g') != std::string::npos ? 20'000 : 64;
    std::puts("begins");
    std::fflush(stdout);
    std::vector<std::thread> threads;
    for (std::size_t i = 0; i < kThreads; ++i) {
        threads.emplace_back([&, i] {
            for (std::uint32_t lives = 0; !ends; ++lives) {
                const auto seed = static_cast<std::uint32_t>(words.seed + 1000 * i + lives);
                std::thread(live, std::cref(metrics), std::ref(tally[i]), seed, values).join();
            }
        });
    }
    if (words.mode.find('r') != std::string::npos) threads.emplace_back([&] { read(recording, tally); });
    if (words.mode.find('f') != std::string::npos) threads.emplace_back([&] { fold(recording); });
    if (words.mode.find('i') != std::string::npos) threads.emplace_back([&] { idle(metrics[1], tally[0][1]); });
    if (words.seconds == 0) {
        while (true) pause();
    }
    std::this_thread::sleep_for(std::chrono::milliseconds(1000 * words.seconds));
    const bool reads = words.mode.find('r') != std::string::npos;
    for (int more = 0; reads && readings == 0 && more < kMostWaits; ++more) std::this_thread::sleep_for(std::chrono::milliseconds(1));
    ends = true;
    for (std::thread& thread : threads) thread.join();
    std::printf("segment %llu, read %llu, missed", static_cast<unsigned long long>(recording.began().number), readings.load());
    for (std::uint32_t reason = 0; povundiri_missed_text(reason) != nullptr; ++reason) {
        std::printf(" %llu", static_cast<unsigned long long>(recording.missed(static_cast<povundiri::Missed>(reason))));
    }
    std::puts("");
}

}  // namespace

int main(int count, char** words) {
    if (count < 8) stop("recording FOLDER TALLY SEED BYTES APART SHARDS SECONDS [MODE]");
    run({words[1], words[2], count > 8 ? words[8] : "-", number(words[3]), number(words[4]), number(words[5]), number(words[6]),
         number(words[7])});
}
