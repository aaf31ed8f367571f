// What the tests of recordings in one process and its children share.
#pragma once

#include <sys/stat.h>
#include <sys/wait.h>
#include <unistd.h>

#include <condition_variable>
#include <functional>
#include <mutex>
#include <string>
#include <vector>

#include "checks.hpp"
#include "povundiri_recording.hpp"

using povundiri::Metric;
using povundiri::Missed;
using povundiri::Recording;
using povundiri::RecordingOptions;
using povundiri::Status;

// Where each group has folders of its own.
inline std::string home;

inline std::string folder(const char* name) { return home + "/" + name; }

// One present segment, so that it is plain which follows which. What is usual is in recorded_shards.cpp.
inline RecordingOptions one_shard() {
    RecordingOptions options;
    options.shards = 1;
    return options;
}

// Options for segments that are so small that a few histograms fill one, and that may follow one another at once.
inline RecordingOptions small() {
    RecordingOptions options = one_shard();
    options.bytes = 16'384;
    options.apart = 1;
    return options;
}

// How many segments are in a folder; and below, the bytes of a file, -1 if it is not there.
inline std::uint64_t segments_in(const std::string& path) {
    std::uint64_t segments = 0;
    HOLDS(povundiri_folder_count(path.c_str(), &segments) == 0);
    return segments;
}

inline long bytes_of(const std::string& path) {
    struct stat about;
    return lstat(path.c_str(), &about) == 0 ? static_cast<long>(about.st_size) : -1;
}

inline bool opens(const std::string& path, Recording& recording, const RecordingOptions& options = one_shard()) {
    return !Recording::try_open(path.c_str(), recording, options);
}

// The units of a histogram in a report; -1 if it has none.
inline long long units_in(const std::string& report, const std::string& name) {
    const std::string begins = "\n" + name + ",total,", text = "\n" + report;
    const std::size_t at = text.find(begins);
    return at == std::string::npos ? -1 : std::stoll(text.substr(at + begins.size()));
}

// The same of a folder, for readers beside folds; -2 if too many of these have ended meanwhile.
inline long long units_beside(const std::string& path, const std::string& name) {
    povundiri_handle sums = {};
    int fault = 0;
    std::size_t needed = 0;
    const std::uint32_t status = povundiri_folder_sums(path.c_str(), &sums, nullptr, &fault);
    if (status == POVUNDIRI_BUSY) return -2;
    ANSWERS(DONE, status);
    ANSWERS(SHORT, povundiri_sums_report(&sums, nullptr, 0, &needed));
    std::string report(needed, ' ');
    ANSWERS(DONE, povundiri_sums_report(&sums, report.data(), needed, nullptr));
    povundiri_sums_drop(&sums);
    return units_in(report, name);
}

inline Metric metric_of(Recording& recording, const char* name, povundiri_spec spec = {POVUNDIRI_BOOLEAN, 0, 0, 0}) {
    Metric metric;
    DONE(recording.try_hist(name, spec, {}, metric));
    return metric;
}

// A gate that threads wait at, until all have come and it is opened.
class Gate {
   public:
    void wait() {
        std::unique_lock<std::mutex> turn(mutex_);
        ++waiting_;
        changed_.notify_all();
        changed_.wait(turn, [this] { return is_open_; });
    }
    void wait_for(int threads) {
        std::unique_lock<std::mutex> turn(mutex_);
        changed_.wait(turn, [this, threads] { return waiting_ == threads; });
    }
    void open_for(int threads) {
        wait_for(threads);
        const std::unique_lock<std::mutex> turn(mutex_);
        is_open_ = true;
        changed_.notify_all();
    }

   private:
    std::mutex mutex_;
    std::condition_variable changed_;
    int waiting_ = 0;
    bool is_open_ = false;
};

// Whether a child says so, by its status.
inline bool in_child(const std::function<bool()>& says) {
    const pid_t child = fork();
    if (child == 0) _exit(says() ? 0 : 1);
    int status = 0;
    return child > 0 && waitpid(child, &status, 0) == child && WIFEXITED(status) && WEXITSTATUS(status) == 0;
}

// How many of so many children, which begin at once, say so, by their status.
inline int children_at_once(int children, const std::function<bool()>& says) {
    int gate[2], said = 0;
    std::vector<pid_t> started;
    HOLDS(pipe(gate) == 0);
    for (int i = 0; i < children; ++i) {
        started.push_back(fork());
        if (started.back() != 0) continue;
        char byte;
        close(gate[1]);
        _exit(read(gate[0], &byte, 1) == 0 && says() ? 0 : 1);
    }
    HOLDS(close(gate[0]) == 0 && close(gate[1]) == 0);
    for (const pid_t child : started) {
        int status = 1;
        HOLDS(waitpid(child, &status, 0) == child);
        said += status == 0;
    }
    return said;
}

// ---- The program ----

// A group of checks that takes root, for what `why` says only root can do; without root it is left out.
inline int group_of_root(const char* name, void (*checks)(), const char* why) {
    return geteuid() == 0 ? group(name, checks) : left_out(name, why);
}

// Runs the groups in the folder that the program was given.
inline int in_folder(int count, char** words, int (*run)()) {
    if (count != 2) return 2;
    home = words[1];
    return run() != 0;
}

// The same of a program that runs the groups with threads alone where it was given a second word.
inline int in_folder(int count, char** words, int (*run)(bool only_threads)) {
    if (count != 2 && count != 3) return 2;
    home = words[1];
    return run(count == 3) != 0;
}
