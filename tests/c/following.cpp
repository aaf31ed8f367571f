// Keeps shared memory for several children, and follows them into a recording:
//
//     following FOLDER BYTES CHILDREN
//
// BYTES is how large a segment of the recording is at first. It does what the lines of its standard input say, and answers each with a
// line, 'done' and what is to be said, or what failed:
//
//     fresh CHILD SIZE PAGE      gives a child new memory with a segment of this shape, and a new follower
//     run CHILD PROGRAM WORD..   starts the child, which has the number of its descriptor in place of the word @, and no output
//     follow CHILD               looks at its memory, and adds what came since the look before: how many units, and 1 if some are left
//     words CHILD FILE           writes the words in its memory as they are to FILE
//     kill CHILD                 kills the child and waits for its end, which has to be by that
//     report FILE                folds, and writes the recording's report to FILE: how many units of its own it had counted before, and
//                                how many it had begun to count after
//
// Meanwhile a thread counts in a histogram of the recording, 'parent', so many units that segments are spent. What a child has to say goes
// to the error stream. A child ends with this program.

#include <fcntl.h>
#include <signal.h>
#include <sys/prctl.h>
#include <sys/wait.h>
#include <unistd.h>

#include <cstdio>
#include <cstdlib>
#include <fstream>
#include <iostream>
#include <sstream>
#include <string>
#include <thread>
#include <vector>

#include "povundiri_recording.hpp"
#include "povundiri_shared.hpp"

namespace {

using povundiri::MergeReport;
using povundiri::Status;
using Words = std::vector<std::uint64_t>;

constexpr std::uint64_t kMostKeys = 100'000, kMostUnits = 4'000'000'000;
// With so many units at once a segment is spent within a second.
constexpr std::uint32_t kUnitsAtOnce = 1'000'000;

// ---- The parent's own samples ----

class Own {
public:
    explicit Own(povundiri::Recording& recording) : metric_(recording.boolean("parent")), thread_([this] { run(); }) {}
    ~Own() {
        ends_ = true;
        thread_.join();
    }

    std::uint64_t begun() const { return begun_; }
    std::uint64_t counted() const { return counted_; }

private:
    void run() {
        while (!ends_) {
            begun_ += kUnitsAtOnce;
            if (metric_.add(1, kUnitsAtOnce)) {
                counted_ += kUnitsAtOnce;
            } else {
                begun_ -= kUnitsAtOnce;
            }
            std::this_thread::sleep_for(std::chrono::microseconds(50));
        }
    }

    povundiri::Metric metric_;
    std::atomic<bool> ends_{false};
    std::atomic<std::uint64_t> begun_{0}, counted_{0};
    std::thread thread_;
};

// ---- Children ----

struct Child {
    povundiri::SharedMemory memory;
    povundiri::Follower follower{kMostKeys};
    pid_t process = -1;
};

std::string fresh(Child& child, std::istringstream& line) {
    std::uint64_t size = 0, page = 0;
    line >> size >> page;
    child = Child();
    const std::error_code fault = povundiri::SharedMemory::try_create(povundiri::shape(size, page), child.memory);
    return fault ? fault.message() : "done";
}

std::string run(Child& child, std::istringstream& line) {
    std::vector<std::string> words;
    for (std::string word; line >> word;) words.push_back(word == "@" ? std::to_string(child.memory.descriptor()) : word);
    std::vector<char*> pointers;
    for (std::string& word : words) pointers.push_back(word.data());
    pointers.push_back(nullptr);
    child.process = fork();
    if (child.process != 0) return child.process > 0 ? "done" : "fork";
    prctl(PR_SET_PDEATHSIG, SIGKILL);
    dup2(open("/dev/null", O_RDWR | O_CLOEXEC), STDIN_FILENO);
    dup2(STDIN_FILENO, STDOUT_FILENO);
    fcntl(child.memory.descriptor(), F_SETFD, 0);
    execv(pointers[0], pointers.data());
    _exit(91);
}

std::string kill_child(const Child& child) {
    int status = 0;
    if (kill(child.process, SIGKILL) != 0 || waitpid(child.process, &status, 0) != child.process) return "kill";
    return WIFSIGNALED(status) && WTERMSIG(status) == SIGKILL ? "done" : "status " + std::to_string(status);
}

// How many units were added; and 1 if the recording has no room or too few units for all and may not begin a segment now, else 0.
std::string follow(povundiri::Recording& recording, Child& child) {
    MergeReport report;
    const Status status = recording.try_follow(child.follower, child.memory.look(), kMostUnits, report);
    const bool is_cut = status == Status::RefusedFull || status == Status::RefusedNoUnits;
    if (status != Status::Done && !is_cut) return povundiri::text(status);
    return "done " + std::to_string(report.added) + (is_cut ? " 1" : " 0");
}

// By their descriptor: nothing of the library is in between.
Words words_as_they_are(const povundiri::SharedMemory& memory) {
    Words words(static_cast<std::size_t>(memory.shape().size));
    const auto bytes = static_cast<ssize_t>(8 * words.size());
    if (pread(memory.descriptor(), words.data(), 8 * words.size(), 8) != bytes) words.clear();
    return words;
}

std::string write(const std::string& path, const void* data, std::size_t bytes) {
    std::ofstream file(path, std::ios::binary);
    file.write(static_cast<const char*>(data), static_cast<std::streamsize>(bytes));
    return file.flush() ? "done" : "write";
}

// ---- The keeper ----

class Keeper {
public:
    Keeper(povundiri::Recording recording, std::size_t children)
        : recording_(std::move(recording)), children_(children), own_(recording_) {}

    std::string answer(const std::string& text) {
        std::istringstream line(text);
        std::string command, file;
        std::size_t number = 0;
        line >> command;
        if (command == "report") return report(line);
        line >> number;
        Child& child = children_.at(number);
        if (command == "fresh") return fresh(child, line);
        if (command == "run") return run(child, line);
        if (command == "follow") return follow(recording_, child);
        if (command == "kill") return kill_child(child);
        line >> file;
        const Words words = words_as_they_are(child.memory);
        return write(file, words.data(), 8 * words.size());
    }

private:
    std::string report(std::istringstream& line) {
        std::string file;
        line >> file;
        recording_.fold();
        const std::uint64_t counted = own_.counted();
        const std::string text = recording_.report();
        const std::uint64_t begun = own_.begun();
        return write(file, text.data(), text.size()) + " " + std::to_string(counted) + " " + std::to_string(begun);
    }

    povundiri::Recording recording_;
    std::vector<Child> children_;
    Own own_;
};

povundiri::Recording recording_of(const char* folder, std::uint64_t bytes) {
    povundiri::RecordingOptions options;
    options.bytes = bytes;
    options.apart = 1;
    return povundiri::Recording(folder, options);
}

}  // namespace

int main(int count, char** words) try {
    if (count != 4) return 2;
    const auto number = [words](int at) { return std::strtoull(words[at], nullptr, 10); };
    Keeper keeper(recording_of(words[1], number(2)), number(3));
    for (std::string line; std::getline(std::cin, line);) std::cout << keeper.answer(line) << std::endl;
} catch (const std::exception& fault) {
    std::fprintf(stderr, "%s\n", fault.what());
    return 1;
}
