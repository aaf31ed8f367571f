// Four threads record until they are killed, and write into a second shared file what they have begun and ended (tally.hpp).
//
//     killed PLACE FILE TALLY SEED VERSION WORDS PAGE [LOOKS]
//
// PLACE is 'file': the segment is in FILE, which is mapped; if FILE has a segment already, that one is continued. Or it is 'heap': the
// segment is in the heap; if there is an image FILE, the segment continues from that. Or it is 'shared': FILE is the number of a descriptor,
// and the segment in its memory is continued. The program prints 'begins' first. A status that may not come ends it with status 3.
//
// With LOOKS it looks LOOKS times at its own segment, by its handle and, if it is in a file, by turns also by that; then it ends with
// status 0. The report of each look is read. Status 3 ends the program if a bucket has fewer units than had ended before the look, more
// than were begun when it was done, or fewer than the look before had. It prints how many looks were taken amid a call.

#include <fcntl.h>
#include <sys/mman.h>
#include <unistd.h>

#include <algorithm>
#include <cerrno>
#include <cstdio>
#include <cstdlib>
#include <cstring>
#include <fstream>
#include <iterator>
#include <random>
#include <sstream>
#include <string>
#include <thread>
#include <vector>

#include "povundiri.hpp"
#include "povundiri_shared.hpp"
#include "tally.hpp"

namespace {

using povundiri::Hist;
using povundiri::Recorder;
using povundiri::Status;

struct Options {
    std::string place, file, tally;
    std::uint32_t seed;
    povundiri::Shape shape;
    std::uint64_t looks;
};

[[noreturn]] void stop(const char* what, const char* why) {
    std::fprintf(stderr, "%s: %s\n", what, why);
    std::_Exit(3);
}

void need(const char* what, Status status) {
    if (status != Status::Done) stop(what, povundiri::text(status));
}

// Whether the call was done. It may also have found no room.
bool done(const char* what, Status status) {
    if (status == Status::RefusedFull) return false;
    need(what, status);
    return true;
}

constexpr std::int32_t kLinearValues[] = {0, 1, 126, 251, 376, 501, 625, 750, 875, 1000};
constexpr std::uint32_t kCustomValues[] = {10, 100, 1000};
constexpr std::int32_t kInCustom[] = {9, 10, 999, 1000};

class Worker {
public:
    Worker(Recorder recorder, tally::Thread& cells, std::uint32_t number, std::uint32_t seed)
        : recorder_(std::move(recorder)), cells_(cells), number_(number), chance_(seed) {}

    [[noreturn]] void run() {
        find();
        for (std::uint64_t turn = 0;; ++turn) step(turn);
    }

private:
    void find() {
        need("boolean", recorder_.try_boolean("boolean", boolean_));
        need("linear", recorder_.try_linear("linear", 1, 1000, 10, linear_));
        need("custom", recorder_.try_custom("custom", kCustomValues, custom_));
        need("sparse", recorder_.try_sparse("sparse", sparse_));
        has_own_ = done("own", recorder_.try_boolean("own_" + std::to_string(number_), own_));
    }

    std::uint32_t below(std::uint32_t limit) { return static_cast<std::uint32_t>(chance_() % limit); }

    void step(std::uint64_t turn) {
        const std::uint32_t one = below(1000);
        if (one < 100 && has_own_) {
            const std::uint32_t bucket = below(3);
            add(own_, tally::kOwn + 3 * number_ + bucket, static_cast<std::int32_t>(bucket));
        } else if (one < 300) {
            const std::uint32_t bucket = below(3);
            add(boolean_, tally::kBoolean + bucket, static_cast<std::int32_t>(bucket));
        } else if (one < 600) {
            const std::uint32_t bucket = below(10);
            add(linear_, tally::kLinear + bucket, kLinearValues[bucket]);
        } else if (one < 800) {
            const std::uint32_t bucket = below(4);
            add(custom_, tally::kCustom + bucket, kInCustom[bucket]);
        } else if (one < 950) {
            sample(turn);
        } else if (one < 980) {
            batch();
        } else if (one < 990) {
            make(turn);
        } else {
            look(one);
        }
    }

    void add(Hist hist, std::size_t cell, std::int32_t value) {
        const std::uint32_t count = 1 + below(3);
        tally::Pending pending(cells_[cell], count);
        pending.end(done("add", recorder_.try_add(hist, value, count)));
    }

    // Values come into use one after the other, so that samples are still made late in a run.
    void sample(std::uint64_t turn) {
        const auto limit = std::min<std::uint64_t>(tally::kSparseValues, 2 + turn / 40);
        const std::uint32_t value = below(static_cast<std::uint32_t>(limit));
        add(sparse_, tally::kSparse + value, static_cast<std::int32_t>(value) - 64);
    }

    // If there is no room for the counts, the first item alone may be counted.
    void batch() {
        const std::uint32_t first = below(10), second = (first + 1 + below(9)) % 10;
        tally::Pending one(cells_[tally::kLinear + first], 2), other(cells_[tally::kLinear + second], 3);
        std::size_t added = 0;
        const bool counted = done("batch", recorder_.try_batch(linear_, {{kLinearValues[first], 2}, {kLinearValues[second], 3}}, 5, added));
        one.end(added > 0);
        other.end(counted);
    }

    void make(std::uint64_t turn) {
        const auto limit = std::min<std::uint64_t>(tally::kMadeNames, 2 + turn / 400);
        const std::uint32_t number = below(static_cast<std::uint32_t>(limit));
        Hist made;
        if (done("hist", recorder_.try_boolean("made_" + std::to_string(number), made))) add(made, tally::kMade + number, 1);
    }

    void look(std::uint32_t one) {
        if (one < 995) {
            need("delta", recorder_.try_delta(one % 2 ? linear_ : sparse_, counts_));
        } else if (one < 999) {
            need("snapshot", recorder_.try_snapshot(one % 2 ? custom_ : boolean_, counts_));
        } else {
            need("records", recorder_.try_records(records_));
        }
    }

    Recorder recorder_;
    tally::Thread& cells_;
    const std::uint32_t number_;
    std::mt19937 chance_;
    Hist boolean_, linear_, custom_, sparse_, own_;
    // Whether there was room for its own histogram.
    bool has_own_ = false;
    povundiri::Counts counts_;
    std::vector<std::uint64_t> records_;
};

tally::Thread* tally_of(const std::string& path) {
    const int descriptor = open(path.c_str(), O_RDWR);
    void* at = mmap(nullptr, tally::kThreads * sizeof(tally::Thread), PROT_READ | PROT_WRITE, MAP_SHARED, descriptor, 0);
    if (at == MAP_FAILED) stop("tally", std::strerror(errno));
    return static_cast<tally::Thread*>(at);
}

void open_in_file(const Options& options, povundiri::Segment& segment) {
    povundiri::Opened opened;
    const std::error_code fault = povundiri::Segment::try_open(options.file.c_str(), options.shape, povundiri::Policy::AdoptOrFail, opened);
    if (fault) stop("file", fault.message().c_str());
    segment = std::move(opened.segment);
}

void open_in_heap(const Options& options, povundiri::Segment& segment) {
    std::ifstream file(options.file, std::ios::binary);
    if (!file) return need("create", povundiri::Segment::try_create(options.shape, segment));
    const std::string bytes(std::istreambuf_iterator<char>(file), {});
    std::vector<std::uint64_t> words(bytes.size() / 8);
    std::memcpy(words.data(), bytes.data(), 8 * words.size());
    need("adopt", povundiri::Segment::try_adopt(words, segment, options.shape.cursors));
}

void open_in_shared(const Options& options, povundiri::Segment& segment) {
    povundiri::SharedSegment shared;
    const std::error_code fault = povundiri::SharedSegment::try_open({std::atoi(options.file.c_str())}, shared, options.shape.cursors);
    if (fault) stop("shared", fault.message().c_str());
    segment = std::move(shared.segment(0));
}

// The cell of a bucket, by the histogram's name and the bucket's least value.
std::size_t cell_of(const std::string& name, std::int32_t low) {
    if (name == "boolean") return tally::kBoolean + static_cast<std::size_t>(low);
    if (name == "linear") return tally::kLinear + static_cast<std::size_t>(std::find(kLinearValues, std::end(kLinearValues), low) - kLinearValues);
    if (name == "custom") return tally::kCustom + (low >= 10) + (low >= 100) + (low >= 1000);
    if (name == "sparse") return tally::kSparse + static_cast<std::size_t>(low + 64);
    const std::size_t number = std::stoul(name.substr(name.find('_') + 1));
    return name[0] == 'o' ? tally::kOwn + 3 * number + static_cast<std::size_t>(low) : tally::kMade + number;
}

using Units = std::vector<std::uint64_t>;

// The units of each cell that an image has. A bad record, or a list that stopped, ends the program.
Units units_of(const std::vector<std::uint64_t>& image) {
    Units units(tally::kCells);
    std::istringstream report(povundiri::report(image));
    for (std::string line; std::getline(report, line);) {
        std::istringstream fields(line);
        std::string name, kind, low, high, count;
        std::getline(std::getline(std::getline(std::getline(std::getline(fields, name, ','), kind, ','), low, ','), high, ','), count);
        if (name == "!bad" || name == "!stopped") stop("look", line.c_str());
        if (name[0] != '!' && kind != "total") units[cell_of(name, static_cast<std::int32_t>(std::stol(low)))] = std::stoull(count);
    }
    return units;
}

// What all threads together have begun of each cell, or have ended.
Units told(const tally::Thread* threads, std::atomic<std::uint64_t> tally::Cell::*which) {
    Units units(tally::kCells);
    for (std::size_t cell = 0; cell < tally::kCells; ++cell) {
        for (std::size_t i = 0; i < tally::kThreads; ++i) units[cell] += (threads[i][cell].*which).load();
    }
    return units;
}

// Looks at the segment again and again while threads record into it; `before` is what it had when they began.
void look(const Options& options, const povundiri::Segment& segment, const tally::Thread* threads, const Units& before) {
    Units last = before;
    std::uint64_t amid = 0;
    for (std::uint64_t number = 0; number < options.looks; ++number) {
        const Units ended = told(threads, &tally::Cell::ended);
        const bool in_file = options.place == "file" && number % 2 == 0;
        const Units now = units_of(in_file ? povundiri::look_file(options.file.c_str()) : segment.look());
        const Units begun = told(threads, &tally::Cell::begun);
        for (std::size_t cell = 0; cell < tally::kCells; ++cell) {
            const bool right = before[cell] + ended[cell] <= now[cell] && now[cell] <= before[cell] + begun[cell] && last[cell] <= now[cell];
            if (!right) stop("look", ("cell " + std::to_string(cell)).c_str());
        }
        amid += begun != ended;
        last = now;
    }
    std::printf("%llu\n", static_cast<unsigned long long>(amid));
    std::fflush(stdout);
}

[[noreturn]] void record(const Options& options) {
    tally::Thread* cells = tally_of(options.tally);
    povundiri::Segment segment;
    const auto open = options.place == "file" ? open_in_file : options.place == "heap" ? open_in_heap : open_in_shared;
    open(options, segment);
    const Units before = options.looks == 0 ? Units() : units_of(segment.look());
    std::vector<std::thread> threads;
    for (std::uint32_t i = 0; i < tally::kThreads; ++i) {
        Recorder recorder;
        need("recorder", segment.try_recorder(recorder));
        threads.emplace_back(&Worker::run, new Worker(std::move(recorder), cells[i], i, options.seed + i));
    }
    if (options.looks > 0) {
        look(options, segment, cells, before);
        std::_Exit(0);
    }
    while (true) pause();
}

}  // namespace

int main(int count, char** words) {
    if (count != 8 && count != 9) stop("killed", "PLACE FILE TALLY SEED VERSION WORDS PAGE [LOOKS]");
    std::puts("begins");
    std::fflush(stdout);
    const auto number = [words](int at) { return std::strtoull(words[at], nullptr, 10); };
    const povundiri::Shape shape = povundiri::shape(number(6), number(7), 7, 1, number(5));
    record({words[1], words[2], words[3], static_cast<std::uint32_t>(number(4)), shape, count == 9 ? number(8) : 0});
}
