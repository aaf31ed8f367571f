// A child that writes what it likes into its memory while the parent looks at it and follows it: into a recording, and by a recorder of a
// segment, whose units run out.
//
//     hostile FOLDER
//
// The child is this program again. It writes random words, forged counts and sums, other ids, lists that are shorter, and lists of millions
// of keys, and now and then the words that it had when it was honest: looks that have just these are followed too, and are not counted.
// Whatever it writes, the parent gets statuses; no call adds more units than it may; what the calls said that they added is what the parent
// has; and the parent's own samples are counted.

#include <fcntl.h>
#include <signal.h>
#include <sys/mman.h>
#include <sys/prctl.h>
#include <sys/wait.h>
#include <unistd.h>

#include <algorithm>
#include <chrono>
#include <cstdlib>
#include <cstring>
#include <map>
#include <random>
#include <sstream>
#include <string>
#include <thread>
#include <vector>

#include "checks.hpp"
#include "povundiri_recording.hpp"
#include "povundiri_shared.hpp"

namespace {

using povundiri::Follower;
using povundiri::MergeReport;
using povundiri::Status;
using Clock = std::chrono::steady_clock;
using Words = std::vector<std::uint64_t>;

constexpr povundiri::Shape kShape = povundiri::shape(40'960, 4096);
constexpr std::uint32_t kOwnValues[] = {7, 77, 7777}, kCustomValues[] = {10, 100, 1000};
constexpr std::uint64_t kMostKeys = 100'000;
// So many looks that are not those of an honest child have to reach a follower, within so many seconds also on a busy machine.
constexpr int kLooks = 1000, kMostSeconds = 250;

// ---- The child ----

// Where words are in a segment (docs/FORMAT.md).
constexpr std::size_t kId = 4, kFree = 7, kQueue = 12, kNext = 3, kFirst = 16, kHeader = 16;
constexpr std::size_t kBuckets = 7, kCounts = 8, kSum = 11, kName = 15, kRecordWords = 16;
constexpr std::uint64_t kCookie = 0xC8799269, kHistogram = 1, kCountsType = 2, kLinear = 1, kGreatest = 2'147'483'646;
constexpr std::uint64_t kTop = std::uint64_t{1} << 63U;
constexpr std::size_t kManyBuckets = 1000, kCountsWords = 4 + 2 * kManyBuckets;

class Hostile {
public:
    Hostile(int descriptor, std::uint32_t seed) : chance_(seed) {
        const std::size_t bytes = povundiri_file_bytes(kShape.size, kShape.cursors);
        void* const at = mmap(nullptr, bytes, PROT_READ | PROT_WRITE, MAP_SHARED, descriptor, 0);
        if (at == MAP_FAILED) std::_Exit(4);
        words_ = static_cast<std::uint64_t*>(at) + 1;
        honest_.assign(words_, words_ + kShape.size);
        for (std::size_t at_record = next(kQueue); at_record != kQueue; at_record = next(at_record)) {
            if (words_[at_record + 2] == kHistogram) records_.push_back(at_record);
        }
    }

    [[noreturn]] void run() {
        using Does = void (Hostile::*)();
        static constexpr Does kAll[] = {&Hostile::counts,  &Hostile::counts, &Hostile::rise,  &Hostile::rise,   &Hostile::sums,
                                        &Hostile::other_id, &Hostile::shorter, &Hostile::keys, &Hostile::random, &Hostile::header};
        while (true) {
            (this->*kAll[below(std::size(kAll))])();
            std::this_thread::sleep_for(std::chrono::microseconds(below(2000)));
            if (below(2) == 0) restore();
        }
    }

private:
    std::uint64_t below(std::uint64_t limit) { return chance_() % limit; }
    std::size_t next(std::size_t at) const { return static_cast<std::size_t>(words_[at + kNext]); }
    std::size_t record() { return records_[below(records_.size())]; }

    void store(std::size_t at, std::uint64_t word) {
        if (at < kShape.size) __atomic_store_n(words_ + at, word, __ATOMIC_SEQ_CST);
    }

    void restore() {
        for (std::size_t at = 0; at < kShape.size; ++at) store(at, honest_[at]);
    }

    // A word that may mean something where it is written: a small number, a reference, a cookie, a count, or any.
    std::uint64_t any_word() {
        const std::uint64_t some[] = {0, 1, 2, 3, 4, below(kShape.size + 8), kCookie, 65'535, 4'294'967'295, kTop, kTop - 1, kTop * 2 - 1};
        return below(4) == 0 ? chance_() : some[below(std::size(some))];
    }

    // A bucket of a histogram with counts: where its units are; 0 if it has none.
    std::size_t bucket() {
        const std::size_t at = record(), block = static_cast<std::size_t>(honest_[at + kCounts]);
        return block == 0 ? 0 : block + 4 + static_cast<std::size_t>(below(honest_[at + kBuckets]));
    }

    void counts() {
        const std::uint64_t forged[] = {0, below(1000), below(4'294'967'296), 4'294'967'295, any_word()};
        for (int turn = 0; turn < 4; ++turn) {
            const std::size_t at = bucket();
            if (at != 0) store(at, forged[below(std::size(forged))]);
        }
    }

    // As an honest child, but for the sum.
    void rise() {
        for (int turn = 0; turn < 100; ++turn) {
            const std::size_t at = bucket();
            if (at != 0) store(at, words_[at] + below(10));
        }
    }

    void sums() {
        const std::uint64_t amount = below(2) == 0 ? below(std::uint64_t{1} << 62U) : any_word();
        store(record() + kSum, below(2) == 0 ? amount : 0 - amount);
    }

    void other_id() { store(kId, chance_()); }

    // The list without its first histograms, or none at all.
    void shorter() { store(kQueue + kNext, below(2) == 0 ? kQueue : record()); }

    // Histograms of a thousand buckets each, which have one block of counts; so many that they have 80,000 keys, or two million.
    void keys() {
        const std::size_t many = (kShape.size - kShape.page) / kRecordWords, number = below(2) == 0 ? 80 : many;
        store(kFree, kShape.size);
        store(kFirst, kCountsWords);
        store(kFirst + 1, kCookie);
        store(kFirst + 2, kCountsType);
        for (std::size_t at = 0; at < 2 * kManyBuckets; ++at) store(kFirst + 4 + at, at % 100 == 0 && at < kManyBuckets ? below(1000) : 0);
        for (std::size_t at = 0; at < number; ++at) put_record(at, at + 1 < number);
        store(kQueue + kNext, kShape.page);
    }

    void put_record(std::size_t number, bool has_next) {
        const std::size_t at = kShape.page + number * kRecordWords;
        const std::uint64_t words[kRecordWords] = {kRecordWords, kCookie, kHistogram, has_next ? at + kRecordWords : kQueue,
                                                   kLinear,      1,       kGreatest,  kManyBuckets,
                                                   kFirst,       0,       0,          0,
                                                   0,            0,       8,          0};
        for (std::size_t word = 0; word < kName; ++word) store(at + word, words[word]);
        char name[9];
        std::snprintf(name, sizeof name, "k%07zu", number);
        std::uint64_t text = 0;
        std::memcpy(&text, name, sizeof text);
        store(at + kName, text);
    }

    // Words at random, more of them where records are.
    void random() {
        for (int turn = 0; turn < 50; ++turn) {
            store(kHeader + below(kShape.size - kHeader), any_word());
            if (below(4) == 0) store(record() + below(kRecordWords), any_word());
        }
    }

    void header() {
        const std::size_t at = below(kHeader);
        store(at, any_word());
        std::this_thread::sleep_for(std::chrono::microseconds(below(200)));
        for (std::size_t word = 0; word < kHeader; ++word) store(word, honest_[word]);
    }

    std::mt19937_64 chance_;
    std::uint64_t* words_ = nullptr;
    Words honest_;
    std::vector<std::size_t> records_;
};

// Begins as an honest child does, and stops, so that the parent can look. It has a histogram of the parent's name with another spec.
[[noreturn]] void child(int descriptor, std::uint32_t seed) {
    prctl(PR_SET_PDEATHSIG, SIGKILL);
    povundiri::SharedSegment segment({descriptor});
    povundiri::SharedRecorder recorder = segment.recorder(1000);
    const povundiri::SharedHist hists[] = {recorder.linear("linear", 1, 1000, 10), recorder.boolean("boolean"),
                                           recorder.custom("custom", kCustomValues), recorder.sparse("sparse"),
                                           recorder.linear("own", 1, 1000, 10)};
    for (int value = 0; value < 100; ++value) {
        for (const povundiri::SharedHist& hist : hists) {
            if (!recorder.add(hist, value)) std::_Exit(5);
        }
    }
    Hostile hostile(descriptor, seed);
    raise(SIGSTOP);
    hostile.run();
}

// ---- The parent ----

using Counted = std::map<Status, int>;

// What only a mistake of the parent is, or of the library.
bool is_answer(Status status) {
    static constexpr Status kNone[] = {Status::Null,   Status::Empty,  Status::NotEmpty, Status::OtherKind, Status::Short,
                                       Status::System, Status::Forked, Status::NoMemory, Status::ImageNoMemory, Status::RefusedNoMemory};
    return std::find(std::begin(kNone), std::end(kNone), status) == std::end(kNone);
}

bool is_of_header(Status status) { return status >= Status::ImageTooShort && status < Status::ImageNoMemory; }

// The units of a report: of the histogram `own`, and of all others together, also of those whose name has several specs.
struct Units {
    std::uint64_t own = 0, others = 0;
};

std::vector<std::string> fields_of(const std::string& line) {
    std::vector<std::string> fields;
    std::istringstream rest(line);
    for (std::string field; std::getline(rest, field, ',');) fields.push_back(field);
    return fields;
}

Units units_of(const std::string& report) {
    Units units;
    std::istringstream lines(report);
    for (std::string line; std::getline(lines, line);) {
        const std::vector<std::string> fields = fields_of(line);
        const bool is_other = fields.at(0) == "!other";
        if (!is_other && fields.at(1) != "total") continue;
        const std::string& name = fields.at(is_other ? 1 : 0);
        (name == "own" ? units.own : units.others) += std::stoull(fields.at(is_other ? 3 : 2));
    }
    return units;
}

// A segment of the parent, which is followed into until its units are spent.
struct Sink {
    povundiri::Segment segment{povundiri::shape_for(1 << 20)};
    povundiri::Recorder recorder = segment.recorder(1000);
    povundiri::Hist own = recorder.custom("own", kOwnValues);
    std::uint64_t counted = 0, added = 0;

    std::uint64_t left() const { return std::uint64_t{segment.units()} + recorder.units(); }

    // It has what was counted and what was added, and no more.
    bool is_right() const {
        const Units units = units_of(povundiri::report(segment.look(), 1'000'000));
        return units.own == counted && units.others == added;
    }
};

class Parent {
public:
    explicit Parent(const std::string& folder) : recording_(folder, options()), own_(recording_.custom("own", kOwnValues)), chance_(1) {}

    // Looks and follows until enough has been seen.
    void run() {
        const auto end = Clock::now() + std::chrono::seconds(kMostSeconds);
        Words image;
        while (!is_enough() && Clock::now() < end) {
            const Status status = memory_.try_look(image);
            HOLDS(status == Status::Done || status == Status::AdoptOldVersion || is_of_header(status));
            if (status != Status::Done) continue;
            ++looks_;
            is_hostile_ = image != honest_;
            if (looks_ % 2 == 0) into_recording(image);
            if (looks_ % 2 != 0) into_sink(image);
            if (looks_ % 50 == 0) recording_.fold();
        }
        HOLDS(is_enough());
    }

    // Starts the child, and looks at it while it is honest.
    void begin() {
        const std::string descriptor = std::to_string(memory_.descriptor());
        process_ = fork();
        if (process_ != 0) return look_first();
        fcntl(memory_.descriptor(), F_SETFD, 0);
        execl("/proc/self/exe", "hostile", "child", descriptor.c_str(), "1", nullptr);
        _exit(91);
    }

    // The child has to have lived until now.
    void end() {
        int status = 0;
        HOLDS(kill(process_, SIGKILL) == 0 && waitpid(process_, &status, 0) == process_);
        HOLDS(WIFSIGNALED(status) && WTERMSIG(status) == SIGKILL);
    }

    void judge() {
        const Units units = units_of(recording_.report());
        HOLDS(units.own == counted_ && units.others == added_ && counted_ > 0 && added_ > 0 && sink_.is_right());
        HOLDS(skipped_ > 0 && given_up_ > 0 && recording_.missed(povundiri::Missed::Child) == given_up_);
        for (const auto& [status, times] : met_) std::fprintf(stderr, "%s: %d\n", povundiri::text(status), times);
    }

private:
    static povundiri::RecordingOptions options() {
        povundiri::RecordingOptions options;
        options.bytes = 65'536;
        options.apart = 1;
        return options;
    }

    void look_first() {
        int status = 0;
        HOLDS(waitpid(process_, &status, WUNTRACED) == process_ && WIFSTOPPED(status));
        DONE(memory_.try_look(honest_));
        HOLDS(kill(process_, SIGCONT) == 0);
    }

    bool is_enough() const {
        static constexpr Status kWanted[] = {Status::Fell,        Status::OtherSegment,     Status::CostsMore,
                                             Status::TooManyKeys, Status::RefusedOtherSpec, Status::RefusedNoUnits};
        const auto came = [this](Status status) { return met_.count(status) != 0; };
        return reached_ >= kLooks && std::all_of(std::begin(kWanted), std::end(kWanted), came);
    }

    std::uint64_t most() {
        static constexpr std::uint64_t kAll[] = {0, 100, 10'000, 1'000'000, 4'000'000'000};
        return kAll[chance_() % std::size(kAll)];
    }

    // Of a look that a follower was given: what came of it, if the child was hostile.
    void note(Status status) {
        HOLDS(is_answer(status));
        if (!is_hostile_) return;
        ++met_[status];
        reached_ += !is_of_header(status);
    }

    void into_recording(const Words& image) {
        const std::uint64_t most_units = most();
        MergeReport report;
        counted_ += own_.add(17);
        const Status status = recording_.try_follow(follower_, image, most_units, report);
        note(status);
        HOLDS(report.added <= most_units);
        added_ += report.added;
        if (status == Status::CostsMore && chance_() % 2 == 0) return give_up(image);
        go_on(follower_, status, image);
    }

    void into_sink(const Words& image) {
        const std::uint64_t most_units = most(), left = sink_.left();
        MergeReport report;
        const Status status = other_.try_merge(sink_.recorder, image, most_units, report);
        note(status);
        HOLDS(report.added <= most_units && left - sink_.left() <= most_units && left - sink_.left() >= report.added);
        sink_.added += report.added;
        sink_.counted += sink_.recorder.add(sink_.own, 17);
        if (status == Status::RefusedNoUnits && chance_() % 4 == 0) {
            HOLDS(sink_.is_right());
            sink_ = Sink();
        }
        go_on(other_, status, image);
    }

    void give_up(const Words& image) {
        std::uint64_t units = 0;
        DONE(recording_.try_give_up(follower_, image, units));
        given_up_ += units;
    }

    // What a parent does about a child that lies: it skips a look that costs too much, or begins anew.
    void go_on(Follower& follower, Status status, const Words& image) {
        std::uint64_t units = 0;
        if (status == Status::Fell || status == Status::OtherSegment) {
            check_returned(__LINE__, "try_skip", status, follower.try_skip(image, units));
            follower.reset();
        }
        if (status != Status::CostsMore && status != Status::RefusedNoUnits) return;
        DONE(follower.try_skip(image, units));
        skipped_ += units;
    }

    povundiri::SharedMemory memory_{kShape};
    pid_t process_ = -1;
    povundiri::Recording recording_;
    povundiri::Metric own_;
    Follower follower_{kMostKeys}, other_{kMostKeys};
    Sink sink_;
    std::mt19937 chance_;
    // The words of the child when it was honest, and whether those of the last look are others.
    Words honest_;
    bool is_hostile_ = false;
    Counted met_;
    int looks_ = 0, reached_ = 0;
    std::uint64_t counted_ = 0, added_ = 0, skipped_ = 0, given_up_ = 0;
};

std::string home;

void a_hostile_child() {
    Parent parent(home + "/metrics");
    parent.begin();
    parent.run();
    parent.end();
    parent.judge();
}

}  // namespace

int main(int count, char** words) {
    if (count == 4) child(std::atoi(words[2]), static_cast<std::uint32_t>(std::atoi(words[3])));
    home = words[1];
    return group("a hostile child", a_hostile_child);
}
