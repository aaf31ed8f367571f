// Segments in shared memory from C++ (povundiri_shared.hpp): what a parent makes and what a child records into are both here, in one process.
// What one memory has no room or units for is counted in the next one, and nothing is lost or counted twice.

#include <sys/wait.h>
#include <unistd.h>

#include <atomic>
#include <cerrno>
#include <map>
#include <sstream>
#include <string>
#include <thread>
#include <vector>

#include "checks.hpp"
#include "povundiri_shared.hpp"

namespace {

using povundiri::Recorder;
using povundiri::Segment;
using povundiri::Shape;
using povundiri::SharedHist;
using povundiri::SharedMemory;
using povundiri::SharedRecorder;
using povundiri::SharedSegment;
using povundiri::Status;

constexpr Shape kShape = povundiri::shape(4096, 256), kSmall = povundiri::shape(512, 256);
constexpr std::uint32_t kAll = UINT32_MAX;

SharedMemory made(const Shape& shape = kShape) {
    SharedMemory memory;
    HOLDS(!SharedMemory::try_create(shape, memory) && bool(memory));
    return memory;
}

std::vector<SharedMemory> made(const Shape& shape, std::size_t count) {
    std::vector<SharedMemory> memories;
    while (memories.size() < count) memories.push_back(made(shape));
    return memories;
}

std::vector<int> descriptors_of(const std::vector<SharedMemory>& memories) {
    std::vector<int> descriptors;
    for (const SharedMemory& memory : memories) descriptors.push_back(memory.descriptor());
    return descriptors;
}

SharedSegment opened(const std::vector<int>& descriptors) {
    SharedSegment segment;
    HOLDS(!SharedSegment::try_open(descriptors, segment) && bool(segment) && segment.size() == descriptors.size());
    return segment;
}

SharedRecorder recorder_of(SharedSegment& segment, std::uint32_t lease = povundiri::kUsualLease) {
    SharedRecorder recorder;
    DONE(segment.try_recorder(recorder, lease));
    HOLDS(bool(recorder));
    return recorder;
}

SharedHist sparse_of(SharedRecorder& recorder, const std::string& name) {
    SharedHist hist;
    DONE(recorder.try_hist(name, {POVUNDIRI_SPARSE, 0, 0, 0}, {}, hist));
    return hist;
}

std::string report_of(const SharedMemory& memory) {
    std::vector<std::uint64_t> image;
    std::string text;
    DONE(memory.try_look(image));
    DONE(povundiri::try_report(image, text, 100'000));
    return text;
}

// The units of each histogram, and the sums, in all memories together; a line that begins with '!bad' or '!stopped' fails.
std::map<std::string, std::pair<std::uint64_t, std::int64_t>> totals_of(const std::vector<SharedMemory>& memories) {
    std::map<std::string, std::pair<std::uint64_t, std::int64_t>> totals;
    for (const SharedMemory& memory : memories) {
        std::istringstream report(report_of(memory));
        for (std::string line; std::getline(report, line);) {
            HOLDS(line.rfind("!bad", 0) != 0 && line.rfind("!stopped", 0) != 0);
            const std::size_t at = line.find(",total,");
            if (at == std::string::npos) continue;
            auto& [units, sum] = totals[line.substr(0, at)];
            units += std::stoull(line.substr(at + 7));
            sum += std::stoll(line.substr(line.rfind(',') + 1));
        }
    }
    return totals;
}

void one_memory() {
    SharedMemory memory = made();
    HOLDS(memory.descriptor() >= 0 && memory.id() != 0 && memory.shape().size == 4096 && memory.shape().page == 256);
    HOLDS(report_of(memory).empty());
    SharedSegment segment = opened({memory.descriptor()});
    HOLDS(segment.segment(0).id() == memory.id() && segment.segment(0).version() == 2 && !segment.segment(1));
    SharedRecorder recorder = recorder_of(segment);
    SharedHist latency;
    DONE(recorder.try_hist("latency", {POVUNDIRI_LINEAR, 1, 1000, 10}, {}, latency));
    for (int value = 0; value < 1000; ++value) HOLDS(recorder.add(latency, value));
    HOLDS(report_of(memory) ==
          "latency,linear,0,1,1\nlatency,linear,1,126,125\nlatency,linear,126,251,125\nlatency,linear,251,376,125\n"
          "latency,linear,376,501,125\nlatency,linear,501,625,124\nlatency,linear,625,750,125\nlatency,linear,750,875,125\n"
          "latency,linear,875,1000,125\nlatency,total,1000,499500\n");
    SharedMemory moved(std::move(memory));
    HOLDS(!memory && memory.descriptor() == -1 && memory.shape().size == 0 && bool(moved));
    std::vector<std::uint64_t> image(7);
    RETURNS(Empty, memory.try_look(image));
    HOLDS(image.empty());
    memory = std::move(moved);
    HOLDS(!moved && report_of(memory).size() > 100);
}

// Whatever ends first: the words are there until the last has ended, and the next one may open them then.
void ends() {
    SharedMemory memory = made();
    const std::vector<int> descriptors{memory.descriptor()};
    {
        SharedRecorder recorder;
        {
            SharedSegment segment = opened(descriptors);
            recorder = recorder_of(segment);
        }
        const SharedHist hist = sparse_of(recorder, "s");
        HOLDS(recorder.add(hist, 3, 5));
        SharedSegment again;
        HOLDS(SharedSegment::try_open(descriptors, again) == std::errc::device_or_resource_busy && !again && again.size() == 0);
        SharedRecorder moved(std::move(recorder));
        RETURNS(Empty, recorder.try_add(hist, 3));
        HOLDS(!recorder && moved.add(hist, 3, 2));
        moved.reset();
        HOLDS(!moved && !moved.add(hist, 3));
        DONE(SharedSegment::try_open(descriptors, again) ? Status::System : Status::Done);
    }
    SharedSegment last = opened(descriptors);
    std::uint32_t units = 0;
    DONE(last.segment(0).try_units(units));
    HOLDS(units == kAll - 7 && report_of(memory) == "s,sparse,3,4,7\ns,total,7,21\n");
    memory.reset();
    SharedRecorder recorder = recorder_of(last);
    HOLDS(recorder.add(sparse_of(recorder, "s"), 3));
}

// Samples that need new room, until no memory has any: each that was counted is there once, and what is full stays readable.
void full() {
    const std::vector<SharedMemory> memories = made(kSmall, 3);
    SharedSegment segment = opened(descriptors_of(memories));
    SharedRecorder recorder = recorder_of(segment);
    const SharedHist hist = sparse_of(recorder, "s");
    std::uint64_t counted = 0;
    std::int64_t sum = 0;
    int value = 0;
    for (Status status = Status::Done; status == Status::Done; ++value) {
        status = recorder.try_add(hist, value, 2);
        if (status != Status::Done) RETURNS(RefusedFull, status);
        counted += status == Status::Done ? 2 : 0;
        sum += status == Status::Done ? 2 * value : 0;
    }
    for (const SharedMemory& memory : memories) HOLDS(report_of(memory).find("!flag,full\n") != std::string::npos);
    HOLDS(value > 3 * 40 && totals_of(memories).at("s") == std::make_pair(counted, sum));
    // What has a sample in the last memory is counted there; a copy of the histogram finds that by itself.
    HOLDS(recorder.add(hist, value - 2) && recorder.add(SharedHist(hist), value - 2));
    HOLDS(totals_of(memories).at("s").first == counted + 2);
}

// Another histogram counts on in the first memory while one has gone on to the next.
void each_by_itself() {
    const std::vector<SharedMemory> memories = made(kSmall, 2);
    SharedSegment segment = opened(descriptors_of(memories));
    SharedRecorder recorder = recorder_of(segment);
    SharedHist known;
    DONE(recorder.try_hist("known", {POVUNDIRI_BOOLEAN, 0, 0, 0}, {}, known));
    HOLDS(recorder.add(known, 0) && recorder.add(known, 1));
    const SharedHist hist = sparse_of(recorder, "s");
    int value = 0;
    while (report_of(memories[1]).find("s,total,1,") == std::string::npos && value < 1000) HOLDS(recorder.add(hist, ++value));
    HOLDS(value > 40 && value < 1000 && recorder.add(known, 1));
    HOLDS(report_of(memories[0]).find("known,total,3,2\n") != std::string::npos);
}

// A name for which the first memory has no room is made in the next one, and refused where none has any.
void names() {
    const std::vector<SharedMemory> memories = made(kSmall, 2);
    SharedSegment segment = opened(descriptors_of(memories));
    SharedRecorder recorder = recorder_of(segment);
    std::vector<SharedHist> hists;
    for (Status status = Status::Done; status == Status::Done;) {
        SharedHist hist;
        status = recorder.try_hist("name_" + std::to_string(hists.size()), {POVUNDIRI_BOOLEAN, 0, 0, 0}, {}, hist);
        if (status == Status::Done) hists.push_back(hist);
        if (status != Status::Done) RETURNS(RefusedFull, status);
    }
    HOLDS(hists.size() > 20);
    for (const SharedHist& hist : hists) HOLDS(recorder.add(hist, 1));
    const auto totals = totals_of(memories);
    HOLDS(totals.size() == hists.size());
    for (const auto& [name, total] : totals) HOLDS(total.first == 1 && total.second == 1);
}

// All units of two memories; what neither has enough for is refused, and leaves both as they are.
void no_units() {
    const std::vector<SharedMemory> memories = made(kShape, 2);
    SharedSegment segment = opened(descriptors_of(memories));
    SharedRecorder recorder = recorder_of(segment);
    const SharedHist hist = sparse_of(recorder, "s"), late = sparse_of(recorder, "late");
    HOLDS(recorder.add(hist, 1, 4'000'000'000U) && recorder.add(hist, 1, 4'000'000'000U));
    HOLDS(report_of(memories[0]).find("s,total,4000000000,4000000000\n") != std::string::npos);
    HOLDS(report_of(memories[1]).find("s,total,4000000000,4000000000\n") != std::string::npos);
    RETURNS(RefusedNoUnits, recorder.try_add(hist, 1, 300'000'000U));
    RETURNS(RefusedNoUnits, recorder.try_add(late, 1, 300'000'000U));
    HOLDS(recorder.add(late, 1, kAll - 4'000'000'000U));
    HOLDS(report_of(memories[0]).find("late,total,294967295,294967295\n") != std::string::npos);
    HOLDS(recorder.add(late, 1, kAll - 4'000'000'000U));
    RETURNS(RefusedNoUnits, recorder.try_add(late, 1));
    RETURNS(RefusedNoUnits, recorder.try_add(hist, 1));
    RETURNS(RefusedZeroCount, recorder.try_add(hist, 1, 0));
    const auto totals = totals_of(memories);
    HOLDS(totals.at("s").first == 8'000'000'000U && totals.at("late").first == 2 * std::uint64_t{294'967'295U});
}

// A memory that has the name with another spec is passed over; where all have it, that is the answer.
void other_specs() {
    const std::vector<SharedMemory> memories = made(kShape, 2);
    for (std::size_t at = 0; at < 2; ++at) {
        SharedSegment one = opened({memories[at].descriptor()});
        SharedRecorder recorder = recorder_of(one);
        SharedHist hist;
        if (at == 0) sparse_of(recorder, "name");
        DONE(recorder.try_hist("both", {POVUNDIRI_BOOLEAN, 0, 0, 0}, {}, hist));
    }
    SharedSegment segment = opened(descriptors_of(memories));
    SharedRecorder recorder = recorder_of(segment);
    SharedHist hist;
    DONE(recorder.try_hist("name", {POVUNDIRI_BOOLEAN, 0, 0, 0}, {}, hist));
    HOLDS(recorder.add(hist, 1) && report_of(memories[0]).find("name,total,1,") == std::string::npos);
    HOLDS(report_of(memories[1]).find("name,total,1,1\n") != std::string::npos);
    RETURNS(RefusedOtherSpec, recorder.try_hist("both", {POVUNDIRI_SPARSE, 0, 0, 0}, {}, hist));
    RETURNS(RefusedBadName, recorder.try_hist("", {POVUNDIRI_SPARSE, 0, 0, 0}, {}, hist));
    RETURNS(SpecBadMax, recorder.try_hist("bad", {POVUNDIRI_LINEAR, 10, 5, 4}, {}, hist));
    RETURNS(BadKind, recorder.try_hist("bad", {77, 10, 5, 4}, {}, hist));
    HOLDS(recorder.add(hist, 1));
}

// What is no descriptor of memory, none, and too many: then nothing stays open.
void refused() {
    const std::vector<SharedMemory> memories = made(kShape, povundiri::kMostMemories + 1);
    std::vector<int> all = descriptors_of(memories);
    SharedSegment segment;
    HOLDS(SharedSegment::try_open(all, segment) == std::errc::invalid_argument);
    HOLDS(SharedSegment::try_open({}, segment) == std::errc::invalid_argument);
    HOLDS(SharedSegment::try_open({all[0], STDIN_FILENO}, segment) && !segment && segment.size() == 0);
    HOLDS(SharedSegment::try_open({all[0], -1}, segment) == std::errc::bad_file_descriptor && !segment);
    HOLDS(SharedSegment::try_open({all[0], all[0]}, segment) == std::errc::device_or_resource_busy && !segment);
    all.pop_back();
    segment = opened(all);
    HOLDS(SharedSegment::try_open({memories.back().descriptor()}, segment) == Status::NotEmpty && segment.size() == all.size());
    SharedMemory memory = made();
    HOLDS(SharedMemory::try_create(kShape, memory) == Status::NotEmpty && bool(memory));
    SharedMemory none;
    HOLDS(SharedMemory::try_create(povundiri::shape(4096, 65), none) == Status::OpenBadShape && !none);
    HOLDS(SharedMemory::try_create(povundiri::shape(4096, 256, 7, 0, 1), none) == Status::OpenBadShape);
    HOLDS(SharedMemory::try_create(povundiri::shape(4096, 256, 7, 9), none) == Status::OpenBadCursors);
    HOLDS(SharedMemory::try_create(povundiri::shape(4096, 256, 7, 8), none) == Status::Done && none.shape().id != 7);
}

// Histograms of other recorders, of none, and recorders that are none.
void strangers() {
    const std::vector<SharedMemory> memories = made(kShape, 2);
    SharedSegment segment = opened(descriptors_of(memories));
    SharedRecorder one = recorder_of(segment), other = recorder_of(segment), none;
    const SharedHist hist = sparse_of(one, "s");
    SharedHist made;
    RETURNS(Unknown, other.try_add(hist, 1));
    RETURNS(Unknown, one.try_add(SharedHist(), 1));
    RETURNS(Empty, none.try_add(hist, 1));
    RETURNS(Empty, none.try_hist("s", {POVUNDIRI_SPARSE, 0, 0, 0}, {}, made));
    RETURNS(NotEmpty, segment.try_recorder(one));
    RETURNS(Empty, SharedSegment().try_recorder(none));
    HOLDS(one.add(hist, 1) && totals_of(memories).at("s").first == 1);
}

// A segment has 256 recorders at most: one more is refused, and takes no place in the memories that have some.
void most_recorders() {
    const std::vector<SharedMemory> memories = made(kShape, 2);
    SharedSegment segment = opened(descriptors_of(memories));
    std::vector<Recorder> of_second(250);
    for (Recorder& recorder : of_second) DONE(segment.segment(1).try_recorder(recorder, 1));
    std::vector<SharedRecorder> recorders(6);
    for (SharedRecorder& recorder : recorders) DONE(segment.try_recorder(recorder, 1));
    SharedRecorder more;
    RETURNS(RefusedTooMany, segment.try_recorder(more, 1));
    std::uint32_t outstanding = 0;
    DONE(segment.segment(0).try_outstanding(outstanding));
    HOLDS(outstanding == 6 && !more);
    recorders.clear();
    DONE(segment.segment(0).try_outstanding(outstanding));
    HOLDS(outstanding == 0);
}

// The units of a name; none of one that found no room.
std::uint64_t units_of(const std::map<std::string, std::pair<std::uint64_t, std::int64_t>>& totals, const std::string& name) {
    const auto found = totals.find(name);
    return found != totals.end() ? found->second.first : 0;
}

// Threads that go on in the next memories, each when it finds no room: what they counted is there. All have their histograms in the first
// one before any of them counts. One that comes late to the next ones may find room for nothing.
void threads() {
    constexpr int kThreads = 4, kValues = 60, kRounds = 200;
    const std::vector<SharedMemory> memories = made(povundiri::shape(1024, 256), 3);
    SharedSegment segment = opened(descriptors_of(memories));
    std::vector<std::uint64_t> counted(kThreads);
    std::vector<std::thread> running;
    std::atomic<int> asked{0};
    for (int number = 0; number < kThreads; ++number) {
        running.emplace_back([&segment, &counted, &asked, number] {
            SharedRecorder recorder = recorder_of(segment, 100);
            const SharedHist own = sparse_of(recorder, "own_" + std::to_string(number)), all = sparse_of(recorder, "all");
            for (++asked; asked < kThreads;) std::this_thread::yield();
            for (int round = 0; round < kRounds; ++round) {
                const int value = round % kValues;
                counted[static_cast<std::size_t>(number)] += recorder.add(own, value, 3) + 1000 * recorder.add(all, value);
            }
        });
    }
    for (std::thread& thread : running) thread.join();
    const auto totals = totals_of(memories);
    std::uint64_t all = 0;
    for (int number = 0; number < kThreads; ++number) {
        const std::uint64_t of_thread = counted[static_cast<std::size_t>(number)];
        HOLDS(units_of(totals, "own_" + std::to_string(number)) == 3 * (of_thread % 1000));
        all += of_thread / 1000;
    }
    HOLDS(totals.at("all").first == all && all > 0 && report_of(memories[1]).find("total") != std::string::npos);
}

// A child of fork has no part in what its parent has open, but may look at what it made.
void forked() {
    const std::vector<SharedMemory> memories = made(kShape, 2);
    SharedSegment segment = opened(descriptors_of(memories));
    SharedRecorder recorder = recorder_of(segment);
    const SharedHist hist = sparse_of(recorder, "s");
    HOLDS(recorder.add(hist, 3));
    std::fflush(stdout);
    const pid_t child = fork();
    if (child == 0) {
        SharedHist more;
        SharedRecorder other;
        RETURNS(Forked, recorder.try_add(hist, 3));
        RETURNS(Forked, recorder.try_hist("s", {POVUNDIRI_SPARSE, 0, 0, 0}, {}, more));
        RETURNS(Forked, segment.try_recorder(other));
        HOLDS(!segment && !recorder && report_of(memories[0]) == "s,sparse,3,4,1\ns,total,1,3\n");
        recorder.reset();
        segment.reset();
        std::fflush(stdout);
        _exit(failed_here != 0);
    }
    int status = 1;
    HOLDS(waitpid(child, &status, 0) == child && status == 0);
    HOLDS(recorder.add(hist, 3) && report_of(memories[0]) == "s,sparse,3,4,2\ns,total,2,6\n");
}

#if defined(__cpp_exceptions)
template <typename Call>
std::string thrown_by(const Call& call) {
    try {
        call();
    } catch (const std::system_error& fault) {
        return fault.what();
    }
    return "nothing";
}

void throwing() {
    SharedMemory memory(kShape);
    SharedSegment segment({memory.descriptor()});
    SharedRecorder recorder = segment.recorder(1000);
    HOLDS(recorder.add(recorder.linear("l", 1, 10, 5), 3) && recorder.add(recorder.boolean("b"), 1));
    HOLDS(recorder.add(recorder.custom("c", {1, 10, 100}), 3) && recorder.add(recorder.scale("z", 1, 100, 2), 3));
    HOLDS(recorder.add(recorder.enumeration("e", 5), 3) && recorder.add(recorder.sparse("s"), -3));
    HOLDS(povundiri::report(memory.look(), 1000).find("s,sparse,-3,-2,1\n") != std::string::npos);
    HOLDS(thrown_by([] { SharedMemory wrong(povundiri::shape(7, 7)); }) == "shared memory, words 7: BadShape");
    HOLDS(thrown_by([] { SharedSegment wrong({-1}); }) == "shared segment, descriptors 1: Bad file descriptor");
    HOLDS(thrown_by([&] { recorder.sparse("l"); }) == "hist \"l\": OtherSpec");
    HOLDS(thrown_by([] { SharedSegment().recorder(7); }) == "recorder, lease 7: EmptyHandle");
    HOLDS(thrown_by([] { SharedMemory().look(); }) == "look: EmptyHandle");
}
#endif

}  // namespace

int main() {
    int failed = group("one memory", one_memory);
    failed += group("ends in any order", ends);
    failed += group("full memories", full);
    failed += group("each histogram by itself", each_by_itself);
    failed += group("names", names);
    failed += group("memories without units", no_units);
    failed += group("other specs", other_specs);
    failed += group("what is refused", refused);
    failed += group("strangers", strangers);
    failed += group("the most recorders", most_recorders);
    failed += group("threads", threads);
    failed += group("forked", forked);
#if defined(__cpp_exceptions)
    failed += group("what is thrown", throwing);
#endif
    return failed != 0;
}
