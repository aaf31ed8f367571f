// What a recording refuses of children, and what becomes of it amid what happens to the process and to the folder: 'recorded_refusals
// FOLDER [threads]'. Each group works in a folder of its own below that. With 'threads' only those are run that have threads and no
// children of fork: for the thread sanitizer.
#include <unistd.h>

#include <atomic>
#include <cerrno>
#include <cstring>
#include <filesystem>
#include <thread>

#include "recorded_children.hpp"

namespace {

// ---- Refusals ----

// A recording of C, and a follower of at most three keys.
struct Own {
    explicit Own(const char* name) {
        int fault = 0;
        ANSWERS(DONE, povundiri_recording_open(folder(name).c_str(), nullptr, &recording, &fault));
        ANSWERS(DONE, povundiri_follower_new(3, &follower));
    }
    Own(const Own&) = delete;
    Own& operator=(const Own&) = delete;
    ~Own() {
        povundiri_recording_end(recording);
        povundiri_drop(&follower);
    }

    std::uint32_t follow(const Words& words, std::uint64_t most, povundiri_merge_report* report) {
        return povundiri_recording_follow(recording, &follower, words.data(), words.size(), most, report);
    }
    std::uint32_t give_up(const Words& words, povundiri_merge_report* report) {
        return povundiri_recording_give_up(recording, &follower, words.data(), words.size(), report);
    }

    povundiri_recording* recording = nullptr;
    povundiri_handle follower = {};
};

// What is wrong with a call.
void mistakes() {
    Own own("mistakes");
    povundiri_handle none = {}, segment = {};
    povundiri_merge_report report = {};
    Child child(1);
    child.add("c", kBoolean, 1, 6);
    const Words words = child.look();
    const std::uint64_t* const at = words.data();
    const std::size_t length = words.size();
    ANSWERS(DONE, povundiri_create(povundiri::shape(64, 64), &segment));
    report.added = 77;
    ANSWERS(NULL, povundiri_recording_follow(nullptr, &own.follower, at, length, 6, &report));
    ANSWERS(NULL, povundiri_recording_follow(own.recording, nullptr, at, length, 6, &report));
    ANSWERS(NULL, povundiri_recording_follow(own.recording, &own.follower, nullptr, length, 6, &report));
    ANSWERS(NULL, povundiri_recording_merge(nullptr, at, length, 6, &report));
    ANSWERS(NULL, povundiri_recording_merge(own.recording, nullptr, length, 6, &report));
    ANSWERS(NULL, povundiri_recording_give_up(nullptr, &own.follower, at, length, &report));
    ANSWERS(NULL, povundiri_recording_give_up(own.recording, nullptr, at, length, &report));
    ANSWERS(NULL, povundiri_recording_give_up(own.recording, &own.follower, nullptr, length, &report));
    report.size = sizeof report - 1;
    ANSWERS(SHORT, own.follow(words, 6, &report));
    ANSWERS(SHORT, povundiri_recording_merge(own.recording, at, length, 6, &report));
    ANSWERS(SHORT, own.give_up(words, &report));
    HOLDS(report.added == 77 && report.size == sizeof report - 1);
    report.size = 0;
    ANSWERS(EMPTY, povundiri_recording_follow(own.recording, &none, at, length, 6, &report));
    HOLDS(report.added == 0 && report.size == 0);
    ANSWERS(EMPTY, povundiri_recording_give_up(own.recording, &none, at, length, &report));
    ANSWERS(OTHER_KIND, povundiri_recording_follow(own.recording, &segment, at, length, 6, &report));
    ANSWERS(OTHER_KIND, povundiri_recording_give_up(own.recording, &segment, at, length, &report));
    ANSWERS(DONE, own.follow(words, 6, &report));
    HOLDS(report.added == 6);
    povundiri_drop(&segment);
}

// Images that are refused, and how large a report is.
void images() {
    Own own("images");
    povundiri_merge_report report = {};
    Child child(1);
    child.add("c", kBoolean, 1, 6);
    const Words words = child.look();
    ANSWERS(IMAGE_TOO_SHORT, own.follow({}, 6, &report));
    ANSWERS(IMAGE_TOO_SHORT, povundiri_recording_merge(own.recording, nullptr, 0, 6, &report));
    ANSWERS(IMAGE_TOO_SHORT, own.give_up({}, nullptr));
    ANSWERS(TOO_MANY_KEYS, povundiri_recording_merge(own.recording, words.data(), words.size(), 2, nullptr));
    ANSWERS(COSTS_MORE, own.follow(words, 0, &report));
    HOLDS(report.cost == 6 && report.added == 0);
    ANSWERS(COSTS_MORE, own.follow(words, 5, nullptr));
    ANSWERS(DONE, own.follow(words, 6, nullptr));
    ANSWERS(DONE, own.follow(words, 0, &report));
    // A later library's report has more, which stays as it is.
    struct {
        povundiri_merge_report known = {};
        std::uint64_t more = 77;
    } larger;
    larger.known.size = sizeof larger;
    ANSWERS(DONE, own.follow(words, 0, &larger.known));
    ANSWERS(DONE, own.give_up(words, &larger.known));
    HOLDS(larger.known.size == sizeof larger && larger.more == 77 && larger.known.left == 0);
    child.add("c", kBoolean, 0);
    ANSWERS(DONE, own.follow(child.look(), 1, &report));
    HOLDS(report.added == 1);
    ANSWERS(FELL, own.follow(words, 6, &report));
    ANSWERS(FELL, own.give_up(words, &report));
    ANSWERS(OTHER_SEGMENT, own.follow(Child(2).look(), 6, &report));
    ANSWERS(OTHER_SEGMENT, own.give_up(Child(2).look(), &report));
    child.add("more", kBoolean, 0);
    ANSWERS(TOO_MANY_KEYS, own.follow(child.look(), 6, &report));
    HOLDS(povundiri_recording_missed(own.recording, POVUNDIRI_MISSED_CHILD) == 0);
}

// After its end a recording takes nothing, and units may be given up; a recording that is none takes neither.
void without_a_recording() {
    povundiri_merge_report report = {};
    Child child(1);
    child.add("c", kBoolean, 1, 6);
    const Words words = child.look();
    {
        Own own("ended");
        povundiri_recording_end(own.recording);
        ANSWERS(EMPTY, own.follow(words, 6, &report));
        ANSWERS(EMPTY, povundiri_recording_merge(own.recording, words.data(), words.size(), 6, &report));
        ANSWERS(DONE, own.give_up(words, &report));
        HOLDS(report.left == 6 && povundiri_recording_missed(own.recording, POVUNDIRI_MISSED_CHILD) == 6);
    }
    Recording recording, empty;
    Follower of_none(kKeys);
    std::uint64_t given_up = 9;
    MergeReport none;
    RETURNS(Null, empty.try_follow(of_none, words, 6, none));
    RETURNS(Null, empty.try_merge(words, 6, none));
    RETURNS(Null, empty.try_give_up(of_none, words, given_up));
    HOLDS(opens(folder("ended"), recording) && units_in(recording.report(), "c") == -1);
}

// What is given up is missed once, and what comes later is added.
void given_up() {
    Recording recording;
    HOLDS(opens(folder("given-up"), recording));
    Child child(1);
    Follower follower(kKeys);
    child.add("c", kBoolean, 1, 6);
    FOLLOWS(recording, follower, child.look(), Status::Done, 6, 0);
    child.add("c", kBoolean, 0, 50);
    MergeReport report;
    const Words words = child.look();
    RETURNS(CostsMore, recording.try_follow(follower, words, 49, report));
    HOLDS(recording.missed() == 0 && recording.give_up(follower, words) == 50 && recording.missed(Missed::Child) == 50);
    HOLDS(recording.give_up(follower, words) == 0 && recording.missed(Missed::Child) == 50 && recording.missed() == 50);
    FOLLOWS(recording, follower, words, Status::Done, 0, 0);
    child.add("c", kBoolean, 1, 2);
    FOLLOWS(recording, follower, child.look(), Status::Done, 2, 0);
    HOLDS(has(recording, "c", 8, 8) && recording.report().find("\n!missed,child,50\n") != std::string::npos);
    HOLDS(recording.prometheus().find("\npovundiri_missed_total{reason=\"child\"} 50\n") != std::string::npos);
    HOLDS(recording.show().find("missed, child: 50\n") != std::string::npos);
    std::uint64_t units = 9;
    RETURNS(ImageTooShort, recording.try_give_up(follower, {}, units));
    HOLDS(units == 0 && recording.missed() == 50);
    // What was passed over is left, until it is given up.
    Child other(2);
    Follower of_other(kKeys);
    other.add("c", kSparse, 1, 30);
    FOLLOWS(recording, of_other, other.look(), Status::RefusedOtherSpec, 0, 30, "c");
    HOLDS(recording.give_up(of_other, other.look()) == 30 && recording.missed(Missed::Child) == 80);
    FOLLOWS(recording, of_other, other.look(), Status::Done, 0, 0);
}

// A histogram that does not fit in a page is passed over until segments have grown, and the others are added.
void too_large() {
    RecordingOptions options = small();
    options.bytes = 8'192;
    Recording recording;
    HOLDS(opens(folder("large"), recording, options));
    Child child(1);
    Follower follower(kKeys);
    child.add("large", {POVUNDIRI_LINEAR, 1, 100'000, 900}, 5, 3);
    child.add("usual", kBoolean, 1, 4);
    FOLLOWS(recording, follower, child.look(), Status::RefusedTooLarge, 4, 3, "large");
    count_many(child, 30);
    MergeReport report;
    (void)recording.try_follow(follower, child.look(), kEnough, report);
    HOLDS(report.added >= 60);
    FOLLOWS(recording, follower, child.look(), Status::Done, 0, 0);
    HOLDS(has(recording, "large", 3, 15) && has(recording, "usual", 4, 4) && has_many(recording, 30) && recording.missed() == 0);
}

// A call of which one allocation is refused adds nothing, or all; and each unit is added once.
void no_memory() {
    const std::string path = folder("memory");
    Recording recording;
    HOLDS(opens(path, recording, small()));
    const Metric both = metric_of(recording, "c", kLinear);
    Child child(1, 262'144);
    Follower follower(kKeys);
    count_many(child, 60);
    child.add("c", kBoolean, 1);
    MergeReport report;
    std::uint64_t added = 0, merged = 0;
    int number = 0;
    for (bool is_whole = false; !is_whole && number < 100'000; ++number) {
        child.add("h1", kLinear, 5);
        const Words words = child.look();
        const int before = refused;
        until_refused = number;
        Status status = recording.try_follow(follower, words, kEnough, report);
        is_whole = refused == before;
        until_refused = -1;
        added += report.added;
        HOLDS(report.name[0] != '\0' || status == Status::NoMemory || status == Status::RefusedNoMemory ||
              status == Status::ImageNoMemory || status == Status::RefusedFull);
        status = recording.try_follow(follower, words, kEnough, report);
        added += report.added;
        HOLDS(status == Status::RefusedOtherSpec && std::strcmp(report.name, "c") == 0 && report.left == 1);
    }
    HOLDS(number > 100 && added == 120 + static_cast<unsigned>(number) && units_in(recording.report(), "h1") == 2 + number);
    Child dead(2);
    dead.add("d", kBoolean, 1, 6);
    const Words last = dead.look();
    for (number = 0; merged == 0 && number < 1000; ++number) {
        until_refused = number;
        (void)recording.try_merge(last, kKeys, report);
        until_refused = -1;
        merged += report.added;
    }
    HOLDS(merged == 6 && number > 5 && has(recording, "d", 6, 6) && recording.missed() == 0 && both.add(5));
}

// ---- The folder ----

void full_disk() {
    Clock clock;
    Recording recording;
    HOLDS(opens(folder("disk"), recording, small()));
    Child child(1, 1 << 20);
    Follower follower(kKeys);
    for (int value = 0; value < 3000; ++value) child.add("s", kSparse, value, 3);
    const Words words = child.look();
    device_is_full = true;
    MergeReport report;
    RETURNS(RefusedFull, recording.try_follow(follower, words, kEnough, report));
    const std::uint64_t added = report.added;
    HOLDS(added > 0 && report.left == 9000 - added && std::strcmp(report.name, "s") == 0 && recording.missed() == 0);
    FOLLOWS(recording, follower, words, Status::RefusedFull, 0, 9000 - added, "s");
    device_is_full = false;
    clock.pass(1000);
    FOLLOWS(recording, follower, words, Status::Done, 9000 - added, 0);
    HOLDS(has(recording, "s", 9000, 13'495'500) && recording.missed() == 0);
}

// A device without room for what came is folded, amid the call: the first segment, which has 4,000,000,000 units, goes.
void room_by_fold() {
    const std::string path = folder("by-fold");
    Clock clock;
    Recording recording;
    HOLDS(opens(path, recording, small()));
    const Metric own = metric_of(recording, "own");
    HOLDS(own.add(1, kMost) && own.add(1, kMost) && segments_in(path) == 2);
    Child child(1, 262'144);
    Follower follower(kKeys);
    for (int value = 0; value < 1000; ++value) child.add("s", kSparse, value);
    device_is_full = is_freed_by_removal = true;
    FOLLOWS(recording, follower, child.look(), Status::Done, 1000, 0);
    HOLDS(!device_is_full && bytes_of(path + "/0000000001.seg") == -1 && has(recording, "s", 1000, 499'500));
    HOLDS(has(recording, "own", 2ULL * kMost, 2LL * kMost) && recording.missed() == 0);
}

// Where the files of the folder may have no more bytes together, it is folded, and all is added: these units take ten segments.
void folded() {
    const std::string path = folder("folded");
    RecordingOptions options = small();
    options.most_bytes = 4 * 16'400;
    Recording recording;
    HOLDS(opens(path, recording, options));
    Child child(1);
    Follower follower(kKeys);
    for (int i = 0; i < 10; ++i) {
        child.add("c", kBoolean, 1, 400'000'000);
        FOLLOWS(recording, follower, child.look(), Status::Done, 400'000'000, 0);
        Child dead(2);
        dead.add("d", kBoolean, 1, kMost);
        MergeReport report;
        DONE(recording.try_merge(dead.look(), kKeys, report));
        HOLDS(report.added == kMost && report.left == 0);
    }
    HOLDS(has(recording, "c", kMost, kMost) && has(recording, "d", 10ULL * kMost, 10LL * kMost) && recording.missed() == 0);
    HOLDS(segments_in(path) <= 4);
}

// There is no segment at all.
void no_segment() {
    Clock clock;
    Recording recording;
    device_is_full = true;
    HOLDS(opens(folder("none"), recording, small()) && recording.began().number == 0 && recording.began().fault == ENOSPC);
    Child child(1);
    Follower follower(kKeys);
    child.add("c", kBoolean, 1, 6);
    FOLLOWS(recording, follower, child.look(), Status::RefusedFull, 0, 0);
    MergeReport report;
    RETURNS(RefusedFull, recording.try_merge(child.look(), kKeys, report));
    HOLDS(report.added == 0 && recording.missed() == 0);
    device_is_full = false;
    clock.pass(1000);
    FOLLOWS(recording, follower, child.look(), Status::Done, 6, 0);
    HOLDS(has(recording, "c", 6, 6));
}

// What somebody removes is gone, as with samples; what comes later is counted. A text sees it, and within a second so does a call.
void removed() {
    for (const bool is_by_text : {true, false}) {
        const std::string path = folder(is_by_text ? "removed" : "removed-later");
        Clock clock;
        Recording recording;
        HOLDS(opens(path, recording));
        Child child(1);
        Follower follower(kKeys);
        child.add("c", kBoolean, 1, 6);
        FOLLOWS(recording, follower, child.look(), Status::Done, 6, 0);
        std::filesystem::remove_all(path);
        if (is_by_text) HOLDS(units_in(recording.report(), "c") == -1);
        clock.pass(1000);
        child.add("c", kBoolean, 1, 2);
        FOLLOWS(recording, follower, child.look(), Status::Done, 2, 0);
        HOLDS(recording.missed(Missed::Removed) == 6 && recording.missed() == 6 && has(recording, "c", 2, 2));
    }
}

// ---- Attacks ----

// As many histograms as the largest segment has room for, into segments that grow; and names of 128 bytes.
void largest() {
    for (const bool is_long : {false, true}) {
        const std::string path = folder(is_long ? "long" : "many"), tail = is_long ? std::string(122, 'x') : "";
        const int hists = is_long ? 25'000 : 60'000;
        Recording recording;
        RecordingOptions options = one_shard();
        options.apart = 1;
        HOLDS(opens(path, recording, options));
        Child child(1, 8 << 20);
        for (int i = 100'000; i < 100'000 + hists; ++i) child.add(std::to_string(i) + tail, kBoolean, 1);
        Follower follower(kKeys);
        MergeReport report;
        const Words words = child.look();
        std::uint64_t added = 0;
        for (int calls = 0; calls < 10 && added < static_cast<unsigned>(hists); ++calls) {
            // The dead one whose names are long is merged.
            const Status status =
                is_long ? recording.try_merge(words, kKeys, report) : recording.try_follow(follower, words, kEnough, report);
            HOLDS(status == Status::Done || (!is_long && status == Status::RefusedFull));
            added += report.added;
        }
        const std::string text = recording.report();
        HOLDS(added == static_cast<unsigned>(hists) && report.left == 0 && recording.missed() == 0 && segments_in(path) > 1);
        HOLDS(units_in(text, "100000" + tail) == 1 && units_in(text, std::to_string(99'999 + hists) + tail) == 1);
        HOLDS(text.find("\n!left") == std::string::npos);
    }
}

// Children fill segments of the largest size: metrics that need room count all the same, and children wait for the rest of a second.
void no_silence() {
    const std::string path = folder("silence");
    Clock clock;
    RecordingOptions options = one_shard();
    options.bytes = 8 << 20;
    Recording recording;
    HOLDS(opens(path, recording, options));
    const Metric own = metric_of(recording, "own");
    HOLDS(own.add(1));
    Child child(1, 8 << 20), other(2, 8 << 20);
    Follower follower(kKeys), of_other(kKeys);
    for (int value = 0; value < 100'000; ++value) {
        child.add("s", kSparse, value);
        other.add("s", kSparse, 200'000 + value);
    }
    FOLLOWS(recording, follower, child.look(), Status::Done, 100'000, 0);
    MergeReport report;
    RETURNS(RefusedFull, recording.try_follow(of_other, other.look(), kEnough, report));
    const std::uint64_t added = report.added;
    HOLDS(added > 0 && report.left == 100'000 - added && segments_in(path) == 1);
    for (int i = 0; i < 200; ++i) {
        const Metric metric = metric_of(recording, ("m" + std::to_string(i)).c_str(), kLinear);
        HOLDS(metric.add(5) && metric.add(900));
    }
    HOLDS(recording.missed() == 0 && segments_in(path) == 2);
    FOLLOWS(recording, of_other, other.look(), Status::RefusedFull, 0, 0);
    HOLDS(own.add(1) && segments_in(path) == 2);
    clock.pass(1000);
    FOLLOWS(recording, of_other, other.look(), Status::Done, 100'000 - added, 0);
    HOLDS(has(recording, "s", 200'000, 29'999'900'000) && has(recording, "own", 2, 2) && has(recording, "m199", 2, 905));
    HOLDS(recording.missed() == 0);
}

// A sample begins the next segment before its time once for what children counted in the present one, and not where they counted nothing.
void once_for_children() {
    const std::string path = folder("once");
    Clock clock;
    RecordingOptions options = small();
    options.apart = 3'600'000'000'000;
    Recording recording;
    HOLDS(opens(path, recording, options));
    const Metric own = metric_of(recording, "own");
    Child child(1);
    Follower follower(kKeys);
    HOLDS(own.add(1, kMost) && own.add(1, kMost) && segments_in(path) == 2);
    FOLLOWS(recording, follower, child.look(), Status::Done, 0, 0);
    HOLDS(!own.add(1, kMost) && recording.missed(Missed::Rolling) == kMost && segments_in(path) == 2);
    child.add("c", kBoolean, 1);
    FOLLOWS(recording, follower, child.look(), Status::Done, 1, 0);
    HOLDS(own.add(1, kMost) && segments_in(path) == 3);
    child.add("c", kBoolean, 1);
    FOLLOWS(recording, follower, child.look(), Status::RefusedFull, 0, 0);
    HOLDS(!own.add(1, kMost) && recording.missed() == 2ULL * kMost && segments_in(path) == 3);
    clock.pass(3'600'000);
    FOLLOWS(recording, follower, child.look(), Status::Done, 1, 0);
    HOLDS(has(recording, "c", 2, 2) && has(recording, "own", 3ULL * kMost, 3LL * kMost));
}

// ---- Processes and threads ----

void forks() {
    Recording recording;
    HOLDS(opens(folder("forks"), recording));
    Child child(1);
    Follower follower(kKeys);
    child.add("c", kBoolean, 1, 6);
    FOLLOWS(recording, follower, child.look(), Status::Done, 6, 0);
    child.add("c", kBoolean, 1, 2);
    const Words words = child.look();
    HOLDS(in_child([&] {
        MergeReport report;
        Follower mine(kKeys);
        std::uint64_t units = 9;
        if (recording.try_follow(follower, words, kEnough, report) != Status::Empty || report.added != 0) return false;
        if (recording.try_merge(words, kKeys, report) != Status::Empty) return false;
        if (recording.try_give_up(mine, words, units) != Status::Empty || units != 0 || recording.missed() != 0) return false;
        Recording own;
        if (!opens(folder("forks"), own)) return false;
        return own.try_follow(mine, words, kEnough, report) == Status::Done && report.added == 8;
    }));
    FOLLOWS(recording, follower, words, Status::Done, 2, 0);
    HOLDS(has(recording, "c", 16, 16) && recording.missed() == 0);
}

constexpr int kFollowers = 4, kRounds = 60;

// Counts in a child of its own and in a metric, and follows the child, until all is added.
void follow_one(Recording& recording, const Metric& own, int number, bool forks) {
    Child child(static_cast<std::uint64_t>(number + 1), 262'144);
    Follower follower(kKeys);
    MergeReport report;
    std::uint64_t added = 0;
    for (int round = 0; round < kRounds; ++round) {
        child.add("all", kBoolean, 1, 30'000'000);
        child.add("h" + std::to_string(number) + "." + std::to_string(round), kLinear, round, 2);
        child.add("s", kSparse, 1000 * number + round);
        HOLDS(own.add(1, 20'000'000));
        (void)recording.try_follow(follower, child.look(), kEnough, report);
        added += report.added;
        if (round % 20 == 19) recording.leave();
        if (forks && round % 10 == number) HOLDS(in_child([&] { return recording.try_follow(follower, {}, 0, report) == Status::Empty; }));
    }
    for (int calls = 0; calls < 100 && added < kRounds * 30'000'003ULL; ++calls) {
        (void)recording.try_follow(follower, child.look(), kEnough, report);
        added += report.added;
    }
    HOLDS(added == kRounds * 30'000'003ULL && report.left == 0);
}

void several(const char* name, bool forks) {
    Recording recording;
    HOLDS(opens(folder(name), recording, small()));
    const Metric own = metric_of(recording, "own");
    std::vector<std::thread> threads;
    for (int i = 0; i < kFollowers; ++i) threads.emplace_back([&, i] { follow_one(recording, own, i, forks); });
    for (std::thread& thread : threads) thread.join();
    constexpr std::uint64_t rounds = kFollowers * kRounds;
    HOLDS(has(recording, "all", rounds * 30'000'000, rounds * 30'000'000) &&
          has(recording, "own", rounds * 20'000'000, rounds * 20'000'000));
    // The values are 1000 n + r for four n and sixty r.
    HOLDS(has(recording, "s", rounds, 60 * 6000 + 4 * 1770) && has(recording, "h3.59", 2, 118) && recording.missed() == 0);
    HOLDS(segments_in(folder(name)) >= 3);
}

void threads() { several("threads", false); }

void forks_amid() { several("forks-amid", true); }

// More threads than there are recorders: those that share one follow with that, one after the other.
void shared_recorder() {
    constexpr int kThreads = 250, kSharers = 8, kTimes = 50, kHists = 100;
    Recording recording;
    HOLDS(opens(folder("shared"), recording));
    const Metric own = metric_of(recording, "own");
    recording.leave();
    Gate gate;
    std::vector<std::thread> threads, sharers;
    for (int i = 0; i < kThreads; ++i) {
        threads.emplace_back([&] {
            HOLDS(own.add(1));
            gate.wait();
        });
    }
    gate.wait_for(kThreads);
    for (std::uint64_t id = 1; id <= kSharers; ++id) {
        sharers.emplace_back([&, id] {
            Child child(id, 1 << 20);
            Follower follower(kKeys);
            for (int i = 0; i < kTimes; ++i) {
                child.add("c", kBoolean, 1, 100'000);
                count_many(child, kHists);
                FOLLOWS(recording, follower, child.look(), Status::Done, 100'000 + 2 * kHists, 0);
                HOLDS(own.add(1));
            }
        });
    }
    for (std::thread& thread : sharers) thread.join();
    gate.open_for(kThreads);
    for (std::thread& thread : threads) thread.join();
    constexpr std::uint64_t units = kSharers * kTimes * 100'000, samples = kThreads + kSharers * kTimes;
    HOLDS(has(recording, "c", units, units) && has(recording, "own", samples, samples) && has_many(recording, kHists, kSharers * kTimes));
    HOLDS(recording.missed() == 0 && !added_at_once);
}

// A thread that has followed holds its segment after the end, until its next call.
void ends_before() {
    const std::string path = folder("ends-before");
    povundiri_recording* own = nullptr;
    int fault = 0;
    DONE(static_cast<Status>(povundiri_recording_open(path.c_str(), nullptr, &own, &fault)));
    Gate followed, ended, told, folded;
    std::thread thread([&] {
        Child child(1);
        child.add("c", kBoolean, 1, 5);
        const Words words = child.look();
        ANSWERS(DONE, povundiri_recording_merge(own, words.data(), words.size(), kKeys, nullptr));
        followed.wait();
        ended.wait();
        ANSWERS(EMPTY, povundiri_recording_merge(own, words.data(), words.size(), kKeys, nullptr));
        told.wait();
        folded.wait();
    });
    std::uint64_t segments = 9;
    followed.open_for(1);
    povundiri_recording_end(own);
    DONE(static_cast<Status>(povundiri_recording_fold(own, &segments, &fault)));
    HOLDS(segments == 0);
    ended.open_for(1);
    told.open_for(1);
    DONE(static_cast<Status>(povundiri_recording_fold(own, &segments, &fault)));
    HOLDS(segments == 1 && units_beside(path, "c") == 5);
    folded.open_for(1);
    thread.join();
}

// The recording ends while threads follow: what the calls said is there, and its segments are final.
void ends_amid() {
    const std::string path = folder("ends");
    povundiri_recording* own = nullptr;
    int fault = 0;
    DONE(static_cast<Status>(povundiri_recording_open(path.c_str(), nullptr, &own, &fault)));
    std::atomic<std::uint64_t> added{0};
    std::atomic<int> calls{0};
    std::vector<std::thread> threads;
    for (std::uint64_t id = 1; id <= 3; ++id) {
        threads.emplace_back([&, id] {
            Child child(id);
            povundiri_handle follower = {};
            povundiri_merge_report report = {};
            DONE(static_cast<Status>(povundiri_follower_new(kKeys, &follower)));
            std::uint32_t status = POVUNDIRI_DONE;
            while (status == POVUNDIRI_DONE) {
                child.add("c", kBoolean, 1);
                const Words words = child.look();
                status = povundiri_recording_follow(own, &follower, words.data(), words.size(), kEnough, &report);
                added += report.added;
                ++calls;
            }
            ANSWERS(EMPTY, status);
            povundiri_drop(&follower);
        });
    }
    while (calls < 100) std::this_thread::yield();
    povundiri_recording_end(own);
    for (std::thread& thread : threads) thread.join();
    std::uint64_t folded = 0;
    DONE(static_cast<Status>(povundiri_recording_fold(own, &folded, &fault)));
    HOLDS(added >= 97 && folded >= 1 && folded <= 3 && segments_in(path) == 0 && units_beside(path, "c") == static_cast<long long>(added));
}

int run(bool only_threads) {
    int failed = group("threads that follow", threads);
    failed += group("a recorder that is shared", shared_recorder);
    failed += group("an end before", ends_before);
    failed += group("an end amid", ends_amid);
    if (only_threads) return failed;
    failed += group("mistakes", mistakes);
    failed += group("images", images);
    failed += group("without a recording", without_a_recording);
    failed += group("given up", given_up);
    failed += group("too large", too_large);
    failed += group("refused memory", no_memory);
    failed += group("a full disk", full_disk);
    failed += group("room by a fold", room_by_fold);
    failed += group("a folder that is folded", folded);
    failed += group("no segment", no_segment);
    failed += group("a removed folder", removed);
    failed += group("the largest images", largest);
    failed += group("no silence", no_silence);
    failed += group("once for children", once_for_children);
    failed += group("forks", forks);
    failed += group("forks amid", forks_amid);
    return failed;
}

}  // namespace

int main(int count, char** words) { return in_folder(count, words, run); }
