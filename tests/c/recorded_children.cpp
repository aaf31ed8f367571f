// Children that are followed and merged into a recording: 'recorded_children FOLDER'. Each group works in a folder of its own below that.
// What the folder has in the end was worked out by hand: it is what the children and the program counted.
#include <cstring>

#include "recorded_children.hpp"

namespace {

// ---- What is added ----

void followed() {
    Recording recording;
    HOLDS(opens(folder("followed"), recording));
    const Metric own = metric_of(recording, "own");
    HOLDS(own.add(1, 10));
    Child child(7);
    Follower follower(kKeys);
    child.add("calls", kBoolean, 1, 3);
    child.add("sizes", kLinear, 5, 2);
    child.add("sizes", kLinear, 700);
    const Words first = child.look();
    MergeReport report;
    DONE(recording.try_follow(follower, first, 6, report));
    HOLDS(report.added == 6 && report.left == 0 && report.cost == 6 && report.passed == 0 && report.stopped == POVUNDIRI_DONE);
    HOLDS(report.name[0] == '\0' && report.items == 0 && !report.full && !report.corrupt && report.size == sizeof report);
    HOLDS(has(recording, "calls", 3, 3) && has(recording, "sizes", 3, 710) && has(recording, "own", 10, 10));
    // The same image adds nothing, a later one what it has more.
    FOLLOWS(recording, follower, first, Status::Done, 0, 0);
    child.add("calls", kBoolean, 0, 4);
    child.add("more", kSparse, -9, 2);
    FOLLOWS(recording, follower, child.look(), Status::Done, 6, 0);
    HOLDS(has(recording, "calls", 7, 3) && has(recording, "sizes", 3, 710) && has(recording, "more", 2, -18));
    // A child's name is that of a metric with the same spec, too.
    HOLDS(metric_of(recording, "calls").add(1) && has(recording, "calls", 8, 4));
    child.add("own", kBoolean, 1);
    FOLLOWS(recording, follower, child.look(), Status::Done, 1, 0);
    HOLDS(has(recording, "own", 11, 11) && recording.missed() == 0 && segments_in(folder("followed")) == 1);
    HOLDS(recording.follow(follower, child.look(), 0).added == 0);
}

// The next start has it, and goes on.
void kept() {
    Child child(1);
    child.add("c", kBoolean, 1, 5);
    for (long long turn = 1; turn <= 3; ++turn) {
        Recording recording;
        Follower follower(kKeys);
        HOLDS(opens(folder("kept"), recording) && recording.began().adopted == (turn > 1));
        FOLLOWS(recording, follower, child.look(), Status::Done, 5, 0);
        HOLDS(units_in(recording.report(), "c") == 5 * turn);
    }
}

// A million units are lent at once; what costs more is lent alone; where a segment has not as many, the next one is begun.
void units() {
    const std::string path = folder("units");
    Recording recording;
    HOLDS(opens(path, recording, small()));
    const Metric own = metric_of(recording, "own");
    Child child(1), all(2);
    Follower follower(kKeys), of_all(kKeys);
    child.add("c", kBoolean, 1, 50'000'000);
    FOLLOWS(recording, follower, child.look(), Status::Done, 50'000'000, 0);
    HOLDS(own.add(1, kMost) && segments_in(path) == 1);
    child.add("c", kBoolean, 1, 400'000'000);
    MergeReport report;
    RETURNS(CostsMore, recording.try_follow(follower, child.look(), 399'999'999, report));
    HOLDS(report.cost == 400'000'000 && report.added == 0);
    FOLLOWS(recording, follower, child.look(), Status::Done, 400'000'000, 0);
    HOLDS(segments_in(path) == 2 && has(recording, "c", 450'000'000, 450'000'000));
    // All units of a segment: it takes a whole one, and a sample the one after that.
    all.add("a", kBoolean, 1, kAll);
    DONE(recording.try_follow(of_all, all.look(), UINT64_MAX, report));
    HOLDS(report.added == kAll && report.left == 0 && report.cost == kAll && segments_in(path) == 3);
    HOLDS(own.add(1, 7) && segments_in(path) == 4 && has(recording, "a", kAll, kAll));
    HOLDS(has(recording, "own", kMost + 7ULL, kMost + 7LL) && recording.missed() == 0);
}

// Where the units of one bucket are forged: more than a segment has are never added, whatever is allowed.
void forged_units() {
    Recording recording;
    HOLDS(opens(folder("forged"), recording));
    Child child(1);
    Follower follower(kKeys);
    child.add("f", kLinear, 5, 123'456'789);
    child.add("f", kLinear, 900, 123'456'789);
    Words words = child.look();
    int changed = 0;
    for (std::uint64_t& word : words) {
        if (word != 123'456'789) continue;
        word = kAll;
        ++changed;
    }
    MergeReport report;
    HOLDS(changed == 2);
    RETURNS(CostsMore, recording.try_follow(follower, words, UINT64_MAX, report));
    HOLDS(report.cost == 2ULL * kAll && report.added == 0 && report.name[0] == '\0' && segments_in(folder("forged")) == 1);
    RETURNS(CostsMore, recording.try_merge(words, kKeys, report));
    std::uint64_t given_up = 0;
    DONE(recording.try_give_up(follower, words, given_up));
    HOLDS(given_up == 2ULL * kAll && recording.missed(Missed::Child) == 2ULL * kAll && recording.missed() == 2ULL * kAll);
}

// ---- Rolls amid what is added ----

// Histograms that do not fit together in the first segments, which grow: all are there in the end. 16 KiB have room for nine.
void room() {
    const std::string path = folder("room");
    Recording recording;
    HOLDS(opens(path, recording, small()));
    Child child(1, 262'144);
    Follower follower(kKeys);
    count_many(child, 60);
    FOLLOWS(recording, follower, child.look(), Status::Done, 120, 0);
    HOLDS(has_many(recording, 60) && segments_in(path) > 2 && recording.missed() == 0);
    count_many(child, 60);
    FOLLOWS(recording, follower, child.look(), Status::Done, 120, 0);
    HOLDS(has_many(recording, 60, 2) && recording.missed() == 0);
}

// One histogram is cut short by the end of each segment: a value takes 64 bytes.
void cut() {
    const std::string path = folder("cut");
    Recording recording;
    HOLDS(opens(path, recording, small()));
    Child child(1, 1 << 20);
    Follower follower(kKeys);
    for (int value = 0; value < 3000; ++value) child.add("s", kSparse, value);
    FOLLOWS(recording, follower, child.look(), Status::Done, 3000, 0);
    HOLDS(has(recording, "s", 3000, 4'498'500) && segments_in(path) > 2 && recording.missed() == 0);
}

// Too few units, and then no room.
void units_and_room() {
    const std::string path = folder("both");
    Recording recording;
    HOLDS(opens(path, recording, small()));
    HOLDS(metric_of(recording, "own").add(0, kAll - 500'000));
    Child child(1, 262'144);
    Follower follower(kKeys);
    count_many(child, 60, 10'000);
    MergeReport report;
    DONE(recording.try_follow(follower, child.look(), kEnough, report));
    HOLDS(report.added == 1'200'000 && report.left == 0 && report.cost == 1'200'000 && report.passed == 0);
    HOLDS(has_many(recording, 60, 10'000) && segments_in(path) > 3 && recording.missed() == 0);
}

// By default a segment is not followed within a millisecond: what found no room is left, and added by later calls.
void left() {
    Clock clock;
    RecordingOptions options = one_shard();
    options.bytes = 16'384;
    Recording recording;
    HOLDS(opens(folder("left"), recording, options));
    Child child(1, 262'144);
    Follower follower(kKeys);
    count_many(child, 60);
    const Words words = child.look();
    MergeReport report;
    std::uint64_t added = 0;
    int calls = 0;
    while (calls < 10 && recording.try_follow(follower, words, kEnough, report) != Status::Done) {
        HOLDS(report.stopped == POVUNDIRI_REFUSED_FULL && report.name[0] == 'h' && report.passed > 0);
        added += report.added;
        HOLDS(report.left == 120 - added && report.added > 0);
        clock.pass(2);
        ++calls;
    }
    HOLDS(calls > 0 && calls < 10 && added + report.added == 120 && report.left == 0 && has_many(recording, 60) && recording.missed() == 0);
}

// ---- Dead segments ----

// Only what no delta took is added, also across segments.
void merged() {
    const std::string path = folder("merged");
    Recording recording;
    HOLDS(opens(path, recording, small()));
    Child child(1, 262'144);
    count_many(child, 60);
    for (int i = 0; i < 60; i += 2) child.take("h" + std::to_string(i), kLinear);
    child.add("h0", kLinear, 5, 3);
    const Words words = child.look();
    MergeReport report;
    DONE(recording.try_merge(words, kKeys, report));
    HOLDS(report.added == 63 && report.left == 0 && report.cost == 63 && report.passed == 0 && report.name[0] == '\0');
    std::string text = recording.report();
    for (int i = 0; i < 60; ++i) {
        HOLDS(units_in(text, "h" + std::to_string(i)) == (i == 0 ? 3 : i % 2 == 0 ? -1 : 2));
    }
    HOLDS(has(recording, "h0", 3, 15) && has(recording, "h1", 2, 905) && segments_in(path) > 2);
    // Once more it is added again: it is for a segment that is merged once.
    HOLDS(recording.merge(words, kKeys).added == 63 && has(recording, "h1", 4, 1810));
    RETURNS(TooManyKeys, recording.try_merge(words, 5999, report));
    HOLDS(report.added == 0 && report.size == sizeof report);
    RETURNS(ImageTooShort, recording.try_merge({}, kKeys, report));
    DONE(recording.try_merge(Child(3).look(), 0, report));
    HOLDS(report.added == 0 && recording.missed() == 0);
}

// A child that was followed while it lived is dead: its last look goes through the same follower.
void last_look() {
    Recording recording;
    Follower follower(kKeys);
    HOLDS(opens(folder("last"), recording));
    Words last;
    {
        Child child(1);
        child.add("c", kBoolean, 1, 5);
        FOLLOWS(recording, follower, child.look(), Status::Done, 5, 0);
        child.add("c", kBoolean, 0, 6);
        last = child.look();
    }
    FOLLOWS(recording, follower, last, Status::Done, 6, 0);
    HOLDS(has(recording, "c", 11, 5));
}

// ---- Names ----

// A metric has its name in each segment, also where it has counted nothing yet: the child's other spec is passed over, and the rest is
// added.
void metric_first() {
    const std::string path = folder("metric-first");
    Recording recording;
    HOLDS(opens(path, recording, small()));
    const Metric both = metric_of(recording, "both.and.more", kLinear), own = metric_of(recording, "own"),
                 b = metric_of(recording, "b", kSparse);
    Child child(1);
    Follower follower(kKeys);
    MergeReport report;
    for (unsigned turn = 1; turn <= 3; ++turn) {
        child.add("b", kBoolean, 1, 2);
        child.add("both.and.more", kBoolean, 1, 3);
        child.add("rest", kBoolean, 1, 4);
        RETURNS(RefusedOtherSpec, recording.try_follow(follower, child.look(), kEnough, report));
        HOLDS(report.added == 4 && report.left == 5 * turn && report.passed == 2 && std::strcmp(report.name, "b") == 0);
        HOLDS(units_in(recording.report(), "rest") == 4 * turn && units_in(recording.report(), "both.and.more") == 0);
        HOLDS(segments_in(path) == turn && own.add(1, kMost) && (turn > 1 || own.add(1, kMost)) && segments_in(path) == turn + 1);
    }
    HOLDS(both.add(5) && b.add(7) && has(recording, "both.and.more", 1, 5) && has(recording, "b", 1, 7));
    HOLDS(recording.report().find("!other") == std::string::npos && recording.missed() == 0);
}

// Behind a histogram that is passed over for its spec there are some that find no room: the next segments are begun for them.
void behind_another() {
    Recording recording;
    HOLDS(opens(folder("behind"), recording, small()));
    const Metric metric = metric_of(recording, "a", kSparse);
    Child child(1, 262'144);
    Follower follower(kKeys);
    child.add("a", kBoolean, 1, 7);
    count_many(child, 60);
    FOLLOWS(recording, follower, child.look(), Status::RefusedOtherSpec, 120, 7, "a");
    HOLDS(has_many(recording, 60) && segments_in(folder("behind")) > 2 && metric.add(1) && recording.missed() == 0);
}

// Bytes after a name in its last word are ignored by readers: a child may have any there, and the metric has its name all the same.
void forged_name() {
    Recording recording;
    HOLDS(opens(folder("forged-name"), recording, small()));
    const Metric own = metric_of(recording, "own"), metric = metric_of(recording, "b", kLinear);
    Child child(1);
    Follower follower(kKeys);
    child.add("b", kBoolean, 1, 7);
    Words words = child.look();
    int changed = 0;
    for (std::size_t i = 1; i < words.size(); ++i) {
        if (words[i - 1] != 1 || words[i] != 'b') continue;
        words[i] |= 0xA5A5'A500;
        ++changed;
    }
    HOLDS(changed == 1 && own.add(1, kMost) && own.add(1, kMost));
    FOLLOWS(recording, follower, words, Status::RefusedOtherSpec, 0, 7, "b");
    HOLDS(metric.add(5) && has(recording, "b", 1, 5) && segments_in(folder("forged-name")) == 2);
}

// The child has the name in the present segment, and then a metric comes: it counts at once, in the next segment.
void child_first() {
    const std::string path = folder("child-first");
    Recording recording;
    HOLDS(opens(path, recording));
    Child child(1);
    Follower follower(kKeys);
    child.add("n", kBoolean, 1, 3);
    FOLLOWS(recording, follower, child.look(), Status::Done, 3, 0);
    Metric metric, other;
    DONE(recording.try_hist("n", kLinear, {}, metric));
    HOLDS(metric.add(5, 2) && segments_in(path) == 2 && recording.missed() == 0);
    child.add("n", kBoolean, 1, 4);
    FOLLOWS(recording, follower, child.look(), Status::RefusedOtherSpec, 0, 4, "n");
    HOLDS(metric.add(6) && segments_in(path) == 2);
    // The texts have the first spec of a name, and of the other one how many units there are.
    HOLDS(has(recording, "n", 3, 3) && recording.report().find("\n!other,n,1,3\n") != std::string::npos);
    // A program that asks for the name with two specs begins no segment for it, however often it follows.
    RETURNS(RefusedOtherSpec, recording.try_hist("n", kSparse, {}, other));
    for (unsigned i = 1; i <= 20; ++i) {
        child.add("rest", kBoolean, 1);
        FOLLOWS(recording, follower, child.look(), Status::RefusedOtherSpec, 1, 4, "n");
        HOLDS(!other.add(1) && recording.missed(Missed::OtherSpec) == i && metric.add(1) && segments_in(path) == 2);
    }
}

// Two children have a name with two specs: in each segment the first one has it.
void two_specs() {
    const std::string path = folder("two-specs");
    Recording recording;
    HOLDS(opens(path, recording, small()));
    const Metric own = metric_of(recording, "own");
    Child one(1), other(2);
    Follower of_one(kKeys), of_other(kKeys);
    one.add("n", kBoolean, 1, 3);
    other.add("n", kSparse, 9, 4);
    other.add("o", kSparse, 9, 5);
    FOLLOWS(recording, of_one, one.look(), Status::Done, 3, 0);
    FOLLOWS(recording, of_other, other.look(), Status::RefusedOtherSpec, 5, 4, "n");
    FOLLOWS(recording, of_other, other.look(), Status::RefusedOtherSpec, 0, 4, "n");
    HOLDS(own.add(1, kMost) && own.add(1, kMost) && segments_in(path) == 2);
    FOLLOWS(recording, of_other, other.look(), Status::Done, 4, 0);
    one.add("n", kBoolean, 1, 2);
    FOLLOWS(recording, of_one, one.look(), Status::RefusedOtherSpec, 0, 2, "n");
    HOLDS(has(recording, "n", 3, 3) && has(recording, "o", 5, 45) && recording.report().find("\n!other,n,1,4\n") != std::string::npos);
    HOLDS(recording.missed() == 0);
}

int run() {
    int failed = group("followed", followed);
    failed += group("kept", kept);
    failed += group("units", units);
    failed += group("forged units", forged_units);
    failed += group("room", room);
    failed += group("cut", cut);
    failed += group("units and room", units_and_room);
    failed += group("left", left);
    failed += group("merged", merged);
    failed += group("the last look", last_look);
    failed += group("a metric before", metric_first);
    failed += group("behind another spec", behind_another);
    failed += group("a forged name", forged_name);
    failed += group("a metric after", child_first);
    failed += group("two specs of children", two_specs);
    return failed;
}

}  // namespace

int main(int count, char** words) { return in_folder(count, words, run); }
