// Recorders that join and borrow by themselves: recorders FOLDER. Threads come and go, recorders outlive their segment, and none spends
// what another has.

#include <array>
#include <chrono>
#include <memory>
#include <optional>
#include <thread>

#include "checks.hpp"

namespace {

using povundiri::Counts;
using povundiri::Hist;
using povundiri::Policy;
using povundiri::Recorder;
using povundiri::Segment;
using povundiri::Status;
using povundiri::Value;

constexpr povundiri::Shape kShape = povundiri::shape(4096, 256, 7, 1);
constexpr std::uint32_t kAll = UINT32_MAX;

std::string folder;

static_assert(!std::is_constructible_v<Recorder, Segment&&> && !std::is_assignable_v<Recorder&, Segment&&>);
static_assert(!std::is_constructible_v<Segment, Recorder&&> && !std::is_assignable_v<Segment&, Recorder&&>);
static_assert(std::is_nothrow_move_constructible_v<Recorder> && std::is_nothrow_move_assignable_v<Segment>);
static_assert(noexcept(std::declval<Recorder&>().add(Hist(), 1)) && noexcept(std::declval<Recorder&>().batch(Hist(), {}, 0)));
static_assert(noexcept(std::declval<Recorder&>().try_delta(Hist(), std::declval<Counts&>())));
static_assert(!std::is_convertible_v<double, Value>);

std::uint32_t units_of(const Segment& segment) {
    std::uint32_t units = 0;
    DONE(segment.try_units(units));
    return units;
}

std::uint32_t units_of(const Recorder& recorder) {
    std::uint32_t units = 0;
    DONE(recorder.try_units(units));
    return units;
}

std::uint32_t outstanding_of(const Segment& segment) {
    std::uint32_t outstanding = kAll;
    DONE(segment.try_outstanding(outstanding));
    return outstanding;
}

std::uint64_t total_of(Segment& segment) {
    Recorder recorder;
    Hist hist;
    Counts counts;
    DONE(segment.try_recorder(recorder));
    DONE(recorder.try_boolean("b", hist));
    DONE(recorder.try_snapshot(hist, counts));
    return counts.redundant();
}

// Whether a recorder of its own counted one.
bool counts_one(Segment& segment) {
    Recorder recorder;
    Hist hist;
    return segment.try_recorder(recorder) == Status::Done && recorder.try_boolean("b", hist) == Status::Done && recorder.add(hist, 1);
}

// How many threads come and go, four at a time; fewer under the thread sanitizer, which remembers each. There a stand-in, whose segments
// have no words, takes the place of the proved functions.
#if defined(STAND_IN)
constexpr int kComing = 8'000;
constexpr bool kHasWords = false;
#else
constexpr int kComing = 100'000;
constexpr bool kHasWords = true;
#endif

// Every second has its recorder as a thread_local.
void threads_come_and_go() {
    constexpr int kAtATime = 4, kEach = kComing / kAtATime;
    static Segment segment;
    DONE(Segment::try_create(kShape, segment));
    std::array<int, kAtATime> counted{};
    const auto one_after_the_other = [](int& number) {
        for (int i = 0; i < kEach; ++i) {
            std::thread([&number, i] {
                if (i % 2 == 0) {
                    number += counts_one(segment);
                } else {
                    thread_local Recorder recorder;
                    Hist hist;
                    const bool made = segment.try_recorder(recorder) == Status::Done && recorder.try_boolean("b", hist) == Status::Done;
                    number += made && recorder.add(hist, 1);
                }
            }).join();
        }
    };
    std::array<std::thread, kAtATime> running;
    for (int i = 0; i < kAtATime; ++i) running[i] = std::thread(one_after_the_other, std::ref(counted[i]));
    for (std::thread& thread : running) thread.join();
    for (const int number : counted) HOLDS(number == kEach);
    HOLDS(outstanding_of(segment) == 0 && units_of(segment) == kAll - kAtATime * kEach && total_of(segment) == kAtATime * kEach);
    std::vector<std::uint64_t> image;
    DONE(segment.try_close(image));
}

// Calls of one segment from all threads at once, with nothing but the segment's own mutex.
void calls_at_once() {
    constexpr int kThreads = 4, kTurns = 2000;
    Segment segment;
    DONE(Segment::try_create(kShape, segment));
    std::array<int, kThreads> counted{};
    std::array<std::thread, kThreads> running;
    for (int i = 0; i < kThreads; ++i) {
        running[i] = std::thread([&segment, &number = counted[i]] {
            for (int turn = 0; turn < kTurns; ++turn) {
                Recorder recorder;
                Hist hist;
                if (segment.try_recorder(recorder, 3) != Status::Done || recorder.try_boolean("b", hist) != Status::Done) continue;
                for (int sample = 0; sample < 10; ++sample) number += recorder.add(hist, 1);
                if (units_of(segment) < outstanding_of(segment)) number = 0;
                if (turn % 2 == 0) DONE(segment.try_join(recorder));
            }
        });
    }
    for (std::thread& thread : running) thread.join();
    for (const int number : counted) HOLDS(number == 10 * kTurns);
    HOLDS(outstanding_of(segment) == 0 && units_of(segment) == kAll - 10 * kThreads * kTurns);
}

void places_come_back() {
    Segment segment, other;
    DONE(Segment::try_create(kShape, segment));
    DONE(Segment::try_create(kShape, other));
    std::array<Recorder, 256> recorders;
    for (Recorder& recorder : recorders) DONE(segment.try_recorder(recorder, 1000));
    Recorder more;
    RETURNS(RefusedTooMany, segment.try_recorder(more));
    HOLDS(!more && units_of(segment) == kAll - 256 * 1000);
    recorders[0].reset();
    DONE(segment.try_recorder(more, 1000));
    RETURNS(NotEmpty, segment.try_recorder(more));
    RETURNS(OtherSegment, other.try_join(more));
    RETURNS(OtherSegment, other.try_lend(more, 1));
    HOLDS(bool(more) && outstanding_of(segment) == 256 && outstanding_of(other) == 0);
    RETURNS(Empty, segment.try_join(recorders[0]));
    recorders = {};
    HOLDS(outstanding_of(segment) == 1 && units_of(segment) == kAll - 1000);
}

void assignment_joins() {
    Segment segment;
    DONE(Segment::try_create(kShape, segment));
    Recorder one, other;
    Hist hist;
    DONE(segment.try_recorder(one, 10));
    DONE(segment.try_recorder(other, 20));
    DONE(other.try_boolean("b", hist));
    one = std::move(other);
    HOLDS(outstanding_of(segment) == 1 && units_of(segment) == kAll - 20 && units_of(one) == 20);
    DONE(one.try_add(hist, 1));
    RETURNS(Empty, other.try_add(hist, 1));
    HOLDS(!other.add(hist, 1) && !other);
    Recorder& itself = one;
    one = std::move(itself);
    DONE(one.try_add(hist, 1));
    Recorder third(std::move(one));
    DONE(third.try_add(hist, 1));
    third = Recorder();
    HOLDS(outstanding_of(segment) == 0 && units_of(segment) == kAll - 3);
}

void is_of_its_recorder() {
    Segment segment;
    DONE(Segment::try_create(kShape, segment));
    std::optional<Recorder> one(std::in_place), other(std::in_place);
    DONE(segment.try_recorder(*one));
    DONE(segment.try_recorder(*other));
    Hist ones, others;
    DONE(one->try_boolean("b", ones));
    DONE(other->try_boolean("b", others));
    Counts counts;
    std::size_t added = 9;
    RETURNS(Unknown, one->try_add(others, 1));
    RETURNS(Unknown, other->try_add(ones, 1));
    RETURNS(Unknown, one->try_add(Hist(), 1));
    RETURNS(Unknown, one->try_batch(others, {{1, 1}}, 1, added));
    RETURNS(Unknown, one->try_delta(others, counts));
    RETURNS(Unknown, one->try_snapshot(Hist(), counts));
    HOLDS(!one->add(others, 1) && !one->batch(others, {{1, 1}}, 1) && added == 9);
    RETURNS(Empty, Recorder().try_add(Hist(), 1));
    RETURNS(Empty, Recorder().try_delta(ones, counts));
    // A recorder at the address of one that has ended.
    one.reset();
    one.emplace();
    DONE(segment.try_recorder(*one));
    Hist again;
    DONE(one->try_boolean("b", again));
    RETURNS(Unknown, one->try_add(ones, 1));
    DONE(one->try_add(again, 1));
    one.reset();
    other.reset();
    HOLDS(units_of(segment) == kAll - 1);
}

void borrows() {
    Segment segment;
    DONE(Segment::try_create(kShape, segment));
    Recorder recorder, other;
    Hist hist, others;
    DONE(segment.try_recorder(recorder, 1000));
    DONE(segment.try_recorder(other, 0));
    HOLDS(units_of(recorder) == 1000 && units_of(other) == 0);
    DONE(recorder.try_boolean("b", hist));
    DONE(other.try_boolean("b", others));
    HOLDS(recorder.add(hist, 1, 1000) && units_of(recorder) == 0);
    HOLDS(recorder.add(hist, 1) && units_of(recorder) == 999 && units_of(segment) == kAll - 2000);
    HOLDS(recorder.add(hist, 1, 5000) && units_of(recorder) == 999 && units_of(segment) == kAll - 7000);
    HOLDS(recorder.batch(hist, {{0, 700}, {1, 300}}, 0) && units_of(recorder) == 999);
    // A sum costs a unit for each 2^31, rounded up.
    HOLDS(recorder.batch(hist, {{1, 1}}, 3'000LL << 31) && recorder.batch(hist, {{1, 1}}, -(1'000'000LL << 31) - 1));
    HOLDS(other.add(others, 1, 7) && units_of(other) == 0);
    DONE(segment.try_lend(other, 25));
    HOLDS(units_of(other) == 25);
    // The most that a lease takes is half of what is left.
    HOLDS(recorder.add(hist, 1, units_of(recorder)) && recorder.add(hist, 1, units_of(segment) - 600) && units_of(segment) == 600);
    HOLDS(units_of(recorder) == 0 && recorder.add(hist, 1) && units_of(recorder) == 299 && units_of(segment) == 300);
    // What is refused moves no unit.
    RETURNS(RefusedNoUnits, recorder.try_add(hist, 1, 600));
    RETURNS(RefusedNoUnits, segment.try_lend(recorder, 301));
    HOLDS(units_of(recorder) == 299 && units_of(segment) == 300);
    // All that is left, to the last.
    HOLDS(recorder.add(hist, 1, 599) && units_of(recorder) == 0 && units_of(segment) == 0);
    RETURNS(RefusedNoUnits, recorder.try_add(hist, 1));
    HOLDS(!recorder.add(hist, 1) && other.add(others, 1, 25) && !other.add(others, 1));
    Recorder last;
    DONE(segment.try_recorder(last));
    HOLDS(units_of(last) == 0);
}

// One unit at a time, so that each add borrows.
void spends_all() {
    Segment segment;
    DONE(Segment::try_create(kShape, segment));
    Recorder one, other;
    Hist ones, others;
    DONE(segment.try_recorder(one, 1));
    DONE(segment.try_recorder(other, 4));
    DONE(one.try_boolean("b", ones));
    DONE(other.try_boolean("b", others));
    DONE(one.try_add(ones, 1, kAll - 1000));
    std::uint32_t more = 0, before = 1;
    while (more != before) {
        before = more;
        more += one.add(ones, 1);
        more += other.add(others, 1);
    }
    HOLDS(more == 1000);
    HOLDS(units_of(segment) == 0 && units_of(one) == 0 && units_of(other) == 0);
}

void outlives_its_segment() {
    const std::string path = folder + "/outlived.seg";
    Recorder recorder;
    Hist hist;
    {
        povundiri::Opened opened;
        HOLDS(!Segment::try_open(path.c_str(), kShape, Policy::AdoptOrFail, opened));
        HOLDS(opened.outcome() == povundiri::Outcome::Made);
        DONE(opened.segment.try_recorder(recorder, 2));
        DONE(recorder.try_boolean("b", hist));
    }
    for (int i = 0; i < 100; ++i) DONE(recorder.try_add(hist, 1));
    povundiri::Opened opened;
    HOLDS(Segment::try_open(path.c_str(), kShape, Policy::AdoptOrFail, opened) == std::errc::device_or_resource_busy && !opened.segment);
    recorder.reset();
    HOLDS(!Segment::try_open(path.c_str(), kShape, Policy::AdoptOrFail, opened));
    if (kHasWords) HOLDS(opened.outcome() == povundiri::Outcome::Adopted && total_of(opened.segment) == 100);

    Segment heap;
    DONE(Segment::try_create(kShape, heap));
    DONE(heap.try_recorder(recorder));
    DONE(recorder.try_boolean("b", hist));
    heap = Segment();
    DONE(recorder.try_add(hist, 1));
}

void closes() {
    Segment segment;
    Recorder recorder;
    std::vector<std::uint64_t> image;
    RETURNS(Empty, segment.try_close(image));
    DONE(Segment::try_create(kShape, segment));
    RETURNS(NotEmpty, Segment::try_create(kShape, segment));
    DONE(segment.try_recorder(recorder));
    RETURNS(InUse, segment.try_close(image));
    recorder.reset();
    DONE(segment.try_close(image));
    HOLDS(!segment);
    RETURNS(Empty, segment.try_recorder(recorder));
    RETURNS(Empty, segment.try_close(image));
    DONE(Segment::try_create(kShape, segment));
    HOLDS(bool(segment) && outstanding_of(segment) == 0);
}

void saturates() {
    constexpr std::int32_t kLeast = INT32_MIN, kGreatest = INT32_MAX;
    static_assert(Value(17).get() == 17 && Value(-5L).get() == -5 && Value(true).get() == 1 && Value('a').get() == 97);
    static_assert(Value(std::int64_t{kGreatest}).get() == kGreatest && Value(std::int64_t{kGreatest} + 1).get() == kGreatest);
    static_assert(Value(INT64_MAX).get() == kGreatest && Value(INT64_MIN).get() == kLeast &&
                  Value(std::int64_t{kLeast} - 1).get() == kLeast);
    static_assert(Value(UINT64_MAX).get() == kGreatest && Value(UINT32_MAX).get() == kGreatest && Value(std::size_t{3}).get() == 3);
    static_assert(Value(std::uint8_t{200}).get() == 200 && Value(std::int16_t{-200}).get() == -200);
    static_assert(!std::is_constructible_v<Value, std::chrono::microseconds> && !std::is_convertible_v<std::chrono::seconds, Value>);
}

void keeps_its_room() {
    Segment segment;
    Recorder recorder;
    Hist hist;
    Counts counts;
    DONE(Segment::try_create(kShape, segment));
    DONE(segment.try_recorder(recorder));
    DONE(recorder.try_sparse("s", hist));
    HOLDS(counts.units().empty());
    DONE(recorder.try_add(hist, 3, 2));
    DONE(recorder.try_delta(hist, counts));
    HOLDS(counts.units().size() == 1);
    const povundiri::Count* const room = counts.units().data();
    for (int i = 0; i < 20; ++i) {
        DONE(recorder.try_add(hist, i));
        DONE(recorder.try_delta(hist, counts));
        HOLDS(counts.units().data() == room && counts.units().size() == 1);
        DONE(recorder.try_snapshot(hist, counts));
        HOLDS(counts.units().data() == room);
    }
    Counts moved(std::move(counts));
    HOLDS(moved.units().data() == room && counts.units().empty() && counts.redundant() == 0);
}

}  // namespace

int main(int count, char** words) {
    if (count != 2) return 2;
    folder = words[1];
    int failed = group("threads come and go", threads_come_and_go);
    failed += group("calls at once", calls_at_once);
    failed += group("places come back", places_come_back);
    failed += group("a move assignment joins", assignment_joins);
    failed += group("a histogram is of its recorder", is_of_its_recorder);
    failed += group("recorders borrow", borrows);
    failed += group("to the last unit", spends_all);
    failed += group("a recorder outlives its segment", outlives_its_segment);
    failed += group("closing", closes);
    failed += group("values saturate", saturates);
    failed += group("counts keep their room", keeps_its_room);
    return failed != 0;
}
