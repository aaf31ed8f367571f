// Families of recordings: 'recorded_families FOLDER [threads]'. Each group works in a folder of its own below that. With 'threads' only
// those are run that have threads and no children: for the thread sanitizer. It is linked with -Wl,--wrap=malloc.
#include <atomic>
#include <chrono>
#include <cstdlib>
#include <cstring>
#include <new>
#include <random>
#include <set>
#include <string>
#include <thread>
#include <vector>

#include "recorded.hpp"

namespace {

// How many requests for memory are still granted, of this thread; below 0 all are. And how many were refused.
thread_local long granted = -1;
std::atomic<long> refused{0};

bool is_refused() {
    if (granted < 0) return false;
    if (granted > 0) {
        --granted;
        return false;
    }
    ++refused;
    return true;
}

}  // namespace

extern "C" void* __real_malloc(std::size_t size);
extern "C" void* __wrap_malloc(std::size_t size) { return is_refused() ? nullptr : __real_malloc(size); }

[[gnu::noinline]] void* operator new(std::size_t size, const std::nothrow_t&) noexcept {
    return is_refused() ? nullptr : __real_malloc(size);
}
[[gnu::noinline]] void operator delete(void* at, const std::nothrow_t&) noexcept { std::free(at); }
[[gnu::noinline]] void operator delete(void* at) noexcept { std::free(at); }
[[gnu::noinline]] void operator delete(void* at, std::size_t) noexcept { std::free(at); }
[[gnu::noinline]] void* operator new(std::size_t size) {
    void* const at = __real_malloc(size);
    if (at == nullptr) std::abort();
    return at;
}

namespace {

using namespace std::chrono_literals;
using povundiri::Counter;
using povundiri::Family;
using povundiri::Timed;
using povundiri::Timer;
using std::chrono::microseconds;
using Micro = Timed<microseconds>;

Family<Micro> family_of(Recording& recording, std::size_t most) {
    return recording.scale_family<microseconds>("http_us", {"route", "method"}, 1us, 10s, 3, most);
}

// The units of the metric with these values.
long long units_of(Recording& recording, const std::string& route, const std::string& method) {
    return units_in(recording.report(), "http_us{method=" + method + ";route=" + route + "}");
}
long long others_in(Recording& recording) { return units_of(recording, "_other", "_other"); }

// Values come in the order of the keys, which are in a name by ascending keys. A metric is made when it is first asked for, and again is
// the same one.
void values() {
    Recording recording;
    HOLDS(opens(folder("values"), recording));
    const auto family = family_of(recording, 10);
    HOLDS(family.size() == 0 && others_in(recording) == 0);
    HOLDS(family.with({"/a", "GET"}).add(5us) && family.with({"/a", "PUT"}).add(5us, 2) && family.size() == 2);
    for (int turn = 0; turn < 100; ++turn) HOLDS(family.with({std::string("/a"), "GET"}).add(5us));
    HOLDS(family.size() == 2 && units_of(recording, "/a", "GET") == 101 && units_of(recording, "/a", "PUT") == 2);
    // Which value is of which key matters, and where one ends and the next begins.
    HOLDS(family.with({"GET", "/a"}).add(5us, 3) && family.with({"/aG", "ET"}).add(5us, 4) && family.size() == 4);
    HOLDS(units_of(recording, "GET", "/a") == 3 && units_of(recording, "/aG", "ET") == 4 && units_of(recording, "/a", "GET") == 101);
    HOLDS(recording.prometheus().find("\npovundiri_units_count{histogram=\"http_us\",method=\"GET\",route=\"/a\"} 101\n") !=
          std::string::npos);
    { Timer timer(family.with({"/a", "GET"})); }
    HOLDS(units_of(recording, "/a", "GET") == 102);
    // A copy is the same family; another one with the same names has the same histograms, and counts its own.
    const Family<Micro> copy = family, other = family_of(recording, 1);
    HOLDS(copy.with({"/b", "GET"}).add(5us) && family.size() == 5 && copy.size() == 5 && other.size() == 0);
    HOLDS(other.with({"/b", "GET"}).add(5us) && other.size() == 1 && units_of(recording, "/b", "GET") == 2 && others_in(recording) == 0);
    HOLDS(other.with({"/a", "GET"}).add(5us) && others_in(recording) == 1);
    // It is the histogram that a name makes, also of a segment that is continued.
    HOLDS(recording.scale<microseconds>(povundiri::name("http_us", {{"route", "/b"}, {"method", "GET"}}), 1us, 10s, 3).add(5us));
    HOLDS(units_of(recording, "/b", "GET") == 3);
    recording.end();
    HOLDS(opens(folder("values"), recording) && family_of(recording, 10).with({"/b", "GET"}).add(5us) &&
          units_of(recording, "/b", "GET") == 4);
}

// Families of numbers and of counters, and one without keys.
void kinds() {
    Recording recording;
    HOLDS(opens(folder("kinds"), recording));
    const Family<Metric> bytes = recording.scale_family("page.bytes", {"kind_of"}, 1, 1'000'000, 3, 4);
    const Family<Counter> requests = recording.counter_family("requests_total", {"method"}, 2);
    HOLDS(bytes.with({"css"}).add(2000) && bytes.with({"js"}).add(-1) && requests.with({"GET"}).add() && requests.with({"PUT"}).add(8));
    HOLDS(requests.with({"HEAD"}).add(3) && requests.with({"HEAD"}).add(2) && requests.with({"_other"}).add() && requests.size() == 2);
    const std::string report = recording.report();
    HOLDS(units_in(report, "page.bytes{kind_of=css}") == 1 && units_in(report, "page.bytes{kind_of=js}") == 1);
    HOLDS(units_in(report, "requests_total{method=GET}") == 1 && units_in(report, "requests_total{method=PUT}") == 8);
    HOLDS(units_in(report, "requests_total{method=_other}") == 6 && units_in(report, "requests_total{method=HEAD}") == -1);
    const auto none = recording.scale_family("plain", {}, 1, 1000, 3, 4);
    HOLDS(none.with({}).add(5) && none.with({"a"}).add(5) && none.size() == 0 && units_in(recording.report(), "plain") == 2);
}

// Beyond 'most' it is the one for others, and what was there stays.
void most() {
    Recording recording;
    HOLDS(opens(folder("most"), recording));
    const auto family = family_of(recording, 3), none = recording.scale_family<microseconds>("none_us", {"route"}, 1us, 10s, 3, 0);
    for (int turn = 0; turn < 3; ++turn) {
        for (int route = 0; route < 10; ++route) HOLDS(family.with({"/" + std::to_string(route), "GET"}).add(5us));
    }
    HOLDS(family.size() == 3 && others_in(recording) == 21);
    for (int route = 0; route < 10; ++route) HOLDS(units_of(recording, "/" + std::to_string(route), "GET") == (route < 3 ? 3 : -1));
    // The one for others does not count.
    const auto one = family_of(recording, 1);
    HOLDS(one.with({"_other", "_other"}).add(5us) && one.size() == 0 && one.with({"/0", "GET"}).add(5us) && one.size() == 1);
    HOLDS(others_in(recording) == 22 && units_of(recording, "/0", "GET") == 4);
    HOLDS(one.with({"_other", "GET"}).add(5us) && others_in(recording) == 23);
    HOLDS(none.with({"/a"}).add(5us, 2) && none.size() == 0 && units_in(recording.report(), "none_us{route=_other}") == 2);
    // No segment has more; the table for so many is made.
    const auto many = recording.counter_family("many_total", {"n"}, SIZE_MAX);
    HOLDS(many.with({"1"}).add() && many.size() == 1);
}

// Values that no name can have: of a few characters, empty, too long; too few or too many.
void bad_values() {
    Recording recording;
    HOLDS(opens(folder("bad"), recording));
    const auto family = family_of(recording, 100);
    const char* const bad[] = {"", " ", "a b", "a,b", "a\"b", "a;b", "\n", "\x7F", "caf\xC3\xA9"};
    for (const char* value : bad) HOLDS(family.with({value, "GET"}).add(5us) && family.with({"/a", value}).add(5us));
    HOLDS(others_in(recording) == 18 && family.size() == 0);
    // "http_us{method=GET;route=}" has 26 bytes.
    HOLDS(family.with({std::string(102, 'a'), "GET"}).add(5us) && family.size() == 1);
    HOLDS(family.with({std::string(103, 'a'), "GET"}).add(5us) && family.with({std::string(100'000, 'a'), "GET"}).add(5us));
    HOLDS(family.with({}).add(5us) && family.with({"/a"}).add(5us) && family.with({"/a", "GET", "b"}).add(5us) && family.size() == 1);
    HOLDS(others_in(recording) == 23 && units_of(recording, std::string(102, 'a'), "GET") == 1);
    const std::string zero("a\0b", 3);
    HOLDS(family.with({zero, "GET"}).add(5us) && others_in(recording) == 24);
}

// Each request for memory of 'with' is refused, and all after it: then it returns the one for others; and once there is memory, the metric.
void without_memory() {
    Recording recording;
    HOLDS(opens(folder("memory"), recording));
    const auto family = family_of(recording, 100);
    HOLDS(family.with({"/a", "GET"}).add(5us) && others_in(recording) == 0);
    long others = 0, made = 0;
    for (long number = 0; made == 0 && number < 1000; ++number) {
        const long before = refused;
        granted = number;
        const Micro metric = family.with({"/b", "GET"});
        granted = -1;
        HOLDS(metric.add(5us));
        if (refused == before || family.size() == 2) {
            ++made;
        } else {
            ++others;
        }
    }
    // The memory for the metric itself, and at least one request of the recording.
    HOLDS(others >= 2 && made == 1 && others_in(recording) == others && family.size() == 2 && units_of(recording, "/b", "GET") == 1);
    // What is there needs none.
    granted = 0;
    const Micro there = family.with({"/b", "GET"}), other = family.with({"/c", "GET"});
    granted = -1;
    HOLDS(there.add(5us) && other.add(5us) && units_of(recording, "/b", "GET") == 2 && others_in(recording) == others + 1);
    HOLDS(family.with({"/c", "GET"}).add(5us) && units_of(recording, "/c", "GET") == 1);
}

// After the end of the recording and without one.
void ended() {
    Recording recording;
    HOLDS(opens(folder("ended"), recording));
    const auto family = family_of(recording, 10);
    HOLDS(family.with({"/a", "GET"}).add(5us));
    recording.end();
    HOLDS(!family.with({"/a", "GET"}).add(5us) && !family.with({"/b", "GET"}).add(5us) && !family.with({"", ""}).add(5us));
    HOLDS(opens(folder("ended"), recording) && units_of(recording, "/a", "GET") == 1 && units_of(recording, "/b", "GET") == -1);
}

// In a child of fork all are missed, and none is made; while another thread of the parent holds what a new one takes.
void forked() {
    Recording recording;
    HOLDS(opens(folder("forked"), recording));
    const auto family = family_of(recording, 10);
    const auto many = recording.counter_family("many_total", {"route"}, 20'000);
    HOLDS(family.with({"/a", "GET"}).add(5us) && many.with({"first"}).add());
    std::atomic<bool> ends{false};
    std::thread busy([&] {
        for (int route = 0; !ends && route < 20'000; ++route) many.with({std::to_string(route)});
    });
    for (int child = 0; child < 20; ++child) {
        HOLDS(in_child([&] {
            const bool is_missed = !family.with({"/a", "GET"}).add(5us) && !family.with({"/b", "PUT"}).add(5us) &&
                                   !many.with({"first"}).add() && !many.with({"a new one"}).add() && !many.with({"new"}).add();
            Recording own;
            return is_missed && opens(folder("forked-child"), own) && family_of(own, 3).with({"/b", "PUT"}).add(5us);
        }));
    }
    ends = true;
    busy.join();
    HOLDS(units_of(recording, "/a", "GET") == 1 && units_of(recording, "/b", "PUT") == -1 && recording.missed() == 0);
    Recording children;
    HOLDS(opens(folder("forked-child"), children) && units_of(children, "/b", "PUT") == 20);
}

// Threads ask for the same metrics in another order each: each name is made once, no more than there may be, and no sample is lost.
void threads() {
    constexpr int kThreads = 8, kNames = 60, kRounds = 400;
    constexpr std::size_t kMost = 40;
    Recording recording;
    RecordingOptions options = one_shard();
    options.bytes = 4 << 20;
    HOLDS(!Recording::try_open(folder("threads"), recording, options));
    const auto family = family_of(recording, kMost);
    std::atomic<long> counted[kNames] = {};
    Gate gate;
    std::vector<std::thread> workers;
    for (unsigned thread = 0; thread < kThreads; ++thread) {
        workers.emplace_back([&, thread] {
            std::mt19937 chance(thread);
            gate.wait();
            for (int round = 0; round < kRounds; ++round) {
                const auto route = static_cast<int>(chance() % kNames);
                if (family.with({std::to_string(route), "GET"}).add(5us)) ++counted[route];
            }
        });
    }
    gate.open_for(kThreads);
    for (std::thread& worker : workers) worker.join();
    HOLDS(family.size() == kMost && recording.missed() == 0);
    const std::string report = recording.report();
    long long others = 0, made = 0, all = 0;
    for (int route = 0; route < kNames; ++route) {
        const long long units = units_in(report, "http_us{method=GET;route=" + std::to_string(route) + "}");
        // Each sample of a name that is there, and none of one that came too late.
        HOLDS(units == -1 || units == counted[route]);
        made += units == -1 ? 0 : 1;
        others += units == -1 ? counted[route].load() : 0;
        all += counted[route];
    }
    HOLDS(made == static_cast<long long>(kMost) && all == kThreads * kRounds);
    HOLDS(units_in(report, "http_us{method=_other;route=_other}") == others);
}

int run(bool with_threads_alone) {
    int failed = group("threads", threads);
    if (with_threads_alone) return failed;
    failed += group("values", values);
    failed += group("kinds", kinds);
    failed += group("as many as it may have", most);
    failed += group("values that no name can have", bad_values);
    failed += group("without memory", without_memory);
    failed += group("after the end", ended);
    failed += group("in a child of fork", forked);
    return failed;
}

}  // namespace

int main(int count, char** words) { return in_folder(count, words, run); }
