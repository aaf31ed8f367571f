// Times, timers and counters of recordings: 'recorded_times FOLDER'. Each group works in a folder of its own below that. Values are worked
// out by hand, and read back as the sums of reports.
#include <chrono>
#include <limits>
#include <memory>
#include <thread>

#include "recorded.hpp"

namespace {

using namespace std::chrono_literals;
using povundiri::Counter;
using povundiri::Timed;
using povundiri::Timer;
using std::chrono::hours;
using std::chrono::microseconds;
using std::chrono::milliseconds;
using std::chrono::nanoseconds;
using Micro = Timed<microseconds>;
using Clock = std::chrono::steady_clock;

constexpr long long kGreatest = 2'147'483'646;

// The sum of a histogram in a report; -1 if it has none.
long long sum_in(const std::string& report, const std::string& name) {
    const std::string begins = "\n" + name + ",total,", text = "\n" + report;
    const std::size_t at = text.find(begins);
    return at == std::string::npos ? -1 : std::stoll(text.substr(text.find(',', at + begins.size()) + 1));
}

bool has_line(const std::string& report, const std::string& line) { return ("\n" + report).find("\n" + line + "\n") != std::string::npos; }

Micro latency_of(Recording& recording) { return recording.scale<microseconds>("request_us", 1us, 10s, 5); }

// Adds a time, and returns what the sum has risen by.
template <typename Time>
long long counted(Recording& recording, const Micro& latency, Time time) {
    const long long before = sum_in(recording.report(), "request_us");
    HOLDS(latency.add(time));
    return sum_in(recording.report(), "request_us") - before;
}

void times() {
    using Seconds = std::chrono::duration<double>;
    Recording recording;
    HOLDS(opens(folder("times"), recording));
    const Micro latency = latency_of(recording);
    DONE(latency.status());
    HOLDS(counted(recording, latency, 3s) == 3'000'000 && counted(recording, latency, 1'999ns) == 1 &&
          counted(recording, latency, 1ms) == 1000);
    HOLDS(counted(recording, latency, -1s) == 0 && counted(recording, latency, hours::min()) == 0);
    HOLDS(counted(recording, latency, 2h) == kGreatest && counted(recording, latency, hours::max()) == kGreatest);
    HOLDS(counted(recording, latency, nanoseconds::max()) == kGreatest && counted(recording, latency, Seconds(0.3)) == 300'000);
    HOLDS(counted(recording, latency, Seconds(std::numeric_limits<double>::quiet_NaN())) == 0);
    HOLDS(counted(recording, latency, Seconds(1e300)) == kGreatest);
    // The number of units, and a metric of numbers, which are of the unit.
    HOLDS(latency.add(2ms, 3) && units_in(recording.report(), "request_us") == 14);
    const long long before = sum_in(recording.report(), "request_us");
    HOLDS(latency.metric().add(7) && latency.metric().add(std::int64_t{1} << 40));
    HOLDS(sum_in(recording.report(), "request_us") - before == 7 + kGreatest);
    // The bucket of 3 s begins at 2,949,120, which is 45 * 2^16, and ends at 46 * 2^16.
    HOLDS(has_line(recording.report(), "request_us,custom,2949120,3014656,1") &&
          has_line(recording.report(), "request_us,custom,992,1008,1"));
}

// Linear and custom ones, and the same histogram by another unit's bounds.
void kinds() {
    Recording recording;
    HOLDS(opens(folder("kinds"), recording));
    const auto linear = recording.linear<milliseconds>("load_ms", 1ms, 1s, 10);
    const auto custom = recording.custom<microseconds>("gap_us", {100us, 1ms, 2s});
    const auto again = recording.scale<microseconds>("request_us", microseconds(1), std::chrono::seconds(10), 5);
    HOLDS(latency_of(recording).add(5us) && again.add(5us) && units_in(recording.report(), "request_us") == 2);
    HOLDS(linear.add(999'999us) && linear.add(1s) && custom.add(1ms) && custom.add(999'999ns) && custom.add(1min));
    const std::string report = recording.report();
    HOLDS(has_line(report, "load_ms,linear,875,1000,1") && has_line(report, "load_ms,linear,1000,2147483647,1"));
    HOLDS(has_line(report, "gap_us,custom,100,1000,1") && has_line(report, "gap_us,custom,1000,2000000,1"));
    HOLDS(has_line(report, "gap_us,custom,2000000,2147483647,1") && sum_in(report, "gap_us") == 1000 + 999 + 60'000'000);
    Micro other;
    RETURNS(BadUnit, recording.try_hist("gap_ms", {POVUNDIRI_SCALE, 1, 1000, 3}, {}, other));
    RETURNS(SpecBadMin, recording.try_hist("gap2_us", {POVUNDIRI_SCALE, 0, 1000, 3}, {}, other));
    HOLDS(!other.add(1s) && other.status() == Status::Empty && units_in(recording.report(), "gap_ms") == -1);
    DONE(recording.try_hist("gap2_us", {POVUNDIRI_SCALE, 1, 1000, 3}, {}, other));
    HOLDS(other.add(1s) && sum_in(recording.report(), "gap2_us") == 1'000'000);
}

#if defined(__cpp_exceptions)
// The status of the Fault that a call throws; Done if it throws none.
template <typename Call>
Status thrown_by(const Call& call) {
    try {
        call();
    } catch (const povundiri::Fault& fault) {
        return fault.status();
    }
    return Status::Done;
}

// Bounds that are too large saturate, and are refused; so are names of another unit.
void refused() {
    Recording recording;
    HOLDS(opens(folder("refused"), recording));
    RETURNS(SpecBadMax, thrown_by([&] { recording.scale<microseconds>("a_us", 1us, 2h, 5); }));
    RETURNS(SpecBadMax, thrown_by([&] { recording.scale<microseconds>("a_us", 1us, hours::max(), 5); }));
    RETURNS(SpecBadMax, thrown_by([&] { recording.scale<microseconds>("a_us", 2h, 2h, 5); }));
    RETURNS(SpecBadMax, thrown_by([&] { recording.linear<nanoseconds>("a_ns", 1ns, 3s, 10); }));
    RETURNS(SpecBadMin, thrown_by([&] { recording.linear<nanoseconds>("a_ns", 0ns, 1s, 10); }));
    RETURNS(SpecBadMin, thrown_by([&] { recording.scale<nanoseconds>("a_ns", -1s, 1s, 5); }));
    RETURNS(SpecBadRange, thrown_by([&] { recording.custom<microseconds>("a_us", {1us, 2h}); }));
    RETURNS(BadUnit, thrown_by([&] { recording.scale<milliseconds>("a_us", 1ms, 1s, 5); }));
    RETURNS(BadUnit, thrown_by([&] { recording.linear<microseconds>("http.latency_ms{route=a}", 1us, 1s, 5); }));
    RETURNS(BadUnit, thrown_by([&] { recording.custom<microseconds>("page_bytes", {1us}); }));
    RETURNS(BadUnit, thrown_by([&] { recording.scale_family<milliseconds>("a_us", {"route"}, 1ms, 1s, 5, 4); }));
    HOLDS(units_in(recording.report(), "a_us") == -1 && units_in(recording.report(), "page_bytes") == -1);
    // The greatest bound that is none too much: 2,147,483,646 microseconds.
    DONE(thrown_by([&] { recording.scale<microseconds>("a_us", 1us, 35min + 47s + 483'646us, 3); }));
    RETURNS(SpecBadMax, thrown_by([&] { recording.scale<microseconds>("b_us", 1us, 35min + 47s + 483'647us, 3); }));
}

void thrown_through() {
    Recording recording;
    HOLDS(opens(folder("thrown"), recording));
    const Micro latency = latency_of(recording);
    const auto start = Clock::now();
    bool is_caught = false;
    try {
        const Timer timer(latency);
        std::this_thread::sleep_for(2ms);
        throw 1;
    } catch (int) {
        is_caught = true;
    }
    const auto most = std::chrono::duration_cast<microseconds>(Clock::now() - start).count();
    const std::string report = recording.report();
    HOLDS(is_caught && units_in(report, "request_us") == 1 && sum_in(report, "request_us") >= 2000 && sum_in(report, "request_us") <= most);
}
#endif

Timer<microseconds> started(const Micro& latency) { return Timer(latency); }

// Each timer counts once, what it has lived: so long as the thread slept, and no longer than what is around it took.
void timers() {
    Recording recording;
    HOLDS(opens(folder("timers"), recording));
    const Micro latency = latency_of(recording);
    const auto start = Clock::now();
    {
        const Timer timer(latency);
        std::this_thread::sleep_for(3ms);
        HOLDS(units_in(recording.report(), "request_us") == 0);
    }
    const auto most = std::chrono::duration_cast<microseconds>(Clock::now() - start).count();
    const long long sum = sum_in(recording.report(), "request_us");
    HOLDS(units_in(recording.report(), "request_us") == 1 && sum >= 3000 && sum <= most);
    {
        Timer timer(latency);
        timer.cancel();
        timer.cancel();
    }
    HOLDS(units_in(recording.report(), "request_us") == 1);
    // After the recording has ended it is missed.
    auto last = std::make_unique<Timer<microseconds>>(latency);
    recording.end();
    last.reset();
    HOLDS(!latency.add(1s) && opens(folder("timers"), recording) && units_in(recording.report(), "request_us") == 1);
}

// One that is moved counts once, where it is in the end, and of another thread too.
void moved_timers() {
    Recording recording;
    HOLDS(opens(folder("moved-timers"), recording));
    const Micro latency = latency_of(recording);
    {
        Timer first(latency);
        std::this_thread::sleep_for(2ms);
        const Timer second(std::move(first));
    }
    HOLDS(units_in(recording.report(), "request_us") == 1 && sum_in(recording.report(), "request_us") >= 2000);
    {
        Timer first(latency);
        Timer second(std::move(first));
        first.cancel();
        Timer third(std::move(second));
        third.cancel();
    }
    HOLDS(units_in(recording.report(), "request_us") == 1);
    auto kept = std::make_unique<Timer<microseconds>>(latency), other = std::make_unique<Timer<microseconds>>(started(latency));
    kept.reset();
    HOLDS(units_in(recording.report(), "request_us") == 2);
    std::thread([other = std::move(other)]() mutable { other.reset(); }).join();
    other.reset();
    HOLDS(units_in(recording.report(), "request_us") == 3);
}

void counters() {
    Recording recording;
    RecordingOptions options = one_shard();
    options.apart = 1;
    HOLDS(opens(folder("counters"), recording, options));
    const Counter requests = recording.counter("requests_total"), labeled = recording.counter("requests_total{method=GET;route=a}");
    DONE(requests.status());
    HOLDS(requests.add() && requests.add(5) && requests.add(std::uint8_t{4}) && requests.add(0) && requests.add(-3) &&
          requests.add(INT64_MIN));
    HOLDS(has_line(recording.report(), "requests_total,boolean,1,2,10") && has_line(recording.report(), "requests_total,total,10,10"));
    HOLDS(labeled.add(7) && units_in(recording.report(), "requests_total{method=GET;route=a}") == 7);
    // As many as 32 bits hold, which the next segment has.
    HOLDS(requests.add(UINT64_MAX) && units_in(recording.report(), "requests_total") == 10 + 4'294'967'295LL && recording.missed() == 0);
    Counter other;
    DONE(recording.try_counter("errors_total", other));
    HOLDS(other.add(2) && units_in(recording.report(), "errors_total") == 2);
    for (const char* name : {"requests", "requests_total_", "requests_Total", "requests{route=_total}", "total", "requests.total", ""}) {
        RETURNS(RefusedBadName, recording.try_counter(name, other));
    }
    HOLDS(other.add() && units_in(recording.report(), "errors_total") == 3);
    // An empty recording has none.
    Recording none;
    RETURNS(Null, none.try_counter("requests_total", other));
}

int run() {
    int failed = group("times", times);
    failed += group("linear and custom ones", kinds);
    failed += group("timers", timers);
    failed += group("timers that are moved", moved_timers);
    failed += group("counters", counters);
#if defined(__cpp_exceptions)
    failed += group("what is refused", refused);
    failed += group("a timer that is thrown through", thrown_through);
#endif
    return failed;
}

}  // namespace

int main(int count, char** words) { return in_folder(count, words, run); }
