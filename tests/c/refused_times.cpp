// What a compiler refuses of times, labels and counters: each line with a mark at its end, of which it says the words after the mark.
// Without these lines it compiles. tests/support/refusing.py tries each alone.
#include <chrono>
#include <povundiri_recording.hpp>
#include <povundiri_shared.hpp>
#include <utility>

using namespace std::chrono_literals;
using std::chrono::microseconds;
using std::chrono::milliseconds;

void numbers(const povundiri::Metric& metric, std::chrono::steady_clock::time_point start) {
    metric.add(17);
    metric.add(17, 2);
    metric.add(povundiri::ticks<microseconds>(std::chrono::steady_clock::now() - start));
    metric.add(std::chrono::steady_clock::now() - start);  // refused: deleted; add; make it by scale<std::chrono::microseconds>(..)
    metric.add(5us, 2);                                    // refused: deleted; add; make it by scale<std::chrono::microseconds>(..)
    metric.add(std::chrono::duration<double>(1.5));        // refused: deleted; add; make it by scale<std::chrono::microseconds>(..)
    const povundiri::Timer timer(metric);                  // refused: Timer; Metric
    const povundiri::Value value(5us);                     // refused: Value
}

void times(const povundiri::Timed<microseconds>& timed) {
    timed.add(5us);
    timed.add(2h, 2);
    timed.add(std::chrono::duration<float>(1.5F));
    const povundiri::Timer timer(timed);
    timed.add(5);                                       // refused: deleted; add; write what it is, as in add(std::chrono::
    timed.add(std::uint64_t{5}, 2);                     // refused: deleted; add; write what it is, as in add(std::chrono::
    timed.add(1.5);                                     // refused: deleted; add; write what it is, as in add(std::chrono::
    timed.add(povundiri::ticks<microseconds>(5us));     // refused: deleted; add; write what it is, as in add(std::chrono::
    const povundiri::Timer copied(timer);               // refused: deleted; Timer
    povundiri::Timer{timed};                            // refused: nodiscard
    const povundiri::Timed<milliseconds> other(timed);  // refused: Timed
    const povundiri::Metric metric = timed;             // refused: Metric
    povundiri::Timed<int>();                            // refused: a unit is a duration of whole ticks
    povundiri::Timed<std::chrono::duration<double>>();  // refused: a unit is a duration of whole ticks
}

void recorders(povundiri::Recorder& recorder, povundiri::Hist hist, std::chrono::nanoseconds time) {
    recorder.add(hist, povundiri::ticks<microseconds>(time));
    recorder.add(hist, time);                         // refused: deleted; add; // ticks<std::chrono::microseconds>(time)
    recorder.add(hist, time, 2);                      // refused: deleted; add; // ticks<std::chrono::microseconds>(time)
    static_cast<void>(recorder.try_add(hist, time));  // refused: deleted; try_add; // ticks<std::chrono::microseconds>(time)
    recorder.add_or_throw(hist, time);                // refused: deleted; add_or_throw; // ticks<std::chrono::microseconds>(time)
}

void shared(povundiri::SharedRecorder& recorder, const povundiri::SharedHist& hist, std::chrono::nanoseconds time) {
    recorder.add(hist, povundiri::ticks<microseconds>(time));
    recorder.add(hist, time);                            // refused: deleted; add; // ticks<std::chrono::microseconds>(time)
    static_cast<void>(recorder.try_add(hist, time, 2));  // refused: deleted; try_add; // ticks<std::chrono::microseconds>(time)
}

void makes(povundiri::Recording& recording) {
    recording.scale<microseconds>("a_us", 1us, 10s, 5);
    recording.scale("a_us", 1, 1000, 5);
    recording.scale_family<microseconds>("a_us", {"route"}, 1us, 10s, 5, 64);
    recording.scale("a_us", 1us, 10s, 5);                                                       // refused: scale
    recording.scale<microseconds>("a_us", 1, 1000, 5);                                          // refused: scale; Bound
    recording.scale<milliseconds>("a_ms", 1us, 10s, 5);                                         // refused: scale; Bound
    recording.linear<microseconds>("a_us", 100ns, 10s, 5);                                      // refused: linear; Bound
    recording.scale_family<microseconds>("a_us", {"route"}, 1us, 10s, 5);                       // refused: scale_family; 6 arguments
    recording.counter_family("a_total", {"route"});                                             // refused: counter_family
    povundiri::Timed<microseconds> timed = recording.scale("a_us", 1, 1000, 5);                 // refused: Timed; Metric
    povundiri::Timed<milliseconds> other = recording.scale<microseconds>("a_us", 1us, 10s, 5);  // refused: Timed
}

void counts(const povundiri::Counter& counter) {
    counter.add();
    counter.add(5);
    counter.add(5us);   // refused: add
    counter.add(1.5);   // refused: add
    counter.add(5, 2);  // refused: add
}
