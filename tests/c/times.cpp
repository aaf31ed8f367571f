// How many whole units a time has, and what is refused as the bound or the unit of a metric: by numbers that are worked out by hand.
#include <chrono>
#include <cmath>
#include <cstdint>
#include <cstring>
#include <limits>
#include <ratio>
#include <type_traits>

#include "checks.hpp"
#include "povundiri_recording.hpp"

namespace {

using namespace std::chrono_literals;
using povundiri::Bound;
using povundiri::ticks;
using povundiri::Timed;
using povundiri::Timer;
using std::chrono::hours;
using std::chrono::microseconds;
using std::chrono::milliseconds;
using std::chrono::minutes;
using std::chrono::nanoseconds;
using std::chrono::seconds;

// What a sample can be at most; two hours and more are beyond it as microseconds, as is any time of an unsigned type with its highest bit.
constexpr std::int32_t kGreatest = 2'147'483'646;

using Unsigned = std::chrono::duration<std::uint64_t, std::nano>;
using Small = std::chrono::duration<std::int8_t, std::milli>;
using Thirds = std::chrono::duration<std::int64_t, std::ratio<1, 3>>;
using Primes = std::chrono::duration<std::int64_t, std::ratio<1'000'000'007, 998'244'353>>;
using Atto = std::chrono::duration<std::int64_t, std::atto>;
using Exa = std::chrono::duration<std::int64_t, std::exa>;

static_assert(ticks<microseconds>(0us) == 0 && ticks<microseconds>(1us) == 1 && ticks<microseconds>(3s) == 3'000'000);
// Towards zero, and not below it.
static_assert(ticks<microseconds>(999ns) == 0 && ticks<microseconds>(1'999ns) == 1 && ticks<milliseconds>(1'999'999ns) == 1);
static_assert(ticks<microseconds>(-1ns) == 0 && ticks<microseconds>(-3s) == 0 && ticks<microseconds>(hours::min()) == 0);
// The greatest: 2,147,483,646 microseconds are 35 minutes, 47 seconds and 483,646 microseconds.
static_assert(ticks<microseconds>(35min + 47s + 483'645us) == kGreatest - 1 && ticks<microseconds>(35min + 47s + 483'646us) == kGreatest);
static_assert(ticks<microseconds>(35min + 47s + 483'647us) == kGreatest && ticks<microseconds>(36min) == kGreatest);
static_assert(ticks<microseconds>(2h) == kGreatest && ticks<microseconds>(hours::max()) == kGreatest);
static_assert(ticks<nanoseconds>(seconds::max()) == kGreatest && ticks<nanoseconds>(nanoseconds::max()) == kGreatest);
static_assert(ticks<nanoseconds>(2s) == 2'000'000'000 && ticks<nanoseconds>(3s) == kGreatest &&
              ticks<hours>(nanoseconds::max()) == 2'562'047);
static_assert(ticks<seconds>(hours(596'523)) == 2'147'482'800 && ticks<seconds>(hours(596'524)) == kGreatest);
// Other numbers of ticks: an unsigned one above all signed ones, and one of a byte.
static_assert(ticks<nanoseconds>(Unsigned(17)) == 17 && ticks<nanoseconds>(Unsigned::max()) == kGreatest);
static_assert(ticks<microseconds>(Unsigned::max()) == kGreatest && ticks<hours>(Unsigned::max()) == 5'124'095);
static_assert(ticks<microseconds>(Small(127)) == 127'000 && ticks<microseconds>(Small(-128)) == 0 && ticks<seconds>(Small(127)) == 0);
// Units that are no powers of ten of one another: a third of a second is 333,333 microseconds, and a second is three of them.
static_assert(ticks<microseconds>(Thirds(1)) == 333'333 && ticks<microseconds>(Thirds(2)) == 666'666 && ticks<Thirds>(1s) == 3);
static_assert(ticks<Thirds>(1'999ms) == 5 && ticks<microseconds>(Thirds::max()) == kGreatest);
// 998,244,353 of these are 1,000,000,007 seconds; one less is less than a whole second below that. The greatest has 63 bits.
static_assert(ticks<seconds>(Primes(998'244'353)) == 1'000'000'007 && ticks<seconds>(Primes(998'244'352)) == 1'000'000'005);
static_assert(ticks<seconds>(Primes::max()) == kGreatest);
static_assert(ticks<seconds>(Atto::max()) == 9 && ticks<seconds>(Exa(1)) == kGreatest && ticks<seconds>(Exa::max()) == kGreatest);

// Times of floating point.
void fractions() {
    using Seconds = std::chrono::duration<double>;
    using Single = std::chrono::duration<float>;
    using Long = std::chrono::duration<long double, std::micro>;
    HOLDS(ticks<microseconds>(Seconds(0.3)) == 300'000 && ticks<seconds>(Seconds(2.9)) == 2 && ticks<seconds>(Seconds(0.9999)) == 0);
    HOLDS(ticks<seconds>(Seconds(-2.9)) == 0 && ticks<seconds>(Seconds(-0.0)) == 0 && ticks<seconds>(Seconds(-1e300)) == 0);
    HOLDS(ticks<seconds>(Seconds(std::nan(""))) == 0 && ticks<microseconds>(Single(std::nanf(""))) == 0);
    HOLDS(ticks<seconds>(Seconds(std::numeric_limits<double>::infinity())) == kGreatest);
    HOLDS(ticks<seconds>(Seconds(-std::numeric_limits<double>::infinity())) == 0);
    HOLDS(ticks<microseconds>(Seconds(std::numeric_limits<double>::max())) == kGreatest);
    HOLDS(ticks<nanoseconds>(Single(std::numeric_limits<float>::max())) == kGreatest);
    HOLDS(ticks<seconds>(Seconds(2'147'483'645.5)) == kGreatest - 1 && ticks<seconds>(Seconds(2'147'483'646.5)) == kGreatest);
    // The float below 2^31 is 2,147,483,520.
    HOLDS(ticks<seconds>(Single(2147483520.0F)) == 2'147'483'520 && ticks<seconds>(Single(2147483648.0F)) == kGreatest);
    HOLDS(ticks<milliseconds>(Long(1'999.9L)) == 1 && ticks<microseconds>(Long(1e30L)) == kGreatest);
}

// A bound that 32 bits do not hold is no bound: 4,294,967,295 is more than any spec takes.
void bounds() {
    static_assert(Bound<microseconds>(1us).get() == 1 && Bound<microseconds>(10s).get() == 10'000'000 &&
                  Bound<microseconds>(-1s).get() == 0);
    static_assert(Bound<microseconds>(1h).get() == 3'600'000'000 && Bound<microseconds>(2h).get() == UINT32_MAX);
    static_assert(Bound<microseconds>(hours::max()).get() == UINT32_MAX && Bound<nanoseconds>(hours::max()).get() == UINT32_MAX);
    static_assert(Bound<milliseconds>(minutes(1)).get() == 60'000);
    static_assert(!std::is_convertible_v<nanoseconds, Bound<microseconds>> && !std::is_constructible_v<Bound<milliseconds>, microseconds>);
    static_assert(!std::is_convertible_v<int, Bound<microseconds>> &&
                  !std::is_convertible_v<std::chrono::duration<double>, Bound<seconds>>);
    HOLDS(Bound<seconds>(seconds::max()).get() == UINT32_MAX);
}

// The unit that a name says, for each metric of times.
template <typename Unit>
bool takes(const char* name) {
    povundiri::Recording none;
    Timed<Unit> timed;
    const povundiri::Status status = none.try_hist(name, {POVUNDIRI_SCALE, 1, 1000, 3}, {}, timed);
    HOLDS(status == povundiri::Status::Null || status == povundiri::Status::BadUnit);
    return status == povundiri::Status::Null;
}

void units() {
    HOLDS(takes<nanoseconds>("gap_ns") && takes<microseconds>("gap_us") && takes<milliseconds>("gap_ms") && takes<seconds>("gap_seconds"));
    HOLDS(takes<microseconds>("http.latency.us") && takes<microseconds>("gap_us{route=a_ms}") && takes<microseconds>("gap_ms.us"));
    HOLDS(!takes<microseconds>("gap_ns") && !takes<nanoseconds>("gap_us") && !takes<seconds>("gap_ms") && !takes<minutes>("gap_seconds"));
    HOLDS(!takes<microseconds>("gap_ms{route=a_us}") && !takes<microseconds>("http.latency.ms") && !takes<microseconds>("a.us_ms"));
    for (const char* name : {"page_bytes", "page.kib", "page_mib"}) HOLDS(!takes<microseconds>(name) && !takes<seconds>(name));
    // No unit: none of these words, or nothing before it.
    for (const char* name : {"gap", "us", "ms", "gap-us", "gap_s", "gap_US", "gap_usec", "gap_", "gap_us_", "bytes", "gap_ms_total"}) {
        HOLDS(takes<microseconds>(name) && takes<hours>(name));
    }
    // Another type of the same unit.
    HOLDS((takes<std::chrono::duration<std::int32_t, std::micro>>("gap_us")));
    HOLDS(std::strcmp(povundiri::text(povundiri::Status::BadUnit), "BadUnit") == 0);
    HOLDS(povundiri::make_error_code(povundiri::Status::BadUnit).message() == "BadUnit");
}

// What nothing throws, what is copied, and what is only moved.
void types() {
    using Micro = Timed<microseconds>;
    using MicroTimer = Timer<microseconds>;
    using povundiri::Counter;
    using Families = povundiri::Family<Micro>;
    using Values = povundiri::Span<const std::string_view>;
    static_assert(noexcept(std::declval<const Micro&>().add(std::declval<seconds>())));
    static_assert(noexcept(Timer(std::declval<const Micro&>())));
    static_assert(noexcept(std::declval<MicroTimer&>().cancel()));
    static_assert(std::is_same_v<decltype(Timer(std::declval<const Micro&>())), MicroTimer>);
    static_assert(std::is_nothrow_destructible_v<MicroTimer> && std::is_nothrow_move_constructible_v<MicroTimer>);
    static_assert(!std::is_copy_constructible_v<MicroTimer> && !std::is_move_assignable_v<MicroTimer>);
    static_assert(!std::is_copy_assignable_v<MicroTimer> && std::is_trivially_copyable_v<Micro> && std::is_trivially_copyable_v<Counter>);
    static_assert(!std::is_convertible_v<povundiri::Metric, Micro> && !std::is_constructible_v<Timed<milliseconds>, Micro>);
    static_assert(noexcept(std::declval<const Counter&>().add(1)));
    static_assert(noexcept(std::declval<const Counter&>().add()));
    static_assert(noexcept(std::declval<const Families&>().with(std::declval<Values>())));
    // Those that no recording returned count nothing.
    const Micro none;
    HOLDS(!none.add(1s) && none.status() == povundiri::Status::Empty && none.metric().status() == povundiri::Status::Empty);
    { Timer timer(none); }
    HOLDS(!povundiri::Counter().add() && povundiri::Counter().status() == povundiri::Status::Empty);
    const povundiri::Family<Micro> family;
    HOLDS(!family.with({"a"}).add(1s) && family.with({}).status() == povundiri::Status::Empty && family.size() == 0);
}

}  // namespace

int main() {
    int failed = group("times of floating point", fractions);
    failed += group("bounds", bounds);
    failed += group("units of names", units);
    failed += group("types", types);
    return failed != 0;
}
