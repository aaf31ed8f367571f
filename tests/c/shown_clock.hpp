// A clock that a test sets in place of the system's: the program is linked with -Wl,--wrap=clock_gettime.
#pragma once

#include <atomic>
#include <cstdint>
#include <ctime>

// What it shows, in nanoseconds, if a test sets it; else 0.
inline std::atomic<std::int64_t> shown{0};

// It does not depend on how busy the machine is: it advances by a microsecond each time that it is read, and by what pass() adds.
class Clock {
   public:
    Clock() { shown = std::int64_t{1} << 50; }
    ~Clock() { shown = 0; }
    Clock(const Clock&) = delete;
    Clock& operator=(const Clock&) = delete;
    void pass(std::int64_t milliseconds) { shown += milliseconds * 1'000'000; }
};

extern "C" {
int __real_clock_gettime(clockid_t which, timespec* time);
int __wrap_clock_gettime(clockid_t which, timespec* time) {
    if (shown == 0) return __real_clock_gettime(which, time);
    const std::int64_t now = shown += 1000;
    time->tv_sec = static_cast<std::time_t>(now / 1'000'000'000);
    time->tv_nsec = static_cast<long>(now % 1'000'000'000);
    return 0;
}
}
