// The same in C++, from a thread: what packaging/check.sh compiles.
#include <povundiri_recording.hpp>

#include <chrono>
#include <cstdio>
#include <exception>
#include <thread>

using namespace std::chrono_literals;

int main(int count, char** words) try {
    if (count != 2) return 2;
    povundiri::Recording recording(words[1]);
    const auto latency = recording.scale<std::chrono::microseconds>("request_us", 1us, 10s, 5);
    std::thread([latency] { for (int value = 0; value < 1000; ++value) latency.add(value * 1us); }).join();
    std::printf("%s: %zu bytes\n", povundiri_version(), recording.report().size());
    return recording.missed() == 0 ? 0 : 1;
} catch (const std::exception& fault) {
    std::fprintf(stderr, "%s\n", fault.what());
    return 1;
}
