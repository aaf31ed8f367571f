#include <povundiri_recording.hpp>                                           // latency.cpp
#include <cstdio>
#include <thread>
using namespace std::chrono_literals;
int main() {
    povundiri::Recording recording("metrics");                               // a folder; the next run continues in it
    const auto name = povundiri::name("request_us", {{"route", "/cart"}});   // with a label; up to ten seconds, within 1/32:
    const auto request = recording.scale<std::chrono::microseconds>(name, 1us, 10s, 5);
    const auto serve = [request] { povundiri::Timer timer(request); std::this_thread::sleep_for(1ms); };
    std::thread([serve] { for (int i = 0; i < 100; ++i) serve(); }).join();  // any thread; throws nothing
    std::printf("%s%d were not counted.\n", recording.show().c_str(), static_cast<int>(recording.missed()));
}
