// A small service. Four threads answer requests and record how long each took, by its route, into a folder, until the service is ended or
// killed.
// When it starts again, it continues with what the one before left, and says so. Whatever becomes of its figures, it goes on answering:
//
//   - where a segment is full, or has no units left, the next one is begun;
//   - where the newest segment is damaged, the next one is begun; if not even its header can be read, it also gets another name;
//   - where no segment can be made, as on a full disk, it is tried again, a second later;
//   - where another release made the histogram with other buckets, the next one is begun; but a text shows the buckets of the older one, so give
//     a histogram with other buckets another name;
//   - requests that are not recorded are counted, and it says at the end how many there were.
//
// Meanwhile a thread writes the metrics to a file, if one is named, each second.
//
//     c++ -std=c++17 -pthread service.cpp $(pkg-config --cflags --libs povundiri-static) -o service
//     ./service metrics & sleep 1; kill -9 $!
//     ./service metrics latency.prom & sleep 2; kill $!

#include <array>
#include <atomic>
#include <chrono>
#include <csignal>
#include <cstdio>
#include <cstring>
#include <exception>
#include <fstream>
#include <functional>
#include <povundiri_recording.hpp>
#include <random>
#include <string>
#include <thread>
#include <vector>

namespace {

constexpr unsigned kThreads = 4;
constexpr std::array<const char*, 3> kRoutes{"/", "/cart", "/item"};

using namespace std::chrono_literals;
using Clock = std::chrono::steady_clock;
using Latency = povundiri::Family<povundiri::Timed<std::chrono::microseconds>>;

std::atomic<bool> ends{false};
std::atomic<std::uint64_t> served{0}, missed{0};

// Stands for work: it takes up to a millisecond.
void answer_request(std::mt19937& chance) { std::this_thread::sleep_for(std::chrono::microseconds(chance() % 1000)); }

void serve(const Latency& latency, unsigned seed) {
    std::mt19937 chance(seed);
    while (!ends) {
        const char* const route = kRoutes[chance() % kRoutes.size()];
        const auto start = Clock::now();
        answer_request(chance);
        if (!latency.with({route}).add(Clock::now() - start)) ++missed;
        ++served;
    }
}

// Writes the metrics of the folder to a file, which is whole at any moment: they are written beside it, and get its name when all are there.
void publish(povundiri::Recording& recording, const std::string& path) {
    const std::string beside = path + ".new";
    std::string text;
    while (!ends) {
        if (!recording.try_prometheus(text) && (std::ofstream(beside) << text).flush()) std::rename(beside.c_str(), path.c_str());
        std::this_thread::sleep_for(std::chrono::seconds(1));
    }
}

// Opens the recording, and says what it found. Where there can be none, it is empty, and its metrics count nothing.
povundiri::Recording open_recording(const char* folder) {
    povundiri::Recording recording;
    povundiri::RecordingOptions options;
    options.bytes = 524'288;
    const std::error_code fault = povundiri::Recording::try_open(folder, recording, options);
    const povundiri_began& began = recording.began();
    if (fault) std::fprintf(stderr, "%s: %s: nothing is recorded\n", folder, fault.message().c_str());
    if (*began.set_aside != 0) std::printf("set aside as %s: %s\n", began.set_aside, povundiri_status_text(began.refused));
    if (began.number != 0) std::printf("segment %u: %s\n", static_cast<unsigned>(began.number), began.adopted ? "continued" : "begun");
    if (!fault && began.number == 0) std::fprintf(stderr, "%s: %s: recorded later\n", folder, std::strerror(began.fault));
    return recording;
}

// A metric for each route. Where there is no recording, it is empty, and its metrics count nothing.
Latency latency_of(povundiri::Recording& recording) try {
    return recording.scale_family<std::chrono::microseconds>("latency_us", {"route"}, 1us, 10s, 5, kRoutes.size());
} catch (const std::exception& fault) {
    std::fprintf(stderr, "latency_us is not recorded: %s\n", fault.what());
    return {};
}

void run(const char* folder, const char* metrics) {
    povundiri::Recording recording = open_recording(folder);
    const Latency latency = latency_of(recording);
    std::fflush(stdout);
    std::vector<std::thread> threads;
    try {
        threads.reserve(kThreads + 1);
        while (threads.size() < kThreads) threads.emplace_back(serve, std::cref(latency), static_cast<unsigned>(threads.size()));
        if (metrics != nullptr) threads.emplace_back(publish, std::ref(recording), metrics);
    } catch (const std::exception& fault) {
        std::fprintf(stderr, "%zu threads run: %s\n", threads.size(), fault.what());
    }
    for (std::thread& thread : threads) thread.join();
    std::printf("served: %llu, not recorded: %llu\n", static_cast<unsigned long long>(served), static_cast<unsigned long long>(missed));
}

}  // namespace

int main(int count, char** words) {
    if (count != 2 && count != 3) return 2;
    std::signal(SIGTERM, [](int) { ends = true; });
    run(words[1], count == 3 ? words[2] : nullptr);
}
