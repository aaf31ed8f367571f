// A service to kill: four threads count into the folder `metrics`. The file `notes` has how often `add` was called, and how often it has
// returned. Each start compares both with the folder, and fails if a sample is lost or made up. `make -C examples demo` kills it twice.
#include <fcntl.h>
#include <povundiri_recording.hpp>
#include <sys/mman.h>
#include <unistd.h>
#include <atomic>
#include <cstdio>
#include <thread>
using Clock = std::chrono::steady_clock;
using Number = unsigned long long;
struct Notes { std::atomic<Number> begun, confirmed, starts, before; };
Notes& open_notes() {  // in a mapped file, so that a kill leaves them
    const int file = open("notes", O_RDWR | O_CREAT, 0600);
    const bool is_there = file >= 0 && ftruncate(file, sizeof(Notes)) == 0;
    void* const at = is_there ? mmap(nullptr, sizeof(Notes), PROT_READ | PROT_WRITE, MAP_SHARED, file, 0) : MAP_FAILED;
    return at == MAP_FAILED ? throw std::system_error(errno, std::generic_category(), "notes") : *static_cast<Notes*>(at);
}
void serve(povundiri::Timed<std::chrono::nanoseconds> gap, Notes& notes) {  // counts the times from one call to the next
    for (auto now = Clock::now(), last = now;; last = now, now = Clock::now()) {
        ++notes.begun;
        if (gap.add(now - last)) ++notes.confirmed;
    }
}
int main(int words, char**) try {
    Notes& notes = open_notes();
    povundiri::Recording recording("metrics");
    const auto gap = recording.scale<std::chrono::nanoseconds>("gap_ns{service=demo}", Clock::duration(16), Clock::duration(1'000'000), 1);
    const std::string total = "gap_ns{service=demo},total,", report = recording.report();
    const Number has = std::stoull(report.substr(report.find(total) + total.size()));
    const Number starts = notes.starts, confirmed = notes.confirmed, begun = notes.begun;
    std::printf("start %llu: %llu samples confirmed <= %llu in the folder <= %llu begun\n", starts + 1, confirmed, has, begun);
    if (has < confirmed || has > begun) return std::puts("WRONG: samples are lost, or made up"), 1;
    if (starts > 0 && has <= notes.before) return std::puts("WRONG: none came since the start before"), 1;
    if (words > 1) return std::fputs(recording.show(60).c_str(), stdout) < 0;
    notes.before = has, notes.starts = starts + 1, std::fflush(stdout);
    alarm(60);  // where nobody kills it
    for (int thread = 0; thread < 4; ++thread) std::thread(serve, gap, std::ref(notes)).detach();
    return pause();
} catch (const std::exception& fault) { return std::fprintf(stderr, "%s\n", fault.what()), 1; }
