// What becomes of a recording whose folder somebody empties, removes, renames or changes while it runs: 'recorded_removed FOLDER'. Each group
// works in a folder of its own below that.
#include <fcntl.h>
#include <grp.h>

#include <cerrno>
#include <cstdio>
#include <cstdlib>
#include <filesystem>
#include <functional>
#include <iterator>
#include <thread>
#include <vector>

#include "recorded.hpp"

namespace {

namespace files = std::filesystem;

constexpr std::uint32_t kMost = 4'000'000'000;

void make_file(const std::string& path, const char* text) {
    std::FILE* const file = std::fopen(path.c_str(), "w");
    HOLDS(file != nullptr && std::fputs(text, file) >= 0 && std::fclose(file) == 0);
}

void empty(const std::string& path) {
    for (const auto& entry : files::directory_iterator(path)) files::remove_all(entry.path());
}

bool is_marked(const std::string& path) { return bytes_of(path + "/recording") == 4096; }

// A thousand units are counted, then the folder is changed: the text says how many are gone, a later sample is counted, also after the next
// segment is begun, and the next start works.
void removed_by(const std::string& path, const std::function<void()>& change) {
    Recording recording;
    HOLDS(opens(path, recording, small()));
    const Metric metric = metric_of(recording, "b");
    HOLDS(metric.add(1, 1000));
    change();
    HOLDS(metric.add(1, 200));
    std::string text;
    HOLDS(!recording.try_prometheus(text) && is_marked(path) && segments_in(path) == 1);
    // This thread is in the removed segment until it counts again.
    HOLDS(metric.add(1, 30) && recording.missed(Missed::Removed) == 1200 && recording.missed() == 1200);
    HOLDS(recording.report().find("\n!missed,removed,1200\n") != std::string::npos && units_in(recording.report(), "b") == 30);
    HOLDS(recording.prometheus().find("\npovundiri_missed_total{reason=\"removed\"} 1200\n") != std::string::npos);
    HOLDS(metric.add(1, kMost) && metric.add(1, kMost) && recording.missed() == 1200 && segments_in(path) == 2);
    recording.end();
    HOLDS(opens(path, recording, small()) && units_in(recording.report(), "b") == 30 + 2LL * kMost);
}

void emptied() {
    const std::string path = folder("emptied");
    removed_by(path, [&] { empty(path); });
}

void made_again() {
    const std::string path = folder("again");
    removed_by(path, [&] {
        files::remove_all(path);
        HOLDS(mkdir(path.c_str(), 0700) == 0);
    });
}

void gone() {
    const std::string path = folder("gone");
    removed_by(path, [&] { files::remove_all(path); });
}

// A copy of the segment has its name, as after a backup was restored: what is counted afterwards goes to the next one. What the copy has is
// there still.
void replaced() {
    const std::string path = folder("replaced"), first = path + "/0000000001.seg";
    Recording recording;
    HOLDS(opens(path, recording, small()));
    const Metric metric = metric_of(recording, "b");
    HOLDS(metric.add(1, 1000));
    files::copy_file(first, path + ".copy");
    HOLDS(metric.add(1, 200) && std::rename((path + ".copy").c_str(), first.c_str()) == 0);
    HOLDS(units_in(recording.report(), "b") == 1000 && metric.add(1, 30) && segments_in(path) == 2);
    HOLDS(recording.missed(Missed::Removed) == 1200 && units_in(recording.report(), "b") == 1030);
}

// Without a text it is found in the slow path, a second later.
void without_text() {
    const std::string path = folder("slow");
    Recording recording;
    HOLDS(opens(path, recording, small()));
    const Metric metric = metric_of(recording, "b");
    HOLDS(metric.add(1, 1000));
    empty(path);
    usleep(1'100'000);
    recording.leave();
    HOLDS(metric.add(1, 30) && recording.missed(Missed::Removed) == 1000 && units_beside(path, "b") == 30);
}

// A thread is idle in an old segment that is removed: its units are missed when it leaves.
void removed_old() {
    const std::string path = folder("old");
    Recording recording;
    HOLDS(opens(path, recording, small()));
    const Metric metric = metric_of(recording, "b");
    Gate gate;
    std::thread idle([&] {
        HOLDS(metric.add(1, 500));
        gate.wait();
    });
    gate.wait_for(1);
    HOLDS(metric.add(1, kMost) && metric.add(1, kMost) && segments_in(path) == 2);
    HOLDS(std::remove((path + "/0000000001.seg").c_str()) == 0 && recording.missed() == 0);
    gate.open_for(1);
    idle.join();
    HOLDS(recording.missed() == 500 + std::uint64_t{kMost} && recording.missed(Missed::Removed) == recording.missed());
    HOLDS(units_in(recording.report(), "b") == kMost);
}

// Only the mark is removed, as by a program that removes old files: all goes on, and a fold or a start marks the folder again.
void unmarked() {
    const std::string path = folder("unmarked"), mark = path + "/recording";
    Recording recording;
    HOLDS(opens(path, recording, small()) && metric_of(recording, "b").add(1, 1000));
    const auto is_counted = [&] { return units_beside(path, "b") == 1000 && !is_marked(path); };
    HOLDS(std::remove(mark.c_str()) == 0 && is_counted());
    HOLDS(units_in(recording.report(), "b") == 1000 && is_marked(path));
    recording.end();
    HOLDS(std::remove(mark.c_str()) == 0 && is_counted() && opens(path, recording, small()) && is_marked(path));
    recording.end();
    std::uint64_t folded = 0;
    int fault = 0;
    HOLDS(std::remove(mark.c_str()) == 0);
    ANSWERS(DONE, povundiri_folder_fold(path.c_str(), &folded, &fault));
    HOLDS(folded == 1 && is_marked(path) && std::remove(mark.c_str()) == 0 && is_counted());
    for (const char* name : {"history", "history.new", "history.lock", "history.damaged", "totals.new", "0000000009.damaged"}) {
        make_file(path + "/" + name, "");
    }
    HOLDS(is_counted());
    // What else is there makes it another folder, in which nothing is made.
    make_file(path + "/notes", "mine");
    povundiri_handle sums = {};
    ANSWERS(NO_RECORDING, povundiri_folder_sums(path.c_str(), &sums, nullptr, &fault));
    HOLDS(fault == 0 && !sums.held && Recording::try_open(path.c_str(), recording) == Status::FolderInUse && !is_marked(path));
}

// A folder that has none of a recording's files stays another one.
void not_a_recordings() {
    const std::string path = folder("none");
    Recording recording;
    HOLDS(mkdir(path.c_str(), 0700) == 0);
    make_file(path + "/fold.lock", "");
    HOLDS(Recording::try_open(path.c_str(), recording) == Status::FolderInUse && !is_marked(path));
}

// Counts in three segments before, and three after, and says whether nothing was missed.
bool goes_on(const std::string& path, const std::function<bool()>& change, const std::function<bool(Recording&)>& afterwards) {
    Recording recording;
    if (!opens(path, recording, small())) return false;
    const Metric metric = metric_of(recording, "b");
    for (int i = 0; i < 3; ++i) HOLDS(metric.add(1, kMost));
    if (!change()) return false;
    for (int i = 0; i < 3; ++i) HOLDS(metric.add(1, kMost));
    HOLDS(recording.missed() == 0);
    return afterwards(recording);
}

void renamed() {
    const std::string path = folder("named"), other = folder("renamed");
    HOLDS(goes_on(
        path, [&] { return std::rename(path.c_str(), other.c_str()) == 0; },
        [&](Recording& recording) {
            return units_in(recording.report(), "b") == 6LL * kMost && recording.fold() == 5 && segments_in(other) == 1 &&
                   bytes_of(path) == -1;
        }));
    HOLDS(units_beside(other, "b") == 6LL * kMost);
}

// The folder that it is in is renamed, and another one has its path.
void renamed_above() {
    const std::string above = folder("above"), other = folder("elsewhere");
    HOLDS(mkdir(above.c_str(), 0700) == 0);
    HOLDS(goes_on(
        above + "/metrics",
        [&] { return std::rename(above.c_str(), other.c_str()) == 0 && mkdir(above.c_str(), 0700) == 0 && mkdir((above + "/metrics").c_str(), 0700) == 0; },
        [&](Recording& recording) { return units_in(recording.report(), "b") == 6LL * kMost && recording.fold() == 5; }));
    HOLDS(units_beside(other + "/metrics", "b") == 6LL * kMost && files::is_empty(above + "/metrics"));
}

// A daemon closes all its descriptors, and opens other files, which get their numbers: these are left alone.
void closed() {
    const std::string path = folder("closed"), others = folder("others");
    HOLDS(mkdir(others.c_str(), 0700) == 0 && in_child([&] {
        return goes_on(
            path,
            [&] {
                for (int descriptor = 3; descriptor < 100; ++descriptor) close(descriptor);
                for (int i = 0; i < 20; ++i) {
                    if (open(others.c_str(), O_RDONLY | O_DIRECTORY) < 0) return false;
                }
                return true;
            },
            [&](Recording& recording) {
                int open_still = 0;
                const bool is = units_in(recording.report(), "b") == 6LL * kMost && recording.fold() == 5;
                recording.end();
                for (int descriptor = 3; descriptor < 23; ++descriptor) open_still += fcntl(descriptor, F_GETFD) != -1;
                return is && open_still == 20 && files::is_empty(others) && units_beside(path, "b") == 6LL * kMost;
            });
    }));
}

// The process is in another root, where there is no /proc, and no path to the folder.
void chrooted() {
    const std::string path = folder("chrooted"), root = folder("root");
    HOLDS(mkdir(root.c_str(), 0700) == 0 && in_child([&] {
        return goes_on(
            path, [&] { return chroot(root.c_str()) == 0 && chdir("/") == 0; },
            [&](Recording& recording) { return units_in(recording.report(), "b") == 6LL * kMost && recording.fold() == 5; });
    }));
    HOLDS(units_beside(path, "b") == 6LL * kMost);
}

// The process becomes another user, to whom the folder is given, and who may not pass to it.
void another_user() {
    const std::string above = folder("closed_above"), path = above + "/metrics";
    HOLDS(mkdir(above.c_str(), 0700) == 0 && in_child([&] {
        return goes_on(
            path,
            [&] {
                bool is = chown(path.c_str(), 65534, 65534) == 0;
                for (const auto& entry : files::directory_iterator(path)) is = is && chown(entry.path().c_str(), 65534, 65534) == 0;
                return is && setgroups(0, nullptr) == 0 && setgid(65534) == 0 && setuid(65534) == 0;
            },
            [&](Recording& recording) { return units_in(recording.report(), "b") == 6LL * kMost && recording.fold() == 5; });
    }));
    HOLDS(units_beside(path, "b") == 6LL * kMost);
}

// After its end a recording has no descriptor of the folder, and its texts are still there; so are they in a child.
void ended() {
    const std::string path = folder("ended");
    const auto descriptors = [] { return std::distance(files::directory_iterator("/proc/self/fd"), files::directory_iterator()); };
    const std::ptrdiff_t before = descriptors();
    povundiri_recording* own = nullptr;
    int fault = 0;
    std::size_t metric = 0;
    HOLDS(povundiri_recording_open(path.c_str(), nullptr, &own, &fault) == 0 && descriptors() > before);
    HOLDS(povundiri_recording_hist(own, "b", 1, {POVUNDIRI_BOOLEAN, 0, 0, 0}, nullptr, 0, &metric) == 0);
    HOLDS(povundiri_recording_add(own, metric, 1, 7));
    const auto reports = [&] {
        char* text = nullptr;
        std::size_t length = 0;
        int fault = 0;
        const bool is = povundiri_recording_report(own, &text, &length, &fault) == POVUNDIRI_DONE && units_in(text, "b") == 7;
        std::free(text);
        return is;
    };
    HOLDS(reports() && in_child(reports));
    povundiri_recording_end(own);
    HOLDS(descriptors() == before && reports() && in_child(reports) && descriptors() == before);
    // What has ended makes no folder.
    files::remove_all(path);
    HOLDS(!reports() && bytes_of(path) == -1);
}

int run() {
    int failed = group("an emptied folder", emptied);
    failed += group("a folder that is made again", made_again);
    failed += group("a removed folder", gone);
    failed += group("a segment with another file in its place", replaced);
    failed += group("without a text", without_text);
    failed += group("a removed segment that is an old one", removed_old);
    failed += group("a folder without its mark", unmarked);
    failed += group("a folder of none of these files", not_a_recordings);
    failed += group("a renamed folder", renamed);
    failed += group("a folder in a renamed one", renamed_above);
    failed += group("closed descriptors", closed);
    failed += group_of_root("another root", chrooted, "only root can change it");
    failed += group_of_root("another user", another_user, "only root can become one");
    failed += group("after the end", ended);
    return failed;
}

}  // namespace

int main(int count, char** words) { return in_folder(count, words, run); }
