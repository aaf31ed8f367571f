// How recordings are opened: 'recorded_options FOLDER'. Names of a folder, options, folders that are none of a recording's, and the reasons
// for what is missed. Each group works in a folder of its own below that.
#include <cstdio>
#include <cstring>
#include <filesystem>
#include <new>
#include <string>
#include <utility>

#include "recorded.hpp"

namespace {

// A folder is named in each way that C++ has, and none of them is ambiguous.
void named() {
    static_assert(sizeof(Recording) == sizeof(void*));
    const std::string text = folder("ways");
    const std::filesystem::path path = text;
    char letters[4096];
    HOLDS(std::snprintf(letters, sizeof letters, "%s", text.c_str()) > 0);
    RecordingOptions options = one_shard();
    options.bytes = 16'384;
    for (int turn = 0; turn < 2; ++turn) {
        const Recording ways[] = {Recording(text),          Recording(path),          Recording(letters),          Recording(text.c_str()),
                                  Recording(text, options), Recording(path, options), Recording(letters, options), Recording(path / ".")};
        for (const Recording& each : ways) HOLDS(each && each.began().number > 0);
    }
    Recording one, two, three;
    HOLDS(!Recording::try_open(text, one) && !Recording::try_open(path, two, options) && !Recording::try_open(letters, three));
    HOLDS(one.began().number > 0 && Recording().began().number == 0 && povundiri_recording_began(nullptr) == nullptr);
    Recording moved = std::move(one);
    HOLDS(moved.began().number > 0 && one.began().number == 0);
}

// Options are what is usual wherever they are made, and those that this library does not know are refused.
void options() {
    alignas(RecordingOptions) unsigned char place[sizeof(RecordingOptions)], other[sizeof(povundiri::FileOptions)];
    std::memset(place, 0x5A, sizeof place);
    std::memset(other, 0x5A, sizeof other);
    const auto* const usual = new (place) RecordingOptions;
    const auto* const file = new (other) povundiri::FileOptions;
    HOLDS(usual->size == sizeof *usual && usual->bytes == 0 && usual->fold_at == 0 && usual->apart == 0);
    HOLDS(usual->random == nullptr && usual->context == nullptr && usual->flags == 0 && usual->mode == 0);
    HOLDS(usual->most_bytes == 0 && usual->most_values == 0 && usual->shards == 0);
    HOLDS(file->size == sizeof *file && file->flags == 0 && file->mode == 0);
    struct {
        povundiri_recording_options known = POVUNDIRI_RECORDING_OPTIONS;
        std::uint64_t later = 0;
    } larger;
    const auto opened = [&](const char* name) {
        povundiri_recording* own = nullptr;
        int fault = 0;
        const std::uint32_t status = povundiri_recording_open(folder(name).c_str(), &larger.known, &own, &fault);
        povundiri_recording_end(own);
        HOLDS((status == POVUNDIRI_DONE || status == POVUNDIRI_BAD_OPTIONS) && fault == 0);
        HOLDS((status == POVUNDIRI_DONE) == (own != nullptr));
        return status == POVUNDIRI_DONE;
    };
    HOLDS(opened("options"));
    larger.known.size = 0;
    HOLDS(opened("options"));
    larger.known.size = sizeof larger.known - 1;
    HOLDS(!opened("refused-options"));
    larger.known.size = sizeof larger;
    HOLDS(opened("options"));
    for (const std::uint64_t shards : {1, 256}) {
        larger.known.shards = shards;
        HOLDS(opened("options"));
    }
    larger.known.shards = 257;
    HOLDS(!opened("refused-options"));
    larger.known.shards = 0;
    larger.later = 1;
    HOLDS(!opened("refused-options") && bytes_of(folder("refused-options")) == -1);
}

// Reasons keep their numbers, and have names; after the last there is none.
void reasons() {
    const char* const names[] = {"too_large", "other_spec", "no_space", "rolling", "forked", "ended", "no_memory", "removed", "child", "values"};
    std::uint32_t count = 0;
    for (const char* name : names) HOLDS(std::strcmp(povundiri_missed_text(count++), name) == 0);
    HOLDS(povundiri_missed_text(count) == nullptr && povundiri_missed_text(UINT32_MAX) == nullptr);
    static_assert(POVUNDIRI_MISSED_TOO_LARGE == 0 && POVUNDIRI_MISSED_OTHER_SPEC == 1 && POVUNDIRI_MISSED_NO_SPACE == 2);
    static_assert(POVUNDIRI_MISSED_ROLLING == 3 && POVUNDIRI_MISSED_FORKED == 4 && POVUNDIRI_MISSED_ENDED == 5);
    static_assert(POVUNDIRI_MISSED_NO_MEMORY == 6 && POVUNDIRI_MISSED_REMOVED == 7 && POVUNDIRI_MISSED_CHILD == 8);
    static_assert(POVUNDIRI_MISSED_VALUES == 9);
    Recording recording;
    HOLDS(opens(folder("reasons"), recording) && povundiri_recording_missed(nullptr, 0) == 0);
    const std::string text = recording.prometheus();
    for (const char* name : names) HOLDS(text.find(std::string("_missed_total{reason=\"") + name + "\"} 0\n") != std::string::npos);
}

// A folder that is not a recording's is not touched.
void folders() {
    Recording recording;
    const std::string other = folder("other"), file = other + "/file";
    HOLDS(mkdir(other.c_str(), 0700) == 0);
    HOLDS(std::fclose(std::fopen(file.c_str(), "w")) == 0);
    HOLDS(Recording::try_open(other.c_str(), recording) == Status::FolderInUse);
    HOLDS(Recording::try_open(file.c_str(), recording) == std::errc::not_a_directory);
    HOLDS(Recording::try_open(folder("none/below").c_str(), recording) == std::errc::no_such_file_or_directory);
    RecordingOptions options = one_shard();
    options.bytes = 8;
    HOLDS(Recording::try_open(folder("shape").c_str(), recording, options) == Status::OpenBadShape);
    HOLDS(!recording);
    povundiri_handle sums = {};
    int fault = 0;
    ANSWERS(NO_RECORDING, povundiri_folder_sums(other.c_str(), &sums, nullptr, &fault));
    HOLDS(fault == 0 && !sums.held);
    ANSWERS(NO_RECORDING, povundiri_folder_fold(other.c_str(), nullptr, &fault));
    HOLDS(fault == 0 && bytes_of(other + "/fold.lock") == -1);
    HOLDS(std::remove(file.c_str()) == 0 && opens(other, recording));
}

int run() {
    int failed = group("names of a folder", named);
    failed += group("options", options);
    failed += group("reasons", reasons);
    failed += group("folders", folders);
    return failed;
}

}  // namespace

int main(int count, char** words) { return in_folder(count, words, run); }
