// Recordings whose folder is another user's: who may open it, fold it and read it, and whose the files are then: 'recorded_users FOLDER'.
// Each group works in a folder of its own below that, to which others may pass. Most of it takes root, and other users who need no name.
#include <fcntl.h>
#include <grp.h>

#include <algorithm>
#include <cerrno>
#include <cstdio>
#include <filesystem>
#include <initializer_list>
#include <vector>

#include "recorded.hpp"

namespace {

namespace files = std::filesystem;

constexpr std::uint32_t kMost = 4'000'000'000;

// The owner of folders, somebody else, and a group.
constexpr unsigned kOwner = 65'534, kOther = 65'533, kGroup = 65'532;

// From now on this process is another user, in these groups beside the user's own, which has the user's number.
bool becomes(unsigned user, const std::vector<gid_t>& groups = {}) {
    return setgroups(groups.size(), groups.data()) == 0 && setgid(user) == 0 && setuid(user) == 0;
}

bool is_as(const std::string& path, unsigned owner, unsigned group, unsigned mode) {
    struct stat about;
    if (lstat(path.c_str(), &about) != 0) return false;
    const bool is = about.st_uid == owner && about.st_gid == group && (about.st_mode & 07777) == mode;
    if (!is) std::printf("%s: %u:%u %o\n", path.c_str(), about.st_uid, about.st_gid, about.st_mode & 07777U);
    return is;
}

// Whether all files of a folder are so, of which there are some.
bool are_as(const std::string& path, unsigned owner, unsigned group, unsigned mode) {
    int count = 0;
    for (const auto& entry : files::directory_iterator(path)) {
        if (!is_as(entry.path(), owner, group, mode)) return false;
        ++count;
    }
    return count > 0;
}

// The names in a folder.
std::vector<std::string> names_in(const std::string& path) {
    std::vector<std::string> names;
    for (const auto& entry : files::directory_iterator(path)) names.push_back(entry.path().filename());
    std::sort(names.begin(), names.end());
    return names;
}

// A folder of the owner, which has this mode.
std::string folder_of_owner(const char* name, mode_t mode = 0700) {
    const std::string path = folder(name);
    HOLDS(mkdir(path.c_str(), 0700) == 0 && chown(path.c_str(), kOwner, kOwner) == 0 && chmod(path.c_str(), mode) == 0);
    return path;
}

// Counts in some segments, of which all but the last are final, and says whether nothing was missed.
bool counts(const std::string& path, int segments, const RecordingOptions& options = small()) {
    Recording recording;
    if (!opens(path, recording, options) || recording.began().fault != 0) return false;
    const Metric metric = metric_of(recording, "b");
    for (int i = 0; i < segments; ++i) {
        if (!metric.add(1, kMost)) return false;
    }
    return recording.missed() == 0;
}

std::uint32_t folds(const std::string& path, std::uint64_t& folded) {
    int fault = 0;
    const std::uint32_t status = povundiri_folder_fold(path.c_str(), &folded, &fault);
    return status == POVUNDIRI_SYSTEM ? 1000 + static_cast<std::uint32_t>(fault) : status;
}

// Root folds the folder of a user, who goes on: everything there is still the user's.
void fold_by_root() {
    const std::string path = folder_of_owner("root_folds");
    std::uint64_t folded = 0;
    HOLDS(in_child([&] { return becomes(kOwner) && counts(path, 3); }));
    ANSWERS(DONE, folds(path, folded));
    HOLDS(folded == 3 && are_as(path, kOwner, kOwner, 0600) && bytes_of(path + "/totals") > 0 && bytes_of(path + "/fold.lock") == 0);
    HOLDS(in_child([&] {
        return becomes(kOwner) && counts(path, 3) && folds(path, folded) == POVUNDIRI_DONE && folded == 3 &&
               units_beside(path, "b") == 6LL * kMost;
    }));
    HOLDS(std::remove((path + "/recording").c_str()) == 0 && in_child([&] { return becomes(kOwner) && counts(path, 1); }));
    HOLDS(std::remove((path + "/recording").c_str()) == 0);
    ANSWERS(DONE, folds(path, folded));
    HOLDS(folded == 1 && are_as(path, kOwner, kOwner, 0600) && bytes_of(path + "/recording") == 4096);
}

// A fold of root gives away no file that was there before: it may have another name as well.
void fold_gives_no_old_file() {
    const std::string path = folder_of_owner("given");
    for (const char* name : {"fold.lock", "totals.new"}) {
        const std::string precious = folder("precious_") + name;
        std::uint64_t folded = 0;
        std::FILE* const file = std::fopen(precious.c_str(), "w");
        HOLDS(file != nullptr && std::fputs("mine", file) >= 0 && std::fclose(file) == 0 && chmod(precious.c_str(), 0600) == 0);
        HOLDS(in_child([&] { return becomes(kOwner) && counts(path, 2); }));
        HOLDS(link(precious.c_str(), (path + "/" + name).c_str()) == 0);
        ANSWERS(DONE, folds(path, folded));
        HOLDS(folded == 2 && is_as(precious, 0, 0, 0600) && bytes_of(precious) == 4 && is_as(path + "/totals", kOwner, kOwner, 0600));
    }
}

// Neither the owner nor root folds: nothing is changed.
void fold_by_another() {
    const std::string path = folder_of_owner("another_folds", 0755);
    RecordingOptions options = small();
    options.mode = 0644;
    HOLDS(in_child([&] { return becomes(kOwner) && counts(path, 3, options); }));
    HOLDS(std::remove((path + "/recording").c_str()) == 0);
    const std::vector<std::string> before = names_in(path);
    std::uint64_t folded = 7;
    HOLDS(in_child([&] {
        return becomes(kOther) && folds(path, folded) == POVUNDIRI_NOT_OWNER && folded == 0 && units_beside(path, "b") == 3LL * kMost;
    }));
    HOLDS(names_in(path) == before);
    // The mark that a fold makes is for those for whom the folder is.
    ANSWERS(DONE, folds(path, folded));
    HOLDS(folded == 3 && are_as(path, kOwner, kOwner, 0644));
}

// Others cannot record in a folder, unless they say that they trust its owner.
void open_by_another() {
    const std::string path = folder_of_owner("opened", 0755);
    Recording recording;
    HOLDS(in_child([&] { return becomes(kOwner) && counts(path, 1); }));
    const std::vector<std::string> before = names_in(path);
    HOLDS(Recording::try_open(path, recording, small()) == Status::NotOwner && !recording && names_in(path) == before);
    HOLDS(in_child([&] { return becomes(kOther) && Recording::try_open(path, recording, small()) == Status::NotOwner; }));
    HOLDS(names_in(path) == before);
    povundiri_recording* own = nullptr;
    int fault = 7;
    ANSWERS(NOT_OWNER, povundiri_recording_open(path.c_str(), nullptr, &own, &fault));
    HOLDS(fault == 0 && own == nullptr);
    RecordingOptions options = small();
    options.flags = POVUNDIRI_FILE_ANY_OWNER;
    HOLDS(counts(path, 3, options) && are_as(path, kOwner, kOwner, 0600) && segments_in(path) == 4);
    HOLDS(in_child([&] { return becomes(kOwner) && counts(path, 2) && units_beside(path, "b") == 6LL * kMost; }));
    // An empty folder is marked for its owner.
    const std::string empty = folder_of_owner("opened_empty");
    HOLDS(Recording::try_open(empty, recording) == Status::NotOwner && files::is_empty(empty));
    HOLDS(counts(empty, 2, options) && are_as(empty, kOwner, kOwner, 0600));
    HOLDS(in_child([&] { return becomes(kOwner) && counts(empty, 1) && units_beside(empty, "b") == 3LL * kMost; }));
}

// What the group or others may write is refused, whoever owns it.
void writable() {
    const std::string path = folder("writable");
    const auto opens_with = [&](mode_t mode, unsigned flags) {
        Recording recording;
        RecordingOptions options = small();
        options.flags = flags;
        HOLDS(chmod(path.c_str(), mode) == 0);
        return Recording::try_open(path, recording, options);
    };
    constexpr unsigned kGroupWrites = POVUNDIRI_FILE_GROUP_WRITES, kAny = POVUNDIRI_FILE_ANY_OWNER;
    HOLDS(mkdir(path.c_str(), 0700) == 0);
    for (const mode_t mode : {0777U, 0702U, 01777U}) {
        for (const unsigned flags : {0U, kGroupWrites, kAny, kAny | kGroupWrites}) {
            HOLDS(opens_with(mode, flags) == std::errc::operation_not_permitted);
        }
    }
    HOLDS(opens_with(0770, 0) == std::errc::operation_not_permitted && opens_with(02770, kAny) == std::errc::operation_not_permitted);
    HOLDS(files::is_empty(path) && !opens_with(0770, kGroupWrites) && !opens_with(0755, 0) && segments_in(path) > 0);
}

// A folder and files of other modes than the usual ones.
void modes() {
    const mode_t was = umask(0);
    const auto made_with = [](const char* name, mode_t mode, unsigned flags) {
        RecordingOptions options = small();
        options.mode = mode;
        options.flags = flags;
        return counts(folder(name), 3, options);
    };
    const auto is_made = [](const char* name, mode_t of_folder, mode_t mode) {
        std::uint64_t folded = 0;
        const std::string path = folder(name);
        return is_as(path, geteuid(), getegid(), of_folder) && are_as(path, geteuid(), getegid(), mode) &&
               folds(path, folded) == POVUNDIRI_DONE && folded == 3 && are_as(path, geteuid(), getegid(), mode) &&
               bytes_of(path + "/totals") > 0;
    };
    HOLDS(made_with("mode_usual", 0, 0) && is_made("mode_usual", 0700, 0600));
    HOLDS(made_with("mode_0640", 0640, 0) && is_made("mode_0640", 0750, 0640));
    HOLDS(made_with("mode_0644", 0644, POVUNDIRI_FILE_ANY_OWNER) && is_made("mode_0644", 0755, 0644));
    HOLDS(made_with("mode_0660", 0660, POVUNDIRI_FILE_GROUP_WRITES) && is_made("mode_0660", 0770, 0660));
    umask(027);
    HOLDS(made_with("mode_mask", 0644, 0) && is_made("mode_mask", 0750, 0640));
    umask(was);
    const auto is_refused = [](mode_t mode, unsigned flags) {
        Recording recording;
        RecordingOptions options = one_shard();
        options.mode = mode;
        options.flags = flags;
        return Recording::try_open(folder("mode_none"), recording, options) == Status::BadOptions && bytes_of(folder("mode_none")) == -1;
    };
    for (const mode_t mode : {0400U, 0200U, 0060U, 0602U, 0620U, 0660U, 0666U, 0777U, 04600U}) HOLDS(is_refused(mode, 0));
    for (const unsigned flags : {4U, 8U, 16U, 32U, 1U << 31}) HOLDS(is_refused(0, flags) && is_refused(0640, flags | 2));
}

// A group may read the folder, and do nothing else; others may not even do that.
void readers() {
    const std::string path = folder("readers");
    HOLDS(mkdir(path.c_str(), 0700) == 0 && chown(path.c_str(), kOwner, kGroup) == 0 && chmod(path.c_str(), 0750) == 0);
    RecordingOptions options = small();
    options.mode = 0640;
    umask(022);
    HOLDS(in_child([&] { return becomes(kOwner, {kGroup}) && counts(path, 3, options); }));
    HOLDS(are_as(path, kOwner, kGroup, 0640));
    const auto reads = [&] {
        Recording recording;
        std::uint64_t folded = 0;
        return becomes(kOther, {kGroup}) && units_beside(path, "b") == 3LL * kMost && folds(path, folded) == POVUNDIRI_NOT_OWNER &&
               Recording::try_open(path, recording) == Status::NotOwner;
    };
    std::uint64_t folded = 0;
    HOLDS(in_child(reads));
    HOLDS(in_child([&] { return becomes(kOwner, {kGroup}) && folds(path, folded) == POVUNDIRI_DONE && folded == 3; }));
    HOLDS(are_as(path, kOwner, kGroup, 0640) && in_child(reads));
    HOLDS(in_child([&] { return becomes(kOwner, {kGroup}) && counts(path, 2, options); }));
    ANSWERS(DONE, folds(path, folded));
    HOLDS(folded == 2 && are_as(path, kOwner, kGroup, 0640));
    HOLDS(in_child([&] {
        povundiri_handle sums = {};
        int fault = 0;
        return becomes(kOther) && povundiri_folder_sums(path.c_str(), &sums, nullptr, &fault) == POVUNDIRI_SYSTEM && fault == EACCES;
    }));
}

// A daemon opens the recording as root, in a folder of the user that it becomes then: nothing is missed, before or afterwards.
void given_up() {
    const std::string path = folder_of_owner("given_up");
    RecordingOptions options = small();
    options.flags = POVUNDIRI_FILE_ANY_OWNER;
    HOLDS(in_child([&] {
        Recording recording;
        if (!opens(path, recording, options)) return false;
        const Metric metric = metric_of(recording, "b");
        for (int i = 0; i < 3; ++i) HOLDS(metric.add(1, kMost));
        if (!becomes(kOwner)) return false;
        for (int i = 0; i < 3; ++i) {
            if (!metric.add(1, kMost)) return false;
        }
        return recording.missed() == 0 && units_in(recording.report(), "b") == 6LL * kMost && recording.fold() == 5;
    }));
    HOLDS(are_as(path, kOwner, kOwner, 0600));
    HOLDS(in_child([&] { return becomes(kOwner) && counts(path, 1) && units_beside(path, "b") == 7LL * kMost; }));
}

int run() {
    const auto of_root = [](const char* name, void (*checks)()) { return group_of_root(name, checks, "only root can become another user"); };
    int failed = of_root("a fold by root", fold_by_root);
    failed += of_root("a fold by root over files with other names", fold_gives_no_old_file);
    failed += of_root("a fold by another user", fold_by_another);
    failed += of_root("a folder of another user", open_by_another);
    failed += group("a folder that others may write", writable);
    failed += group("modes", modes);
    failed += of_root("readers of a group", readers);
    failed += of_root("a daemon that becomes another user", given_up);
    return failed;
}

}  // namespace

int main(int count, char** words) { return in_folder(count, words, run); }
