/* What povundiri_open does with each kind of file at a path, by each policy; and that no unit is lost by a kill or a fault of the system at
 * any of its calls: file_policies FOLDER
 *
 * It is linked with a povundiri_file.c of which the calls to the system come here: -Drenameat2=test_renameat2 and so on. */
#include "files.h"

#include <dirent.h>
#include <sched.h>
#include <stdarg.h>
#include <sys/mman.h>

/* ---- The system's calls ---- */

/* At which of the next calls, from 1 on, the process is killed, or the call fails; 0 for none. */
static int calls, killed_at, failing_at, cannot_rename_to_free;

/* Whether this call is to fail. */
static int fails(void) {
    calls += 1;
    if (calls == killed_at) raise(SIGKILL);
    errno = EIO;
    return calls == failing_at;
}

int test_openat(int folder, const char *path, int flags, ...);
int test_openat(int folder, const char *path, int flags, ...) {
    va_list more;
    mode_t mode;
    va_start(more, flags);
    mode = va_arg(more, mode_t);
    va_end(more);
    return fails() ? -1 : openat(folder, path, flags, mode);
}

int test_fstat(int descriptor, struct stat *about);
int test_fstat(int descriptor, struct stat *about) {
    return fails() ? -1 : fstat(descriptor, about);
}

int test_fstatat(int directory, const char *path, struct stat *about, int flags);
int test_fstatat(int directory, const char *path, struct stat *about, int flags) {
    return fails() ? -1 : fstatat(directory, path, about, flags);
}

int test_flock(int descriptor, int how);
int test_flock(int descriptor, int how) {
    return fails() ? -1 : flock(descriptor, how);
}

ssize_t test_pread(int descriptor, void *to, size_t bytes, off_t at);
ssize_t test_pread(int descriptor, void *to, size_t bytes, off_t at) {
    return fails() ? -1 : pread(descriptor, to, bytes, at);
}

int test_posix_fallocate(int descriptor, off_t at, off_t bytes);
int test_posix_fallocate(int descriptor, off_t at, off_t bytes) {
    return fails() ? EIO : posix_fallocate(descriptor, at, bytes);
}

int test_ftruncate(int descriptor, off_t length);
int test_ftruncate(int descriptor, off_t length) {
    if (fails()) return 0; /* a failure of this is not looked at: it is as if the process had been killed before */
    return ftruncate(descriptor, length);
}

void *test_mmap(void *at, size_t bytes, int protection, int flags, int descriptor, off_t offset);
void *test_mmap(void *at, size_t bytes, int protection, int flags, int descriptor, off_t offset) {
    return fails() ? MAP_FAILED : mmap(at, bytes, protection, flags, descriptor, offset);
}

int test_madvise(void *at, size_t bytes, int advice);
int test_madvise(void *at, size_t bytes, int advice) {
    return fails() ? -1 : madvise(at, bytes, advice);
}

int test_munmap(void *at, size_t bytes);
int test_munmap(void *at, size_t bytes) {
    (void)fails();
    return munmap(at, bytes);
}

int test_close(int descriptor);
int test_close(int descriptor) {
    (void)fails();
    return close(descriptor);
}

int test_renameat2(int from_directory, const char *from, int to_directory, const char *to, unsigned flags);
int test_renameat2(int from_directory, const char *from, int to_directory, const char *to, unsigned flags) {
    if (fails()) return -1;
    if (!cannot_rename_to_free) return renameat2(from_directory, from, to_directory, to, flags);
    errno = EINVAL;
    return -1;
}

int test_link(const char *from, const char *to);
int test_link(const char *from, const char *to) {
    return fails() ? -1 : link(from, to);
}

int test_unlink(const char *path);
int test_unlink(const char *path) {
    return fails() ? -1 : unlink(path);
}

/* ---- Memory ---- */

/* Which of the next allocations, from 1 on, is refused; 0 for none. Those of the library go through heap.h. */
static int allocations, refused_at;

static bool is_refused(size_t size) {
    (void)size;
    allocations += 1;
    return allocations == refused_at;
}

#include "heap.h"

void *test_malloc(size_t size);
void *test_malloc(size_t size) {
    return is_refused(size) ? NULL : malloc(size);
}

void *test_calloc(size_t count, size_t size);
void *test_calloc(size_t count, size_t size) {
    return is_refused(count * size) ? NULL : calloc(count, size);
}

/* ---- Files that were set aside ---- */

/* Removes everything in the folder. */
static void clear(void) {
    DIR *all = opendir(folder);
    const struct dirent *entry;
    while (all != NULL && (entry = readdir(all)) != NULL) unlink(path_of(entry->d_name));
    closedir(all);
}

/* How many files of the folder whose names begin so have these bytes. */
static int with_bytes(const char *beginning, const void *bytes, size_t length) {
    DIR *all = opendir(folder);
    const struct dirent *entry;
    int found = 0;
    while (all != NULL && (entry = readdir(all)) != NULL) {
        found += strncmp(entry->d_name, beginning, strlen(beginning)) == 0 && has_bytes(path_of(entry->d_name), bytes, length);
    }
    closedir(all);
    return found;
}

/* Whether this is PATH.KIND-YYYYMMDDThhmmssZ-N with this number, and of the last minutes. */
static int is_name(const char *name, const char *path, const char *kind, int number) {
    const time_t now = time(NULL);
    char before[4200], after[16];
    struct tm parts;
    time_t ago;
    snprintf(before, sizeof before, "%s.%s-", path, kind);
    snprintf(after, sizeof after, "-%d", number);
    if (strncmp(name, before, strlen(before)) != 0) return 0;
    name += strlen(before);
    memset(&parts, 0, sizeof parts);
    if (strlen(name) != 16 + strlen(after) || strptime(name, "%Y%m%dT%H%M%SZ", &parts) != name + 16) return 0;
    ago = now - timegm(&parts);
    return ago >= 0 && ago < 300 && strcmp(name + 16, after) == 0;
}

/* ---- Images that are refused ---- */

static const struct damage {
    size_t word;
    uint64_t value;
    uint32_t fault;
} DAMAGES[] = {
    {1, 1, POVUNDIRI_ADOPT_OLD_VERSION},    {6, 1, POVUNDIRI_ADOPT_CORRUPT},     {7, 16, POVUNDIRI_ADOPT_DAMAGED},
    {2, 3, POVUNDIRI_IMAGE_TOO_SHORT},      {1, 3, POVUNDIRI_IMAGE_BAD_VERSION}, {3, 65, POVUNDIRI_IMAGE_BAD_PAGE},
    {2, 512 + 1, POVUNDIRI_IMAGE_BAD_SIZE}, {5, 3, POVUNDIRI_IMAGE_NOT_READY},   {5, 2, POVUNDIRI_IMAGE_DELETED},
    {7, 5, POVUNDIRI_IMAGE_BAD_FREE},       {12, 5, POVUNDIRI_IMAGE_BAD_QUEUE},
};
enum { DAMAGE_COUNT = sizeof DAMAGES / sizeof DAMAGES[0] };

/* A file with a segment of five units in which one word is another. Its bytes, for free(). */
static unsigned char *damaged_file(const char *name, const struct damage *damage, size_t *length) {
    make_segment(name, 5);
    store_at(name, 8 + 8 * (off_t)damage->word, &damage->value, 8);
    return bytes_at(path_of(name), length);
}

static void refused_and_left(void) {
    struct povundiri_opened opened = POVUNDIRI_OPENED;
    size_t i, length;
    for (i = 0; i < DAMAGE_COUNT; i += 1) {
        unsigned char *before = damaged_file("left", &DAMAGES[i], &length);
        check_status(__LINE__, "open", DAMAGES[i].fault, open_and_count("left", POVUNDIRI_ADOPT_OR_FAIL, 1, &opened));
        HOLDS(opened.outcome == POVUNDIRI_NOTHING && opened.refused == DAMAGES[i].fault && opened.set_aside[0] == 0);
        HOLDS(opened.fault == 0 && opened.shape.size == 0 && !opened.spent);
        HOLDS(has_bytes(path_of("left"), before, length) && with_bytes("left.", before, length) == 0);
        free(before);
    }
}

static void refused_and_set_aside(void) {
    struct povundiri_opened opened = POVUNDIRI_OPENED;
    size_t i, length;
    int policy;
    for (i = 0; i < DAMAGE_COUNT; i += 1) {
        for (policy = POVUNDIRI_ADOPT_OR_SET_ASIDE; policy <= POVUNDIRI_ADOPT_OR_BEGIN_ANEW; policy += 1) {
            unsigned char *before = damaged_file("aside", &DAMAGES[i], &length);
            DONE(open_and_count("aside", (enum povundiri_policy)policy, 7, &opened));
            HOLDS(opened.outcome == POVUNDIRI_MADE_ANEW && opened.refused == DAMAGES[i].fault && opened.fault == 0);
            HOLDS(opened.shape.size == WORDS && opened.units == UINT32_MAX && !opened.other_shape && !opened.spent);
            HOLDS(has_bytes(opened.set_aside, before, length) && units_in(path_of("aside")) == 7);
            HOLDS(strncmp(opened.set_aside, path_of("aside.damaged-"), strlen(path_of("aside.damaged-"))) == 0);
            free(before);
        }
    }
}

/* Sets the count of each value of 's' in the file; returns how many values it has. */
static int set_counts(const char *name, uint64_t count) {
    size_t length, i;
    unsigned char *bytes = bytes_at(path_of(name), &length);
    const uint64_t *image = (const uint64_t *)bytes + 1;
    int values = 0;
    for (i = 16; i + 7 < length / 8; i += 1) {
        /* the cookie and the type of a sample's block, in its words 1 and 2; its count is word 6 */
        if (image[i + 1] != 0xC8799269 || image[i + 2] != 3) continue;
        store_at(name, 8 + 8 * (off_t)(i + 6), &count, 8);
        values += 1;
    }
    free(bytes);
    return values;
}

/* As many units as a segment has, and more. */
static void too_many_units(void) {
    struct povundiri_file file = {0};
    struct povundiri_handle segment = {0}, recorder = {0};
    struct povundiri_opened opened = POVUNDIRI_OPENED;
    size_t hist;
    make_segment("units", 5);
    HOLDS(set_counts("units", UINT32_MAX) == 1);
    DONE(open_and_count("units", POVUNDIRI_ADOPT_OR_FAIL, 0, &opened));
    HOLDS(opened.spent && opened.units == 0);
    make_segment("units", 5);
    DONE(povundiri_open(path_of("units"), shape_of(WORDS), POVUNDIRI_ADOPT_OR_FAIL, NULL, &file, &segment, &opened));
    DONE(povundiri_recorder(&segment, 1, &recorder));
    DONE(povundiri_hist_sparse(&recorder, "s", &hist));
    DONE(povundiri_add(&recorder, hist, 4, 1));
    DONE(povundiri_join(&segment, &recorder));
    DONE(povundiri_drop(&segment));
    povundiri_file_close(&file);
    HOLDS(set_counts("units", UINT32_MAX) == 2);
    ANSWERS(ADOPT_NO_UNITS, open_and_count("units", POVUNDIRI_ADOPT_OR_FAIL, 1, &opened));
    DONE(open_and_count("units", POVUNDIRI_ADOPT_OR_SET_ASIDE, 1, &opened));
    HOLDS(opened.refused == POVUNDIRI_ADOPT_NO_UNITS && opened.outcome == POVUNDIRI_MADE_ANEW);
}

/* A file that is cut keeps its length under its new name. */
static void cut_and_set_aside(void) {
    struct povundiri_opened opened = POVUNDIRI_OPENED;
    unsigned char *before;
    size_t length;
    make_segment("cut", 5);
    HOLDS(truncate(path_of("cut"), 5001) == 0);
    before = bytes_at(path_of("cut"), &length);
    DONE(open_and_count("cut", POVUNDIRI_ADOPT_OR_SET_ASIDE, 1, &opened));
    HOLDS(length == 5001 && opened.refused == POVUNDIRI_IMAGE_BAD_SIZE && has_bytes(opened.set_aside, before, length));
    free(before);
    before = damaged_file("cut", &DAMAGES[2], &length);
    HOLDS(truncate(path_of("cut"), 8200) == 0);
    DONE(open_and_count("cut", POVUNDIRI_ADOPT_OR_SET_ASIDE, 1, &opened));
    HOLDS(opened.refused == POVUNDIRI_ADOPT_DAMAGED && has_bytes(opened.set_aside, before, 8200));
    free(before);
}

/* The numbers count up within a second, and no file is written over, nor one that a link leads to. */
static void numbers(void) {
    static const char text[] = "a file of somebody else";
    struct povundiri_opened opened = POVUNDIRI_OPENED;
    unsigned char *before;
    size_t length;
    int number, tries = 0;
    do { /* until all of it falls into one second */
        clear();
        before = damaged_file("n", &DAMAGES[2], &length);
        for (number = 1; number <= 4; number += 1) {
            store("n", before, length);
            DONE(open_and_count("n", POVUNDIRI_ADOPT_OR_SET_ASIDE, 1, &opened));
            if (!is_name(opened.set_aside, path_of("n"), "damaged", number)) break;
            if (number == 2) { /* the next name is taken */
                char taken[POVUNDIRI_PATH_BYTES];
                strcpy(taken, opened.set_aside);
                taken[strlen(taken) - 1] = '3';
                store("text", text, sizeof text);
                HOLDS(symlink("text", taken) == 0);
                number = 3;
            }
        }
        tries += 1;
        if (number <= 4) free(before);
    } while (number <= 4 && tries < 20);
    HOLDS(number == 5);
    if (number != 5) return;
    HOLDS(with_bytes("n.damaged-", before, length) == 3 && has_bytes(path_of("text"), text, sizeof text));
    HOLDS(with_bytes("n.damaged-", text, sizeof text) == 1);
    free(before);
}

/* If the system does not know RENAME_NOREPLACE, files are renamed by link and unlink: never over another file either. */
static void without_renameat2(void) {
    cannot_rename_to_free = 1;
    numbers();
    refused_and_set_aside();
    cannot_rename_to_free = 0;
}

/* A name that would be too long: nothing is renamed. */
static void long_names(void) {
    struct povundiri_opened opened = POVUNDIRI_OPENED;
    unsigned char *before;
    char name[256];
    size_t length;
    memset(name, 'x', 250);
    name[250] = 0;
    before = damaged_file(name, &DAMAGES[2], &length);
    ANSWERS(SYSTEM, open_and_count(name, POVUNDIRI_ADOPT_OR_SET_ASIDE, 1, &opened));
    HOLDS(opened.fault == ENAMETOOLONG && opened.set_aside[0] == 0 && opened.refused == POVUNDIRI_ADOPT_DAMAGED);
    HOLDS(has_bytes(path_of(name), before, length));
    free(before);
}

/* With a link, the file to which it leads is set aside, and the link leads to the new one. */
static void behind_a_link(void) {
    const struct povundiri_file_options follow = {sizeof follow, POVUNDIRI_FILE_FOLLOW, 0};
    struct povundiri_file file = {0};
    struct povundiri_handle segment = {0};
    struct povundiri_opened opened = POVUNDIRI_OPENED;
    char target[4096], found[4096];
    unsigned char *before;
    size_t length;
    before = damaged_file("target", &DAMAGES[2], &length);
    HOLDS(symlink("target", path_of("link")) == 0 && realpath(path_of("target"), target) != NULL);
    DONE(povundiri_open(path_of("link"), shape_of(WORDS), POVUNDIRI_ADOPT_OR_SET_ASIDE, &follow, &file, &segment, &opened));
    HOLDS(is_name(opened.set_aside, target, "damaged", 1) && has_bytes(opened.set_aside, before, length));
    HOLDS(realpath(path_of("link"), found) != NULL && strcmp(found, target) == 0);
    DONE(povundiri_drop(&segment));
    povundiri_file_close(&file);
    free(before);
}

/* What is told is as long as the caller says: as it was first with 0, and what comes after it is left as it is. */
static void sizes(void) {
    struct {
        struct povundiri_opened known;
        unsigned char later[16];
    } larger;
    size_t i, j;
    for (i = 0; i < 3; i += 1) {
        const size_t size = i == 0 ? 0 : i == 1 ? sizeof larger.known : sizeof larger;
        struct povundiri_file file = {0};
        struct povundiri_handle segment = {0};
        memset(&larger, 0xA5, sizeof larger);
        larger.known.size = size;
        DONE(povundiri_open(path_of("sizes"), shape_of(WORDS), POVUNDIRI_ADOPT_OR_FAIL, NULL, &file, &segment, &larger.known));
        HOLDS(larger.known.size == size && larger.known.fault == 0 && larger.known.refused == POVUNDIRI_DONE);
        HOLDS(larger.known.outcome == (i == 0 ? POVUNDIRI_MADE : POVUNDIRI_ADOPTED) && larger.known.shape.size == WORDS);
        HOLDS(!larger.known.spent && larger.known.units > 0 && larger.known.set_aside[0] == 0);
        for (j = 0; j < sizeof larger.later; j += 1) HOLDS(larger.later[j] == 0xA5);
        DONE(povundiri_drop(&segment));
        povundiri_file_close(&file);
    }
}

/* ---- What is not refused for good ---- */

/* Calls that cannot be: no pointer, no policy, no valid shape, options that are none, or handles that are full. */
static void wrong_calls(const char *path, struct povundiri_shape invalid) {
    const struct povundiri_file_options wrong = {0, 1 << 20, 0}, short_ones = {sizeof(size_t), 0, 0};
    const struct povundiri_shape shape = shape_of(WORDS);
    struct povundiri_shape many = shape;
    struct povundiri_file file = {0}, other = {0};
    struct povundiri_handle segment = {0}, heap = {0};
    struct povundiri_opened opened = POVUNDIRI_OPENED;
    many.cursors = 9;
    ANSWERS(NULL, povundiri_open(NULL, shape, POVUNDIRI_ADOPT_OR_SET_ASIDE, NULL, &file, &segment, &opened));
    ANSWERS(NULL, povundiri_open(path, shape, POVUNDIRI_ADOPT_OR_SET_ASIDE, NULL, NULL, &segment, &opened));
    ANSWERS(NULL, povundiri_open(path, shape, POVUNDIRI_ADOPT_OR_SET_ASIDE, NULL, &file, NULL, &opened));
    ANSWERS(NULL, povundiri_open(path, shape, POVUNDIRI_ADOPT_OR_SET_ASIDE, NULL, &file, &segment, NULL));
    opened.size = sizeof opened - 1;
    opened.fault = 77;
    ANSWERS(SHORT, povundiri_open(path, shape, POVUNDIRI_ADOPT_OR_SET_ASIDE, NULL, &file, &segment, &opened));
    HOLDS(opened.size == sizeof opened - 1 && opened.fault == 77 && !segment.held && !povundiri_file_is_open(&file));
    opened.size = sizeof opened;
    ANSWERS(BAD_KIND, povundiri_open(path, shape, (enum povundiri_policy)0, NULL, &file, &segment, &opened));
    HOLDS(opened.size == sizeof opened && opened.fault == 0);
    ANSWERS(OPEN_BAD_SHAPE, povundiri_open(path, invalid, POVUNDIRI_ADOPT_OR_SET_ASIDE, NULL, &file, &segment, &opened));
    ANSWERS(OPEN_BAD_CURSORS, povundiri_open(path, many, POVUNDIRI_ADOPT_OR_SET_ASIDE, NULL, &file, &segment, &opened));
    ANSWERS(BAD_OPTIONS, povundiri_open(path, shape, POVUNDIRI_ADOPT_OR_SET_ASIDE, &wrong, &file, &segment, &opened));
    ANSWERS(BAD_OPTIONS, povundiri_open(path, shape, POVUNDIRI_ADOPT_OR_SET_ASIDE, &short_ones, &file, &segment, &opened));
    HOLDS(opened.fault == 0 && !segment.held && !povundiri_file_is_open(&file));
    DONE(povundiri_create(shape, &heap));
    ANSWERS(NOT_EMPTY, povundiri_open(path, shape, POVUNDIRI_ADOPT_OR_SET_ASIDE, NULL, &file, &heap, &opened));
    DONE(povundiri_drop(&heap));
    HOLDS(open_file(&other, "other") == 0);
    ANSWERS(NOT_EMPTY, povundiri_open(path, shape, POVUNDIRI_ADOPT_OR_SET_ASIDE, NULL, &other, &segment, &opened));
    povundiri_file_close(&other);
}

static void other_faults(void) {
    const struct povundiri_shape shape = shape_of(WORDS);
    struct povundiri_shape invalid = shape;
    struct povundiri_file file = {0}, other = {0};
    struct povundiri_handle segment = {0};
    struct povundiri_opened opened = POVUNDIRI_OPENED;
    const char *path;
    unsigned char *before;
    size_t length;
    invalid.page = 65;
    before = damaged_file("faults", &DAMAGES[2], &length);
    wrong_calls(path_of("faults"), invalid);
    HOLDS(open_file(&other, "faults") == 0);
    ANSWERS(SYSTEM, povundiri_open(path_of("faults"), shape, POVUNDIRI_ADOPT_OR_SET_ASIDE, NULL, &file, &segment, &opened));
    HOLDS(opened.fault == EBUSY);
    povundiri_file_close(&other);
    HOLDS(chmod(path_of("faults"), 0666) == 0);
    ANSWERS(SYSTEM, povundiri_open(path_of("faults"), shape, POVUNDIRI_ADOPT_OR_SET_ASIDE, NULL, &file, &segment, &opened));
    HOLDS(opened.fault == EPERM && chmod(path_of("faults"), 0600) == 0);
    HOLDS(has_bytes(path_of("faults"), before, length) && with_bytes("faults.", before, length) == 0);
    path = path_of("none");
    ANSWERS(OPEN_BAD_SHAPE, povundiri_open(path, invalid, POVUNDIRI_ADOPT_OR_FAIL, NULL, &file, &segment, &opened));
    HOLDS(!is_there(path));
    free(before);
}

/* ---- What is adopted ---- */

/* An older segment keeps its shape, which is reported; there is room for the cursors that are asked for. */
static void other_shapes(void) {
    const struct povundiri_shape small = {512, 64, 8, 8, 2}, large = {4096, 1024, 7, 0, 2};
    struct povundiri_file file = {0};
    struct povundiri_handle segment = {0};
    struct povundiri_opened opened = POVUNDIRI_OPENED;
    make_segment("shape", 5);
    HOLDS(truncate(path_of("shape"), 8208) == 0);
    DONE(povundiri_open(path_of("shape"), small, POVUNDIRI_ADOPT_OR_SET_ASIDE, NULL, &file, &segment, &opened));
    HOLDS(opened.outcome == POVUNDIRI_ADOPTED && opened.other_shape && opened.units == UINT32_MAX - 5 && !opened.spent);
    HOLDS(opened.shape.size == WORDS && opened.shape.page == PAGE && opened.shape.id == 7 && opened.shape.version == 2);
    HOLDS(opened.shape.cursors == 8 && povundiri_file_room(&file).bytes == povundiri_file_bytes(WORDS, 8));
    count_units(&segment, 1);
    DONE(povundiri_drop(&segment));
    povundiri_file_close(&file);
    DONE(povundiri_open(path_of("shape"), large, POVUNDIRI_ADOPT_OR_FAIL, NULL, &file, &segment, &opened));
    HOLDS(opened.other_shape && opened.shape.size == WORDS && opened.shape.cursors == 0);
    DONE(povundiri_drop(&segment));
    povundiri_file_close(&file);
    DONE(povundiri_open(path_of("shape"), shape_of(WORDS), POVUNDIRI_ADOPT_OR_FAIL, NULL, &file, &segment, &opened));
    HOLDS(!opened.other_shape && opened.outcome == POVUNDIRI_ADOPTED && opened.set_aside[0] == 0 && opened.refused == POVUNDIRI_DONE);
    DONE(povundiri_drop(&segment));
    povundiri_file_close(&file);
    HOLDS(units_in(path_of("shape")) == 6);
}

/* A segment in which an allocation found no room is spent, and so is one without units. */
static void spent(void) {
    struct povundiri_opened opened = POVUNDIRI_OPENED;
    unsigned char *before;
    const uint64_t full = 2;
    size_t length;
    make_segment("spent", 5);
    store_at("spent", 8 + 8 * 6, &full, 8);
    before = bytes_at(path_of("spent"), &length);
    DONE(open_and_count("spent", POVUNDIRI_ADOPT_OR_FAIL, 0, &opened));
    HOLDS(opened.outcome == POVUNDIRI_ADOPTED && opened.spent && opened.units == UINT32_MAX - 5);
    DONE(open_and_count("spent", POVUNDIRI_ADOPT_OR_SET_ASIDE, 0, &opened));
    HOLDS(opened.outcome == POVUNDIRI_ADOPTED && opened.spent && opened.set_aside[0] == 0);
    HOLDS(has_bytes(path_of("spent"), before, length));
    DONE(open_and_count("spent", POVUNDIRI_ADOPT_OR_BEGIN_ANEW, 1, &opened));
    HOLDS(opened.outcome == POVUNDIRI_MADE_ANEW && !opened.spent && opened.units == UINT32_MAX && opened.refused == POVUNDIRI_DONE);
    HOLDS(strncmp(opened.set_aside, path_of("spent.full-"), strlen(path_of("spent.full-"))) == 0);
    HOLDS(has_bytes(opened.set_aside, before, length) && units_in(path_of("spent")) == 1);
    free(before);
    make_segment("spent", UINT32_MAX);
    DONE(open_and_count("spent", POVUNDIRI_ADOPT_OR_SET_ASIDE, 0, &opened));
    HOLDS(opened.spent && opened.units == 0 && opened.outcome == POVUNDIRI_ADOPTED);
    DONE(open_and_count("spent", POVUNDIRI_ADOPT_OR_BEGIN_ANEW, 1, &opened));
    HOLDS(opened.outcome == POVUNDIRI_MADE_ANEW && units_in(opened.set_aside) == UINT32_MAX);
}

/* ---- Kills and faults at each call to the system ---- */

/* What is at the path before a call. next_start() checks what is there, or under another name, after the call that follows. */
enum start { NOTHING_THERE, GROWS, IS_DAMAGED, IS_SPENT, STARTS };

static unsigned char *begin(enum start start, size_t *length) {
    const uint64_t full = 2;
    clear();
    *length = 0;
    if (start == NOTHING_THERE) return NULL;
    if (start == IS_DAMAGED) return damaged_file("at_each", &DAMAGES[2], length);
    make_segment("at_each", 5);
    if (start == GROWS) HOLDS(truncate(path_of("at_each"), 8200) == 0);
    if (start == IS_SPENT) store_at("at_each", 8 + 8 * 6, &full, 8);
    return bytes_at(path_of("at_each"), length);
}

/* After a stop the next call succeeds, and no unit is lost. */
static void next_start(enum start start, const unsigned char *before, size_t length) {
    struct povundiri_opened opened = POVUNDIRI_OPENED;
    DONE(open_and_count("at_each", POVUNDIRI_ADOPT_OR_BEGIN_ANEW, 1, &opened));
    if (start == IS_DAMAGED) HOLDS(with_bytes("at_each.damaged-", before, length) >= 1);
    if (start == IS_SPENT) HOLDS(with_bytes("at_each.full-", before, length) >= 1);
    HOLDS(units_in(path_of("at_each")) == (start == GROWS ? 6 : 1));
}

/* Kills the process at each of its calls in turn; returns how often it was killed. */
static int kill_at_each_call(enum start start) {
    int at, end = 1000 + SIGKILL;
    for (at = 1; end == 1000 + SIGKILL && at < 1000; at += 1) {
        size_t length;
        unsigned char *before = begin(start, &length);
        const char *path = path_of("at_each");
        const pid_t child = fork();
        if (child == 0) {
            struct povundiri_opened opened = POVUNDIRI_OPENED;
            struct povundiri_file file = {0};
            struct povundiri_handle segment = {0};
            calls = 0;
            killed_at = at;
            _exit(povundiri_open(path, shape_of(WORDS), POVUNDIRI_ADOPT_OR_BEGIN_ANEW, NULL, &file, &segment, &opened) != 0);
        }
        end = end_of(child);
        next_start(start, before, length);
        free(before);
    }
    HOLDS(end == 0);
    return at - 2;
}

/* Whether a file that was there before has its bytes, under its own name or the one that it was given; if none was there, whether the file
 * is still missing or empty. */
static int is_as_before(const struct povundiri_opened *opened, const unsigned char *before, size_t length) {
    if (before == NULL) return length_of("at_each") <= 0;
    return has_bytes(opened->set_aside[0] != 0 ? opened->set_aside : path_of("at_each"), before, length);
}

/* Lets each call fail in turn; returns how often povundiri_open failed by that. */
static int fail_at_each_call(enum start start) {
    uint32_t status = POVUNDIRI_SYSTEM;
    int at, failed = 0;
    for (at = 1; at < 1000; at += 1) {
        struct povundiri_opened opened = POVUNDIRI_OPENED;
        size_t length;
        unsigned char *before = begin(start, &length);
        calls = 0;
        failing_at = at;
        status = open_and_count("at_each", POVUNDIRI_ADOPT_OR_BEGIN_ANEW, 0, &opened);
        failing_at = 0;
        if (calls < at) at = 1000;
        HOLDS(status == POVUNDIRI_DONE || (status == POVUNDIRI_SYSTEM && opened.fault == EIO));
        failed += status == POVUNDIRI_SYSTEM;
        if (status == POVUNDIRI_SYSTEM) HOLDS(is_as_before(&opened, before, length));
        if (status == POVUNDIRI_SYSTEM) next_start(start, before, length);
        free(before);
    }
    HOLDS(status == POVUNDIRI_DONE);
    return failed;
}

static void kills_at_calls(void) {
    int start;
    for (start = 0; start < STARTS; start += 1) {
        HOLDS(kill_at_each_call((enum start)start) >= (start == IS_DAMAGED || start == IS_SPENT ? 15 : 7));
        cannot_rename_to_free = 1;
        HOLDS(kill_at_each_call((enum start)start) >= (start == IS_DAMAGED || start == IS_SPENT ? 17 : 7));
        cannot_rename_to_free = 0;
    }
}

static void faults_at_calls(void) {
    int start;
    for (start = 0; start < STARTS; start += 1) {
        HOLDS(fail_at_each_call((enum start)start) >= 7);
        cannot_rename_to_free = 1;
        HOLDS(fail_at_each_call((enum start)start) >= 7);
        cannot_rename_to_free = 0;
    }
}

static int is_no_memory(uint32_t status, int fault) {
    return (status == POVUNDIRI_SYSTEM && fault == ENOMEM) || status == POVUNDIRI_NO_MEMORY || status == POVUNDIRI_OPEN_NO_MEMORY ||
           status == POVUNDIRI_ADOPT_NO_MEMORY;
}

/* Refuses each allocation in turn; returns how often that refused the call. No file is set aside for lack of memory. */
static int refuse_each_allocation(enum start start) {
    struct povundiri_opened opened = POVUNDIRI_OPENED;
    int at, refused = 0;
    for (at = 1; at < 1000; at += 1) {
        struct povundiri_file file = {0};
        struct povundiri_handle segment = {0};
        size_t length;
        unsigned char *before = begin(start, &length);
        uint32_t status;
        allocations = 0;
        refused_at = at;
        status = povundiri_open(path_of("at_each"), shape_of(WORDS), POVUNDIRI_ADOPT_OR_BEGIN_ANEW, NULL, &file, &segment, &opened);
        refused_at = 0;
        if (allocations < at) at = 1000;
        HOLDS(opened.set_aside[0] == 0 || start == IS_DAMAGED || start == IS_SPENT);
        if (status != POVUNDIRI_DONE) {
            HOLDS(is_no_memory(status, opened.fault) && is_as_before(&opened, before, length));
            HOLDS(!segment.held && !povundiri_file_is_open(&file));
            refused += 1;
            next_start(start, before, length);
        } else {
            DONE(povundiri_drop(&segment));
            povundiri_file_close(&file);
        }
        free(before);
    }
    return refused;
}

static void refused_memory(void) {
    int start;
    for (start = 0; start < STARTS; start += 1) HOLDS(refuse_each_allocation((enum start)start) >= 4);
}

/* Waits for a file, but not for ever; returns whether it is there. */
static bool comes(const char *path) {
    long i;
    for (i = 0; i < 2000000 && access(path, F_OK) != 0; i += 1) sched_yield();
    return access(path, F_OK) == 0;
}

/* Kills a process that makes a large segment, at any moment once its file is there; more often if the segment is made before the kills
 * come. */
static void kills_amid_making(void) {
    const struct povundiri_shape large = {1048576, 65536, 7, 8, 2};
    int i, killed = 0;
    for (i = 0; i < 60 || (killed <= 10 && i < 600); i += 1) {
        struct povundiri_file file = {0};
        struct povundiri_handle segment = {0};
        struct povundiri_opened opened = POVUNDIRI_OPENED;
        const struct timespec wait = {0, 2000 * (long)(i % 60) * (i % 60)};
        bool began;
        pid_t child;
        unlink(path_of("making"));
        child = fork();
        if (child == 0) {
            _exit(povundiri_open(path_of("making"), large, POVUNDIRI_ADOPT_OR_FAIL, NULL, &file, &segment, &opened) != 0);
        }
        began = comes(path_of("making"));
        nanosleep(&wait, NULL);
        kill(child, SIGKILL);
        killed += end_of(child) == 1000 + SIGKILL && began;
        DONE(povundiri_open(path_of("making"), large, POVUNDIRI_ADOPT_OR_FAIL, NULL, &file, &segment, &opened));
        DONE(povundiri_drop(&segment));
        povundiri_file_close(&file);
    }
    HOLDS(killed > 10);
}

/* ---- Races ---- */

enum { RACES = 200 };

/* Two processes open the same damaged file: it is set aside once, and each that is done counts in the same new file. */
static void races(void) {
    int i, both = 0;
    for (i = 0; i < RACES; i += 1) {
        pid_t children[2];
        int gate[2], number, done = 0;
        size_t length;
        unsigned char *before;
        clear();
        before = damaged_file("race", &DAMAGES[2], &length);
        HOLDS(pipe(gate) == 0);
        for (number = 0; number < 2; number += 1) {
            children[number] = fork();
            if (children[number] == 0) {
                struct povundiri_opened opened = POVUNDIRI_OPENED;
                char byte;
                uint32_t status;
                close(gate[1]);
                if (read(gate[0], &byte, 1) != 0) _exit(9);
                status = open_and_count("race", POVUNDIRI_ADOPT_OR_SET_ASIDE, 1, &opened);
                if (failed_here != 0) _exit(8);
                _exit(status == POVUNDIRI_DONE ? 0 : status == POVUNDIRI_SYSTEM && opened.fault == EBUSY ? 1 : 7);
            }
        }
        close(gate[0]);
        close(gate[1]);
        for (number = 0; number < 2; number += 1) {
            const int end = end_of(children[number]);
            HOLDS(end == 0 || end == 1);
            done += end == 0;
        }
        HOLDS(done >= 1 && units_in(path_of("race")) == done);
        HOLDS(with_bytes("race.damaged-", before, length) == 1);
        both += done == 2;
        free(before);
    }
    HOLDS(both > 0);
}

int main(int count, char **words) {
    int failed;
    if (count != 2) return 2;
    folder = words[1];
    failed = group("refused_and_left", refused_and_left);
    failed += group("refused_and_set_aside", refused_and_set_aside);
    failed += group("too_many_units", too_many_units);
    failed += group("cut_and_set_aside", cut_and_set_aside);
    failed += group("numbers", numbers);
    failed += group("without_renameat2", without_renameat2);
    failed += group("long_names", long_names);
    failed += group("behind_a_link", behind_a_link);
    failed += group("sizes", sizes);
    failed += group("other_faults", other_faults);
    failed += group("other_shapes", other_shapes);
    failed += group("spent", spent);
    failed += group("kills_at_calls", kills_at_calls);
    failed += group("faults_at_calls", faults_at_calls);
    failed += group("refused_memory", refused_memory);
    failed += group("kills_amid_making", kills_amid_making);
    failed += group("races", races);
    return failed != 0;
}
