#define _GNU_SOURCE /* O_NOFOLLOW and the like */

#include <dirent.h>
#include <errno.h>
#include <fcntl.h>
#include <inttypes.h>
#include <pthread.h>
#include <stdio.h>
#include <stdlib.h>
#include <string.h>
#include <sys/file.h>
#include <sys/stat.h>
#include <unistd.h>

#include "povundiri_folder_parts.h"

/* How often the texts of a folder begin again. */
enum { MOST_TIMES = 16 };

/* How much of totals is read at once, from their end on: as a rule the names of one fold's segments are in it. */
enum { PART_BYTES = 16384 };

/* ---- What is open in this process ---- */

/* Held while a descriptor is opened or closed, and while the process forks. */
static pthread_mutex_t mutex = PTHREAD_MUTEX_INITIALIZER;
static struct povundiri_held *all;
static pthread_once_t once = PTHREAD_ONCE_INIT;
static bool is_watched;

static void before_fork(void) { pthread_mutex_lock(&mutex); }

static void in_parent(void) { pthread_mutex_unlock(&mutex); }

static void in_child(void) {
    struct povundiri_held *held;
    for (held = all; held != NULL; held = held->next) close(held->descriptor);
    all = NULL;
    pthread_mutex_unlock(&mutex);
}

static void watch(void) { is_watched = povundiri_fork_generation() != 0 && pthread_atfork(before_fork, in_parent, in_child) == 0; }

bool povundiri_folder_watch(void) {
    pthread_once(&once, watch);
    return is_watched;
}

/* What a call has opened, or its fault. The mutex is held. */
static int hold(struct povundiri_held *held, int descriptor) {
    held->descriptor = descriptor;
    if (descriptor < 0) return errno;
    held->next = all;
    all = held;
    return 0;
}

static int open_with(struct povundiri_held *held, int folder, const char *name, int flags, mode_t mode) {
    int fault;
    do {
        pthread_mutex_lock(&mutex);
        fault = hold(held, openat(folder, name, flags | O_CLOEXEC | O_NOCTTY | O_NONBLOCK, mode));
        pthread_mutex_unlock(&mutex);
    } while (fault == EINTR);
    return fault;
}

int povundiri_parts_open_link(struct povundiri_held *held, int folder, const char *name, int flags) {
    return open_with(held, folder, name, flags, 0600);
}

int povundiri_parts_open(struct povundiri_held *held, int folder, const char *name, int flags) {
    return povundiri_parts_open_link(held, folder, name, flags | O_NOFOLLOW);
}

int povundiri_parts_open_folder(struct povundiri_held *held, const char *path) {
    return povundiri_parts_open(held, AT_FDCWD, path, O_RDONLY | O_DIRECTORY);
}

int povundiri_parts_make(struct povundiri_held *held, int folder, const char *name, int flags, mode_t mode) {
    int fault = open_with(held, folder, name, flags | O_CREAT | O_EXCL | O_NOFOLLOW, mode);
    if (fault != 0) return fault;
    fault = povundiri_parts_hand_over(held->descriptor, folder);
    if (fault == 0) return 0;
    unlinkat(folder, name, 0);
    povundiri_parts_close(held);
    return fault;
}

/* Only a new file is given away: an old one may have another name as well, and be anybody's. A group that this user is not in gets none. */
int povundiri_parts_hand_over(int descriptor, int folder) {
    struct stat made, wanted;
    const bool is_root = geteuid() == 0;
    if (fstat(descriptor, &made) != 0 || fstat(folder, &wanted) != 0) return errno;
    if ((!is_root || made.st_uid == wanted.st_uid) && made.st_gid == wanted.st_gid) return 0;
    if (fchown(descriptor, is_root ? wanted.st_uid : made.st_uid, wanted.st_gid) == 0) return 0;
    return is_root ? errno : 0;
}

int povundiri_parts_copy(struct povundiri_held *held, int descriptor) {
    int fault;
    pthread_mutex_lock(&mutex);
    fault = hold(held, fcntl(descriptor, F_DUPFD_CLOEXEC, 0));
    pthread_mutex_unlock(&mutex);
    return fault;
}

/* Whether it was there: in a child that was forked meanwhile it is not any more. The mutex is held. */
static bool is_forgotten(struct povundiri_held *held) {
    struct povundiri_held **link;
    for (link = &all; *link != NULL && *link != held;) link = &(*link)->next;
    if (*link == NULL) return false;
    *link = held->next;
    return true;
}

void povundiri_parts_close(struct povundiri_held *held) {
    pthread_mutex_lock(&mutex);
    if (is_forgotten(held)) close(held->descriptor);
    pthread_mutex_unlock(&mutex);
}

void povundiri_parts_forget(struct povundiri_held *held) {
    pthread_mutex_lock(&mutex);
    (void)is_forgotten(held);
    pthread_mutex_unlock(&mutex);
}

int povundiri_parts_lock(int descriptor) {
    while (flock(descriptor, LOCK_EX | LOCK_NB) != 0) {
        if (errno != EINTR) return errno == EWOULDBLOCK ? EBUSY : errno;
    }
    return 0;
}

/* Opens a regular file and takes its lock: EBUSY if somebody has it; ENOENT if the path leads to another file by now, or to none. */
int povundiri_parts_open_locked(struct povundiri_held *held, int folder, const char *name, struct stat *about) {
    struct stat named;
    int fault = povundiri_parts_open(held, folder, name, O_RDONLY);
    if (fault != 0) return fault;
    fault = povundiri_parts_lock(held->descriptor);
    if (fault == 0 && fstat(held->descriptor, about) != 0) fault = errno;
    if (fault == 0 && fstatat(folder, name, &named, AT_SYMLINK_NOFOLLOW) != 0) fault = errno;
    if (fault == 0 && (named.st_dev != about->st_dev || named.st_ino != about->st_ino)) fault = ENOENT;
    if (fault == 0 && !S_ISREG(about->st_mode)) fault = EINVAL;
    if (fault != 0) povundiri_parts_close(held);
    return fault;
}

uint32_t povundiri_parts_status(int *fault) {
    const int came = *fault;
    if (came > 0 && came != ENOMEM) return POVUNDIRI_SYSTEM;
    *fault = 0;
    switch (came) {
        case ENOMEM:
            return POVUNDIRI_NO_MEMORY;
        case FAULT_FOLDER_IN_USE:
            return POVUNDIRI_FOLDER_IN_USE;
        case FAULT_NO_RECORDING:
            return POVUNDIRI_NO_RECORDING;
        case FAULT_NOT_OWNER:
            return POVUNDIRI_NOT_OWNER;
        default:
            return POVUNDIRI_DONE;
    }
}

/* ---- Names ---- */

int povundiri_parts_join(char *path, const char *folder, const char *name) {
    const int length = snprintf(path, POVUNDIRI_PATH_BYTES, "%s/%s", folder, name);
    return length < 0 || length >= POVUNDIRI_PATH_BYTES ? ENAMETOOLONG : 0;
}

void povundiri_parts_name_of(char *name, uint64_t number, const char *kind) {
    snprintf(name, LONGEST_NAME, "%010" PRIu64 ".%s", number, kind);
}

/* The number of a file of this kind, as it is spelled; 0 if it is none, or has more than 18 digits. */
static uint64_t number_of(const char *name, const char *kind) {
    char spelled[LONGEST_NAME];
    char *end;
    uint64_t number;
    if (name[0] < '0' || name[0] > '9') return 0;
    errno = 0;
    number = strtoull(name, &end, 10);
    if (errno != 0 || number == 0 || number >= NUMBERS_END || *end != '.') return 0;
    povundiri_parts_name_of(spelled, number, kind);
    return strcmp(spelled, name) == 0 ? number : 0;
}

/* ---- What is in a folder ---- */

int povundiri_parts_each(int folder, povundiri_each_name *call, void *context) {
    struct povundiri_held held;
    const struct dirent *entry;
    DIR *names;
    int fault = povundiri_parts_open(&held, folder, ".", O_RDONLY | O_DIRECTORY), copy;
    if (fault != 0) return fault;
    /* The stream has a descriptor of its own, without a lock. */
    copy = fcntl(held.descriptor, F_DUPFD_CLOEXEC, 0);
    names = copy < 0 ? NULL : fdopendir(copy);
    if (names == NULL) {
        fault = errno;
        if (copy >= 0) close(copy);
        povundiri_parts_close(&held);
        return fault;
    }
    do {
        errno = 0;
        entry = readdir(names);
        if (entry == NULL) {
            fault = errno;
        } else if (strcmp(entry->d_name, ".") != 0 && strcmp(entry->d_name, "..") != 0) {
            fault = call(context, entry->d_name);
        }
    } while (entry != NULL && fault == 0);
    closedir(names);
    povundiri_parts_close(&held);
    return fault;
}

void povundiri_parts_name_spare(char *name, long process, uint64_t random) {
    snprintf(name, LONGEST_NAME, "spare-%ld-%016" PRIx64, process, random);
}

bool povundiri_parts_is_spare(const char *name) {
    char spelled[LONGEST_NAME];
    char *end;
    long process;
    uint64_t random;
    if (strncmp(name, "spare-", 6) != 0) return false;
    errno = 0;
    process = strtol(name + 6, &end, 10);
    if (errno != 0 || process <= 0 || (uint64_t)process >= NUMBERS_END || *end != '-') return false;
    random = strtoull(end + 1, NULL, 16);
    povundiri_parts_name_spare(spelled, process, random);
    return errno == 0 && strcmp(spelled, name) == 0;
}

/* Whether a recording's folder may have a file of this name, which is no segment's. */
static bool is_in_table(const char *name) {
    static const char *const NAMES[] = {"recording", "totals",      "totals.new",   "fold.lock",
                                        "history",   "history.new", "history.lock", "history.damaged"};
    size_t i;
    for (i = 0; i < sizeof NAMES / sizeof NAMES[0]; i += 1) {
        if (strcmp(name, NAMES[i]) == 0) return true;
    }
    return povundiri_parts_is_spare(name) || povundiri_mark_is_new(name);
}

static int list_name(void *context, const char *name) {
    struct povundiri_listing *listing = (struct povundiri_listing *)context;
    const uint64_t number = number_of(name, "seg"), damaged = number_of(name, "damaged");
    if (!povundiri_mark_is_new(name)) listing->is_empty = false;
    if (strcmp(name, "recording") == 0) listing->is_marked = true;
    if (number > 0 || damaged > 0 || strcmp(name, "totals") == 0) listing->has_any = true;
    if (number == 0 && damaged == 0 && !is_in_table(name)) listing->has_others = true;
    if (number > listing->last && number < NUMBERS_END) listing->last = number;
    if (damaged > listing->last && damaged < NUMBERS_END) listing->last = damaged;
    if (number == 0) return 0;
    if (listing->count == listing->room) {
        const size_t room = listing->room == 0 ? 64 : 2 * listing->room;
        uint64_t *const numbers = (uint64_t *)realloc(listing->numbers, room * sizeof *numbers);
        if (numbers == NULL) return ENOMEM;
        listing->numbers = numbers;
        listing->room = room;
    }
    listing->numbers[listing->count] = number;
    listing->count += 1;
    return 0;
}

static int ascending(const void *one, const void *other) {
    const uint64_t a = *(const uint64_t *)one, b = *(const uint64_t *)other;
    return (a > b) - (a < b);
}

/* `numbers` are for free(), also after a fault. */
int povundiri_parts_list(int folder, struct povundiri_listing *listing) {
    const struct povundiri_listing none = {NULL, 0, 0, 0, false, true, false, false};
    enum povundiri_mark mark;
    mode_t mode;
    int fault;
    *listing = none;
    fault = povundiri_parts_each(folder, list_name, listing);
    if (fault == 0 && listing->is_marked) {
        fault = povundiri_mark_look(folder, &mark, &mode);
        listing->is_marked = mark == EMPTY_MARK || mark == WHOLE_MARK;
        if (!listing->is_marked) listing->has_others = true;
    }
    if (listing->count > 1) qsort(listing->numbers, listing->count, sizeof *listing->numbers, ascending);
    return fault;
}

bool povundiri_parts_is_recordings(const struct povundiri_listing *listing) {
    return listing->is_marked || (listing->has_any && !listing->has_others);
}

/* A folder, and the bytes of its files so far. */
struct measured {
    int folder;
    uint64_t bytes;
};

/* One that is gone by now has none. */
static int measure_name(void *context, const char *name) {
    struct measured *const measured = (struct measured *)context;
    struct stat about;
    if (fstatat(measured->folder, name, &about, AT_SYMLINK_NOFOLLOW) != 0) return errno == ENOENT ? 0 : errno;
    measured->bytes += (uint64_t)about.st_size;
    return 0;
}

int povundiri_parts_bytes(int folder, uint64_t *bytes) {
    struct measured measured = {folder, 0};
    const int fault = povundiri_parts_each(folder, measure_name, &measured);
    *bytes = measured.bytes;
    return fault;
}

int povundiri_parts_count(int folder, uint64_t *segments) {
    struct povundiri_listing listing;
    const int fault = povundiri_parts_list(folder, &listing);
    *segments = listing.count;
    free(listing.numbers);
    return fault;
}

int povundiri_folder_count(const char *folder, uint64_t *segments) {
    struct povundiri_held held;
    int fault, state;
    if (folder == NULL || segments == NULL) return EINVAL;
    if (!povundiri_folder_watch()) return ENOMEM;
    *segments = 0;
    pthread_setcancelstate(PTHREAD_CANCEL_DISABLE, &state);
    fault = povundiri_parts_open_folder(&held, folder);
    if (fault == 0) {
        fault = povundiri_parts_count(held.descriptor, segments);
        povundiri_parts_close(&held);
    }
    pthread_setcancelstate(state, NULL);
    return fault;
}

/* ---- Totals ---- */

void povundiri_parts_free(struct povundiri_totals_file *totals) {
    free(totals->text);
    free(totals->of);
}

/* Opens the file `totals`, and says how long it is. 0, or the system's fault, and then it is not open. */
static int open_totals(struct povundiri_held *held, int folder, uint64_t *bytes) {
    struct stat about;
    int fault = povundiri_parts_open(held, folder, "totals", O_RDONLY);
    if (fault != 0) return fault;
    if (fstat(held->descriptor, &about) != 0) fault = errno;
    if (fault == 0 && !S_ISREG(about.st_mode)) fault = EINVAL;
    if (fault != 0) povundiri_parts_close(held);
    *bytes = fault == 0 ? (uint64_t)about.st_size : 0;
    return fault;
}

/* Reads so many bytes from there on, or those up to the end, with a zero after them. They are for free(), also after a fault. */
static int read_text(int descriptor, uint64_t at, size_t bytes, char **text, size_t *length) {
    int fault;
    *text = (char *)malloc(bytes + 1);
    if (*text == NULL) return ENOMEM;
    fault = povundiri_parts_read(descriptor, *text, bytes, (off_t)at, length);
    if (fault == 0) (*text)[*length] = 0;
    return fault;
}

/* The lines `of` and `fold` of a text that povundiri_sums_add_totals has taken: so they are as they have to be. */
static int parse_totals(struct povundiri_totals_file *totals) {
    const char *line = totals->text;
    size_t room = 0;
    for (; line != NULL && *line != 0; line = strchr(line, '\n'), line = line == NULL ? NULL : line + 1) {
        char *end;
        if (strncmp(line, "fold,", 5) == 0) totals->serial = strtoull(line + 5, NULL, 10);
        if (strncmp(line, "of,", 3) != 0) continue;
        if (totals->count == room) {
            struct povundiri_named *of;
            room = room == 0 ? 64 : 2 * room;
            of = (struct povundiri_named *)realloc(totals->of, room * sizeof *of);
            if (of == NULL) return ENOMEM;
            totals->of = of;
        }
        totals->of[totals->count].number = strtoull(line + 3, &end, 10);
        totals->of[totals->count].id = *end == ',' ? strtoull(end + 1, NULL, 10) : 0;
        totals->count += 1;
    }
    return 0;
}

/* No file is a totals without text. */
int povundiri_parts_totals(int folder, struct povundiri_totals_file *totals) {
    const struct povundiri_totals_file none = {NULL, 0, NULL, 0, 0};
    struct povundiri_held held;
    uint64_t bytes;
    int fault = open_totals(&held, folder, &bytes);
    *totals = none;
    if (fault != 0) return fault == ENOENT ? 0 : fault;
    fault = read_text(held.descriptor, 0, (size_t)bytes, &totals->text, &totals->length);
    povundiri_parts_close(&held);
    return fault == 0 ? parse_totals(totals) : fault;
}

/* Where the first line begins that is whole in a part of a text; its length if none is. */
static size_t first_line(const char *text, size_t length, bool is_beginning) {
    const char *const end = (const char *)memchr(text, '\n', length);
    if (is_beginning) return 0;
    return end == NULL ? length : (size_t)(end - text) + 1;
}

/* Whether the last line is that of totals. A text that ends otherwise is none. */
static bool has_last_line(const char *text, size_t length) {
    size_t at = length;
    if (length == 0 || text[length - 1] != '\n') return false;
    for (at = length - 1; at > 0 && text[at - 1] != '\n';) at -= 1;
    return strncmp(text + at, "end,", 4) == 0;
}

/* The greatest number in the lines that name segments, if it is above *number: a zero is after the text. Whether lines of another kind are
 * before them, so that none is further before. */
static bool find_greatest(const char *text, uint64_t *number) {
    const char *line = text;
    bool is_named = false, has_others = false;
    for (; line != NULL && *line != 0; line = strchr(line, '\n'), line = line == NULL ? NULL : line + 1) {
        if (strncmp(line, "of,", 3) == 0) {
            const uint64_t named = strtoull(line + 3, NULL, 10);
            if (named > *number && named < NUMBERS_END) *number = named;
            is_named = true;
        } else if (!is_named && strncmp(line, "fold,", 5) != 0 && strncmp(line, "end,", 4) != 0) {
            has_others = true;
        }
    }
    return has_others;
}

/* The same, over parts of totals of so many bytes from their end on. What does not end as totals do is looked through as a whole. */
static int look_from_end(int descriptor, uint64_t bytes, char *part, uint64_t *number) {
    uint64_t end = bytes;
    bool is_found = false, is_whole = false;
    int fault = 0;
    while (fault == 0 && end > 0 && !is_found) {
        const uint64_t at = end > PART_BYTES ? end - PART_BYTES : 0;
        size_t length = 0, first;
        fault = povundiri_parts_read(descriptor, part, (size_t)(end - at), (off_t)at, &length);
        if (fault != 0) return fault;
        part[length] = 0;
        if (end == bytes) is_whole = has_last_line(part, length);
        first = first_line(part, length, at == 0);
        /* A line that is longer than the part names no segment. */
        is_found = (find_greatest(part + first, number) || first == length) && is_whole;
        end = at == 0 || first == length ? at : at + first;
    }
    return fault;
}

int povundiri_parts_greatest_named(int folder, uint64_t *number) {
    struct povundiri_held held;
    uint64_t bytes;
    char *part;
    int fault = open_totals(&held, folder, &bytes);
    *number = 0;
    if (fault != 0) return fault == ENOENT ? 0 : fault;
    part = (char *)malloc(PART_BYTES + 1);
    fault = part == NULL ? ENOMEM : look_from_end(held.descriptor, bytes, part, number);
    free(part);
    povundiri_parts_close(&held);
    return fault;
}

bool povundiri_parts_names(const struct povundiri_totals_file *totals, uint64_t number, uint64_t id) {
    size_t i;
    for (i = 0; i < totals->count; i += 1) {
        if (totals->of[i].number == number && totals->of[i].id == id) return true;
    }
    return false;
}

uint32_t povundiri_parts_begin_sums(const struct povundiri_totals_file *totals, struct povundiri_handle *sums) {
    uint32_t status = povundiri_sums_new(sums);
    if (status == POVUNDIRI_DONE && totals->text != NULL) status = povundiri_sums_add_totals(sums, totals->text, totals->length, NULL);
    return status;
}

/* ---- Images ---- */

/* Reads the image of a final segment. `bytes` are for free(), also after a fault. */
int povundiri_parts_image(int descriptor, off_t length, struct povundiri_image *image) {
    size_t got = 0, there;
    int fault;
    image->bytes = NULL;
    image->words = NULL;
    image->count = 0;
    if (length > MOST_BYTES) return EFBIG;
    image->bytes = (uint64_t *)calloc((size_t)length / WORD + 1 + HEADER_WORDS, WORD);
    if (image->bytes == NULL) return ENOMEM;
    fault = povundiri_parts_read(descriptor, image->bytes, (size_t)length, 0, &got);
    image->words = image->bytes + 1;
    there = got < WORD ? 0 : got / WORD - 1;
    image->count = image->words[SIZE_AT] != 0 && image->words[SIZE_AT] < there ? (size_t)image->words[SIZE_AT] : there;
    return fault;
}

bool povundiri_parts_is_fault(uint32_t status) { return status >= POVUNDIRI_IMAGE_TOO_SHORT && status <= POVUNDIRI_IMAGE_BAD_QUEUE; }

/* ---- The sum of a folder ---- */

/* Adds a look at a segment, if the totals do not name it. */
static uint32_t add_look(int folder, uint64_t number, const struct povundiri_totals_file *totals, struct povundiri_handle *sums,
                         uint64_t *left, int *fault) {
    uint64_t *words = NULL;
    size_t length = 0;
    char name[LONGEST_NAME];
    uint32_t status;
    povundiri_parts_name_of(name, number, "seg");
    status = povundiri_parts_look(folder, name, &words, &length, fault);
    if (povundiri_parts_is_fault(status) || status == POVUNDIRI_ADOPT_OLD_VERSION) {
        *left += 1;
        return POVUNDIRI_DONE;
    }
    if (status == POVUNDIRI_DONE && !povundiri_parts_names(totals, number, words[ID_AT])) {
        status = povundiri_sums_add(sums, number, words, length);
    }
    free(words);
    return status;
}

static uint32_t add_looks(int folder, const struct povundiri_listing *listing, const struct povundiri_totals_file *totals,
                          struct povundiri_handle *sums, uint64_t *left, int *fault) {
    uint32_t status = POVUNDIRI_DONE;
    size_t i;
    *left = 0;
    for (i = 0; i < listing->count && status == POVUNDIRI_DONE; i += 1) {
        status = add_look(folder, listing->numbers[i], totals, sums, left, fault);
    }
    return status;
}

/* Whether a fold has ended since these totals were read. */
static int look_for_fold(int folder, const struct povundiri_totals_file *totals, bool *has_ended) {
    struct povundiri_totals_file now;
    const int fault = povundiri_parts_totals(folder, &now);
    *has_ended = fault == 0 && (now.serial != totals->serial || (now.text == NULL) != (totals->text == NULL));
    povundiri_parts_free(&now);
    return fault;
}

/* Once; `again` if a fold ended meanwhile: then nothing is in the handle. */
static uint32_t sums_once(int folder, struct povundiri_handle *sums, uint64_t *left, int *fault, bool *again) {
    struct povundiri_totals_file totals;
    struct povundiri_listing listing = {NULL, 0, 0, 0, false, true, false, false};
    uint32_t status = POVUNDIRI_SYSTEM;
    *again = false;
    *fault = povundiri_parts_totals(folder, &totals);
    if (*fault == 0) *fault = povundiri_parts_list(folder, &listing);
    if (*fault == 0 && !povundiri_parts_is_recordings(&listing)) *fault = FAULT_NO_RECORDING;
    if (*fault == 0) status = povundiri_parts_begin_sums(&totals, sums);
    if (status == POVUNDIRI_DONE) status = add_looks(folder, &listing, &totals, sums, left, fault);
    if (status == POVUNDIRI_SYSTEM && *fault == ENOENT && sums->held) *again = true;
    if (status == POVUNDIRI_DONE) {
        *fault = look_for_fold(folder, &totals, again);
        if (*fault != 0) status = POVUNDIRI_SYSTEM;
    }
    if (status != POVUNDIRI_DONE || *again) povundiri_sums_drop(sums);
    free(listing.numbers);
    povundiri_parts_free(&totals);
    return status == POVUNDIRI_SYSTEM ? povundiri_parts_status(fault) : status;
}

uint32_t povundiri_parts_sums(int folder, struct povundiri_handle *sums, uint64_t *left, int *fault) {
    uint32_t status = POVUNDIRI_BUSY;
    bool again = true;
    int times;
    for (times = 0; times < MOST_TIMES && again; times += 1) status = sums_once(folder, sums, left, fault, &again);
    if (again) status = POVUNDIRI_BUSY;
    if (status != POVUNDIRI_SYSTEM) *fault = 0;
    return status;
}

uint32_t povundiri_folder_sums(const char *folder, struct povundiri_handle *sums, uint64_t *left, int *fault) {
    struct povundiri_held held;
    uint64_t own = 0;
    uint32_t status = POVUNDIRI_SYSTEM;
    int state;
    if (folder == NULL || sums == NULL || fault == NULL) return POVUNDIRI_NULL;
    if (sums->held) return POVUNDIRI_NOT_EMPTY;
    *fault = 0;
    if (!povundiri_folder_watch()) return POVUNDIRI_NO_MEMORY;
    pthread_setcancelstate(PTHREAD_CANCEL_DISABLE, &state);
    *fault = povundiri_parts_open_folder(&held, folder);
    if (*fault == 0) {
        status = povundiri_parts_sums(held.descriptor, sums, left != NULL ? left : &own, fault);
        povundiri_parts_close(&held);
    }
    pthread_setcancelstate(state, NULL);
    return status;
}
