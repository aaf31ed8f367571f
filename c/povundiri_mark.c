/* The file `recording`, the mark of a recording's folder: what the folder is, its id, and what its processes have missed. */
#define _GNU_SOURCE /* getrandom */

#include <errno.h>
#include <fcntl.h>
#include <inttypes.h>
#include <stdio.h>
#include <stdlib.h>
#include <string.h>
#include <sys/random.h>
#include <time.h>
#include <unistd.h>

#include "povundiri_folder_parts.h"

static const char MARK[] = "recording";

static const uint64_t MARK_COOKIE = 0x6B72614D, FORM = 1;

/* Its first words. */
enum { MARK_COOKIE_AT = 0, FORM_AT = 1 };

uint64_t povundiri_parts_random(void) {
    static uint64_t last;
    struct timespec time;
    uint64_t number = 0;
    if (getrandom(&number, sizeof number, GRND_NONBLOCK) == (ssize_t)sizeof number) return number;
    /* Early at the start of the machine there is no chance yet. */
    clock_gettime(CLOCK_MONOTONIC, &time);
    number = (uint64_t)time.tv_sec * 1000000000 + (uint64_t)time.tv_nsec;
    return (number * 0x9E3779B97F4A7C15U) ^ ((uint64_t)getpid() << 32) ^ __atomic_add_fetch(&last, 1, __ATOMIC_RELAXED);
}

/* ---- What it is ---- */

static void name_new(char *name, uint64_t random) { snprintf(name, LONGEST_NAME, "%s-%016" PRIx64, MARK, random); }

bool povundiri_mark_is_new(const char *name) {
    char spelled[LONGEST_NAME];
    if (strncmp(name, MARK, sizeof MARK - 1) != 0 || name[sizeof MARK - 1] != '-') return false;
    name_new(spelled, strtoull(name + sizeof MARK, NULL, 16));
    return strcmp(spelled, name) == 0;
}

static enum povundiri_mark kind_of(const uint64_t *words) {
    size_t i;
    if (words[MARK_COOKIE_AT] == MARK_COOKIE && words[FORM_AT] == FORM && words[MARK_ID_AT] != 0) return WHOLE_MARK;
    for (i = 0; i < MARK_WORDS; i += 1) {
        if (words[i] != 0) return OTHER_FILE;
    }
    return EMPTY_MARK;
}

int povundiri_mark_open(struct povundiri_held *held, int folder, int flags, struct stat *about, uint64_t *words,
                        enum povundiri_mark *mark) {
    size_t got = 0;
    int fault = povundiri_parts_open(held, folder, MARK, flags);
    *mark = OTHER_FILE;
    if (fault != 0) return fault;
    memset(words, 0, MARK_BYTES);
    fault = povundiri_parts_read(held->descriptor, words, MARK_BYTES, 0, &got);
    if (fault == 0 && fstat(held->descriptor, about) != 0) fault = errno;
    if (fault != 0) {
        povundiri_parts_close(held);
    } else if (S_ISREG(about->st_mode) && (size_t)about->st_size == got && (got == 0 || got == MARK_BYTES)) {
        *mark = kind_of(words);
    }
    return fault;
}

/* One that this user may not read is taken by its length. What is no file is not opened. */
int povundiri_mark_look(int folder, enum povundiri_mark *mark, mode_t *mode) {
    uint64_t words[MARK_WORDS];
    struct povundiri_held held;
    struct stat about;
    int fault;
    *mark = NO_MARK;
    if (fstatat(folder, MARK, &about, AT_SYMLINK_NOFOLLOW) != 0) return errno == ENOENT ? 0 : errno;
    *mark = OTHER_FILE;
    *mode = 0600 | (about.st_mode & 0775);
    if (!S_ISREG(about.st_mode) || (about.st_size != 0 && about.st_size != MARK_BYTES)) return 0;
    *mark = about.st_size == 0 ? EMPTY_MARK : WHOLE_MARK;
    if (about.st_size == 0) return 0;
    fault = povundiri_mark_open(&held, folder, O_RDONLY, &about, words, mark);
    if (fault == 0) povundiri_parts_close(&held);
    if (fault == EACCES) *mark = WHOLE_MARK;
    if (fault == ENOENT) *mark = NO_MARK;
    return fault == EACCES || fault == ENOENT || fault == ELOOP ? 0 : fault;
}

/* ---- How it is made ---- */

/* A whole mark under a name of its own, synced, in which nothing was missed yet. */
static int write_new(int folder, const char *name, mode_t mode, uint64_t id) {
    const uint64_t words[MARK_WORDS] = {MARK_COOKIE, FORM, id};
    struct povundiri_held held;
    int fault = povundiri_parts_make(&held, folder, name, O_WRONLY, mode);
    if (fault != 0) return fault;
    fault = povundiri_parts_write(held.descriptor, words, sizeof words);
    if (fault == 0) fault = povundiri_parts_sync(held.descriptor);
    povundiri_parts_close(&held);
    if (fault != 0) unlinkat(folder, name, 0);
    return fault;
}

/* The id of a folder that is marked now: the one that is known, if there is something still that was recorded there; else a new one. */
static uint64_t id_for(const struct povundiri_listing *listing, uint64_t known) {
    const uint64_t id = listing->has_any && known != 0 ? known : povundiri_parts_random();
    return id != 0 ? id : 1;
}

/* A link, so that no other mark is replaced. Where there is no room for the words, an empty one says what the folder is. */
static int link_new(int folder, mode_t mode, uint64_t id) {
    struct povundiri_held held;
    char name[LONGEST_NAME];
    int fault;
    name_new(name, povundiri_parts_random());
    fault = write_new(folder, name, mode, id);
    if (fault == 0) {
        if (linkat(folder, name, folder, MARK, 0) != 0) fault = errno;
        unlinkat(folder, name, 0);
    } else if (fault == ENOSPC || fault == EDQUOT || fault == EFBIG) {
        fault = povundiri_parts_make(&held, folder, MARK, O_WRONLY, mode);
        if (fault == 0) povundiri_parts_close(&held);
    }
    return fault;
}

/* Gives an empty mark its words, by a new one in its place. The lock of folds is held, so nobody else does so meanwhile. */
static void fill(int folder, uint64_t known) {
    struct povundiri_listing listing;
    enum povundiri_mark mark;
    char name[LONGEST_NAME];
    mode_t mode = 0;
    if (povundiri_mark_look(folder, &mark, &mode) != 0 || mark != EMPTY_MARK) return;
    if (povundiri_parts_list(folder, &listing) == 0) {
        name_new(name, povundiri_parts_random());
        if (write_new(folder, name, 0600, id_for(&listing, known)) == 0 &&
            (fchmodat(folder, name, mode, 0) != 0 || renameat(folder, name, folder, MARK) != 0)) {
            unlinkat(folder, name, 0);
        }
    }
    free(listing.numbers);
}

/* Only the folder's owner and root do so, to whom its other files belong; and nobody waits for a fold. */
static void try_to_fill(int folder, mode_t mode, uint64_t known) {
    struct povundiri_held held;
    struct stat about;
    if (fstat(folder, &about) != 0 || (geteuid() != 0 && about.st_uid != geteuid())) return;
    if (povundiri_parts_lock_folds(&held, folder, mode) != 0) return;
    fill(folder, known);
    povundiri_parts_close(&held);
}

int povundiri_mark_make(int folder, mode_t mode, uint64_t known) {
    struct povundiri_listing listing;
    enum povundiri_mark mark;
    mode_t of_mark = 0;
    int fault = povundiri_mark_look(folder, &mark, &of_mark);
    if (fault != 0 || mark == WHOLE_MARK) return fault;
    if (mark == EMPTY_MARK) {
        try_to_fill(folder, of_mark, known);
        return 0;
    }
    fault = povundiri_parts_list(folder, &listing);
    free(listing.numbers);
    if (fault != 0 || listing.is_marked) return fault;
    if (listing.is_empty || povundiri_parts_is_recordings(&listing)) {
        fault = link_new(folder, mode, id_for(&listing, known));
        if (fault != EEXIST) return fault;
    }
    /* Another process may have marked it, and begun, after the list was read. */
    fault = povundiri_mark_look(folder, &mark, &of_mark);
    return fault == 0 && (mark == NO_MARK || mark == OTHER_FILE) ? FAULT_FOLDER_IN_USE : fault;
}
