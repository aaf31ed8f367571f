/* Folds: the final segments of a folder are added to its totals, and removed. */
#define _GNU_SOURCE /* O_NOFOLLOW and the like */

#include <errno.h>
#include <fcntl.h>
#include <inttypes.h>
#include <pthread.h>
#include <stdio.h>
#include <stdlib.h>
#include <string.h>
#include <sys/resource.h>
#include <sys/stat.h>
#include <unistd.h>

#include "povundiri_folder_parts.h"

/* How many segments are folded at once. */
enum { MOST_FOLDED = 256 };

/* ---- Bytes ---- */

/* EFBIG if the process may not write a file of this length: a write would raise SIGXFSZ. */
static int check_limit(size_t length) {
    struct rlimit limit;
    return getrlimit(RLIMIT_FSIZE, &limit) == 0 && limit.rlim_cur != RLIM_INFINITY && (rlim_t)length > limit.rlim_cur ? EFBIG : 0;
}

int povundiri_parts_write(int descriptor, const void *from, size_t bytes) {
    size_t done = 0;
    const int fault = check_limit(bytes);
    if (fault != 0) return fault;
    while (done < bytes) {
        const ssize_t more = write(descriptor, (const char *)from + done, bytes - done);
        if (more < 0 && errno != EINTR) return errno;
        if (more > 0) done += (size_t)more;
    }
    return 0;
}

int povundiri_parts_sync(int descriptor) {
    while (fsync(descriptor) != 0) {
        if (errno != EINTR) return errno;
    }
    return 0;
}

/* ---- A round ---- */

/* A segment whose lock is held, since it is final. */
struct final {
    struct povundiri_held held;
    struct povundiri_named named;
};

/* What is known of a fold. */
struct fold {
    int folder;
    mode_t mode;                         /* of the new totals */
    struct povundiri_totals_file totals; /* of the segments that they name at last only such as still stand, and the greatest */
    struct povundiri_listing listing;
    struct povundiri_handle sums;
    struct final *finals; /* that are added */
    size_t count;
    bool is_cut;               /* others come after them, for the next round */
    bool is_writing;           /* what follows is open */
    struct povundiri_held new; /* totals.new */
};

/* Removes a file that the totals name, under its lock. False if it is still there. */
static bool is_removed(int folder, const struct povundiri_named *named) {
    struct povundiri_held held;
    struct stat about;
    struct povundiri_image image;
    char name[LONGEST_NAME];
    bool removed;
    int fault;
    povundiri_parts_name_of(name, named->number, "seg");
    fault = povundiri_parts_open_locked(&held, folder, name, &about);
    if (fault == ENOENT) return true;
    if (fault != 0) return false;
    /* Another segment of that number stays: it is not in the totals. */
    removed = povundiri_parts_image(held.descriptor, about.st_size, &image) == 0 &&
              (image.words[ID_AT] != named->id || unlinkat(folder, name, 0) == 0);
    free(image.bytes);
    povundiri_parts_close(&held);
    return removed;
}

/* Removes what the totals name already. They need not name it any more then, but for the greatest number. */
static int remove_named(struct fold *fold) {
    struct povundiri_totals_file *const totals = &fold->totals;
    size_t i, kept = 0;
    uint64_t greatest = 0;
    if (totals->count == 0) return 0;
    for (i = 0; i < totals->count; i += 1) {
        if (totals->of[i].number > greatest) greatest = totals->of[i].number;
    }
    for (i = 0; i < totals->count; i += 1) {
        const struct povundiri_named named = totals->of[i];
        const bool removed = is_removed(fold->folder, &named);
        if (removed && named.number != greatest) continue;
        totals->of[kept] = named;
        kept += 1;
    }
    totals->count = kept;
    return povundiri_parts_sync(fold->folder);
}

/* Adds a segment, if it is final and the totals do not name it, and keeps its lock. */
static uint32_t add_final(struct fold *fold, uint64_t number, int *fault) {
    struct final *const final = &fold->finals[fold->count];
    struct povundiri_image image = {NULL, NULL, 0};
    struct stat about;
    char name[LONGEST_NAME];
    uint32_t status = POVUNDIRI_DONE;
    povundiri_parts_name_of(name, number, "seg");
    *fault = povundiri_parts_open_locked(&final->held, fold->folder, name, &about);
    if (*fault == EBUSY || *fault == ENOENT || *fault == EINVAL || *fault == EACCES || *fault == ELOOP) {
        *fault = 0;
        return POVUNDIRI_DONE;
    }
    if (*fault != 0) return POVUNDIRI_SYSTEM;
    *fault = povundiri_parts_image(final->held.descriptor, about.st_size, &image);
    final->named.number = number;
    final->named.id = image.bytes != NULL ? image.words[ID_AT] : 0;
    if (*fault != 0) {
        status = POVUNDIRI_SYSTEM;
    } else if (!povundiri_parts_names(&fold->totals, number, final->named.id)) {
        status = povundiri_sums_add(&fold->sums, number, image.words, image.count);
        if (status == POVUNDIRI_DONE) fold->count += 1;
    }
    if (fold->count == 0 || &fold->finals[fold->count - 1] != final) povundiri_parts_close(&final->held);
    free(image.bytes);
    return povundiri_parts_is_fault(status) || status == POVUNDIRI_TOO_MANY ? (uint32_t)POVUNDIRI_DONE : status;
}

/* Opens what the totals are written to, as soon as there is a segment to add: no later one takes the last descriptor from it. It is a new
 * file: what a killed fold left may have got another name meanwhile. */
static uint32_t begin_writing(struct fold *fold, int *fault) {
    unlinkat(fold->folder, "totals.new", 0);
    *fault = povundiri_parts_make(&fold->new, fold->folder, "totals.new", O_WRONLY, 0600);
    fold->is_writing = *fault == 0;
    if (*fault == 0 && fchmod(fold->new.descriptor, fold->mode) != 0) *fault = errno;
    return *fault == 0 ? POVUNDIRI_DONE : POVUNDIRI_SYSTEM;
}

/* Adds those that are final, as far as they may be open at once. */
static uint32_t add_finals(struct fold *fold, int *fault) {
    uint32_t status = POVUNDIRI_DONE;
    size_t i;
    for (i = 0; i < fold->listing.count && fold->count < MOST_FOLDED && status == POVUNDIRI_DONE; i += 1) {
        status = add_final(fold, fold->listing.numbers[i], fault);
        if (status == POVUNDIRI_DONE && fold->count > 0 && !fold->is_writing) status = begin_writing(fold, fault);
    }
    fold->is_cut = i < fold->listing.count;
    if (status == POVUNDIRI_SYSTEM && fold->is_writing && (*fault == EMFILE || *fault == ENFILE)) {
        fold->is_cut = true;
        *fault = 0;
        return POVUNDIRI_DONE;
    }
    return status;
}

/* The text of the new totals: that of the sum, and before its last line the segments that are in it, and the serial. For free(). */
static uint32_t text_of(struct fold *fold, char **text, size_t *length) {
    enum { LONGEST_LINE = 64 };
    const size_t lines = fold->totals.count + fold->count + 1;
    size_t needed = 0, at, end, i;
    char last[LONGEST_LINE] = "";
    uint32_t status = povundiri_sums_totals(&fold->sums, NULL, 0, &needed);
    if (status != POVUNDIRI_SHORT) return status;
    *text = (char *)malloc(needed + lines * LONGEST_LINE);
    if (*text == NULL) return POVUNDIRI_NO_MEMORY;
    status = povundiri_sums_totals(&fold->sums, *text, needed, &needed);
    if (status != POVUNDIRI_DONE) return status;
    for (end = needed - 1; end > 0 && (*text)[end - 1] != '\n';) end -= 1;
    if (needed - end >= sizeof last) return POVUNDIRI_BAD_TOTALS;
    memcpy(last, *text + end, needed - end);
    at = end;
    for (i = 0; i < fold->totals.count + fold->count; i += 1) {
        const struct povundiri_named *const named =
            i < fold->totals.count ? &fold->totals.of[i] : &fold->finals[i - fold->totals.count].named;
        at += (size_t)snprintf(*text + at, LONGEST_LINE, "of,%" PRIu64 ",%" PRIu64 "\n", named->number, named->id);
    }
    at += (size_t)snprintf(*text + at, LONGEST_LINE, "fold,%" PRIu64 "\n", fold->totals.serial + 1);
    memcpy(*text + at, last, needed - end);
    *length = at + (needed - end);
    return POVUNDIRI_DONE;
}

/* Writes the new totals, syncs them, and gives them their place. Only the process that has the lock of folds comes here. */
static int put_totals(const struct fold *fold, const char *text, size_t length) {
    int fault = povundiri_parts_write(fold->new.descriptor, text, length);
    if (fault == 0) fault = povundiri_parts_sync(fold->new.descriptor);
    if (fault == 0 && renameat(fold->folder, "totals.new", fold->folder, "totals") != 0) fault = errno;
    return fault == 0 ? povundiri_parts_sync(fold->folder) : fault;
}

/* Closes what was opened for it. The name of totals that have not got their place is removed: the others have lost it. */
static void end_writing(struct fold *fold) {
    if (!fold->is_writing) return;
    unlinkat(fold->folder, "totals.new", 0);
    povundiri_parts_close(&fold->new);
    fold->is_writing = false;
}

/* The totals are in their place: what is in them is removed. */
static void remove_finals(const struct fold *fold) {
    char name[LONGEST_NAME];
    size_t i;
    for (i = 0; i < fold->count; i += 1) {
        povundiri_parts_name_of(name, fold->finals[i].named.number, "seg");
        unlinkat(fold->folder, name, 0);
    }
}

/* Under the lock of folds. */
static uint32_t fold_locked(struct fold *fold, int *fault) {
    uint32_t status = POVUNDIRI_SYSTEM;
    char *text = NULL;
    size_t length = 0;
    *fault = povundiri_parts_totals(fold->folder, &fold->totals);
    if (*fault == 0) status = povundiri_parts_begin_sums(&fold->totals, &fold->sums);
    if (status != POVUNDIRI_DONE) return status;
    *fault = remove_named(fold);
    if (*fault == 0) *fault = povundiri_parts_list(fold->folder, &fold->listing);
    status = *fault == 0 ? add_finals(fold, fault) : (uint32_t)POVUNDIRI_SYSTEM;
    if (status != POVUNDIRI_DONE || fold->count == 0) return status;
    status = text_of(fold, &text, &length);
    if (status == POVUNDIRI_DONE) {
        *fault = put_totals(fold, text, length);
        if (*fault != 0) status = POVUNDIRI_SYSTEM;
    }
    free(text);
    end_writing(fold);
    if (status == POVUNDIRI_DONE) remove_finals(fold);
    return status;
}

/* One round: `again` if there are others after those that it added. */
static uint32_t fold_once(int folder, mode_t mode, uint64_t *folded, bool *again, int *fault) {
    struct fold fold;
    uint32_t status;
    size_t i;
    memset(&fold, 0, sizeof fold);
    fold.folder = folder;
    fold.mode = mode;
    fold.finals = (struct final *)calloc(MOST_FOLDED, sizeof *fold.finals);
    status = fold.finals == NULL ? (uint32_t)POVUNDIRI_NO_MEMORY : fold_locked(&fold, fault);
    *folded = status == POVUNDIRI_DONE ? fold.count : 0;
    *again = status == POVUNDIRI_DONE && fold.is_cut;
    end_writing(&fold);
    for (i = 0; i < fold.count; i += 1) povundiri_parts_close(&fold.finals[i].held);
    free(fold.finals);
    free(fold.listing.numbers);
    povundiri_parts_free(&fold.totals);
    if (fold.sums.held) povundiri_sums_drop(&fold.sums);
    return status == POVUNDIRI_SYSTEM ? povundiri_parts_status(fault) : status;
}

/* ---- A fold ---- */

/* Whether this user may fold, in a folder that is a recording's, which is marked then, with the id `known` if that is not 0. `mode` is that
 * of the mark, for what is made. */
static int enter(int folder, uint64_t known, mode_t *mode) {
    struct povundiri_listing listing;
    enum povundiri_mark mark;
    struct stat about;
    int fault = fstat(folder, &about) == 0 ? 0 : errno;
    if (fault == 0 && geteuid() != 0 && about.st_uid != geteuid()) fault = FAULT_NOT_OWNER;
    if (fault != 0) return fault;
    fault = povundiri_parts_list(folder, &listing);
    free(listing.numbers);
    if (fault == 0 && !povundiri_parts_is_recordings(&listing)) fault = FAULT_NO_RECORDING;
    if (fault == 0) fault = povundiri_mark_make(folder, 0600 | (about.st_mode & 0664), known);
    if (fault == 0) fault = povundiri_mark_look(folder, &mark, mode);
    return fault == 0 && mark == NO_MARK ? ENOENT : fault;
}

static int open_lock(struct povundiri_held *held, int folder, mode_t mode) {
    int fault = povundiri_parts_open(held, folder, "fold.lock", O_RDWR);
    if (fault == ENOENT) fault = povundiri_parts_make(held, folder, "fold.lock", O_RDWR, mode);
    return fault == EEXIST ? povundiri_parts_open(held, folder, "fold.lock", O_RDWR) : fault;
}

int povundiri_parts_lock_folds(struct povundiri_held *held, int folder, mode_t mode) {
    int fault = open_lock(held, folder, mode);
    if (fault != 0) return fault;
    fault = povundiri_parts_lock(held->descriptor);
    if (fault != 0) povundiri_parts_close(held);
    return fault;
}

uint32_t povundiri_parts_fold(int folder, uint64_t known, uint64_t *folded, int *fault) {
    struct povundiri_held held;
    uint64_t more = 0;
    uint32_t status = POVUNDIRI_SYSTEM;
    mode_t mode = 0;
    bool again = false;
    *fault = enter(folder, known, &mode);
    if (*fault == 0) *fault = povundiri_parts_lock_folds(&held, folder, mode);
    if (*fault == EBUSY) {
        *fault = 0;
        return POVUNDIRI_BUSY;
    }
    if (*fault != 0) return povundiri_parts_status(fault);
    do {
        status = fold_once(folder, mode, &more, &again, fault);
        *folded += more;
    } while (again);
    povundiri_parts_close(&held);
    if (status != POVUNDIRI_SYSTEM) *fault = 0;
    return status;
}

uint32_t povundiri_folder_fold(const char *folder, uint64_t *folded, int *fault) {
    struct povundiri_held held;
    uint64_t own = 0;
    uint32_t status = POVUNDIRI_SYSTEM;
    int state;
    if (folder == NULL || fault == NULL) return POVUNDIRI_NULL;
    *fault = 0;
    if (!povundiri_folder_watch()) return POVUNDIRI_NO_MEMORY;
    if (folded == NULL) folded = &own;
    *folded = 0;
    pthread_setcancelstate(PTHREAD_CANCEL_DISABLE, &state);
    *fault = povundiri_parts_open_folder(&held, folder);
    if (*fault == 0) {
        status = povundiri_parts_fold(held.descriptor, 0, folded, fault);
        povundiri_parts_close(&held);
    }
    pthread_setcancelstate(state, NULL);
    return status;
}
