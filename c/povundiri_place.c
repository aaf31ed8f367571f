/* The folder of a recording: it is made, marked and opened, and found again when it was moved or removed. */
#define _GNU_SOURCE /* O_TMPFILE */

#include <errno.h>
#include <fcntl.h>
#include <stdio.h>
#include <stdlib.h>
#include <string.h>
#include <sys/mman.h>
#include <time.h>
#include <unistd.h>

#include "povundiri_folder_parts.h"

/* How old a named spare is before a start removes it. */
enum { YOUNG_SECONDS = 60 };

/* Removes a spare that nobody holds, and a mark that has not got its name: the process that made it was killed. A young one may be about to
 * get its lock, or its name. */
static int sweep_name(void *context, const char *name) {
    const int folder = *(const int *)context;
    struct povundiri_held held;
    struct stat about;
    if (!povundiri_parts_is_spare(name) && !povundiri_mark_is_new(name)) return 0;
    if (fstatat(folder, name, &about, AT_SYMLINK_NOFOLLOW) != 0 || time(NULL) - about.st_mtime <= YOUNG_SECONDS) return 0;
    if (povundiri_parts_open_locked(&held, folder, name, &about) != 0) return 0;
    unlinkat(folder, name, 0);
    povundiri_parts_close(&held);
    return 0;
}

/* Whether a lock is kept by a mapping, when the file's descriptor is closed. So it is on most file systems: the mapping has the open file. It
 * is not on overlayfs, whose mappings have the file below. A file without a name shows it, whose lock nobody else can take meanwhile. False
 * where there can be none. */
static bool keeps_locks(int folder) {
    struct povundiri_held held, other;
    char name[64];
    void *at = MAP_FAILED;
    bool keeps = false;
    if (povundiri_parts_open(&held, folder, ".", O_TMPFILE | O_RDWR) != 0) return false;
    snprintf(name, sizeof name, "/proc/self/fd/%d", held.descriptor);
    if (povundiri_parts_open_link(&other, AT_FDCWD, name, O_RDONLY) != 0) {
        povundiri_parts_close(&held);
        return false;
    }
    if (povundiri_parts_lock(held.descriptor) == 0) at = mmap(NULL, 1, PROT_READ, MAP_SHARED, held.descriptor, 0);
    povundiri_parts_close(&held);
    if (at != MAP_FAILED) {
        keeps = povundiri_parts_lock(other.descriptor) == EBUSY;
        munmap(at, 1);
    }
    povundiri_parts_close(&other);
    return keeps;
}

/* Of a folder, for files of this mode: who may read there may pass through it. */
static mode_t mode_of_folder(mode_t mode) { return mode | ((mode & 0444) >> 2); }

/* Whether the folder is one to whose users this process trusts its memory. */
static int judge(const struct povundiri_place *place, const struct stat *about) {
    if ((about->st_mode & S_IWOTH) != 0) return EPERM;
    if ((about->st_mode & S_IWGRP) != 0 && (place->flags & POVUNDIRI_FILE_GROUP_WRITES) == 0) return EPERM;
    return about->st_uid != geteuid() && (place->flags & POVUNDIRI_FILE_ANY_OWNER) == 0 ? FAULT_NOT_OWNER : 0;
}

/* Opens the folder at its path, which is made if it is not there, and marks it. */
static int open_at_path(struct povundiri_place *place) {
    struct stat about;
    int fault;
    if (mkdir(place->path, mode_of_folder(place->mode)) != 0 && errno != EEXIST) return errno;
    fault = povundiri_parts_open_folder(&place->held, place->path);
    if (fault != 0) return fault;
    fault = fstat(place->held.descriptor, &about) == 0 ? judge(place, &about) : errno;
    place->id = place->last = 0;
    if (fault == 0) fault = povundiri_mark_make(place->held.descriptor, place->mode, 0);
    if (fault != 0) {
        povundiri_parts_close(&place->held);
        return fault;
    }
    place->is_open = true;
    place->device = about.st_dev;
    place->inode = about.st_ino;
    place->keeps_locks = keeps_locks(place->held.descriptor);
    return 0;
}

int povundiri_place_enter(struct povundiri_place *place, const char *folder) {
    int fault;
    if (!povundiri_folder_watch()) return ENOMEM;
    if (mkdir(folder, mode_of_folder(place->mode)) != 0 && errno != EEXIST) return errno;
    place->path = realpath(folder, NULL);
    if (place->path == NULL) return errno;
    fault = strlen(place->path) + LONGEST_NAME < POVUNDIRI_PATH_BYTES ? open_at_path(place) : ENAMETOOLONG;
    if (fault == 0) povundiri_parts_each(place->held.descriptor, sweep_name, &place->held.descriptor);
    if (fault != 0) {
        free(place->path);
        place->path = NULL;
    }
    return fault;
}

/* Whether the descriptor is still that of the folder: the process may have closed all of its own. */
static bool is_ours(const struct povundiri_place *place, struct stat *about) {
    if (!place->is_open || fstat(place->held.descriptor, about) != 0) return false;
    return about->st_dev == place->device && about->st_ino == place->inode;
}

bool povundiri_place_stands(const struct povundiri_place *place) {
    struct stat about;
    return is_ours(place, &about) && about.st_nlink > 0;
}

/* Opens it anew by its path, if it is there still. */
static bool is_found(struct povundiri_place *place) {
    struct stat about;
    if (place->is_open) povundiri_parts_forget(&place->held);
    place->is_open = false;
    if (povundiri_parts_open_folder(&place->held, place->path) != 0) return false;
    place->is_open = true;
    if (is_ours(place, &about)) return true;
    povundiri_place_leave(place);
    return false;
}

/* What is told of a fault where only one of the system can be told. */
static int as_system(int fault) {
    if (fault == FAULT_FOLDER_IN_USE) return EEXIST;
    return fault == FAULT_NOT_OWNER ? EPERM : fault;
}

int povundiri_place_look(struct povundiri_place *place, bool *is_another) {
    struct stat about;
    *is_another = false;
    if (is_ours(place, &about)) {
        if (about.st_nlink > 0) return as_system(povundiri_mark_make(place->held.descriptor, place->mode, place->id));
        povundiri_place_leave(place);
    } else if (is_found(place)) {
        return as_system(povundiri_mark_make(place->held.descriptor, place->mode, place->id));
    }
    *is_another = true;
    return as_system(open_at_path(place));
}

int povundiri_place_copy(const struct povundiri_place *place, struct povundiri_held *held) {
    struct stat about;
    return is_ours(place, &about) ? povundiri_parts_copy(held, place->held.descriptor) : povundiri_parts_open_folder(held, place->path);
}

int povundiri_place_share(const struct povundiri_place *place, struct povundiri_place *other) {
    const int fault = povundiri_place_copy(place, &other->held);
    other->path = place->path;
    other->is_open = fault == 0;
    other->flags = place->flags;
    other->mode = place->mode;
    other->device = place->device;
    other->inode = place->inode;
    other->id = place->id;
    other->last = place->last;
    other->keeps_locks = place->keeps_locks;
    other->names_spares = place->names_spares;
    return fault;
}

void povundiri_place_leave(struct povundiri_place *place) {
    if (place->is_open) povundiri_parts_close(&place->held);
    place->is_open = false;
}
