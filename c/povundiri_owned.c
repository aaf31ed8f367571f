/* The segments that this process records into. */
#define _GNU_SOURCE /* renameat2 */

#include <errno.h>
#include <fcntl.h>
#include <stdio.h>
#include <stdlib.h>
#include <string.h>
#include <sys/stat.h>
#include <sys/statvfs.h>
#include <unistd.h>

#include "povundiri_folder_parts.h"

/* After so many numbers that others have taken, the folder is looked through for the greatest. */
enum { MOST_TAKEN = 32 };

static struct povundiri_owned *new_owned(void) { return (struct povundiri_owned *)calloc(1, sizeof(struct povundiri_owned)); }

static int folder_of(const struct povundiri_place *place) { return place->is_open ? place->held.descriptor : -1; }

bool povundiri_folder_stands(const struct povundiri_place *place, const struct povundiri_owned *owned) {
    return povundiri_parts_stands(&owned->file, folder_of(place), owned->name);
}

/* The units in a report: the third field of each line NAME,total,UNITS. */
static uint64_t units_in(const char *report) {
    static const char TOTAL[] = ",total,";
    const char *line = report, *end = report;
    uint64_t units = 0;
    for (; end != NULL && *line != 0; line = end + 1) {
        const char *const comma = strchr(line, ',');
        end = strchr(line, '\n');
        if (*line == '!' || comma == NULL || strncmp(comma, TOTAL, sizeof TOTAL - 1) != 0) continue;
        units += strtoull(comma + sizeof TOTAL - 1, NULL, 10);
    }
    return units;
}

uint64_t povundiri_folder_units(struct povundiri_owned *owned) {
    uint64_t *const words = (uint64_t *)malloc(MOST_WORDS * sizeof *words);
    size_t length = 0, needed = 0;
    uint32_t left = 0;
    uint64_t units = 0;
    char *text = NULL;
    /* Without memory, what it has spent. */
    if (povundiri_units(&owned->segment, &left) == POVUNDIRI_DONE) units = UINT32_MAX - left;
    if (words != NULL && povundiri_segment_look(&owned->segment, words, MOST_WORDS, &length) == POVUNDIRI_DONE &&
        povundiri_report(words, length, NULL, 0, &needed) == POVUNDIRI_SHORT) {
        text = (char *)malloc(needed + 1);
    }
    if (text != NULL && povundiri_report(words, length, text, needed, &needed) == POVUNDIRI_DONE) {
        text[needed] = 0;
        units = units_in(text);
    }
    free(text);
    free(words);
    return units;
}

void povundiri_folder_release(const struct povundiri_place *place, struct povundiri_owned *owned) {
    if (owned == NULL) return;
    if (owned->number == 0 && owned->name[0] != 0 && povundiri_folder_stands(place, owned)) unlinkat(folder_of(place), owned->name, 0);
    if (owned->segment.held) povundiri_drop(&owned->segment);
    povundiri_file_close(&owned->file);
    free(owned);
}

static void note_last(struct povundiri_place *place, uint64_t number) {
    if (place->last < number && number < NUMBERS_END) place->last = number;
}

/* Whether nothing was begun in it. */
static bool is_unmade(const struct povundiri_image *image) {
    size_t i;
    for (i = 0; i < image->count + (image->count < HEADER_WORDS ? HEADER_WORDS : 0); i += 1) {
        if (image->words[i] != 0) return false;
    }
    return true;
}

/* Gives a file another name, never over another file. */
static int rename_to(int folder, const char *from, const char *to) {
    if (renameat2(folder, from, folder, to, RENAME_NOREPLACE) == 0) return 0;
    if (errno != EINVAL && errno != ENOSYS) return errno;
    return linkat(folder, from, folder, to, 0) == 0 && unlinkat(folder, from, 0) == 0 ? 0 : errno;
}

static void set_aside(const struct povundiri_place *place, const struct povundiri_owned *owned, char *path) {
    char name[LONGEST_NAME];
    int fault;
    povundiri_parts_name_of(name, owned->number, "damaged");
    fault = povundiri_parts_join(path, place->path, name);
    if (fault == 0) fault = rename_to(folder_of(place), owned->name, name);
    if (fault != 0) path[0] = 0;
}

/* Whether an image may be that of a segment of this shape. */
static bool has_shape(const uint64_t *words, struct povundiri_shape shape) {
    return words[SIZE_AT] == shape.size && words[PAGE_AT] == shape.page && words[VERSION_AT] == shape.version;
}

/* Whether the newest may be opened as a segment of this shape: it is final, and has it, or nothing was begun there. One whose header has a
 * fault gets another name. */
static bool may_adopt_newest(const struct povundiri_place *place, const struct povundiri_owned *owned, struct povundiri_shape shape,
                             struct povundiri_found *found) {
    struct povundiri_held held;
    struct stat about;
    struct povundiri_image image;
    bool may = false;
    if (povundiri_parts_open_locked(&held, folder_of(place), owned->name, &about) != 0) return false;
    if (povundiri_parts_image(held.descriptor, about.st_size, &image) == 0) {
        const uint32_t status = povundiri_report_bounded(image.words, image.count, NULL, 0, NULL, 0);
        if (is_unmade(&image)) {
            may = true;
        } else if (povundiri_parts_is_fault(status)) {
            found->refused = status;
            set_aside(place, owned, found->set_aside);
        } else {
            may = has_shape(image.words, shape);
        }
    }
    free(image.bytes);
    povundiri_parts_close(&held);
    return may;
}

/* Whether the totals have what is in a segment: the process that folded it was killed before it removed it. Its lock is held, so no fold
 * adds it meanwhile. */
static bool is_folded(int folder, const struct povundiri_owned *owned, uint64_t id) {
    struct povundiri_totals_file totals;
    const bool is = povundiri_parts_totals(folder, &totals) != 0 || povundiri_parts_names(&totals, owned->number, id);
    povundiri_parts_free(&totals);
    return is;
}

/* From now on it is a segment that this process records into. It needs its descriptor only where nothing else keeps the lock. */
static void begin(const struct povundiri_place *place, struct povundiri_owned *owned) {
    if (place->keeps_locks) povundiri_parts_close_descriptor(&owned->file);
}

/* Whether another segment than the newest may be opened, as far as its lock and its header say: who opens one that somebody has waits for it,
 * and most that are final are full. */
static bool may_adopt(int folder, const char *name, struct povundiri_shape shape) {
    uint64_t words[1 + HEADER_WORDS] = {0};
    struct povundiri_held held;
    struct stat about;
    size_t got = 0;
    int fault = povundiri_parts_open_locked(&held, folder, name, &about);
    if (fault != 0) return false;
    fault = povundiri_parts_read(held.descriptor, words, sizeof words, 0, &got);
    povundiri_parts_close(&held);
    return fault == 0 && got == sizeof words && has_shape(words + 1, shape) && (words[1 + FLAGS_AT] & FLAG_FULL) == 0;
}

/* Opens one that may be: it is made no more if a fold takes it meanwhile. It stays under its name, and is read like any other, if it is not
 * taken. */
static bool is_taken(const struct povundiri_place *place, struct povundiri_owned *owned, struct povundiri_shape shape,
                     struct povundiri_opened *opened) {
    const int folder = folder_of(place);
    const uint32_t status = povundiri_parts_open_in(folder, owned->name, shape, POVUNDIRI_FILE_EXISTING | place->flags, 0, &owned->file,
                                                    &owned->segment, opened);
    if (status != POVUNDIRI_DONE || opened->spent || is_folded(folder, owned, opened->shape.id)) return false;
    begin(place, owned);
    return true;
}

/* Takes the segment of this number, if it may. */
static uint32_t adopt_number(const struct povundiri_place *place, struct povundiri_shape shape, uint64_t number, bool is_newest,
                             struct povundiri_found *found) {
    struct povundiri_owned *const owned = new_owned();
    struct povundiri_opened opened;
    bool may;
    if (owned == NULL) return POVUNDIRI_NO_MEMORY;
    owned->number = number;
    povundiri_parts_name_of(owned->name, number, "seg");
    may = is_newest ? may_adopt_newest(place, owned, shape, found) : may_adopt(folder_of(place), owned->name, shape);
    if (!may) {
        free(owned);
        return POVUNDIRI_DONE;
    }
    if (is_taken(place, owned, shape, &opened)) {
        found->newest = owned;
        found->is_adopted = opened.outcome == POVUNDIRI_ADOPTED;
        return POVUNDIRI_DONE;
    }
    if (is_newest) found->refused = opened.refused;
    povundiri_folder_release(place, owned);
    return POVUNDIRI_DONE;
}

uint32_t povundiri_folder_adopt(struct povundiri_place *place, struct povundiri_shape shape, bool is_start,
                                struct povundiri_found *found, int *fault) {
    struct povundiri_listing listing;
    uint32_t status = POVUNDIRI_DONE;
    size_t i;
    memset(found, 0, sizeof *found);
    *fault = povundiri_parts_list(folder_of(place), &listing);
    if (*fault != 0) {
        status = POVUNDIRI_SYSTEM;
    } else {
        note_last(place, listing.last);
    }
    for (i = listing.count; i > 0 && status == POVUNDIRI_DONE && found->newest == NULL; i -= 1) {
        status = adopt_number(place, shape, listing.numbers[i - 1], is_start && i == listing.count, found);
    }
    free(listing.numbers);
    return status;
}

/* A spare without a name. `is_refused` where the system has no such files. */
static uint32_t open_unnamed(const struct povundiri_place *place, struct povundiri_shape shape, struct povundiri_owned *owned,
                             int *fault, bool *is_refused) {
    struct povundiri_opened opened;
    const uint32_t status =
        povundiri_parts_open_in(folder_of(place), NULL, shape, place->flags, place->mode, &owned->file, &owned->segment, &opened);
    *fault = opened.fault;
    *is_refused = status == POVUNDIRI_SYSTEM && (*fault == EOPNOTSUPP || *fault == EISDIR || *fault == EINVAL);
    return status;
}

static uint32_t open_named(const struct povundiri_place *place, struct povundiri_shape shape, uint64_t random,
                           struct povundiri_owned *owned, int *fault) {
    struct povundiri_opened opened;
    uint32_t status;
    povundiri_parts_name_spare(owned->name, (long)getpid(), random);
    status = povundiri_parts_open_in(folder_of(place), owned->name, shape, place->flags, place->mode, &owned->file, &owned->segment,
                                     &opened);
    *fault = opened.fault;
    /* It may have been made, and is empty. */
    if (status != POVUNDIRI_DONE) unlinkat(folder_of(place), owned->name, 0);
    return status;
}

bool povundiri_folder_leaves_room(const struct povundiri_place *place, struct povundiri_shape shape) {
    uint64_t needed = povundiri_file_bytes(shape.size, (size_t)shape.cursors);
    struct statvfs device;
    struct stat totals;
    if (fstatvfs(folder_of(place), &device) != 0 || device.f_blocks == 0) return true;
    if (fstatat(folder_of(place), "totals", &totals, AT_SYMLINK_NOFOLLOW) == 0) needed += (uint64_t)totals.st_size;
    return (uint64_t)device.f_bavail >= needed / device.f_frsize + 1;
}

uint32_t povundiri_folder_spare(struct povundiri_place *place, struct povundiri_shape shape, uint64_t random,
                                struct povundiri_owned **spare, int *fault) {
    struct povundiri_owned *const owned = new_owned();
    bool is_named = place->names_spares;
    uint32_t status = POVUNDIRI_DONE;
    *spare = NULL;
    *fault = 0;
    if (owned == NULL) return POVUNDIRI_NO_MEMORY;
    if (!is_named) status = open_unnamed(place, shape, owned, fault, &is_named);
    if (is_named) {
        place->names_spares = true;
        status = open_named(place, shape, random, owned, fault);
    }
    if (status != POVUNDIRI_DONE) {
        free(owned);
        return status;
    }
    *fault = povundiri_parts_hand_over(povundiri_file_descriptor(&owned->file), folder_of(place));
    if (*fault != 0) {
        povundiri_folder_release(place, owned);
        return POVUNDIRI_SYSTEM;
    }
    *spare = owned;
    return status;
}

/* Looks through the folder for the greatest number. */
static int look_for_last(struct povundiri_place *place) {
    struct povundiri_listing listing;
    const int fault = povundiri_parts_list(folder_of(place), &listing);
    free(listing.numbers);
    if (fault == 0) note_last(place, listing.last);
    return fault;
}

/* Gives a spare a name. The next spares have names from the beginning where one without a name gets none: there may be no /proc, or no
 * right to link what another user of this process has made. */
static int link_to(struct povundiri_place *place, const struct povundiri_owned *spare, const char *name) {
    const int folder = folder_of(place);
    int fault;
    if (spare->name[0] != 0) return linkat(folder, spare->name, folder, name, 0) == 0 ? 0 : errno;
    fault = povundiri_parts_name(&spare->file, folder, name);
    if (fault == 0 || fault == EEXIST || fault == EBADF || fault == EXDEV || fault == ENOSPC || fault == EDQUOT) return fault;
    place->names_spares = true;
    return fault == ENOENT || fault == EACCES ? EAGAIN : fault;
}

/* Gives a segment the name of this number; a spare has lost its own then. EEXIST if a segment or a damaged file has the number. */
static int take(struct povundiri_place *place, struct povundiri_owned *owned, uint64_t number) {
    const int folder = folder_of(place);
    char name[LONGEST_NAME];
    struct stat about;
    int fault;
    povundiri_parts_name_of(name, number, "damaged");
    if (fstatat(folder, name, &about, AT_SYMLINK_NOFOLLOW) == 0) return EEXIST;
    povundiri_parts_name_of(name, number, "seg");
    fault = owned->number == 0 ? link_to(place, owned, name) : rename_to(folder, owned->name, name);
    if (fault != 0) return fault;
    if (owned->number == 0 && owned->name[0] != 0) unlinkat(folder, owned->name, 0);
    owned->number = number;
    memcpy(owned->name, name, sizeof name);
    return 0;
}

/* Gives it the next number, if that is free. */
static int take_next(struct povundiri_place *place, struct povundiri_owned *owned) {
    const uint64_t number = place->last + 1;
    const int fault = number < NUMBERS_END ? take(place, owned, number) : EOVERFLOW;
    if (fault == 0 || fault == EEXIST) place->last = number;
    return fault;
}

/* Gives it the first free number above the greatest that is known. */
static int take_free(struct povundiri_place *place, struct povundiri_owned *owned) {
    int fault = take_next(place, owned), taken;
    for (taken = 1; fault == EEXIST; taken += 1) {
        fault = taken % MOST_TAKEN == 0 ? look_for_last(place) : 0;
        if (fault == 0) fault = take_next(place, owned);
    }
    return fault;
}

/* Whether the totals name this number, or a greater one, which is known then. Not if the system does not say. */
static bool is_passed(struct povundiri_place *place, uint64_t number) {
    uint64_t named = 0;
    const bool is = povundiri_parts_greatest_named(folder_of(place), &named) == 0 && named >= number;
    if (is) note_last(place, named);
    return is;
}

/* The totals are read before and after: a fold may have removed segments of others meanwhile whose numbers were not known here. */
int povundiri_folder_commit(struct povundiri_place *place, struct povundiri_owned *spare) {
    uint64_t named = 0;
    int fault = place->last == 0 ? look_for_last(place) : 0;
    if (fault == 0) fault = povundiri_parts_greatest_named(folder_of(place), &named);
    note_last(place, named);
    if (fault == 0) fault = take_free(place, spare);
    if (fault != 0) return fault;
    while (is_passed(place, spare->number) && take_free(place, spare) == 0) continue;
    begin(place, spare);
    return 0;
}
