/* What a process has missed: in the mark of its folder, where that can be mapped, and by itself. */
#define _GNU_SOURCE

#include <errno.h>
#include <fcntl.h>
#include <stdlib.h>
#include <string.h>
#include <sys/mman.h>

#include "povundiri_recording_parts.h"

/* How many marks a recording maps, one after the other. They stay mapped, since a thread may be about to add to one. */
enum { MOST_MAPPED = 64 };

static uint64_t load(const uint64_t *at) { return __atomic_load_n(at, __ATOMIC_RELAXED); }

/* Both together, or the greatest number. */
static uint64_t together(uint64_t one, uint64_t other) { return other < UINT64_MAX - one ? one + other : UINT64_MAX; }

static void add(uint64_t *at, uint64_t units) {
    uint64_t before = load(at);
    while (!__atomic_compare_exchange_n(at, &before, together(before, units), true, __ATOMIC_RELAXED, __ATOMIC_RELAXED)) continue;
}

void povundiri_missed_begin(struct povundiri_missed_all *all) {
    all->first.words = all->nowhere;
    all->now = all->last = &all->first;
}

void povundiri_missed_forget(struct povundiri_missed_all *all) {
    struct povundiri_missed_in *in;
    for (in = all->last; in != NULL; in = in->before) {
        memset(in->own, 0, sizeof in->own);
        memset(in->given, 0, sizeof in->given);
    }
}

void povundiri_missed_add(struct povundiri_missed_all *all, size_t reason, uint64_t units) {
    struct povundiri_missed_in *const now = __atomic_load_n(&all->now, __ATOMIC_ACQUIRE);
    add(&now->own[reason], units);
    add(&now->words[reason], units);
}

uint64_t povundiri_missed_own(const struct povundiri_missed_all *all, size_t reason) {
    const struct povundiri_missed_in *in;
    uint64_t own = 0;
    for (in = __atomic_load_n(&all->last, __ATOMIC_ACQUIRE); in != NULL; in = in->before) own = together(own, load(&in->own[reason]));
    return own;
}

/* Which units of this process a mark lacks: those that were missed while it had another one, or none. */
static uint64_t lacks(const struct povundiri_missed_all *all, const struct povundiri_missed_in *in, size_t reason) {
    const uint64_t own = povundiri_missed_own(all, reason), has = together(load(&in->own[reason]), in->given[reason]);
    return own > has ? own - has : 0;
}

/* The one that is this file, if it is or was mapped; or null. */
static struct povundiri_missed_in *found(const struct povundiri_missed_all *all, const struct stat *about) {
    struct povundiri_missed_in *in;
    for (in = all->last; in != NULL && (in->id == 0 || in->device != about->st_dev || in->inode != about->st_ino);) in = in->before;
    return in;
}

/* Maps the mark of a folder, if it is whole and may be written. Else null. */
static struct povundiri_missed_in *mapped(struct povundiri_missed_all *all, int folder) {
    uint64_t words[MARK_WORDS];
    struct povundiri_missed_in *in = NULL;
    struct povundiri_held held;
    struct stat about;
    enum povundiri_mark mark;
    void *at = MAP_FAILED;
    if (all->count == MOST_MAPPED || povundiri_mark_open(&held, folder, O_RDWR, &about, words, &mark) != 0) return NULL;
    if (mark == WHOLE_MARK) at = mmap(NULL, MARK_BYTES, PROT_READ | PROT_WRITE, MAP_SHARED, held.descriptor, 0);
    povundiri_parts_close(&held);
    if (at == MAP_FAILED) return NULL;
    in = (struct povundiri_missed_in *)calloc(1, sizeof *in);
    if (in == NULL) {
        munmap(at, MARK_BYTES);
        return NULL;
    }
    in->words = (uint64_t *)at + MARK_MISSED_AT;
    in->id = words[MARK_ID_AT];
    in->device = about.st_dev;
    in->inode = about.st_ino;
    in->before = all->last;
    all->count += 1;
    __atomic_store_n(&all->last, in, __ATOMIC_RELEASE);
    return in;
}

/* Where this process has to add by now: to the mark that the folder has; else nowhere but to its own numbers. So too if somebody has cut
 * the mark: then a step on its words would end the process. */
static struct povundiri_missed_in *present(struct povundiri_missed_all *all, int folder) {
    struct povundiri_missed_in *in;
    struct stat about;
    if (fstatat(folder, "recording", &about, AT_SYMLINK_NOFOLLOW) != 0) return errno == ENOENT ? &all->first : all->now;
    if (!S_ISREG(about.st_mode) || about.st_size != MARK_BYTES) return &all->first;
    in = found(all, &about);
    if (in == NULL) in = mapped(all, folder);
    return in != NULL ? in : &all->first;
}

void povundiri_missed_look(struct povundiri_missed_all *all, struct povundiri_place *place) {
    struct povundiri_missed_in *in;
    size_t i;
    if (!povundiri_place_stands(place)) return;
    in = present(all, place->held.descriptor);
    __atomic_store_n(&all->now, in, __ATOMIC_RELEASE);
    if (in->id == 0) return;
    place->id = all->id = in->id;
    all->device = place->device;
    all->inode = place->inode;
    for (i = 0; i < MISSED_REASONS; i += 1) {
        const uint64_t units = lacks(all, in, i);
        if (units == 0) continue;
        add(&in->words[i], units);
        in->given[i] = together(in->given[i], units);
    }
}

void povundiri_missed_note_id(const struct povundiri_missed_all *all, struct povundiri_place *place) {
    if (all->id != 0 && place->device == all->device && place->inode == all->inode) place->id = all->id;
}

/* Reads the mark of a folder, and says whether that was possible. Where it cannot be opened now, it is mapped still. */
static bool is_read(const struct povundiri_missed_all *all, int folder, uint64_t *words, struct stat *about) {
    const struct povundiri_missed_in *in;
    struct povundiri_held held;
    enum povundiri_mark mark;
    size_t i;
    if (povundiri_mark_open(&held, folder, O_RDONLY, about, words, &mark) == 0) {
        povundiri_parts_close(&held);
        return mark == WHOLE_MARK;
    }
    if (fstatat(folder, "recording", about, AT_SYMLINK_NOFOLLOW) != 0 || about->st_size != MARK_BYTES) return false;
    in = found(all, about);
    for (i = 0; in != NULL && i < MISSED_REASONS; i += 1) words[MARK_MISSED_AT + i] = load(&in->words[i]);
    return in != NULL;
}

void povundiri_missed_read(const struct povundiri_missed_all *all, int folder, uint64_t *missed) {
    static const struct povundiri_missed_in none;
    const struct povundiri_missed_in *in = NULL;
    uint64_t words[MARK_WORDS] = {0};
    struct stat about;
    const bool is = is_read(all, folder, words, &about);
    size_t i;
    if (is) in = found(all, &about);
    for (i = 0; i < MISSED_REASONS; i += 1) {
        missed[i] = together(is ? words[MARK_MISSED_AT + i] : 0, lacks(all, in != NULL ? in : &none, i));
    }
}
