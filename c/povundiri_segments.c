/* Which segments a recording counts in: how they are begun, given up, and made before they are needed. */
#define _GNU_SOURCE

#include <errno.h>
#include <stdlib.h>
#include <string.h>
#include <time.h>

#include "povundiri_recording_state.h"

static const uint64_t SECOND = 1000000000, LARGEST = 8 << 20;

/* After the system has refused a segment: how often it is tried again at once, and how long that waits then, at first. */
enum { AT_ONCE = 5, FIRST_WAIT = 10000000 };

/* ---- Time and chance ---- */

uint64_t povundiri_segments_now(void) {
    struct timespec time;
    clock_gettime(CLOCK_MONOTONIC, &time);
    return (uint64_t)time.tv_sec * SECOND + (uint64_t)time.tv_nsec;
}

/* A number for an id, or for a name. */
static uint64_t random_of(const struct povundiri_recording *recording) {
    return recording->options.random != NULL ? recording->options.random(recording->options.context) : povundiri_parts_random();
}

/* The shape of segments in `bytes` bytes, as povundiri::shape_for has it. */
struct povundiri_shape povundiri_segments_shape_for(uint64_t bytes) {
    const uint64_t words = bytes / 8, pages = words / 4096 + (words % 4096 != 0), page = pages == 0 ? 0 : words / pages / 16 * 16;
    const struct povundiri_shape shape = {words > MOST_WORDS ? words : pages * page, page, 0, 0, 2};
    return shape;
}

/* ---- What shards have in common ---- */

/* Whether a segment may be made, as far as the system's refusals say. */
static bool may_be_made(struct povundiri_recording *recording) {
    bool may;
    pthread_mutex_lock(&recording->mutex);
    may = povundiri_segments_now() >= recording->again_at;
    pthread_mutex_unlock(&recording->mutex);
    return may;
}

/* Whether a fold may help: the device, a quota or the folder is full. */
static bool is_full(int fault) { return fault == ENOSPC || fault == EDQUOT; }

/* Sets when a segment may be made again, since the system has refused one. Whether that is at once. */
static bool is_tried_again(struct povundiri_recording *recording, int fault) {
    const bool is_lasting = is_full(fault) || fault == EROFS || fault == EACCES || fault == ENOENT;
    uint64_t before, wait;
    pthread_mutex_lock(&recording->mutex);
    before = recording->refusals;
    wait = before < AT_ONCE ? 0 : SECOND;
    if (before >= AT_ONCE && before < AT_ONCE + 7) wait = (uint64_t)FIRST_WAIT << (before - AT_ONCE);
    if (is_lasting) wait = SECOND;
    if (is_full(fault)) recording->lacks_room = true;
    recording->refusals += 1;
    recording->again_at = povundiri_segments_now() + wait;
    pthread_mutex_unlock(&recording->mutex);
    return wait == 0;
}

/* The system has let a segment begin. */
static void forget_refusals(struct povundiri_recording *recording) {
    pthread_mutex_lock(&recording->mutex);
    recording->refusals = 0;
    recording->lacks_room = false;
    __atomic_store_n(&recording->spends_reserve, false, __ATOMIC_RELAXED);
    pthread_mutex_unlock(&recording->mutex);
}

/* Where the folder has a limit, threads make segments one after the other, so that they keep it together. */
static void lock_making(struct povundiri_recording *recording) {
    if (recording->options.most_bytes > 0) pthread_mutex_lock(&recording->making);
}

static void unlock_making(struct povundiri_recording *recording) {
    if (recording->options.most_bytes > 0) pthread_mutex_unlock(&recording->making);
}

/* Whether one more segment may begin: as many as there are shards may at once, and one in each `apart` over time. The time is read with the
 * mutex: no segment has begun later. */
static bool is_apart(struct povundiri_recording *recording) {
    const uint64_t apart = recording->options.apart, others = recording->shard_count - 1;
    const uint64_t most = others > 0 && apart > UINT64_MAX / others ? UINT64_MAX : apart * others;
    uint64_t now;
    bool is;
    pthread_mutex_lock(&recording->mutex);
    now = povundiri_segments_now();
    is = recording->apart_at <= now || recording->apart_at - now <= most;
    pthread_mutex_unlock(&recording->mutex);
    return is;
}

/* One has begun at this time. */
static void take_turn(struct povundiri_recording *recording, uint64_t began_at) {
    const uint64_t apart = recording->options.apart;
    pthread_mutex_lock(&recording->mutex);
    if (recording->apart_at < began_at) recording->apart_at = began_at;
    recording->apart_at = recording->apart_at < UINT64_MAX - apart ? recording->apart_at + apart : UINT64_MAX;
    pthread_mutex_unlock(&recording->mutex);
}

/* ---- Spares: the mutex of the recording is held ---- */

/* Whether the spare is for a segment of this shape in this place. */
static bool is_fit(const struct spare *spare, const struct povundiri_place *place, struct povundiri_shape shape) {
    return spare->owned != NULL && spare->shape.size >= shape.size && spare->device == place->device && spare->inode == place->inode;
}

/* Takes the spare that is there, for povundiri_folder_release. */
static struct povundiri_owned *take_owned(struct povundiri_recording *recording) {
    struct povundiri_owned *const owned = recording->spare.owned;
    recording->spare.owned = NULL;
    return owned;
}

/* ---- Lists: the mutex of the shard is held ---- */

void povundiri_segments_enlist(struct local *local) {
    struct shard *const shard = local->shard;
    local->before = NULL;
    local->after = shard->present;
    if (shard->present != NULL) shard->present->before = local;
    shard->present = local;
}

void povundiri_segments_unlist(struct local *local) {
    struct shard *const shard = local->shard;
    if (local->before != NULL) {
        local->before->after = local->after;
    } else if (shard->present == local) {
        shard->present = local->after;
    }
    if (local->after != NULL) local->after->before = local->before;
    local->before = local->after = NULL;
}

/* ---- Segments: the mutex of the shard is held ---- */

/* Gives up an old segment that has no recorder of this process any more: so it is final. */
static void let_go(struct shard *shard, struct povundiri_owned *owned) {
    struct povundiri_owned **link = &shard->old;
    if (owned == shard->current || owned->recorders > 0) return;
    while (*link != owned) link = &(*link)->next;
    *link = owned->next;
    if (owned->is_gone || !povundiri_folder_stands(&shard->folder, owned)) {
        miss(shard->recording, POVUNDIRI_MISSED_REMOVED, povundiri_folder_units(owned));
    }
    povundiri_folder_release(&shard->folder, owned);
    if (shard->state == HAS_ENDED && shard->current == NULL && shard->old == NULL) povundiri_place_leave(&shard->folder);
}

void povundiri_segments_give_back(struct local *local) {
    struct povundiri_owned *const owned = local->owned;
    if (owned == NULL) return;
    povundiri_segments_unlist(local);
    if (povundiri_join(&owned->segment, &local->recorder) != POVUNDIRI_DONE) povundiri_drop(&local->recorder);
    owned->recorders -= 1;
    clear(local);
    let_go(local->shard, owned);
}

/* The recorder that is shared leaves it: nobody else would have it do so. */
void povundiri_segments_retire(struct shard *shard) {
    struct povundiri_owned *const owned = shard->current;
    struct local *local, *after;
    for (local = shard->present; local != NULL; local = after) {
        after = local->after;
        local->before = local->after = NULL;
        set_of(local, NOBODY);
    }
    shard->present = NULL;
    shard->current = NULL;
    if (owned == NULL) return;
    owned->next = shard->old;
    shard->old = owned;
    if (shard->shared->owned == owned) {
        povundiri_segments_give_back(shard->shared);
    } else {
        let_go(shard, owned);
    }
}

static void make_current(struct shard *shard, struct povundiri_owned *owned, uint64_t began_at) {
    shard->current = owned;
    shard->began_at = began_at;
    shard->fit = FITS;
    shard->has_childs = false;
    shard->turns += 1;
}

/* EDQUOT if a segment of this shape is too much for the folder, as the options have it. */
static int look_for_room(const struct povundiri_recording *recording, const struct povundiri_place *place, struct povundiri_shape shape) {
    const uint64_t most = recording->options.most_bytes, own = povundiri_file_bytes(shape.size, (size_t)shape.cursors);
    uint64_t bytes = 0;
    const int fault = most == 0 ? 0 : povundiri_parts_bytes(place->is_open ? place->held.descriptor : -1, &bytes);
    return fault == 0 && most > 0 && (own > most || bytes > most - own) ? EDQUOT : fault;
}

/* Makes a spare of this shape, with an id of its own. It leaves the room that a fold needs, but where nothing could be folded. */
static struct povundiri_owned *new_spare(const struct povundiri_recording *recording, struct povundiri_place *place,
                                         struct povundiri_shape shape, int *fault) {
    struct povundiri_owned *spare = NULL;
    uint32_t status;
    *fault = look_for_room(recording, place, shape);
    if (*fault != 0) return NULL;
    shape.id = random_of(recording);
    status = povundiri_folder_spare(place, shape, random_of(recording), &spare, fault);
    if (status != POVUNDIRI_DONE && *fault == 0) *fault = ENOMEM;
    if (spare == NULL || __atomic_load_n(&recording->spends_reserve, __ATOMIC_RELAXED)) return spare;
    if (povundiri_folder_leaves_room(place, shape)) return spare;
    povundiri_folder_release(place, spare);
    *fault = ENOSPC;
    return NULL;
}

/* Later segments of the shard are as large as this. */
static void resize(struct shard *shard, uint64_t bytes, struct povundiri_shape shape) {
    shard->bytes = bytes;
    shard->shape = shape;
}

/* The spare, if it is one for this shard, which is as large from now on. */
static struct povundiri_owned *take_spare(struct shard *shard) {
    struct povundiri_recording *const recording = shard->recording;
    struct povundiri_owned *owned = NULL;
    pthread_mutex_lock(&recording->mutex);
    if (is_fit(&recording->spare, &shard->folder, shard->shape)) {
        resize(shard, recording->spare.bytes, recording->spare.shape);
        owned = take_owned(recording);
    }
    pthread_mutex_unlock(&recording->mutex);
    return owned;
}

/* Gives up a spare that is smaller than segments of this shard, since the next one will be as large. */
static void give_up_spare(struct shard *shard) {
    struct povundiri_recording *const recording = shard->recording;
    struct povundiri_owned *owned = NULL;
    pthread_mutex_lock(&recording->mutex);
    if (recording->spare.owned != NULL && recording->spare.shape.size < shard->shape.size) owned = take_owned(recording);
    pthread_mutex_unlock(&recording->mutex);
    povundiri_folder_release(&shard->folder, owned);
}

/* Makes the next segment now, since there is no spare for it. */
static struct povundiri_owned *new_next(struct shard *shard, int *fault) {
    struct povundiri_owned *const next = new_spare(shard->recording, &shard->folder, shard->shape, fault);
    if (next != NULL) give_up_spare(shard);
    return next;
}

/* Where the folder has lost its mark, the next one has the id that any shard knows. */
static void note_id(struct shard *shard) {
    struct povundiri_recording *const recording = shard->recording;
    pthread_mutex_lock(&recording->mutex);
    povundiri_missed_note_id(&recording->missed, &shard->folder);
    pthread_mutex_unlock(&recording->mutex);
}

void povundiri_segments_look_for_mark(struct shard *shard) {
    struct povundiri_recording *const recording = shard->recording;
    pthread_mutex_lock(&recording->mutex);
    povundiri_missed_look(&recording->missed, &shard->folder);
    pthread_mutex_unlock(&recording->mutex);
}

/* A folder has taken the place of the one whose numbers were known; it may have the same inode. */
static void forget_last(struct povundiri_recording *recording) {
    pthread_mutex_lock(&recording->mutex);
    recording->last = recording->counted_at = 0;
    pthread_mutex_unlock(&recording->mutex);
}

/* What one shard knows of the numbers in a folder, all know that count there. */
static void share_last(struct shard *shard) {
    struct povundiri_recording *const recording = shard->recording;
    struct povundiri_place *const place = &shard->folder;
    pthread_mutex_lock(&recording->mutex);
    if (recording->last_device != place->device || recording->last_inode != place->inode) recording->last = recording->counted_at = 0;
    if (recording->last < place->last) recording->last = place->last;
    place->last = recording->last;
    recording->last_device = place->device;
    recording->last_inode = place->inode;
    pthread_mutex_unlock(&recording->mutex);
}

/* Finds the folder, wherever it is by now. If it was removed, and is another one, nothing that was in it is there. */
static int look_for_folder(struct shard *shard) {
    struct povundiri_owned *old;
    bool is_another;
    int fault;
    note_id(shard);
    fault = povundiri_place_look(&shard->folder, &is_another);
    povundiri_segments_look_for_mark(shard);
    if (!is_another) return fault;
    forget_last(shard->recording);
    if (shard->current != NULL) shard->current->is_gone = true;
    for (old = shard->old; old != NULL; old = old->next) old->is_gone = true;
    return fault;
}

/* Gives a spare the next number of all shards. */
static int commit(struct shard *shard, struct povundiri_owned *spare) {
    int fault;
    share_last(shard);
    fault = povundiri_folder_commit(&shard->folder, spare);
    share_last(shard);
    return fault;
}

/* Begins the next segment with the one that was made for it, if there is one, with the spare, or with a new one. The system's fault, or 0.
 */
static int begin_once(struct shard *shard, struct povundiri_owned *next) {
    int fault = look_for_folder(shard);
    if (fault == 0 && next == NULL) next = take_spare(shard);
    if (fault == 0 && next == NULL) next = new_next(shard, &fault);
    if (fault == 0) fault = commit(shard, next);
    if (fault != 0) {
        povundiri_folder_release(&shard->folder, next);
        return fault;
    }
    povundiri_segments_retire(shard);
    make_current(shard, next, povundiri_segments_now());
    return 0;
}

/* The same, as often as it is tried at once. */
static int begin(struct shard *shard, struct povundiri_owned *next) {
    int fault;
    do {
        fault = begin_once(shard, next);
        next = NULL;
    } while (fault != 0 && is_tried_again(shard->recording, fault));
    if (fault == 0) forget_refusals(shard->recording);
    return fault;
}

int povundiri_segments_begin_next(struct shard *shard) {
    int fault;
    if (!may_be_made(shard->recording)) return EAGAIN;
    lock_making(shard->recording);
    fault = begin(shard, NULL);
    unlock_making(shard->recording);
    return fault;
}

/* Other shards grow to this, too, as soon as they grow or take a spare. */
static void note_size(struct shard *shard) {
    struct povundiri_recording *const recording = shard->recording;
    pthread_mutex_lock(&recording->mutex);
    if (recording->bytes < shard->bytes) {
        recording->bytes = shard->bytes;
        recording->shape = shard->shape;
    }
    pthread_mutex_unlock(&recording->mutex);
}

/* How large the next one is if it grows: twice as large, or as those of another shard, if that is more. */
static uint64_t larger_bytes(struct shard *shard) {
    struct povundiri_recording *const recording = shard->recording;
    uint64_t bytes = shard->bytes < LARGEST / 2 ? 2 * shard->bytes : LARGEST;
    pthread_mutex_lock(&recording->mutex);
    if (recording->bytes > bytes) bytes = recording->bytes;
    pthread_mutex_unlock(&recording->mutex);
    return bytes;
}

/* Makes a larger segment, in place of the spare that is there; later ones are as large. It is null where the system refuses it. */
static struct povundiri_owned *grow(struct shard *shard, int *fault) {
    struct povundiri_recording *const recording = shard->recording;
    const uint64_t bytes = larger_bytes(shard);
    const struct povundiri_shape shape = povundiri_segments_shape_for(bytes);
    struct povundiri_owned *larger;
    do {
        larger = new_spare(recording, &shard->folder, shape, fault);
    } while (larger == NULL && is_tried_again(recording, *fault));
    if (larger == NULL) {
        pthread_mutex_lock(&recording->mutex);
        recording->again_at = povundiri_segments_now() + SECOND;
        pthread_mutex_unlock(&recording->mutex);
        return NULL;
    }
    resize(shard, bytes, shape);
    note_size(shard);
    give_up_spare(shard);
    povundiri_metrics_judge_again(&recording->metrics, shape);
    return larger;
}

/* The same, and begins with it. */
static enum rolled begin_larger(struct shard *shard) {
    struct povundiri_owned *larger;
    int fault = 0;
    if (!may_be_made(shard->recording)) {
        shard->fit = MAY_NOT_GROW;
        return REFUSED;
    }
    lock_making(shard->recording);
    larger = grow(shard, &fault);
    if (larger == NULL) shard->fit = MAY_NOT_GROW;
    if (larger != NULL) fault = begin(shard, larger);
    unlock_making(shard->recording);
    return fault == 0 ? BEGUN : REFUSED;
}

/* How old the present segment has to be before the next one is begun, since it has refused something with this status. */
static uint64_t least_age(const struct shard *shard, uint32_t status) {
    const uint64_t apart = shard->turns > 1 ? shard->recording->options.apart : 0;
    return shard->bytes == LARGEST && status == POVUNDIRI_REFUSED_FULL && apart < SECOND ? SECOND : apart;
}

/* The next one is larger where this one is too small; where that is refused, it is as large as this one, and comes a second later. */
static enum rolled roll(struct shard *shard, uint32_t status, bool is_for_child) {
    const uint64_t now = povundiri_segments_now(), least = least_age(shard, status);
    const uint64_t age = shard->began_at == 0 ? UINT64_MAX : now - shard->began_at;
    const bool is_first = shard->turns <= 1, is_soon = age < least || (!is_first && !is_apart(shard->recording));
    enum rolled rolled = REFUSED;
    if (status == POVUNDIRI_REFUSED_FULL && age < SECOND && shard->fit == FITS) shard->fit = IS_TOO_SMALL;
    if (is_soon) {
        if (may_have_childs(shard)) shard->follow_at = (age < least ? shard->began_at : now) + least;
        if (is_for_child || !may_have_childs(shard)) return TOO_SOON;
    }
    if (shard->fit == IS_TOO_SMALL && shard->bytes < LARGEST) {
        rolled = begin_larger(shard);
    } else if (povundiri_segments_begin_next(shard) == 0) {
        rolled = BEGUN;
    }
    if (rolled == BEGUN && !is_first && !is_soon) take_turn(shard->recording, shard->began_at);
    return rolled;
}

/* A sample does not wait for what children have filled: they wait, and are in no segment before. */
enum rolled povundiri_segments_roll(struct shard *shard, uint32_t status) { return roll(shard, status, false); }

enum rolled povundiri_segments_roll_for_child(struct shard *shard, uint32_t status) { return roll(shard, status, true); }

/* If the present segment has lost its name, it counts no longer. Then the next one is begun, if the system lets it. */
void povundiri_segments_look(struct shard *shard, bool at_once) {
    const uint64_t time = povundiri_segments_now();
    if (shard->state != RECORDS || (shard->turns == 0 && shard != shard->recording->shards)) return;
    if (!at_once && time - shard->looked_at < SECOND) return;
    shard->looked_at = time;
    if (look_for_folder(shard) != 0 && shard->current != NULL && !shard->current->is_gone) return;
    if (shard->current == NULL) return;
    if (!shard->current->is_gone && povundiri_folder_stands(&shard->folder, shard->current)) return;
    povundiri_segments_retire(shard);
    (void)povundiri_segments_begin_next(shard);
}

bool povundiri_segments_want_spare(struct shard *shard) {
    struct povundiri_recording *const recording = shard->recording;
    bool wants;
    pthread_mutex_lock(&recording->mutex);
    wants = recording->state == RECORDS && !is_fit(&recording->spare, &shard->folder, shard->shape);
    pthread_mutex_unlock(&recording->mutex);
    return wants;
}

/* ---- Spares: no mutex is held ---- */

/* Whether this thread is the one that makes the spare from now on. */
static bool may_prepare(struct povundiri_recording *recording) {
    bool may;
    pthread_mutex_lock(&recording->mutex);
    may = recording->state == RECORDS && !recording->is_preparing && povundiri_segments_now() >= recording->again_at;
    if (may) recording->is_preparing = true;
    pthread_mutex_unlock(&recording->mutex);
    return may;
}

static void end_preparing(struct povundiri_recording *recording) {
    pthread_mutex_lock(&recording->mutex);
    recording->is_preparing = false;
    pthread_mutex_unlock(&recording->mutex);
}

/* What a thread takes with it that makes a spare. False if there is nothing to make. */
static bool begins_to_prepare(struct shard *shard, struct povundiri_place *place, struct spare *spare) {
    bool is_mine;
    pthread_mutex_lock(&shard->mutex);
    spare->bytes = shard->bytes;
    spare->shape = shard->shape;
    is_mine = shard->state == RECORDS && shard->folder.is_open && povundiri_segments_want_spare(shard) && may_prepare(shard->recording);
    if (is_mine && povundiri_place_share(&shard->folder, place) != 0) {
        end_preparing(shard->recording);
        is_mine = false;
    }
    pthread_mutex_unlock(&shard->mutex);
    return is_mine;
}

/* Makes the spare, and puts it in place of one that is smaller, or of another folder. 0, or the system's fault. */
static int make_spare(struct povundiri_recording *recording, struct povundiri_place *place, struct spare *spare) {
    struct povundiri_owned *other;
    int fault = 0;
    lock_making(recording);
    spare->owned = new_spare(recording, place, spare->shape, &fault);
    other = spare->owned;
    spare->device = place->device;
    spare->inode = place->inode;
    pthread_mutex_lock(&recording->mutex);
    if (spare->owned != NULL) __atomic_store_n(&recording->spends_reserve, false, __ATOMIC_RELAXED);
    if (spare->owned != NULL && recording->state == RECORDS && !is_fit(&recording->spare, place, spare->shape)) {
        other = recording->spare.owned;
        recording->spare = *spare;
    }
    pthread_mutex_unlock(&recording->mutex);
    povundiri_folder_release(place, other);
    unlock_making(recording);
    return fault;
}

void povundiri_segments_prepare(struct shard *shard) {
    struct povundiri_recording *const recording = shard->recording;
    struct povundiri_place place;
    struct spare spare;
    int fault;
    if (!begins_to_prepare(shard, &place, &spare)) return;
    fault = make_spare(recording, &place, &spare);
    if (is_full(fault)) {
        bool has_room;
        pthread_mutex_lock(&shard->mutex);
        has_room = povundiri_recording_make_room(shard);
        pthread_mutex_unlock(&shard->mutex);
        if (has_room) fault = make_spare(recording, &place, &spare);
    }
    if (fault != 0) (void)is_tried_again(recording, fault);
    end_preparing(recording);
    if (place.names_spares) {
        pthread_mutex_lock(&shard->mutex);
        shard->folder.names_spares = true;
        pthread_mutex_unlock(&shard->mutex);
    }
    povundiri_place_leave(&place);
    povundiri_recording_fold_if_many(recording);
}

/* ---- Beginning ---- */

/* Takes a segment of the folder that may be continued, and that nobody has; else begins one. Threads of this process come one after the
 * other: so no two of them get in each other's way to the same one. */
static int take_first(struct shard *shard, bool is_start, struct povundiri_found *found) {
    struct povundiri_recording *const recording = shard->recording;
    struct povundiri_shape shape = shard->shape;
    uint32_t status;
    int fault = 0;
    shape.id = random_of(recording);
    pthread_mutex_lock(&recording->making);
    status = povundiri_folder_adopt(&shard->folder, shape, is_start, found, &fault);
    pthread_mutex_unlock(&recording->making);
    if (status == POVUNDIRI_DONE && found->newest != NULL) {
        make_current(shard, found->newest, found->is_adopted ? 0 : povundiri_segments_now());
        return fault;
    }
    return povundiri_segments_begin_next(shard);
}

void povundiri_segments_begin_first(struct shard *shard) {
    struct povundiri_recording *const recording = shard->recording;
    struct povundiri_began *const began = &recording->began;
    struct povundiri_found found;
    began->fault = take_first(shard, true, &found);
    if (shard->current == NULL && povundiri_recording_lacks_room(recording) && povundiri_recording_make_room(shard)) {
        began->fault = povundiri_segments_begin_next(shard);
    }
    began->adopted = found.is_adopted;
    began->refused = found.refused;
    memcpy(began->set_aside, found.set_aside, sizeof found.set_aside);
    if (shard->current != NULL) began->number = shard->current->number;
}

bool povundiri_segments_has_begun(struct shard *shard) {
    struct povundiri_recording *const recording = shard->recording;
    const uint64_t now = povundiri_segments_now();
    struct povundiri_found found;
    if (shard->current != NULL) return true;
    if (shard->turns > 0) return povundiri_segments_begin_next(shard) == 0;
    if (now - shard->looked_at < SECOND) return false;
    shard->looked_at = now;
    pthread_mutex_lock(&recording->mutex);
    resize(shard, recording->bytes, recording->shape);
    pthread_mutex_unlock(&recording->mutex);
    return look_for_folder(shard) == 0 && take_first(shard, false, &found) == 0;
}
