/* What keeps the folder of a recording small: folds, when there are many segments, or no room for another one. */
#define _GNU_SOURCE

#include <errno.h>
#include <pthread.h>

#include "povundiri_recording_state.h"

/* How many times `fold_at` segments are folded by a thread that makes a spare, where no text does. */
enum { MANY_TIMES = 4 };

int povundiri_recording_folder(struct povundiri_recording *recording, struct povundiri_held *held) {
    struct shard *const first = recording->shards;
    size_t i;
    int fault = 0, state;
    pthread_setcancelstate(PTHREAD_CANCEL_DISABLE, &state);
    for (i = recording->shard_count; i > 0; i -= 1) {
        struct shard *const shard = &recording->shards[i - 1];
        pthread_mutex_lock(&shard->mutex);
        povundiri_segments_look(shard, true);
        if (shard == first) fault = povundiri_place_copy(&shard->folder, held);
        pthread_mutex_unlock(&shard->mutex);
    }
    pthread_setcancelstate(state, NULL);
    return fault;
}

void povundiri_recording_all_missed(struct povundiri_recording *recording, int folder, uint64_t *missed) {
    pthread_mutex_lock(&recording->mutex);
    povundiri_missed_read(&recording->missed, folder, missed);
    pthread_mutex_unlock(&recording->mutex);
}

/* The greatest number of a segment that is known. */
static uint64_t last_of(struct povundiri_recording *recording) {
    uint64_t last;
    pthread_mutex_lock(&recording->mutex);
    last = recording->last;
    pthread_mutex_unlock(&recording->mutex);
    return last;
}

/* So many segments are there, but for those that have begun since this number was the last one. */
static void note_count(struct povundiri_recording *recording, uint64_t segments, uint64_t last) {
    pthread_mutex_lock(&recording->mutex);
    recording->counted = segments;
    recording->counted_at = last;
    pthread_mutex_unlock(&recording->mutex);
}

/* The id of the folder, as it was last seen; 0: it is not known. */
static uint64_t id_of(struct povundiri_recording *recording) {
    struct shard *const first = recording->shards;
    uint64_t id;
    pthread_mutex_lock(&first->mutex);
    id = first->folder.id;
    pthread_mutex_unlock(&first->mutex);
    return id;
}

/* Folds, if there are `least` segments or more. The folder may lose its mark at any time. */
static uint32_t fold(struct povundiri_recording *recording, uint64_t least, uint64_t *folded, int *fault) {
    const uint64_t last = last_of(recording);
    struct povundiri_held folder;
    uint64_t segments = 0;
    uint32_t status = POVUNDIRI_SYSTEM;
    int state;
    *folded = 0;
    pthread_setcancelstate(PTHREAD_CANCEL_DISABLE, &state);
    *fault = povundiri_recording_folder(recording, &folder);
    if (*fault == 0) {
        if (least > 0) *fault = povundiri_parts_count(folder.descriptor, &segments);
        if (*fault == 0 && segments < least) status = POVUNDIRI_DONE;
        if (*fault == 0 && segments >= least) status = povundiri_parts_fold(folder.descriptor, id_of(recording), folded, fault);
        povundiri_parts_close(&folder);
        if (segments > 0) note_count(recording, segments - (*folded < segments ? *folded : segments), last);
    }
    pthread_setcancelstate(state, NULL);
    return status;
}

uint32_t povundiri_recording_fold(struct povundiri_recording *recording, uint64_t *folded, int *fault) {
    uint64_t own = 0;
    if (recording == NULL || fault == NULL) return POVUNDIRI_NULL;
    return fold(recording, 0, folded != NULL ? folded : &own, fault);
}

uint32_t povundiri_recording_fold_if_due(struct povundiri_recording *recording) {
    uint64_t folded = 0;
    int fault = 0;
    return fold(recording, recording->options.fold_at, &folded, &fault);
}

/* Whether the folder may have so many segments: each has a number of its own, so there are no more than were counted last and have begun
 * since, in all processes. Where so many had stayed, since they are in use or another user's, that is not tried again before `fold_at` have
 * begun. */
static bool may_have(struct povundiri_recording *recording, uint64_t many) {
    uint64_t begun;
    bool may;
    pthread_mutex_lock(&recording->mutex);
    begun = recording->last - recording->counted_at;
    may = recording->counted < many ? many - recording->counted <= begun : recording->options.fold_at <= begun;
    if (recording->counted_at == 0) may = true;
    pthread_mutex_unlock(&recording->mutex);
    return may;
}

void povundiri_recording_fold_if_many(struct povundiri_recording *recording) {
    const uint64_t at = recording->options.fold_at;
    uint64_t folded = 0;
    int fault = 0;
    if (at <= UINT64_MAX / MANY_TIMES && may_have(recording, MANY_TIMES * at)) (void)fold(recording, MANY_TIMES * at, &folded, &fault);
}

bool povundiri_recording_lacks_room(struct povundiri_recording *recording) {
    bool lacks;
    pthread_mutex_lock(&recording->mutex);
    lacks = recording->lacks_room || recording->is_making_room;
    pthread_mutex_unlock(&recording->mutex);
    return lacks;
}

void povundiri_recording_forget_lack(struct povundiri_recording *recording) {
    pthread_mutex_lock(&recording->mutex);
    recording->lacks_room = false;
    pthread_mutex_unlock(&recording->mutex);
}

/* Whether this thread is the one that folds; else it waits for that one first. The mutex of the recording is held. */
static bool begins_to_fold(struct povundiri_recording *recording) {
    recording->lacks_room = false;
    if (recording->is_making_room) {
        while (recording->is_making_room) pthread_cond_wait(&recording->room, &recording->mutex);
        return false;
    }
    recording->is_making_room = true;
    return true;
}

/* One thread folds, and the others wait for it. It has made room if it has removed a segment; so may have another process, which folds. Where
 * nothing could be folded, there is still the room that was left for a fold. */
static bool make_room(struct povundiri_recording *recording) {
    uint64_t folded = 0;
    uint32_t status;
    int fault = 0;
    bool is_mine, is_made;
    pthread_mutex_lock(&recording->mutex);
    is_mine = begins_to_fold(recording);
    pthread_mutex_unlock(&recording->mutex);
    if (!is_mine) return true;
    status = fold(recording, 0, &folded, &fault);
    is_made = folded > 0 || status == POVUNDIRI_BUSY;
    pthread_mutex_lock(&recording->mutex);
    if (!is_made && !recording->spends_reserve) {
        __atomic_store_n(&recording->spends_reserve, true, __ATOMIC_RELAXED);
        is_made = true;
    }
    recording->is_making_room = false;
    if (is_made) recording->refusals = recording->again_at = 0;
    pthread_cond_broadcast(&recording->room);
    pthread_mutex_unlock(&recording->mutex);
    return is_made;
}

bool povundiri_recording_make_room(struct shard *shard) {
    bool is_made;
    pthread_mutex_unlock(&shard->mutex);
    is_made = make_room(shard->recording);
    pthread_mutex_lock(&shard->mutex);
    return is_made;
}

uint32_t povundiri_recording_maintain(struct povundiri_recording *recording) {
    uint32_t status;
    size_t i;
    int state;
    if (recording == NULL) return POVUNDIRI_NULL;
    status = povundiri_recording_fold_if_due(recording);
    pthread_setcancelstate(PTHREAD_CANCEL_DISABLE, &state);
    for (i = 0; i < recording->shard_count; i += 1) povundiri_segments_prepare(&recording->shards[i]);
    pthread_setcancelstate(state, NULL);
    return status == POVUNDIRI_BUSY ? (uint32_t)POVUNDIRI_DONE : status;
}
