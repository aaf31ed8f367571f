/* A recording is opened, and ends. */
#define _GNU_SOURCE /* posix_memalign, sched_getaffinity */

#include <pthread.h>
#include <sched.h>
#include <stdlib.h>
#include <string.h>
#include <unistd.h>

#include "povundiri_recording_state.h"

static const uint64_t USUAL_APART = 1000000, USUAL_BYTES = 1 << 20, USUAL_FOLD_AT = 64, USUAL_VALUES = 65536;
static const mode_t USUAL_MODE = 0600;

/* How many shards are usual at most, and how many there may be. */
enum { USUAL_SHARDS = 16, MOST_SHARDS = 256 };

/* ---- Options ---- */

/* How many processors the process may run on. */
static size_t processors(void) {
    cpu_set_t set;
    const long online = sysconf(_SC_NPROCESSORS_ONLN);
    if (sched_getaffinity(0, sizeof set, &set) == 0) return (size_t)CPU_COUNT(&set);
    return online > 0 ? (size_t)online : 1;
}

/* How many segments may be in the folder besides its mark and a spare; at least one. */
static uint64_t most_in(const struct povundiri_recording_options *options) {
    const uint64_t all = options->most_bytes > MARK_BYTES ? (options->most_bytes - MARK_BYTES) / options->bytes : 0;
    return all > 2 ? all - 1 : 1;
}

/* As many as are asked for; but no more than the folder may have segments. */
static size_t shards_of(const struct povundiri_recording_options *options) {
    size_t shards = (size_t)options->shards;
    if (shards == 0) {
        shards = processors();
        if (shards > USUAL_SHARDS) shards = USUAL_SHARDS;
    }
    return options->most_bytes != 0 && most_in(options) < shards ? (size_t)most_in(options) : shards;
}

static void set_options(struct povundiri_recording *recording, const struct povundiri_recording_options *options) {
    struct povundiri_recording_options *const own = &recording->options;
    if (options != NULL) *own = *options;
    if (own->bytes == 0) own->bytes = USUAL_BYTES;
    if (own->fold_at == 0) own->fold_at = USUAL_FOLD_AT;
    if (own->apart == 0) own->apart = USUAL_APART;
    if (own->mode == 0) own->mode = USUAL_MODE;
    if (own->most_values == 0) own->most_values = USUAL_VALUES;
    own->shards = shards_of(own);
}

static bool are_valid(const struct povundiri_recording_options *options) {
    const unsigned flags = POVUNDIRI_FILE_ANY_OWNER | POVUNDIRI_FILE_GROUP_WRITES;
    if (!povundiri_parts_are_known(options, sizeof *options, sizeof *options) || (options->flags & ~flags) != 0) return false;
    if (options->most_bytes != 0 && options->most_bytes / 2 < (options->bytes != 0 ? options->bytes : USUAL_BYTES)) return false;
    return options->shards <= MOST_SHARDS && povundiri_parts_is_mode(options->mode, options->flags);
}

/* ---- Beginning ---- */

void povundiri_recording_init_mutexes(struct povundiri_recording *recording) {
    pthread_mutex_init(&recording->asking, NULL);
    pthread_mutex_init(&recording->making, NULL);
    pthread_mutex_init(&recording->mutex, NULL);
    pthread_cond_init(&recording->room, NULL);
}

/* Zeros, on lines of the cache of their own; null if there is no memory. */
static void *new_lines(size_t bytes) {
    void *at = NULL;
    if (posix_memalign(&at, LINES, bytes) != 0) return NULL;
    memset(at, 0, bytes);
    return at;
}

/* False if there is no memory. */
static bool make_shard(struct povundiri_recording *recording, struct shard *shard) {
    shard->recording = recording;
    shard->bytes = recording->bytes;
    shard->shape = recording->shape;
    pthread_mutex_init(&shard->mutex, NULL);
    shard->shared = povundiri_counting_new(shard, 0);
    return shard->shared != NULL;
}

static void free_recording(struct povundiri_recording *recording) {
    size_t i;
    for (i = 0; i < recording->shard_count; i += 1) {
        pthread_mutex_destroy(&recording->shards[i].mutex);
        free(recording->shards[i].shared);
    }
    free(recording->shards[0].folder.path);
    pthread_mutex_destroy(&recording->asking);
    pthread_mutex_destroy(&recording->making);
    pthread_mutex_destroy(&recording->mutex);
    pthread_cond_destroy(&recording->room);
    free(recording->shards);
    free(recording);
}

static struct povundiri_recording *new_recording(const struct povundiri_recording_options *options) {
    struct povundiri_recording *const recording = (struct povundiri_recording *)new_lines(sizeof *recording);
    bool is_made = true;
    if (recording == NULL) return NULL;
    set_options(recording, options);
    povundiri_missed_begin(&recording->missed);
    recording->metrics.most_values = recording->options.most_values;
    recording->bytes = recording->options.bytes;
    recording->shape = povundiri_segments_shape_for(recording->bytes);
    recording->shards = (struct shard *)new_lines((size_t)recording->options.shards * sizeof *recording->shards);
    if (recording->shards == NULL) {
        free(recording);
        return NULL;
    }
    povundiri_recording_init_mutexes(recording);
    while (is_made && recording->shard_count < recording->options.shards) {
        is_made = make_shard(recording, &recording->shards[recording->shard_count]);
        recording->shard_count += 1;
    }
    if (is_made) return recording;
    free_recording(recording);
    return NULL;
}

/* Whether segments of this shape may be made. */
static uint32_t check_shape(struct povundiri_shape shape) {
    struct povundiri_handle segment = {false, NULL};
    const uint32_t status = povundiri_create(shape, &segment);
    return status == POVUNDIRI_DONE ? povundiri_drop(&segment) : status;
}

static uint32_t open_recording(const char *folder, struct povundiri_recording *recording, int *fault) {
    struct shard *const first = recording->shards;
    const uint32_t status = check_shape(recording->shape);
    if (status != POVUNDIRI_DONE) return status;
    first->folder.flags = recording->options.flags;
    first->folder.mode = recording->options.mode;
    *fault = povundiri_place_enter(&first->folder, folder);
    if (*fault != 0) return povundiri_parts_status(fault);
    pthread_mutex_lock(&first->mutex);
    povundiri_segments_look_for_mark(first);
    povundiri_segments_begin_first(first);
    recording->began.id = first->folder.id;
    pthread_mutex_unlock(&first->mutex);
    povundiri_recordings_put(recording);
    return POVUNDIRI_DONE;
}

uint32_t povundiri_recording_open(const char *folder, const struct povundiri_recording_options *options,
                                  struct povundiri_recording **recording, int *fault) {
    struct povundiri_recording *made;
    uint32_t status;
    int state;
    if (folder == NULL || recording == NULL || fault == NULL) return POVUNDIRI_NULL;
    if (*recording != NULL) return POVUNDIRI_NOT_EMPTY;
    *fault = 0;
    if (options != NULL && !are_valid(options)) return POVUNDIRI_BAD_OPTIONS;
    made = povundiri_recordings_are_ready() ? new_recording(options) : NULL;
    if (made == NULL) return POVUNDIRI_NO_MEMORY;
    pthread_setcancelstate(PTHREAD_CANCEL_DISABLE, &state);
    status = open_recording(folder, made, fault);
    if (status == POVUNDIRI_DONE) povundiri_segments_prepare(made->shards);
    pthread_setcancelstate(state, NULL);
    if (status == POVUNDIRI_DONE) {
        *recording = made;
    } else {
        free_recording(made);
    }
    return status;
}

const struct povundiri_began *povundiri_recording_began(const struct povundiri_recording *recording) {
    return recording != NULL ? &recording->began : NULL;
}

/* ---- End ---- */

/* No thread begins a segment from now on. */
static void end_shard(struct shard *shard) {
    if (shard->state != RECORDS) return;
    povundiri_segments_look_for_mark(shard);
    shard->state = HAS_ENDED;
    povundiri_counting_leave(shard);
    povundiri_segments_retire(shard);
    if (shard->old == NULL) povundiri_place_leave(&shard->folder);
}

/* No thread makes a spare from now on. That which is there, for povundiri_folder_release. */
static struct povundiri_owned *end_spares(struct povundiri_recording *recording) {
    struct povundiri_owned *spare = NULL;
    pthread_mutex_lock(&recording->mutex);
    if (recording->state == RECORDS) {
        __atomic_store_n(&recording->state, HAS_ENDED, __ATOMIC_RELAXED);
        spare = recording->spare.owned;
        recording->spare.owned = NULL;
    }
    pthread_mutex_unlock(&recording->mutex);
    return spare;
}

void povundiri_recording_end(struct povundiri_recording *recording) {
    struct povundiri_owned *spare;
    size_t i;
    int state;
    if (recording == NULL) return;
    pthread_setcancelstate(PTHREAD_CANCEL_DISABLE, &state);
    spare = end_spares(recording);
    pthread_mutex_lock(&recording->asking);
    povundiri_metrics_end_trial(&recording->metrics);
    pthread_mutex_unlock(&recording->asking);
    for (i = 0; i < recording->shard_count; i += 1) {
        struct shard *const shard = &recording->shards[i];
        pthread_mutex_lock(&shard->mutex);
        if (i == 0) povundiri_folder_release(&shard->folder, spare);
        end_shard(shard);
        pthread_mutex_unlock(&shard->mutex);
    }
    pthread_setcancelstate(state, NULL);
}
