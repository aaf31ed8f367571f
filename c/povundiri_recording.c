#define _GNU_SOURCE /* posix_memalign and the like */

#include "povundiri_recording.h"

#include <errno.h>
#include <pthread.h>
#include <stdlib.h>
#include <string.h>

#include "povundiri_recording_state.h"

/* How many threads have recorders of their own in a segment; further ones share one. A segment has at most 256. */
enum { MOST_RECORDERS = 250 };

/* How many units a thread borrows at once. */
enum { LEASE = 1 << 20 };

/* What a thread has of all. */
struct table {
    struct local **locals; /* by the recording's place; some are null */
    size_t count;
};

/* The recordings, and how many there were. They are never freed. */
static pthread_mutex_t list_mutex = PTHREAD_MUTEX_INITIALIZER;
static struct povundiri_recording *recordings;
static size_t places;

static pthread_once_t once = PTHREAD_ONCE_INIT;
static pthread_key_t key;
static bool is_ready;

/* The state of this thread, found by one load also in a shared object: that of the recording which it counted in last, `none` before, and
 * all. A thread that has ended its state shares a recorder from then on. */
static struct local none = {NOBODY, 0, {false, NULL}, NULL, NULL, NULL, NULL, NULL};
#define OWN static __thread __attribute__((tls_model("initial-exec")))
OWN struct local *latest = &none;
OWN struct table *own;
OWN bool is_ending;
#undef OWN

/* ---- What threads have ---- */

/* What this thread has of a recording, or null. */
static struct local *found_local(const struct povundiri_recording *recording) {
    return own != NULL && recording->place < own->count ? own->locals[recording->place] : NULL;
}

struct local *povundiri_counting_new(struct shard *shard, size_t metrics) {
    const size_t size = (sizeof(struct local) + metrics * sizeof(struct asked) + LINES - 1) / LINES * LINES;
    struct local *local;
    void *at = NULL;
    if (posix_memalign(&at, LINES, size) != 0) return NULL;
    local = (struct local *)at;
    local->known = (size - sizeof *local) / sizeof local->asked[0];
    local->recorder.held = false;
    local->recorder.at = NULL;
    local->shard = shard;
    local->home = NULL;
    clear(local);
    return local;
}

/* The table of this thread, with room for a recording; false if there is no memory, or if the thread ends. */
static bool has_table(const struct povundiri_recording *recording) {
    if (is_ending) return false;
    if (own == NULL) {
        struct table *const table = (struct table *)calloc(1, sizeof *table);
        if (table == NULL) return false;
        if (pthread_setspecific(key, table) != 0) {
            free(table);
            return false;
        }
        own = table;
    }
    if (own->count <= recording->place) {
        const size_t count = recording->place + 1;
        struct local **const locals = (struct local **)realloc(own->locals, count * sizeof *locals);
        if (locals == NULL) return false;
        memset(locals + own->count, 0, (count - own->count) * sizeof *locals);
        own->locals = locals;
        own->count = count;
    }
    return true;
}

/* What this thread has of a recording, which may have no recorder; null if there is no memory, or if the thread ends. */
static struct local *own_local(struct povundiri_recording *recording) {
    struct local *local = found_local(recording);
    if (local == NULL && has_table(recording)) {
        local = povundiri_counting_new(recording->shards, povundiri_metrics_count(&recording->metrics));
        own->locals[recording->place] = local;
    }
    if (local != NULL) latest = local;
    return local;
}

/* ---- Shards ---- */

/* Takes the mutex of a shard, which has a descriptor of the folder of its own then, as the first one has. */
static void lock_shard(struct shard *shard) {
    struct shard *const first = shard->recording->shards;
    struct povundiri_place place;
    pthread_mutex_lock(&shard->mutex);
    if (shard->folder.path != NULL || shard->state != RECORDS) return;
    pthread_mutex_unlock(&shard->mutex);
    pthread_mutex_lock(&first->mutex);
    (void)povundiri_place_share(&first->folder, &place);
    pthread_mutex_unlock(&first->mutex);
    pthread_mutex_lock(&shard->mutex);
    if (shard->folder.path == NULL && shard->state == RECORDS) (void)povundiri_place_share(&place, &shard->folder);
    povundiri_place_leave(&place);
}

/* Has this thread count in another shard. */
static void move(struct local *local, struct shard *to) {
    pthread_mutex_lock(&local->shard->mutex);
    povundiri_segments_give_back(local);
    pthread_mutex_unlock(&local->shard->mutex);
    local->shard = to;
}

/* The shard that this thread counts in, or asks: threads get theirs one after the other, as they count their first sample. One without
 * memory of its own has none. */
static struct shard *shard_of(struct povundiri_recording *recording, bool counts) {
    struct local *const local = state_of(recording) == RECORDS ? own_local(recording) : found_local(recording);
    if (local == NULL) return recording->shards;
    if (counts && local->home == NULL) {
        const uint64_t number = __atomic_fetch_add(&recording->threads, 1, __ATOMIC_RELAXED);
        local->home = &recording->shards[number % recording->shard_count];
    }
    if (local->home != NULL && local->home != local->shard && of_local(local) == NOBODY) move(local, local->home);
    return local->shard;
}

/* A shard that has no segment is left to the threads that come later: this one counts in the first shard until the next segment there. */
struct shard *povundiri_counting_enter(struct povundiri_recording *recording, bool counts) {
    struct shard *const first = recording->shards, *const shard = shard_of(recording, counts);
    lock_shard(shard);
    if (!counts || shard == first || shard->state != RECORDS || povundiri_segments_has_begun(shard)) return shard;
    povundiri_counting_leave(shard);
    pthread_mutex_unlock(&shard->mutex);
    found_local(recording)->shard = first;
    lock_shard(first);
    return first;
}

void povundiri_counting_leave(struct shard *shard) {
    struct local *const local = found_local(shard->recording);
    if (local != NULL && local->shard == shard) povundiri_segments_give_back(local);
}

/* ---- Recorders: the mutex of the shard is held ---- */

/* How many units are lent if `needed` are needed: at least these, if the segment has them. */
static uint32_t lease_of(uint32_t left, uint64_t needed) {
    uint64_t lease = left / 2 < LEASE ? left / 2 : LEASE;
    if (lease < needed) lease = needed;
    return lease < left ? (uint32_t)lease : left;
}

/* From now on the usual sample of this thread takes no mutex, if it has counted one. */
static void count_alone(struct local *local) {
    if (local->home != NULL) set_of(local, (uintptr_t)local->shard->recording);
}

static uint32_t join_in(struct local *local, uint32_t count) {
    struct shard *const shard = local->shard;
    struct povundiri_owned *const current = shard->current;
    uint32_t left = 0, status;
    povundiri_segments_give_back(local);
    status = povundiri_units(&current->segment, &left);
    if (status == POVUNDIRI_DONE) status = povundiri_recorder(&current->segment, lease_of(left, count), &local->recorder);
    if (status != POVUNDIRI_DONE) return status;
    current->recorders += 1;
    local->owned = current;
    if (local != shard->shared) povundiri_segments_enlist(local);
    count_alone(local);
    return status;
}

/* Moves what it has to where there is room for all metrics up to this one. False if there is no memory. */
static bool enlarge(struct local **local, size_t metric) {
    struct local *const old = *local;
    struct shard *const shard = old->shard;
    struct povundiri_recording *const recording = shard->recording;
    const size_t count = povundiri_metrics_count(&recording->metrics);
    struct local *const larger = povundiri_counting_new(shard, metric < count ? count : metric + 1);
    if (larger == NULL) return false;
    larger->recorder = old->recorder;
    larger->owned = old->owned;
    larger->home = old->home;
    set_of(larger, of_local(old));
    memcpy(larger->asked, old->asked, old->known * sizeof *old->asked);
    if (old == shard->shared) {
        shard->shared = larger;
    } else {
        povundiri_segments_unlist(old);
        if (is_present(larger)) povundiri_segments_enlist(larger);
        own->locals[recording->place] = latest = larger;
    }
    free(old);
    *local = larger;
    return true;
}

/* What to count with in the present segment: this thread's own recorder, or the shared one. */
static uint32_t local_in(struct shard *shard, uint32_t count, struct local **local) {
    struct local *const mine = found_local(shard->recording);
    *local = mine;
    if (mine != NULL && is_present(mine)) {
        count_alone(mine);
        return POVUNDIRI_DONE;
    }
    if (mine != NULL && shard->current->recorders < MOST_RECORDERS) {
        const uint32_t status = join_in(mine, count);
        if (status != POVUNDIRI_REFUSED_TOO_MANY) return status;
    }
    if (mine != NULL) povundiri_segments_give_back(mine);
    *local = shard->shared;
    return is_present(*local) ? (uint32_t)POVUNDIRI_DONE : join_in(*local, count);
}

/* ---- Counting: the mutex of the shard is held ---- */

static struct povundiri_metric *metric_of(const struct shard *shard, size_t metric) {
    return povundiri_metrics_at(&shard->recording->metrics, metric);
}

/* Finds the histogram of a metric in the present segment, once for a recorder. */
static uint32_t find_alone(struct local **local, size_t metric) {
    const struct povundiri_metric *const of = metric_of((*local)->shard, metric);
    struct asked *asked;
    uint32_t status;
    if (metric >= (*local)->known && !enlarge(local, metric)) return POVUNDIRI_NO_MEMORY;
    asked = &(*local)->asked[metric];
    if (asked->hist != NOT_ASKED) return POVUNDIRI_DONE;
    status = povundiri_hist(&(*local)->recorder, of->name, of->length, of->spec, of->values, of->count, &asked->hist);
    if (status == POVUNDIRI_DONE) asked->distinct = of->distinct;
    return status;
}

/* The same. If metrics have one name, the first one has it in each segment, whichever is counted there first. */
static uint32_t find(struct local **local, size_t metric) {
    const size_t earlier = metric_of((*local)->shard, metric)->earlier;
    if (earlier != metric && (metric >= (*local)->known || (*local)->asked[metric].hist == NOT_ASKED)) (void)find_alone(local, earlier);
    return find_alone(local, metric);
}

/* Lends a recorder what a sample needs. False if the segment has too few. */
static bool lend(struct local *local, uint32_t count) {
    struct povundiri_owned *const current = local->shard->current;
    uint32_t has = 0, left = 0;
    if (povundiri_units(&local->recorder, &has) != POVUNDIRI_DONE) return false;
    if (povundiri_units(&current->segment, &left) != POVUNDIRI_DONE) return false;
    if ((uint64_t)count > (uint64_t)has + left) return false;
    return povundiri_lend(&current->segment, &local->recorder, lease_of(left, count > has ? count - has : 1)) == POVUNDIRI_DONE;
}

static uint32_t count_in(struct local *local, size_t metric, int32_t value, uint32_t count) {
    uint32_t status = find(&local, metric);
    if (status != POVUNDIRI_DONE) return status;
    status = povundiri_add(&local->recorder, local->asked[metric].hist, value, count);
    if (status != POVUNDIRI_REFUSED_NO_UNITS || !lend(local, count)) return status;
    return povundiri_add(&local->recorder, local->asked[metric].hist, value, count);
}

static enum povundiri_missed reason_of(uint32_t status) {
    switch (status) {
        case POVUNDIRI_REFUSED_TOO_LARGE:
            return POVUNDIRI_MISSED_TOO_LARGE;
        case POVUNDIRI_REFUSED_OTHER_SPEC:
            return POVUNDIRI_MISSED_OTHER_SPEC;
        default:
            return POVUNDIRI_MISSED_NO_MEMORY;
    }
}

/* Whether another metric of this recording has the name of this one in the present segment. */
static bool is_own_name(struct shard *shard, size_t metric) {
    const struct povundiri_metric *const asked = metric_of(shard, metric);
    const size_t count = povundiri_metrics_count(&shard->recording->metrics);
    struct local *local = NULL;
    size_t i;
    if (local_in(shard, 0, &local) != POVUNDIRI_DONE) return true;
    for (i = 0; i < count; i += 1) {
        if (i == metric || !povundiri_metrics_have_one_name(metric_of(shard, i), asked)) continue;
        if (find(&local, i) == POVUNDIRI_DONE) return true;
    }
    return false;
}

/* Whether the next segment was begun since the present one has the histogram with another spec, which is no metric's: another process began
 * it, so the buckets of a new release count at once; or a child has counted there, and silences no metric. */
static bool is_left_for(struct shard *shard, size_t metric, uint32_t status) {
    if (status != POVUNDIRI_REFUSED_OTHER_SPEC) return false;
    if (shard->began_at != 0 && (!may_have_childs(shard) || is_own_name(shard, metric))) return false;
    return povundiri_segments_begin_next(shard) == 0;
}

/* Whether a sample has a value that is one too many. */
static bool is_too_many(struct povundiri_distinct *distinct, int32_t value, uint32_t count) {
    return distinct != NULL && count > 0 && !povundiri_distinct_take(distinct, value);
}

/* Counts a sample in the present segment, or in one that is begun for it. Else the reason why it is not counted. */
static bool count_here(struct shard *shard, size_t metric, int32_t value, uint32_t count, enum povundiri_missed *reason) {
    const struct povundiri_metric *const asked = metric_of(shard, metric);
    struct local *local = NULL;
    uint32_t status = POVUNDIRI_DONE;
    int tries;
    *reason = POVUNDIRI_MISSED_VALUES;
    if (is_too_many(asked->distinct, value, count)) return false;
    *reason = POVUNDIRI_MISSED_ROLLING;
    for (tries = 0; tries < MOST_TRIES; tries += 1) {
        enum rolled rolled;
        if (shard->current == NULL && povundiri_segments_begin_next(shard) != 0) {
            *reason = POVUNDIRI_MISSED_NO_SPACE;
            return false;
        }
        status = local_in(shard, count, &local);
        if (status == POVUNDIRI_DONE) status = count_in(local, metric, value, count);
        if (status == POVUNDIRI_DONE) return true;
        if (is_left_for(shard, metric, status)) continue;
        if (!is_spent(status)) {
            *reason = reason_of(status);
            return false;
        }
        if (status == POVUNDIRI_REFUSED_FULL && is_too_large(asked)) {
            *reason = POVUNDIRI_MISSED_TOO_LARGE;
            return false;
        }
        rolled = povundiri_segments_roll(shard, status);
        if (rolled == REFUSED) *reason = POVUNDIRI_MISSED_NO_SPACE;
        if (rolled != BEGUN) return false;
    }
    return false;
}

/* Whether there may be room for a segment by now, since there was none for this reason. */
static bool makes_room(struct shard *shard, enum povundiri_missed reason) {
    if (reason != POVUNDIRI_MISSED_NO_SPACE || !povundiri_recording_lacks_room(shard->recording)) return false;
    return povundiri_recording_make_room(shard) && shard->state == RECORDS;
}

/* Counts a sample, or misses it. If there is no room for a segment, it is tried again after a fold, whose room other threads may have
 * taken. */
static bool count_or_miss(struct shard *shard, size_t metric, int32_t value, uint32_t count) {
    enum povundiri_missed reason;
    bool counted = count_here(shard, metric, value, count, &reason);
    int tries;
    for (tries = 1; tries < MOST_TRIES && !counted && makes_room(shard, reason); tries += 1) {
        counted = count_here(shard, metric, value, count, &reason);
    }
    if (!counted) miss(shard->recording, shard->state == HAS_ENDED ? POVUNDIRI_MISSED_ENDED : reason, count);
    return counted;
}

/* ---- Threads and forks ---- */

/* Gives back what the thread has. Later samples of it, as of other destructors, go to the recorder that is shared. */
static void thread_ends(void *at) {
    struct table *const table = (struct table *)at;
    const int kept = errno;
    size_t i;
    is_ending = true;
    latest = &none;
    own = NULL;
    for (i = 0; i < table->count; i += 1) {
        struct local *const local = table->locals[i];
        if (local == NULL) continue;
        pthread_mutex_lock(&local->shard->mutex);
        if (local->shard->state != IS_FORKED) povundiri_segments_give_back(local);
        pthread_mutex_unlock(&local->shard->mutex);
        free(local);
    }
    free(table->locals);
    free(table);
    errno = kept;
}

static void lock_all(struct povundiri_recording *recording) {
    size_t i;
    pthread_mutex_lock(&recording->asking);
    for (i = 0; i < recording->shard_count; i += 1) pthread_mutex_lock(&recording->shards[i].mutex);
    pthread_mutex_lock(&recording->making);
    pthread_mutex_lock(&recording->mutex);
}

static void unlock_all(struct povundiri_recording *recording) {
    size_t i;
    pthread_mutex_unlock(&recording->mutex);
    pthread_mutex_unlock(&recording->making);
    for (i = 0; i < recording->shard_count; i += 1) pthread_mutex_unlock(&recording->shards[i].mutex);
    pthread_mutex_unlock(&recording->asking);
}

static void before_fork(void) {
    struct povundiri_recording *each;
    pthread_mutex_lock(&list_mutex);
    for (each = recordings; each != NULL; each = each->next) lock_all(each);
}

static void in_parent(void) {
    struct povundiri_recording *each;
    for (each = recordings; each != NULL; each = each->next) unlock_all(each);
    pthread_mutex_unlock(&list_mutex);
}

/* What a shard is in a child. */
static void forget_shard(struct shard *shard) {
    pthread_mutex_init(&shard->mutex, NULL);
    shard->state = IS_FORKED;
    shard->current = shard->old = NULL;
    shard->present = NULL;
    shard->following = 0;
    shard->folder.is_open = false;
    clear(shard->shared);
}

static void forget_recording(struct povundiri_recording *recording) {
    size_t i;
    povundiri_recording_init_mutexes(recording);
    recording->state = IS_FORKED;
    recording->spare.owned = NULL;
    recording->is_making_room = recording->is_preparing = false;
    povundiri_missed_forget(&recording->missed);
    for (i = 0; i < recording->shard_count; i += 1) forget_shard(&recording->shards[i]);
}

/* The child has one thread, and nothing of the segments: their memory is not mapped. */
static void in_child(void) {
    struct povundiri_recording *each;
    size_t i;
    for (each = recordings; each != NULL; each = each->next) forget_recording(each);
    for (i = 0; own != NULL && i < own->count; i += 1) {
        if (own->locals[i] != NULL) clear(own->locals[i]);
    }
    pthread_mutex_init(&list_mutex, NULL);
}

/* The handlers of the files come first, so that before a fork theirs are called last: a recording's mutex is taken before theirs. */
static void make_ready(void) {
    if (!povundiri_folder_watch() || pthread_key_create(&key, thread_ends) != 0) return;
    is_ready = pthread_atfork(before_fork, in_parent, in_child) == 0;
}

/* ---- Samples ---- */

/* What the usual sample is not: a mutex is taken. */
static bool add_slowly(struct povundiri_recording *recording, size_t metric, int32_t value, uint32_t count) {
    const bool is_metric = metric < povundiri_metrics_count(&recording->metrics);
    struct shard *const shard = povundiri_counting_enter(recording, is_metric && count > 0 && state_of(recording) == RECORDS);
    bool counted = false, wants_spare = false;
    povundiri_segments_look(shard, false);
    if (shard->state == RECORDS && is_metric) {
        counted = count == 0 || count_or_miss(shard, metric, value, count);
        wants_spare = povundiri_segments_want_spare(shard);
    } else if (shard->state != RECORDS) {
        if (shard->state == HAS_ENDED) povundiri_counting_leave(shard);
        miss(recording, shard->state == IS_FORKED ? POVUNDIRI_MISSED_FORKED : POVUNDIRI_MISSED_ENDED, count);
    }
    pthread_mutex_unlock(&shard->mutex);
    if (wants_spare) povundiri_segments_prepare(shard);
    return counted;
}

/* A sample of a metric whose values are bounded. Apart, so that others save no register for it. */
static __attribute__((noinline)) uint32_t add_distinct(struct local *local, const struct asked *asked, int32_t value, uint32_t count) {
    if (is_too_many(asked->distinct, value, count)) return POVUNDIRI_UNKNOWN;
    return povundiri_add(&local->recorder, asked->hist, value, count);
}

/* Whoever begins the next segment takes the recording from what this thread has. Where a histogram was not asked for, it is the recorder
 * that refuses the sample. Its call comes last, so that no register is saved for it. */
uint32_t povundiri_recording_add_usual(struct povundiri_recording *recording, size_t metric, int32_t value, uint32_t count) {
    struct local *local = latest;
    const struct asked *asked;
    if (__builtin_expect(of_local(local) != (uintptr_t)recording, 0)) {
        if (recording == NULL) return POVUNDIRI_NULL;
        local = found_local(recording);
        if (local == NULL || of_local(local) != (uintptr_t)recording) return POVUNDIRI_UNKNOWN;
        latest = local;
    }
    if (metric >= local->known) return POVUNDIRI_UNKNOWN;
    asked = &local->asked[metric];
    if (__builtin_expect(asked->distinct != NULL, 0)) return add_distinct(local, asked, value, count);
    return povundiri_add(&local->recorder, asked->hist, value, count);
}

/* Misses a value too many, if it is known in the present segment that the metric is bounded: no mutex is taken for it. */
static bool misses_value(struct povundiri_recording *recording, size_t metric, int32_t value, uint32_t count) {
    const struct local *const local = found_local(recording);
    if (local == NULL || of_local(local) != (uintptr_t)recording || metric >= local->known) return false;
    if (!is_too_many(local->asked[metric].distinct, value, count)) return false;
    miss(recording, POVUNDIRI_MISSED_VALUES, count);
    return true;
}

bool povundiri_recording_add_other(struct povundiri_recording *recording, size_t metric, int32_t value, uint32_t count) {
    int kept, state;
    bool counted;
    if (recording == NULL || misses_value(recording, metric, value, count)) return false;
    kept = errno;
    pthread_setcancelstate(PTHREAD_CANCEL_DISABLE, &state);
    counted = add_slowly(recording, metric, value, count);
    pthread_setcancelstate(state, NULL);
    errno = kept;
    return counted;
}

extern inline bool povundiri_recording_add(struct povundiri_recording *recording, size_t metric, int32_t value, uint32_t count);

void povundiri_recording_leave(struct povundiri_recording *recording) {
    struct local *local;
    int state;
    if (recording == NULL) return;
    local = found_local(recording);
    if (local == NULL) return;
    pthread_setcancelstate(PTHREAD_CANCEL_DISABLE, &state);
    pthread_mutex_lock(&local->shard->mutex);
    if (local->shard->state != IS_FORKED) povundiri_segments_give_back(local);
    pthread_mutex_unlock(&local->shard->mutex);
    pthread_setcancelstate(state, NULL);
}

uint64_t povundiri_recording_missed(const struct povundiri_recording *recording, uint32_t reason) {
    if (recording == NULL || reason >= MISSED_REASONS) return 0;
    return povundiri_missed_own(&recording->missed, reason);
}

/* ---- Metrics ---- */

/* What the present segment says of the metric, where there is one. One that is full may say nothing. */
static uint32_t ask(struct povundiri_recording *recording, size_t metric) {
    struct shard *shard;
    struct local *local = NULL;
    uint32_t status = POVUNDIRI_DONE;
    if (is_too_large(povundiri_metrics_at(&recording->metrics, metric))) return POVUNDIRI_REFUSED_TOO_LARGE;
    if (state_of(recording) != RECORDS) return POVUNDIRI_DONE;
    shard = povundiri_counting_enter(recording, false);
    if (shard->state == RECORDS && shard->current != NULL) {
        do {
            status = local_in(shard, 0, &local);
            if (status == POVUNDIRI_DONE) status = find(&local, metric);
        } while (is_left_for(shard, metric, status));
    }
    pthread_mutex_unlock(&shard->mutex);
    return is_spent(status) ? (uint32_t)POVUNDIRI_DONE : status;
}

static bool is_kept(uint32_t status) {
    return status == POVUNDIRI_DONE || status == POVUNDIRI_REFUSED_OTHER_SPEC || status == POVUNDIRI_REFUSED_TOO_LARGE;
}

/* The shape of the largest segments that a shard has. */
static struct povundiri_shape largest_shape(struct povundiri_recording *recording) {
    struct povundiri_shape shape;
    pthread_mutex_lock(&recording->mutex);
    shape = recording->shape;
    pthread_mutex_unlock(&recording->mutex);
    return shape;
}

/* While it is added, segments may grow: then it is judged again, as others were. */
static uint32_t hist_of(struct povundiri_recording *recording, const char *name, size_t length, struct povundiri_spec spec,
                        const uint32_t *values, size_t count, size_t *metric) {
    struct povundiri_metrics *const metrics = &recording->metrics;
    const struct povundiri_shape shape = largest_shape(recording);
    const size_t next = metrics->count;
    uint32_t status;
    if (povundiri_metrics_find(metrics, name, length, spec, values, count, metric)) return ask(recording, *metric);
    status = povundiri_metrics_add(metrics, shape, name, length, spec, values, count);
    if (state_of(recording) != RECORDS) povundiri_metrics_end_trial(metrics);
    if (status != POVUNDIRI_DONE) return status;
    status = ask(recording, next);
    if (!is_kept(status)) {
        povundiri_metrics_forget(metrics);
        return status;
    }
    *metric = next;
    povundiri_metrics_keep(metrics);
    if (largest_shape(recording).size > shape.size) povundiri_metrics_judge_again(metrics, largest_shape(recording));
    return status;
}

uint32_t povundiri_recording_hist(struct povundiri_recording *recording, const char *name, size_t name_length, struct povundiri_spec spec,
                                  const uint32_t *values, size_t values_length, size_t *metric) {
    const size_t count = spec.kind == POVUNDIRI_CUSTOM ? values_length : 0;
    uint32_t status;
    int state;
    if (recording == NULL || metric == NULL || !povundiri_is_array(name, name_length) || !povundiri_is_array(values, values_length)) {
        return POVUNDIRI_NULL;
    }
    pthread_setcancelstate(PTHREAD_CANCEL_DISABLE, &state);
    pthread_mutex_lock(&recording->asking);
    status = hist_of(recording, name, name_length, spec, values, count, metric);
    pthread_mutex_unlock(&recording->asking);
    pthread_setcancelstate(state, NULL);
    return status;
}

uint32_t povundiri_recording_scale(struct povundiri_recording *recording, const char *name, uint32_t minimum, uint32_t maximum,
                                   uint32_t bits, size_t *metric) {
    const struct povundiri_spec spec = {POVUNDIRI_SCALE, minimum, maximum, bits};
    return name == NULL ? (uint32_t)POVUNDIRI_NULL : povundiri_recording_hist(recording, name, strlen(name), spec, NULL, 0, metric);
}

/* ---- For povundiri_recording_children.c alone ---- */

uint32_t povundiri_counting_join(struct shard *shard, uint32_t count, struct local **local) { return local_in(shard, count, local); }

uint32_t povundiri_counting_find(struct local **local, size_t metric) { return find(local, metric); }

bool povundiri_counting_lend(struct local *local, uint32_t count) { return lend(local, count); }

/* ---- For povundiri_opened.c alone ---- */

bool povundiri_recordings_are_ready(void) {
    pthread_once(&once, make_ready);
    return is_ready;
}

void povundiri_recordings_put(struct povundiri_recording *recording) {
    pthread_mutex_lock(&list_mutex);
    recording->place = places;
    places += 1;
    recording->next = recordings;
    recordings = recording;
    pthread_mutex_unlock(&list_mutex);
}
