/* What children of a process counted, added to its recording: while they live by followers, and once they are dead by a merge. */
#define _GNU_SOURCE

#include <pthread.h>
#include <string.h>

#include "povundiri_merge_parts.h"
#include "povundiri_recording_state.h"

/* Which names an image may have: a bit for each, which others may share. */
enum { NAME_BITS = 4096, WORD_BITS = 64 };

/* What is to be added: what an image has above what a follower has noted. */
struct came {
    struct povundiri_handle *follower;
    const uint64_t *words;
    size_t length;
    uint64_t most; /* how many units a call may cost */
    uint64_t names[NAME_BITS / WORD_BITS];
};

/* What calls of a follower returned together: the status of the last one that did something, or else of the last one. */
struct answer {
    uint32_t status;
    bool has_added; /* a call did something */
    struct povundiri_merge_report report;
};

/* ---- Names ---- */

/* The bit of a name, by its length and its first eight bytes as a word. Of a shorter one the bytes after it are ignored. */
static size_t bit_of(uint64_t length, uint64_t first) {
    const uint64_t known = length < WORD ? first & ((UINT64_C(1) << (8 * length)) - 1) : first;
    return (size_t)(((known ^ length) * 0x9E3779B97F4A7C15U) >> 52);
}

/* The names in all that looks like the record of a histogram, wherever it is: so in those that a reading finds as well. */
static void note_names(struct came *came) {
    size_t i;
    for (i = 0; i + NAME_AT < came->length; i += 1) {
        const uint64_t *const block = came->words + i;
        if (block[BLOCK_COOKIE_AT] == CLAIMED_COOKIE && block[BLOCK_TYPE_AT] == TYPE_HISTOGRAM) {
            const size_t bit = bit_of(block[NAME_LENGTH_AT], block[NAME_AT]);
            came->names[bit / WORD_BITS] |= UINT64_C(1) << bit % WORD_BITS;
        }
    }
}

/* Whether the image may have a histogram with the name of a metric. */
static bool may_have(const struct came *came, const struct povundiri_metric *metric) {
    uint64_t first = 0;
    size_t bit;
    memcpy(&first, metric->name, metric->length < sizeof first ? metric->length : sizeof first);
    bit = bit_of(metric->length, first);
    return (came->names[bit / WORD_BITS] >> bit % WORD_BITS & 1) != 0;
}

/* ---- One segment: the mutex is held, but while this thread's own recorder adds ---- */

/* Asks for the metrics whose names the image may have, so that they have these names in the present segment, with their own specs. A child
 * may have one already, where the next segment was refused; and a metric may be too large. */
static uint32_t ask_first(const struct came *came, struct local **local) {
    const struct povundiri_metrics *const metrics = &(*local)->shard->recording->metrics;
    const size_t count = povundiri_metrics_count(metrics);
    size_t i;
    for (i = 0; i < count; i += 1) {
        const struct povundiri_metric *const metric = povundiri_metrics_at(metrics, i);
        uint32_t status = POVUNDIRI_DONE;
        if (may_have(came, metric)) status = povundiri_counting_find(local, i);
        if (status == POVUNDIRI_DONE || status == POVUNDIRI_REFUSED_OTHER_SPEC || is_too_large(metric)) continue;
        if (status != POVUNDIRI_REFUSED_TOO_LARGE) return status;
    }
    return POVUNDIRI_DONE;
}

/* Calls the follower. */
static void call(struct shard *shard, struct local *local, const struct came *came, struct answer *answer) {
    const bool is_shared = local == shard->shared;
    memset(answer, 0, sizeof *answer);
    shard->following += 1;
    if (!is_shared) pthread_mutex_unlock(&shard->mutex);
    answer->status = povundiri_follower_merge(came->follower, &local->recorder, came->words, came->length, came->most, &answer->report);
    if (!is_shared) pthread_mutex_lock(&shard->mutex);
    shard->following -= 1;
    answer->has_added = answer->status == POVUNDIRI_DONE || answer->report.name[0] != 0;
}

/* Whether the call would take more units than the recorder has, and may be made again, since it was lent them. */
static bool is_lent(struct local *local, const struct answer *answer) {
    return answer->status == POVUNDIRI_REFUSED_NO_UNITS && !answer->has_added && is_present(local) &&
           povundiri_counting_lend(local, (uint32_t)answer->report.cost);
}

/* Adds what came to the present segment, with a recorder that has as many units as were needed, if there are as many. */
static void add_here(struct shard *shard, const struct came *came, uint32_t needed, struct local **local, struct answer *answer) {
    memset(answer, 0, sizeof *answer);
    answer->status = povundiri_counting_join(shard, needed, local);
    if (answer->status == POVUNDIRI_DONE) answer->status = ask_first(came, local);
    if (answer->status != POVUNDIRI_DONE) return;
    call(shard, *local, came, answer);
    if (is_lent(*local, answer)) call(shard, *local, came, answer);
}

/* Whether a segment was full once. */
static bool is_full(const struct povundiri_owned *owned) {
    const uint64_t *const image = (const uint64_t *)povundiri_file_room(&owned->file).at + 1;
    return (__atomic_load_n(&image[FLAGS_AT], __ATOMIC_RELAXED) & FLAG_FULL) != 0;
}

/* Why the segment did not take all, so that it is added to the next one; or DONE. The answer names only the first of several histograms
 * that were passed over: if another one of them found no room, the segment was full. */
static uint32_t lack_of(const struct local *local, const struct answer *answer) {
    if (is_spent(answer->status)) return answer->status;
    return answer->report.passed > 1 && is_full(local->owned) ? (uint32_t)POVUNDIRI_REFUSED_FULL : (uint32_t)POVUNDIRI_DONE;
}

/* ---- All segments: the mutex is held, but there ---- */

/* Adds the answer of one more call to that of the others. One that did nothing is forgotten, if another one did something. */
static void put_together(const struct answer *one, struct answer *all) {
    const uint64_t added = all->report.added, cost = all->report.cost;
    const bool is_first = !all->has_added;
    if (!one->has_added && !is_first) return;
    *all = *one;
    all->report.added += added;
    if (!is_first) all->report.cost = cost;
}

/* Whether what came may be added now: there is a segment, and children have not filled one a moment before. */
static bool may_add(struct shard *shard) {
    if (shard->state != RECORDS || povundiri_segments_now() < shard->follow_at) return false;
    return shard->current != NULL || povundiri_segments_begin_next(shard) == 0;
}

/* Whether there is another segment for what is left: one that another thread has begun meanwhile, or one that is begun now. */
static bool goes_on(struct shard *shard, const struct local *local, const struct answer *answer) {
    const uint32_t lack = lack_of(local, answer);
    if (is_present(local) && (answer->report.added > 0 || lack != POVUNDIRI_DONE)) shard->has_childs = true;
    if (lack == POVUNDIRI_DONE || shard->state != RECORDS) return false;
    return !is_present(local) || povundiri_segments_roll_for_child(shard, lack) == BEGUN;
}

/* Adds what came to the present segment, and to those that are begun for it. */
static void add_all(struct shard *shard, const struct came *came, struct answer *all) {
    struct answer one;
    struct local *local = NULL;
    uint32_t needed = 0;
    int tries;
    for (tries = 0; tries < MOST_TRIES && may_add(shard); tries += 1) {
        add_here(shard, came, needed, &local, &one);
        put_together(&one, all);
        needed = (uint32_t)one.report.cost;
        if (!goes_on(shard, local, &one)) return;
    }
    if (tries == 0 && !all->has_added && shard->state == RECORDS) all->status = POVUNDIRI_REFUSED_FULL;
}

/* The same; where the device has no room for a segment, the folder is folded first, and what is left is added then. */
static void add_with_room(struct shard *shard, const struct came *came, struct answer *all) {
    add_all(shard, came, all);
    if (!is_spent(all->status) || !povundiri_recording_lacks_room(shard->recording)) return;
    if (povundiri_recording_make_room(shard)) add_all(shard, came, all);
    povundiri_recording_forget_lack(shard->recording);
}

/* Adds what came, as far as it goes. */
static uint32_t add(struct povundiri_recording *recording, struct came *came, struct povundiri_merge_report *report) {
    struct answer all;
    struct shard *shard;
    bool wants_spare;
    int state;
    memset(&all, 0, sizeof all);
    all.status = POVUNDIRI_EMPTY;
    note_names(came);
    pthread_setcancelstate(PTHREAD_CANCEL_DISABLE, &state);
    shard = povundiri_counting_enter(recording, state_of(recording) == RECORDS);
    povundiri_segments_look(shard, false);
    add_with_room(shard, came, &all);
    if (shard->state == HAS_ENDED) povundiri_counting_leave(shard);
    wants_spare = shard->state == RECORDS && povundiri_segments_want_spare(shard);
    pthread_mutex_unlock(&shard->mutex);
    if (wants_spare) povundiri_segments_prepare(shard);
    pthread_setcancelstate(state, NULL);
    povundiri_parts_give(&all.report, report);
    return all.status;
}

/* ---- Calls ---- */

uint32_t povundiri_recording_follow(struct povundiri_recording *recording, struct povundiri_handle *follower, const uint64_t *words,
                                    size_t length, uint64_t most, struct povundiri_merge_report *report) {
    struct came came = {follower, words, length, most < UINT32_MAX ? most : UINT32_MAX, {0}};
    if (recording == NULL || follower == NULL || !povundiri_is_array(words, length)) return POVUNDIRI_NULL;
    return povundiri_parts_is_report(report) ? add(recording, &came, report) : (uint32_t)POVUNDIRI_SHORT;
}

uint32_t povundiri_recording_merge(struct povundiri_recording *recording, const uint64_t *words, size_t length, uint64_t most_keys,
                                   struct povundiri_merge_report *report) {
    struct povundiri_merge_report none;
    struct povundiri_handle follower = {false, NULL};
    uint32_t status;
    if (recording == NULL || !povundiri_is_array(words, length)) return POVUNDIRI_NULL;
    if (!povundiri_parts_is_report(report)) return POVUNDIRI_SHORT;
    memset(&none, 0, sizeof none);
    povundiri_parts_give(&none, report);
    status = povundiri_follower_of_marks(most_keys, words, length, &follower);
    if (status == POVUNDIRI_DONE) status = povundiri_recording_follow(recording, &follower, words, length, UINT32_MAX, report);
    povundiri_drop(&follower);
    return status;
}

uint32_t povundiri_recording_give_up(struct povundiri_recording *recording, struct povundiri_handle *follower, const uint64_t *words,
                                     size_t length, struct povundiri_merge_report *report) {
    struct povundiri_merge_report made;
    uint32_t status = POVUNDIRI_EMPTY;
    int state;
    if (recording == NULL || follower == NULL || !povundiri_is_array(words, length)) return POVUNDIRI_NULL;
    if (!povundiri_parts_is_report(report)) return POVUNDIRI_SHORT;
    memset(&made, 0, sizeof made);
    pthread_setcancelstate(PTHREAD_CANCEL_DISABLE, &state);
    if (state_of(recording) != IS_FORKED) status = povundiri_follower_skip(follower, words, length, &made.left);
    if (status == POVUNDIRI_DONE) povundiri_missed_add(&recording->missed, POVUNDIRI_MISSED_CHILD, made.left);
    pthread_setcancelstate(state, NULL);
    povundiri_parts_give(&made, report);
    return status;
}
