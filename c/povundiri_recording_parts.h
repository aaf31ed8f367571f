/* What povundiri_recording.c has in common with povundiri_metrics.c, the metrics of a recording, and with povundiri_recorded.c. It is not
 * installed. */
#ifndef POVUNDIRI_RECORDING_PARTS_H
#define POVUNDIRI_RECORDING_PARTS_H

#include "povundiri_folder_parts.h"
#include "povundiri_recording.h"

/* How many reasons there are. */
enum { MISSED_REASONS = POVUNDIRI_MISSED_VALUES + 1 };

/* What this process has missed while its folder had one mark. */
struct povundiri_missed_in {
    struct povundiri_missed_in *before;
    uint64_t *words; /* of the mark, by reason, to which it was added at once */
    uint64_t own[MISSED_REASONS];
    uint64_t given[MISSED_REASONS]; /* what was missed in the others, and was added to this mark later */
    uint64_t id;                    /* of the folder; 0: there was no mark */
    dev_t device;                   /* with the inode, of the mark */
    ino_t inode;
};

/* What this process has missed of a recording. All but the sums of `own` is changed with the recording's mutex. */
struct povundiri_missed_all {
    struct povundiri_missed_in *now;
    uint64_t id;  /* of the folder in which a mark was found last; 0: in none yet */
    dev_t device; /* with the inode, of that folder */
    ino_t inode;
    struct povundiri_missed_in *last; /* of all marks that it had, the first of which is none */
    struct povundiri_missed_in first;
    uint64_t nowhere[MISSED_REASONS];
    size_t count;
};

/* Nothing yet, in zeros. */
void povundiri_missed_begin(struct povundiri_missed_all *all);

/* In a child of fork: what its parent has missed is its parent's. */
void povundiri_missed_forget(struct povundiri_missed_all *all);

/* Counts units of which a child may have claimed any number: they end at the greatest one. */
void povundiri_missed_add(struct povundiri_missed_all *all, size_t reason, uint64_t units);

/* What this process has missed for a reason. */
uint64_t povundiri_missed_own(const struct povundiri_missed_all *all, size_t reason);

/* Finds the mark that the folder has by now, which gets what it lacks of this process, and notes the folder's id in `place`. A folder that
 * was removed has none, and is passed over: another shard may know where to count by now. */
void povundiri_missed_look(struct povundiri_missed_all *all, struct povundiri_place *place);

/* Notes the folder's id in `place`, if another shard has found a mark there last. */
void povundiri_missed_note_id(const struct povundiri_missed_all *all, struct povundiri_place *place);

/* What all processes have missed, by reason, as the folder's mark says, with what it lacks of this process. If it cannot be read, what this
 * process has missed. */
void povundiri_missed_read(const struct povundiri_missed_all *all, int folder, uint64_t *missed);

/* The same of a recording's folder. */
void povundiri_recording_all_missed(struct povundiri_recording *recording, int folder, uint64_t *missed);

/* Its folder, by a descriptor of the caller's own, after a look at whether the present segments are there. 0, or the system's fault. */
int povundiri_recording_folder(struct povundiri_recording *recording, struct povundiri_held *held);

/* Folds, if the folder has `fold_at` segments or more: as povundiri_recording_fold, and POVUNDIRI_DONE if it has not. */
uint32_t povundiri_recording_fold_if_due(struct povundiri_recording *recording);

/* Which values a sparse metric had in this process, `most` of them at most, from 1 to 2^32 - 1. Any thread may call it at any time; it takes
 * no lock and no memory. */
struct povundiri_distinct;

/* Of none yet, for free(); null if there is no memory. */
struct povundiri_distinct *povundiri_distinct_new(uint64_t most);

/* Whether it had this value, or has it from now on. */
bool povundiri_distinct_take(struct povundiri_distinct *distinct, int32_t value);

/* A histogram that was asked for. */
struct povundiri_metric {
    char *name;
    size_t length;
    struct povundiri_spec spec;
    uint32_t *values;
    size_t count;
    struct povundiri_distinct *distinct; /* of a sparse one, if its values are bounded; else null */
    size_t earlier;                      /* the number of the one before it that has this name; else its own */
    bool is_too_large; /* a segment of the largest size that any shard has, without another one, has no room for it: none is begun for it */
};

/* A small segment in the heap, in which it is tried what a segment says to metrics. */
struct povundiri_trial {
    struct povundiri_handle segment, recorder;
    uint64_t words;
};

/* Twice as many in each part as in the one before. */
enum { METRIC_PARTS = 40, FIRST_METRICS = 64 };

/* All of them, by number. It begins as zeros but for `most_values`. One thread at a time adds; any reads meanwhile: none moves or ends. */
struct povundiri_metrics {
    struct povundiri_metric **parts[METRIC_PARTS];
    size_t count;
    uint64_t most_values; /* of each sparse one; with 2^32 or more there is no bound */
    struct povundiri_trial trial; /* of who adds */
};

/* How many there are. */
static inline size_t povundiri_metrics_count(const struct povundiri_metrics *metrics) {
    return __atomic_load_n(&metrics->count, __ATOMIC_ACQUIRE);
}

/* The one of this number: below the count, or the one that is being added. */
struct povundiri_metric *povundiri_metrics_at(const struct povundiri_metrics *metrics, size_t metric);

/* Whether it is too large, as far as is known. */
static inline bool is_too_large(const struct povundiri_metric *metric) { return __atomic_load_n(&metric->is_too_large, __ATOMIC_RELAXED); }

/* Whether there is one of this name and spec; then *metric is its number. Of a spec without values `count` is 0. */
bool povundiri_metrics_find(const struct povundiri_metrics *metrics, const char *name, size_t length, struct povundiri_spec spec,
                            const uint32_t *values, size_t count, size_t *metric);

/* Whether both have the same name. */
bool povundiri_metrics_have_one_name(const struct povundiri_metric *one, const struct povundiri_metric *other);

/* Puts one after the others, whose number is their count, and says whether it is too large for segments of this shape. Nobody else knows it
 * until povundiri_metrics_keep, and another one takes its place if that is not called. If no histogram may have this name and spec, or there
 * is no memory, that is returned, and nothing has changed. */
uint32_t povundiri_metrics_add(struct povundiri_metrics *metrics, struct povundiri_shape shape, const char *name, size_t length,
                               struct povundiri_spec spec, const uint32_t *values, size_t count);
void povundiri_metrics_keep(struct povundiri_metrics *metrics);
void povundiri_metrics_forget(struct povundiri_metrics *metrics);

/* Frees what was made to try metrics. It is made again for the next one. */
void povundiri_metrics_end_trial(struct povundiri_metrics *metrics);

/* Says again, of those that were too large, whether they are so for segments of this larger shape. Several threads may call it. */
void povundiri_metrics_judge_again(struct povundiri_metrics *metrics, struct povundiri_shape shape);

#endif
