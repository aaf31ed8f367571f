/* What the files of recordings have in common: a recording and its shards. It is not installed.
 *
 * MUTEXES are taken in this order: that of the list of recordings; `asking`; that of a shard; `making`; `mutex`; those of open files. No
 * thread has those of two shards, but one that forks, which takes them by their order. */
#ifndef POVUNDIRI_RECORDING_STATE_H
#define POVUNDIRI_RECORDING_STATE_H

#include <pthread.h>

#include "povundiri_folder_parts.h"
#include "povundiri_recording_parts.h"

/* What a thread reads for each sample is on lines of the cache that nobody else writes: processors fetch them two at a time. */
enum { LINES = 128 };

/* In place of the recording of a thread that has no recorder in a present segment. No recording is there. */
#define NOBODY ((uintptr_t)1)

/* In place of the number of a histogram that was not asked for in this segment. No recorder knows it. */
#define NOT_ASKED SIZE_MAX

/* How often a sample, or what a child counted, is tried again in a new segment. */
enum { MOST_TRIES = 8 };

/* A histogram in a segment, of a recorder. */
struct asked {
    size_t hist;                         /* or NOT_ASKED */
    struct povundiri_distinct *distinct; /* its values, if they are bounded; else null */
};

/* What a thread has of a recording; or what the threads above the most of a shard share. */
struct local {
    uintptr_t of; /* the recording, if this thread counts in a present segment; else NOBODY: who begins the next one writes that */
    size_t known; /* how many metrics `asked` has room for */
    struct povundiri_handle recorder;
    struct povundiri_owned *owned; /* the segment which its recorder is of, or null */
    struct shard *shard;           /* that segment is one of this shard */
    struct shard *home;            /* the shard of this thread, once it has counted a sample; else null */
    struct local *before, *after;  /* those whose recorders are of the same segment, as long as it is the present one */
    struct asked asked[];          /* by metric */
};

enum state { RECORDS, HAS_ENDED, IS_FORKED };

/* Whether all that is in use fits in a segment, as far as is known: it was full within a second; and the system refused a larger one. */
enum fit { FITS, IS_TOO_SMALL, MAY_NOT_GROW };

/* What some threads of a process count in: one segment after another. */
struct shard {
    struct povundiri_recording *recording;

    pthread_mutex_t mutex; /* for all that follows */
    enum state state;
    struct povundiri_place folder; /* without a path until a thread comes here first */
    struct povundiri_owned *current, *old;
    struct local *shared;
    struct local *present;        /* the threads that have recorders in the present segment, without `shared` */
    uint64_t bytes;               /* of the next segment */
    struct povundiri_shape shape; /* of a segment of that size */
    uint64_t turns;               /* how many segments it had */
    uint64_t began_at;            /* when the present one was begun, in nanoseconds; 0: by another process */
    enum fit fit;                 /* of the present one */
    bool has_childs;              /* children's numbers were added to it, or found no room there */
    size_t following;             /* how many threads add children's numbers, without the mutex */
    uint64_t follow_at;           /* when children's numbers may be added again, since they have filled one */
    uint64_t looked_at;           /* when it was last seen whether the present one has its name, or whether there is one to be continued */
} __attribute__((aligned(LINES)));

/* A segment that was made before it is needed, in a folder that was open then. */
struct spare {
    struct povundiri_owned *owned; /* or null */
    uint64_t bytes;
    struct povundiri_shape shape;
    dev_t device;
    ino_t inode;
};

struct povundiri_recording {
    /* Set once. */
    size_t place;
    struct povundiri_recording *next;
    struct povundiri_recording_options options;
    struct povundiri_began began;
    size_t shard_count;
    struct shard *shards;

    uint64_t threads; /* how many have counted a sample */
    struct povundiri_missed_all missed __attribute__((aligned(LINES))); /* a miss takes no mutex; whoever looks for marks has `mutex` */

    pthread_mutex_t asking;           /* metrics are added */
    struct povundiri_metrics metrics; /* without a mutex for who reads them */

    pthread_mutex_t making; /* a shard takes its first segment; and where the folder has a limit, any segment is made */

    pthread_mutex_t mutex; /* for all that follows */
    enum state state;      /* also read without it */
    struct spare spare;
    uint64_t bytes; /* the most of a shard's */
    struct povundiri_shape shape;
    uint64_t last; /* the greatest number that a shard knows of a folder, which is the one of this device and inode */
    dev_t last_device;
    ino_t last_inode;
    uint64_t counted, counted_at; /* the segments when a thread that made a spare counted them, and `last` then; 0: none has */
    uint64_t apart_at;   /* segments were begun as if each was `apart` from the one before, and the next one is due now */
    uint64_t refusals;   /* how often a segment was refused since one was made */
    uint64_t again_at;   /* when one may be made again then */
    bool lacks_room;     /* the device, a quota or the folder was full, and nothing was folded since */
    bool spends_reserve; /* nothing could be folded, so the next segment may take the room that a fold would need; read without the mutex */
    bool is_making_room; /* some thread folds, since there is no room for a segment */
    pthread_cond_t room; /* it does so no longer */
    bool is_preparing;   /* some thread makes a spare */
};

static inline void miss(struct povundiri_recording *recording, enum povundiri_missed reason, uint64_t count) {
    struct povundiri_missed_in *const now = __atomic_load_n(&recording->missed.now, __ATOMIC_ACQUIRE);
    __atomic_fetch_add(&now->own[reason], count, __ATOMIC_RELAXED);
    __atomic_fetch_add(&now->words[reason], count, __ATOMIC_RELAXED);
}

static inline enum state state_of(const struct povundiri_recording *recording) {
    return __atomic_load_n(&recording->state, __ATOMIC_RELAXED);
}

/* Whether the present segment may have children's numbers, which this program did not count. */
static inline bool may_have_childs(const struct shard *shard) { return shard->has_childs || shard->following > 0; }

/* Whether the recorder is of the present segment of its shard. */
static inline bool is_present(const struct local *local) { return local->owned != NULL && local->owned == local->shard->current; }

static inline uintptr_t of_local(const struct local *local) { return __atomic_load_n(&local->of, __ATOMIC_RELAXED); }

static inline void set_of(struct local *local, uintptr_t of) { __atomic_store_n(&local->of, of, __ATOMIC_RELAXED); }

/* It has no recorder from now on, and is in no list. */
static inline void clear(struct local *local) {
    const struct asked none = {NOT_ASKED, NULL};
    size_t i;
    set_of(local, NOBODY);
    local->owned = NULL;
    local->before = local->after = NULL;
    for (i = 0; i < local->known; i += 1) local->asked[i] = none;
}

/* The time, in nanoseconds. */
uint64_t povundiri_segments_now(void);

/* The shape of segments in `bytes` bytes, as povundiri::shape_for has it. */
struct povundiri_shape povundiri_segments_shape_for(uint64_t bytes);

/* ---- With the mutex of the shard ---- */

/* Gives back the recorder of a thread, if it has one. An old segment that has no other is given up, and so is final. */
void povundiri_segments_give_back(struct local *local);

/* Puts a thread's own recorder in the list of those that are of the present segment, or takes it from there if it is in it. */
void povundiri_segments_enlist(struct local *local);
void povundiri_segments_unlist(struct local *local);

/* The present segment is an old one from now on. */
void povundiri_segments_retire(struct shard *shard);

/* The first segment of a recording: one of the folder, or a new one; or none, and it is tried again. */
void povundiri_segments_begin_first(struct shard *shard);

/* Whether the shard has a present segment: one that it has, or takes now. */
bool povundiri_segments_has_begun(struct shard *shard);

/* Begins the next segment. The system's fault, or 0; EAGAIN: it was refused before, and is not tried yet. */
int povundiri_segments_begin_next(struct shard *shard);

/* Finds the mark that the folder has by now, which gets what it lacks of this process. The mutex of the recording is taken. */
void povundiri_segments_look_for_mark(struct shard *shard);

/* If the present segment has lost its name in the folder, the next one is begun. This is looked at once in a second, or at once. */
void povundiri_segments_look(struct shard *shard, bool at_once);

/* Whether the spare, if there is one, is none for this shard. */
bool povundiri_segments_want_spare(struct shard *shard);

/* Why the next segment is not begun, or that it was. */
enum rolled { BEGUN, TOO_SOON, REFUSED };

/* Begins the next segment, since the present one has refused a sample, with this status. */
enum rolled povundiri_segments_roll(struct shard *shard, uint32_t status);

/* The same, since it has refused what a child counted. */
enum rolled povundiri_segments_roll_for_child(struct shard *shard, uint32_t status);

/* What to count with in the present segment: this thread's own recorder, with as many units as that has, or the shared one. */
uint32_t povundiri_counting_join(struct shard *shard, uint32_t count, struct local **local);

/* Finds the histogram of a metric in the present segment, once for a recorder, and makes it if it is not there. */
uint32_t povundiri_counting_find(struct local **local, size_t metric);

/* Lends a recorder of the present segment what a sample of so many units needs. False if the segment has too few. */
bool povundiri_counting_lend(struct local *local, uint32_t count);

/* Gives back what this thread has of the shard. */
void povundiri_counting_leave(struct shard *shard);

/* Whether a later segment may count what the present one has refused. */
static inline bool is_spent(uint32_t status) {
    return status == POVUNDIRI_REFUSED_FULL || status == POVUNDIRI_REFUSED_NO_UNITS || status == POVUNDIRI_REFUSED_CORRUPT;
}

/* Folds, so that there is room for a segment, or waits until another thread has done so. Whether there may be room now. It gives up the
 * mutex meanwhile. */
bool povundiri_recording_make_room(struct shard *shard);

/* Whether a fold may make room for a segment: there was none, or somebody folds now. */
bool povundiri_recording_lacks_room(struct povundiri_recording *recording);

/* It will not, until a segment is refused again. */
void povundiri_recording_forget_lack(struct povundiri_recording *recording);

/* ---- Without a mutex ---- */

/* Makes what is once for all recordings. False if there is no memory for it. */
bool povundiri_recordings_are_ready(void);

/* Puts a recording in the list of those that are open. */
void povundiri_recordings_put(struct povundiri_recording *recording);

/* Makes those of a recording, but not those of its shards. */
void povundiri_recording_init_mutexes(struct povundiri_recording *recording);

/* What a thread has of a recording, with room for `metrics` metrics: no recorder yet; null if there is no memory. */
struct local *povundiri_counting_new(struct shard *shard, size_t metrics);

/* Which shard this thread counts in: its mutex is taken. One that counts a sample gets its shard with the first one. If that can have no
 * segment, it is the first one of the recording, for now. */
struct shard *povundiri_counting_enter(struct povundiri_recording *recording, bool counts);

/* Folds, if the folder has four times `fold_at` segments or more. */
void povundiri_recording_fold_if_many(struct povundiri_recording *recording);

/* Makes the next spare for segments of this shard, if there is none and nobody else makes it. */
void povundiri_segments_prepare(struct shard *shard);

#endif
