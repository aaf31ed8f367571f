/* A recording: any thread counts samples into a folder at any time, across kills and restarts, for as long as the device has room.
 *
 *     struct povundiri_recording *recording = NULL;
 *     size_t latency = 0;
 *     int fault = 0;
 *     uint32_t status = povundiri_recording_open("metrics", NULL, &recording, &fault);
 *     status = povundiri_recording_scale(recording, "request_us", 1, 10000000, 5, &latency);
 *     povundiri_recording_add(recording, latency, elapsed_us, 1);       any thread; no lock in the usual sample
 *     status = povundiri_recording_export(recording, NULL, &text, &length, &fault);
 *
 * SEGMENTS have a fixed size and 4,294,967,295 units. A recording counts in present segments of the folder, of which each shard has one. If
 * that is full, or has too few units left, the next one is begun and the same sample counted there. Others may record into the folder as
 * well, each into segments of its own. povundiri_folder.h says what is in the folder; povundiri_recording_fold keeps it small.
 *
 * SHARDS. Threads that count in one segment wait for each other's processor caches, so those of a process are spread: over `shards` of the
 * options, usually as many as there are processors. The first thread that counts a sample takes the first shard, the next one the next, and
 * so on round them; a thread keeps its shard. A shard begins its first segment when its first thread counts: so a service of one thread has
 * one segment, and all of them together at most `shards`, and one spare, of `bytes` each. Each rolls and grows by itself, and none waits for
 * another. Texts add up all segments, so nothing that reads a folder sees a difference. Where the system lets a shard begin no segment, its
 * threads count in the first shard until the next segment there.
 *
 * SIZE. All histograms that are in use have to fit in a segment together, and better many times. If one of them finds no room in a segment
 * less than a second after this was begun, the next one is twice as large, and so are later ones of its shard, up to 8,388,608 bytes; the
 * spare is as large as the largest, and so are segments of other shards that grow or begin later.
 * If that is too small as well, one is begun each second, and what finds no room meanwhile is missed, as ROLLING. A histogram takes 15
 * words of 8 bytes, its name and, for a scale or a custom one, a word for each value; and for its counts 4 words and 2 for each bucket. Each
 * value of a sparse histogram takes 8 words. So the usual 1 MiB has room for about 64 histograms like the one above, or 1,000 linear ones of
 * 50 buckets.
 *
 * THREADS need no handles, and all calls may come from any threads at any time. A thread gets a recorder when it first counts a sample,
 * asks for a histogram or follows a child, and gives it back when it ends. A sample takes the mutex of its shard if it is the first of its
 * thread in a segment, or the thread's first of a histogram there; if the thread borrows units for it, about 1,048,576 at once; if a
 * segment is begun for it; and if it is missed for another reason than VALUES. All others take none. One of the threads that took it also
 * makes the file of the segment after the present one, a spare, if there is none. Beyond 250 threads of a shard, further ones share a
 * recorder, and each of their samples takes the mutex.
 *
 * WHAT COULD NOT BE COUNTED is counted, by reason: povundiri_recording_missed. It is in the folder's mark as well (povundiri_folder.h), and
 * in the texts of every process, also after a kill. A process that cannot map the mark keeps it, and adds it to the next one.
 *
 * SPECS. If a release changes the buckets of a histogram, the segment that it continues is followed by the next one, and its samples count at
 * once. But texts show one spec of a name, so a histogram whose buckets change should get another name. If a name has several specs, texts
 * show the one that the oldest segment had, also when that is folded; of the others the report has only how many units there are (!other),
 * and the totals of povundiri_recording_sums have all. If a program asks for a name with several specs, the one that it asked for first has
 * the name in each segment of the process, and samples of the others are missed, as OTHER_SPEC.
 *
 * USERS. The folder is made with mode 0700, and its files with 0600: it is for the processes of one user, its owner. Others, root too,
 * cannot open a recording in it, unless the options have POVUNDIRI_FILE_ANY_OWNER: then its owner and whoever else records there are
 * trusted like the program itself. A folder that others may write is refused, and one that its group may write as well, unless the options
 * have POVUNDIRI_FILE_GROUP_WRITES. Root gives what it makes to the owner of the folder. So a daemon that starts as root and becomes
 * another user opens the recording with POVUNDIRI_FILE_ANY_OWNER, in a folder of that user. With the mode 0640 the folder's group may read
 * it, with persist_report or povundiri_folder_sums; files get the group of the folder if the user that makes them is in it. A folder that
 * was there before keeps its mode, and so does `recording` in it, whose mode the totals get. A segment that a reader may not read is a
 * fault of each text. Who may write in the folders that it is in has to be trusted as well.
 *
 * THE FOLDER MAY MOVE. A recording keeps a descriptor of it, so it stays with a folder that is renamed, and needs no path to it after
 * setuid or
 * chroot. If the folder is removed, its path is made again. If somebody removes the present segment, or empties the folder, that is seen
 * by the
 * next text, and within a second where a sample takes the mutex. Then the next segment is begun, and the units that were in the removed one
 * when the last thread left it are missed, as REMOVED. A folder that has lost its mark is marked again, with its id, and each process adds
 * what it has missed.
 *
 * A KILL, exit and _exit lose no sample whose call had returned. Where spares have names (povundiri_folder.h), one may be left, which an open
 * removes a minute later. A crash of the machine may lose what no fold has synced.
 *
 * A SEGMENT THAT THE SYSTEM REFUSES is tried five times more at once, then after 10 ms, and then after twice as long each time, up to a
 * second;
 * but after a second at once if the device or a quota is full, or the folder is read-only, gone or closed to this user (ENOSPC, EDQUOT,
 * EROFS,
 * EACCES, ENOENT).
 *
 * A FULL DEVICE, also a full quota, or a folder that has most_bytes of the options: what needs a segment folds first, outside of the mutex.
 * Mostly that is the thread that makes the spare, while all others count in the present segment. Threads that need a segment themselves
 * wait for that fold. Where it has made no room, samples are missed, as NO_SPACE, and a second later it is tried again. A fold needs some
 * room itself, for the totals. A service whose threads have no time for folds, nor to make spares, calls povundiri_recording_maintain now
 * and then in a thread of its own.
 *
 * FORK. A child of fork has no part in the recordings of its parent: there each sample is missed, as FORKED, and povundiri_recording_end and
 * _leave do nothing. To count, the child opens a recording of its own, which may be in the same folder, and asks that for its
 * histograms. So 'process', which calls below ask to keep, allows calls in a child of fork here, and forbids them in signal handlers and
 * in handlers of pthread_atfork. _Fork and a raw clone are not seen: such a child makes no call.
 *
 * ENDS. A recording's state is never freed, so a call after povundiri_recording_end is no fault: a sample is missed, as ENDED. If this is
 * linked into a shared object, link that with -z nodelete, since threads call it when they end.
 *
 * For Linux with glibc, and file systems with hard links and flock(2). Nothing here is proved; what it is built on is (povundiri.h), except
 * the files. */
#ifndef POVUNDIRI_RECORDING_H
#define POVUNDIRI_RECORDING_H

#include <stdbool.h>
#include <stddef.h>
#include <stdint.h>

#include "povundiri_folder.h"
#include "povundiri_merge.h"

#ifdef __cplusplus
extern "C" {
#endif

struct povundiri_recording;

/* What a recording is to do. It begins as POVUNDIRI_RECORDING_OPTIONS, which is what is usual, as are zeros and a null in its place.
 *   size      of this struct, as the caller knows it; 0: as it was first. If it is less than that, or a member that is not known here is
 *             not 0, the options are refused (POVUNDIRI_BAD_OPTIONS)
 *   bytes     that a segment has at most, from 512 to 8,388,608, until one is too small (SIZE, above); 0: 1 MiB. From 32,768 on, every
 *             histogram of 1,000 buckets fits in one
 *   fold_at   povundiri_recording_export and _maintain fold first if the folder has this many segments or more; a thread that makes a spare
 *             folds afterwards if it has four times as many, and where as many stay, since they are in use, once this many more have
 *             begun; 0: 64; UINT64_MAX: none of these folds
 *   apart     the least nanoseconds from the beginning of a segment to that of the next one of its shard, and on average from one to the next
 *             of the process: as many as there are shards may begin at once; 0: 1,000,000. The first segment of a shard may be followed at
 *             once, and for a sample one that children have filled. One of the largest size that has no room is not followed before a
 *             second has passed
 *   random    returns random numbers, for ids of segments and names of spares, another one each time; null: getrandom(2). Threads call it as
 *             they record, also two at once, and it makes no call of a recording
 *   context   what `random` is given
 *   flags     whom the folder and its files may belong to (USERS, above): 0, or one or both of
 *             POVUNDIRI_FILE_ANY_OWNER, POVUNDIRI_FILE_GROUP_WRITES
 *   mode      of the files that are made, as povundiri_file_options has it; 0: 0600. A folder that is made has it too, and who may read may
 *             pass through it: 0640, which lets a group read, makes a folder of 0750
 *   most_bytes   that all files of the folder have together, where a segment is made; 0: no limit; else at least two of `bytes`. It is
 *             a limit as that of a device is (A FULL DEVICE, above). Spares without a name, of which other processes have one each, are not
 *             counted. Where there is a limit, threads of a process make segments one after the other, and there are no more shards than it
 *             has room for segments of `bytes` beside the mark and a spare
 *   most_values   that each sparse histogram has in this process; 0: 65,536; UINT64_MAX: no limit. Samples of others are missed, as VALUES,
 *             so that values from outside, such as numbers of users, do not fill the folder, nor its totals. The table of them, of 16 to 32
 *             bytes for each, is made with the histogram, and its pages take memory as they are used
 *   shards    how many present segments this process may have (SHARDS, above), 256 at most; 0: as many as there are processors on which it
 *             may run, as it opens the recording, but no more than 16; 1: all threads count in one segment */
struct povundiri_recording_options {
    size_t size;
    uint64_t bytes;
    uint64_t fold_at;
    uint64_t apart;
    uint64_t (*random)(void *context);
    void *context;
    unsigned flags;
    mode_t mode;
    uint64_t most_bytes;
    uint64_t most_values;
    uint64_t shards;
};

#define POVUNDIRI_RECORDING_OPTIONS {sizeof(struct povundiri_recording_options), 0, 0, 0, NULL, NULL, 0, 0, 0, 0, 0}

/* How a recording began. More may be said at its end by later versions.
 *   number     that of its first segment; 0: there is none yet, since none could be made. A sample tries again
 *   adopted    whether that segment was in the folder before, and is continued
 *   refused    what is wrong with the image of the folder's newest segment, so that it is not continued (povundiri_adopt, povundiri_report);
 *              else POVUNDIRI_DONE, also if that segment is in use, full, or of another size or user
 *   fault      the system's (errno.h), if no segment could be made; else 0
 *   set_aside  the new path of the newest segment, NUMBER.damaged, if its header has a fault; else empty
 *   id         of the folder (povundiri_folder.h); 0: it is not known, since the folder has no mark with words, or this user may not write it */
struct povundiri_began {
    uint64_t number;
    bool adopted;
    uint32_t refused;
    int fault;
    char set_aside[POVUNDIRI_PATH_BYTES];
    uint64_t id;
};

/* Why units were not counted. A reason has its number for good; later versions may have more.
 *   TOO_LARGE   the histogram does not fit in a segment of the largest size that a shard has, not even alone
 *   OTHER_SPEC  the present segment has a histogram of that name with another spec: this program asks for the name with both
 *   NO_SPACE    the present segment has no room or too few units, or there is none, and the system refused the next one, or a larger one, now
 *               or up to a second before: the device is full, a limit is reached, there is no memory, the folder is gone or may not be
 *               written. Where a larger one was refused, one of the size of the present one follows a second later
 *   ROLLING     the present segment has no room or too few units, and was begun less than `apart` before, or too many others of the process
 *               were; or it has no room, is of the largest size, and was begun less than a second before
 *   FORKED      this is a child of fork, and the recording its parent's
 *   ENDED       the recording has ended
 *   NO_MEMORY   there was no memory for what the first samples of a thread or of a histogram take
 *   REMOVED     somebody removed the segment from the folder, or the folder: the units that were in it when the last thread left it, also
 *               those
 *               whose povundiri_recording_add was true
 *   CHILD       units of a child that were given up (povundiri_recording_give_up)
 *   VALUES      the value is a new one of a sparse histogram that had `most_values` of the options in this process */
enum povundiri_missed {
    POVUNDIRI_MISSED_TOO_LARGE = 0,
    POVUNDIRI_MISSED_OTHER_SPEC = 1,
    POVUNDIRI_MISSED_NO_SPACE = 2,
    POVUNDIRI_MISSED_ROLLING = 3,
    POVUNDIRI_MISSED_FORKED = 4,
    POVUNDIRI_MISSED_ENDED = 5,
    POVUNDIRI_MISSED_NO_MEMORY = 6,
    POVUNDIRI_MISSED_REMOVED = 7,
    POVUNDIRI_MISSED_CHILD = 8,
    POVUNDIRI_MISSED_VALUES = 9
};

/* The name of a reason, such as "no_space"; null for a number that is none: the reasons are those from 0 to the first such number. */
const char *povundiri_missed_text(uint32_t reason);

/* ---- Beginning and end ---- */

/* Begins to record into a folder, which is made if it is not there, but not what it is in. It has to be empty, or a folder of recordings.
 * `options` may be null. A relative path is resolved now, once.
 *
 * The segment of the greatest number is continued of those that nobody records into, that have the size that the options ask for, are this
 * user's, have units, were never full, and that povundiri_adopt would take. Else the next one is begun. Those that are not continued stay,
 * and are in the sum if their headers have no fault. Each shard takes its first segment in this way. So a restart continues where the process
 * before stopped, with as many segments, unless segments had grown (SIZE, above), and a process that starts while it runs has its own.
 *
 * POVUNDIRI_DONE: *recording is not null. This is returned also if no segment can be made, as on a full disk: then samples are
 * missed, as NO_SPACE, it is tried again, and povundiri_recording_began says why. On any other status *recording is unchanged.
 *   POVUNDIRI_NULL (any but the options), POVUNDIRI_NOT_EMPTY (*recording), POVUNDIRI_NO_MEMORY, POVUNDIRI_OPEN_NO_MEMORY
 *   POVUNDIRI_OPEN_BAD_SHAPE   `bytes` of the options is too small or too large for a segment
 *   POVUNDIRI_BAD_OPTIONS      the options have a size, a member, a flag or a mode that is not known here
 *   POVUNDIRI_NOT_OWNER        the folder is another user's (USERS, above)
 *   POVUNDIRI_FOLDER_IN_USE    the folder is neither empty nor a recording's (povundiri_folder.h), and nothing is changed in it
 *   POVUNDIRI_SYSTEM           *fault says what, and is else 0: ENOTDIR: it is no folder; ENOENT: that which it would be in is not there;
 *                              EPERM: others may write in it; ENAMETOOLONG, EACCES, EROFS and others as the calls say
 * Keep: pointers; process. */
uint32_t povundiri_recording_open(const char *folder, const struct povundiri_recording_options *options,
                                  struct povundiri_recording **recording, int *fault) POVUNDIRI_CHECKED;

/* How it began: until the process ends, and also after the recording has ended. Null for a null.
 * Keep: process. */
const struct povundiri_began *povundiri_recording_began(const struct povundiri_recording *recording);

/* Ends it, in all shards: from now on samples are missed, as ENDED. Texts, sums and folds still work. With a null, or a second time, nothing
 * happens.
 * This thread gives back what it has of the recording. A segment that others recorded into is final, so that a fold takes it, when each of
 * them has ended, or has called povundiri_recording_add, _follow or _leave once more.
 * Keep: process. */
void povundiri_recording_end(struct povundiri_recording *recording);

/* ---- Samples ---- */

/* For povundiri_recording_add alone: what the usual sample takes, and what to do if that is not DONE. */
uint32_t povundiri_recording_add_usual(struct povundiri_recording *recording, size_t metric, int32_t value, uint32_t count);
bool povundiri_recording_add_other(struct povundiri_recording *recording, size_t metric, int32_t value, uint32_t count);

/* A metric: the number of a histogram for all threads, by its name and its spec (povundiri_hist): the same number for the same, until the
 * process ends. The histogram is made in the present segment of this thread's shard, or of the first one if the thread has counted nothing
 * yet, if it is not there and has room; and in those of others as soon as a thread counts there. Ask once, and not for each sample.
 *
 * POVUNDIRI_DONE; or one of these, and *metric is a number all the same:
 *   POVUNDIRI_REFUSED_OTHER_SPEC   the present segment has it with another spec, and was begun by this recording: samples are missed in each
 *                                  segment that has it so (SPECS, above)
 *   POVUNDIRI_REFUSED_TOO_LARGE    no segment of the largest size that a shard has has room for it: samples are missed, all of them or from
 *                                  the second bucket on, unless segments grow (SIZE, above)
 * Or there is none:
 *   POVUNDIRI_NULL, POVUNDIRI_NO_MEMORY, POVUNDIRI_OPEN_NO_MEMORY, POVUNDIRI_REFUSED_NO_MEMORY
 *   POVUNDIRI_BAD_KIND, POVUNDIRI_REFUSED_BAD_NAME, POVUNDIRI_SPEC_..   as povundiri_hist says
 * Keep: pointers; process. */
uint32_t povundiri_recording_hist(struct povundiri_recording *recording, const char *name, size_t name_length, struct povundiri_spec spec,
                                  const uint32_t *values, size_t values_length, size_t *metric) POVUNDIRI_CHECKED;

/* The same for a name that ends at its first zero byte, for a scale (povundiri_hist_scale). */
uint32_t povundiri_recording_scale(struct povundiri_recording *recording, const char *name, uint32_t minimum, uint32_t maximum,
                                   uint32_t bits, size_t *metric) POVUNDIRI_CHECKED;

/* Counts a sample: `count` units of a value, all or none of them (povundiri_add). False if it was missed, if there is no such metric, or if
 * `recording` is null. With a count of 0 nothing is counted or missed. Any thread may call it at any time, also in a destructor as it ends.
 * errno stays as it was.
 * Keep: process. */
inline bool povundiri_recording_add(struct povundiri_recording *recording, size_t metric, int32_t value, uint32_t count) {
    return povundiri_recording_add_usual(recording, metric, value, count) == POVUNDIRI_DONE ||
           povundiri_recording_add_other(recording, metric, value, count);
}

/* Gives back what this thread has of the recording. It is for a thread that has counted a sample, or asked for a histogram, and will count
 * none for a long time: otherwise it keeps its segment after others have begun the next one, and no fold can take that segment. Its next
 * sample is like its first one again. With a null nothing happens.
 * Keep: process. */
void povundiri_recording_leave(struct povundiri_recording *recording);

/* How many units this process has missed for a reason since it opened the recording, or since it was forked. Texts have those of all
 * processes. 0 for a null, and for what is no reason.
 * Keep: process. */
uint64_t povundiri_recording_missed(const struct povundiri_recording *recording, uint32_t reason);

/* ---- Children ---- */

/* Adds to a recording what came of a segment that others record into, such as that of a child (povundiri_shared.h): what the image
 * `words`, mostly a look, has above what the follower has noted (povundiri_follower_merge, which says what `most` and `report` are).
 *
 *     struct povundiri_merge_report report = {sizeof report};
 *     status = povundiri_recording_follow(recording, &follower, words, length, 1000000, &report);    now and then, and once it is dead
 *
 * It is added to the present segment, by this thread's recorder, which borrows the units. If that has no room or too few units, the next
 * segment is begun as for a sample, and what is left is added there, up to eight times. `report` is of all of it: `added` is the sum,
 * `cost` that of all that came, and the rest as at the end. WHAT IS LEFT IS NOT MISSED: `report->left` is how many units, and the next
 * call adds them.
 *
 * NAMES. What a child counts makes no metrics. If a metric of this recording has the name with another spec, the child's histogram is
 * passed over (REFUSED_OTHER_SPEC), in each segment. If the metric comes later, and finds the child's spec in the present segment, the
 * next segment is begun for it. Two children that have a name with two specs: in each segment the one that came first has it.
 *
 * THE PARENT COUNTS ON. If children have filled a segment that was begun less than `apart` before (or less than a second, if it has the
 * largest size), a sample that finds no room or too few units there begins the next one all the same. Then what children counted is left
 * for as long: REFUSED_FULL with an empty `report->name`.
 *
 * More than 4,294,967,295 units, which a segment has at most, are never added at once, whatever `most` is: COSTS_MORE.
 *
 * Statuses: NULL; SHORT: of `report->size`. With an empty `report->name` nothing has happened, and the same image may be passed again:
 *   EMPTY: the follower is; or the recording has ended, or is the parent's of a child of fork
 *   REFUSED_FULL, REFUSED_NO_UNITS, REFUSED_CORRUPT: no segment has room for metrics, or as many units, and none may be begun now
 *   OTHER_KIND, IMAGE_.., TOO_MANY_KEYS, IMAGE_NO_MEMORY, OTHER_SEGMENT, FELL, COSTS_MORE, NO_MEMORY: as povundiri_follower_merge
 *   REFUSED_NO_MEMORY: there was none for a metric
 * Else `report` names a histogram, and says with which status it was refused: it and perhaps others are left, the rest is added.
 * Keep: pointers; turns of the follower: one call at a time for each, of any thread; nobody changes `words` meanwhile; process. */
uint32_t povundiri_recording_follow(struct povundiri_recording *recording, struct povundiri_handle *follower, const uint64_t *words,
                                    size_t length, uint64_t most, struct povundiri_merge_report *report) POVUNDIRI_CHECKED;

/* Adds what no delta took of a segment that is dead, once (povundiri_merge), as above: by a follower that has noted what deltas took
 * (povundiri_follower_of_marks), and without a limit but that of a segment. A second call adds it again, and so does one beside a follower.
 * What is left in the end is only said. To add it later, make such a follower yourself, and follow the same image with it until nothing is
 * left.
 *
 * Statuses: as above, but EMPTY of a follower, OTHER_SEGMENT and FELL.
 * Keep: pointers; nobody changes `words` meanwhile; process. */
uint32_t povundiri_recording_merge(struct povundiri_recording *recording, const uint64_t *words, size_t length, uint64_t most_keys,
                                   struct povundiri_merge_report *report) POVUNDIRI_CHECKED;

/* Gives up what came: the follower notes the image, nothing is added, and its units above what was noted are missed, once, as CHILD. It is
 * for what costs more than it may (COSTS_MORE), and for what is left of a child that is dead. `report->left` is how many units these are,
 * and its other numbers are 0. It may be called after the end of the recording, too.
 *
 * Statuses: NULL; SHORT; EMPTY: the follower is; or the recording is the parent's of a child of fork; and as povundiri_follower_skip. On
 * any but DONE nothing has happened.
 * Keep: as povundiri_recording_follow. */
uint32_t povundiri_recording_give_up(struct povundiri_recording *recording, struct povundiri_handle *follower, const uint64_t *words,
                                     size_t length, struct povundiri_merge_report *report) POVUNDIRI_CHECKED;

/* ---- What was counted ---- */

/* The sum of the folder (povundiri_folder_sums): what all processes recorded into it, this one and others, now and before.
 * Statuses and what to keep: as there; POVUNDIRI_NULL also if `recording` is null. */
uint32_t povundiri_recording_sums(struct povundiri_recording *recording, struct povundiri_handle *sums, uint64_t *left,
                                  int *fault) POVUNDIRI_CHECKED;

/* Texts of the sum: its report as CSV, its metrics for Prometheus, and its text for people (povundiri_sums_report, _export, _show, which say
 * what `prefix` and `width` are). Each is followed by what all processes have missed there since the folder was marked, with a REASON in
 * lower case, such as no_space; if the mark cannot be read, by what this process has missed:
 *   report   !missed,REASON,UNITS for each reason with units; before that !left,SEGMENTS, if some were left out (povundiri_folder_sums)
 *   export   a counter, PREFIX_missed_total{reason="REASON"}, for each reason
 *   show     `missed, REASON: UNITS` for each reason with units
 *
 * A text is of the whole folder, so let one of the processes that record there be scraped. The flag `full` in it says that some segment was
 * full, which is how each one ends. A text takes the mutex of each shard for a moment, and reads each segment three times. An export folds
 * first if the folder has `fold_at` segments or more, and then waits for the device; whether that fold is done makes no difference to the
 * text or the status.
 *
 * POVUNDIRI_DONE: *text is for free(), and has *length bytes, with a zero after them. Else it is null, and *length 0.
 *   those of povundiri_folder_sums, of which POVUNDIRI_SYSTEM sets *fault; for an export also POVUNDIRI_BAD_PREFIX
 * Keep: pointers; process. */
uint32_t povundiri_recording_report(struct povundiri_recording *recording, char **text, size_t *length, int *fault) POVUNDIRI_CHECKED;
uint32_t povundiri_recording_export(struct povundiri_recording *recording, const char *prefix, char **text, size_t *length,
                                    int *fault) POVUNDIRI_CHECKED;
uint32_t povundiri_recording_show(struct povundiri_recording *recording, uint16_t width, char **text, size_t *length,
                                  int *fault) POVUNDIRI_CHECKED;

/* Does what other calls would have to do later: makes the spare, if there is none; looks whether the present segment is still in the folder;
 * and folds, if the folder has `fold_at` segments or more. It is for a thread that does nothing else but to call it, say, each second. It
 * waits for the device.
 * Statuses and what to keep: as povundiri_recording_fold, which says which fault it is; but POVUNDIRI_DONE also if somebody else folds. */
uint32_t povundiri_recording_maintain(struct povundiri_recording *recording);

/* povundiri_folder_fold of its folder. The present segments of this and of other recordings are not final, and stay.
 * Statuses and what to keep: as there; POVUNDIRI_NULL also if `recording` is null. */
uint32_t povundiri_recording_fold(struct povundiri_recording *recording, uint64_t *folded, int *fault) POVUNDIRI_CHECKED;

#ifdef __cplusplus
}
#endif

#endif
