/* Povundiri for C99: threads record samples into histograms of one segment, without locks. A segment is in the heap, or in memory that
 * the caller gives, such as a mapped file (povundiri_file.h): what was recorded is still there after the process was killed.
 * The number of a histogram is for the recorder that returned it: passed to another one, it is refused as UNKNOWN, or it is the number of
 * another histogram there, which then counts the sample.
 *
 *     struct povundiri_handle segment = {0}, recorder = {0};
 *     struct povundiri_shape shape = {65536, 4096, 7, 0, 2};
 *     size_t latency;
 *     povundiri_create(shape, &segment);                                      one for all threads
 *     povundiri_recorder(&segment, 1000, &recorder);                          one for each thread, with 1,000 units
 *     povundiri_hist_linear(&recorder, "latency", 1, 1000, 50, &latency);     in the thread
 *     povundiri_add(&recorder, latency, 17, 1);                               a value, once
 *     povundiri_join(&segment, &recorder);                                    when the thread is done
 *     povundiri_close(&segment, words, length, &needed);                      the image
 *
 * Each call returns a status: POVUNDIRI_DONE, or why nothing was done. A null, an array that is too short, a handle that is closed or of
 * another kind are statuses. No call takes a lock or waits for another thread, unless malloc, realloc or free do. Those that have a
 * NO_MEMORY among their statuses ask for memory, and povundiri_add of a sparse histogram; close, join and drop free it.
 *
 * WHAT THE CALLER KEEPS. No call can test this; if it is broken, anything may happen. The comment of each call says which of these it needs.
 *
 *   pointers    Each is null or leads to memory for what its type says (an array: for as many elements as its length says), aligned
 *               for that type. During the call no other thread touches it, or writes what is const. No two point to the same memory.
 *   handles     A handle begins as zeros. Only these calls change it. It is not copied: to move it, copy it and zero the old one.
 *   turns       A handle is passed to one call at a time, and each call happens before the next, as C has it: if another thread makes
 *               the next one, they are ordered by a lock, the start or the join of a thread, a channel, or an atomic that is stored
 *               with release and loaded with acquire. So each thread has a recorder of its own, and the handle of the segment is
 *               with one thread at a time, which makes recorders, lends to its own and joins those that are done.
 *   room        It is aligned to 16, and a multiple of 16 bytes that is not 0. From the call on it is the segment's: nobody writes
 *               to it or unmaps it until the segment is closed or dropped and each of its recorders is joined or dropped. Another
 *               process may read it, word by word.
 *   process     No call comes from a signal handler, or from a forked child of a process with threads. malloc, realloc and free are
 *               of one allocator, and blocks are aligned to 16 if their size is a multiple of 16.
 */
#ifndef POVUNDIRI_H
#define POVUNDIRI_H

#include <stdbool.h>
#include <stddef.h>
#include <stdint.h>
#include <string.h>

/* For calls that return a status: compilers that can do so warn if it is ignored. */
#if defined(__GNUC__)
#define POVUNDIRI_CHECKED __attribute__((warn_unused_result))
#else
#define POVUNDIRI_CHECKED
#endif

#ifdef __cplusplus
/* The inline functions are C, with its casts and its NULL. */
#if defined(__GNUC__)
#pragma GCC diagnostic push
#pragma GCC diagnostic ignored "-Wold-style-cast"
#pragma GCC diagnostic ignored "-Wzero-as-null-pointer-constant"
#endif
extern "C" {
#endif

/* A segment, a recorder, a sum, a follower, or nothing: `held` says whether there is one. It begins as zeros, and is zeros again when it is
 * closed, joined or dropped. */
struct povundiri_handle {
    bool held;
    void *at;
};

/* Memory of the caller. A segment of SIZE words with CURSORS shared cursors needs (SIZE + 1 + CURSORS) * 8 bytes, rounded up to a
 * multiple of 16. Its image begins at byte 8. All zeros: no room. */
struct povundiri_room {
    void *at;
    size_t bytes;
};

/* What a segment is made as.
 *   size      how many words of 64 bits it has: whole pages, 1,048,576 words at most. It does not grow.
 *   page      how many words a page has: a multiple of 16, from 64 to 65,536. The record of a histogram and its counts, 4 words and
 *             two for each bucket, fit in a page.
 *   id        any number
 *   cursors   how many cursors along the list of records the recorders share: 0 to 8. No part of the image.
 *   version   2; or 1, for readers that know no other. An image of version 1 cannot be adopted. */
struct povundiri_shape {
    uint64_t size;
    uint64_t page;
    uint64_t id;
    size_t cursors;
    uint64_t version;
};

enum povundiri_kind {
    POVUNDIRI_LINEAR = 1,
    POVUNDIRI_BOOLEAN = 2,
    POVUNDIRI_CUSTOM = 3,
    POVUNDIRI_SPARSE = 4,
    POVUNDIRI_SCALE = 5 /* a custom one: its values are those of a scale (povundiri_hist_scale) */
};

/* How a histogram splits the values. The last three are for a linear one: the number of buckets counts the one below the minimum and the
 * one from the maximum on. For a scale the last one is the number of bits. The other kinds ignore them. */
struct povundiri_spec {
    uint32_t kind;
    uint32_t minimum;
    uint32_t maximum;
    uint32_t buckets;
};

/* Units of a value. */
struct povundiri_item {
    int32_t value;
    uint32_t count;
};

/* Units of a key: the least value of a bucket, or a value of a sparse histogram. */
struct povundiri_count {
    int32_t key;
    uint64_t count;
};

/* What a delta or a snapshot returns along with its counts. These are not the totals of a sum, which are a text. */
struct povundiri_totals {
    size_t length;      /* how many counts it wrote; on POVUNDIRI_SHORT, how many the array has to have room for */
    int64_t sum;
    uint64_t redundant; /* of a snapshot: the units, counted once more; of a delta 0 */
};

/* The statuses. From 100 on they are numbers of the library's faults; povundiri_status_text has their names. */
enum povundiri_status {
    POVUNDIRI_DONE = 0,
    POVUNDIRI_NULL = 1,          /* a pointer is null that must not be */
    POVUNDIRI_BAD_ROOM = 2,      /* the room is not aligned to 16, or no multiple of 16 bytes, or has none */
    POVUNDIRI_EMPTY = 3,         /* the handle holds nothing: it was never filled, or is closed, joined or dropped */
    POVUNDIRI_NOT_EMPTY = 4,     /* the handle that is to be filled holds something */
    POVUNDIRI_OTHER_KIND = 5,    /* the handle is of another kind than the call needs: a recorder's instead of a segment's, and so on */
    POVUNDIRI_OTHER_SEGMENT = 6, /* the recorder is of another segment; of a follower: the image is */
    POVUNDIRI_SHORT = 7,         /* the array is too short: the length that it needs is returned, and nothing was taken */
    POVUNDIRI_UNKNOWN = 8,       /* no call returned such a histogram to this recorder */
    POVUNDIRI_NO_CURSOR = 9,     /* the segment has no such shared cursor */
    POVUNDIRI_BAD_KIND = 10,     /* there is no such kind of histogram */
    POVUNDIRI_IN_USE = 11,       /* the segment has recorders */
    POVUNDIRI_LIST_ENDS = 12,    /* there is no record after the cursor yet */
    POVUNDIRI_NO_MEMORY = 13,    /* out of memory for a handle, a name, or a text */
    POVUNDIRI_ELSEWHERE = 14,    /* the recorder's own segment took it, in a call of another thread there: its handle is empty */
    POVUNDIRI_BUSY = 15,         /* another thread passes a recorder of the same segment at this moment, or somebody folds the same folder:
                                  * nothing has happened, try again */
    POVUNDIRI_SYSTEM = 16,       /* of files, folders and shared memory: the system's fault, whose number (errno.h) is returned beside it */
    POVUNDIRI_TOO_MANY_KEYS = 17, /* the image has more keys than the caller allows, and is not reported */
    POVUNDIRI_BAD_PREFIX = 18,    /* no name of a metric may begin with the prefix */
    POVUNDIRI_TOO_MANY = 19,      /* a total of the sum would not fit: units, marks, redundant counts or images 64 bits, amounts 128 */
    POVUNDIRI_BAD_TOTALS = 20,    /* the text is no totals; of a sum that is to be written: it is not well formed, which no call makes it */
    POVUNDIRI_FELL = 21,          /* of a follower: a count is less than what it has noted, or a histogram is gone or has another spec */
    POVUNDIRI_COSTS_MORE = 22,    /* of a follower: what came costs more units than the caller allows */
    POVUNDIRI_NOT_OWNER = 23,     /* the folder is another user's: nothing was done */
    POVUNDIRI_FOLDER_IN_USE = 24, /* the folder is neither empty nor a recording's: nothing is changed in it */
    POVUNDIRI_NO_RECORDING = 25,  /* the folder is no recording's */
    POVUNDIRI_BAD_OPTIONS = 26,   /* the options have something that this library does not know, or that may not be */

    /* Why a call is refused. */
    POVUNDIRI_REFUSED_BAD_NAME = 101,
    POVUNDIRI_REFUSED_BAD_SPEC = 102, /* never returned: 401 to 406 say what is wrong with it */
    POVUNDIRI_REFUSED_ZERO_COUNT = 103,
    POVUNDIRI_REFUSED_NO_UNITS = 104,
    POVUNDIRI_REFUSED_TOO_MANY = 105,
    POVUNDIRI_REFUSED_NO_MEMORY = 106,
    POVUNDIRI_REFUSED_TOO_LARGE = 107,
    POVUNDIRI_REFUSED_CORRUPT = 108,
    POVUNDIRI_REFUSED_FULL = 109,
    POVUNDIRI_REFUSED_OTHER_SPEC = 110,

    /* Why no segment was made. */
    POVUNDIRI_OPEN_BAD_SHAPE = 201,
    POVUNDIRI_OPEN_BAD_CURSORS = 202,
    POVUNDIRI_OPEN_NO_MEMORY = 203, /* also: the room is too small */

    /* Why an image was not adopted. */
    POVUNDIRI_ADOPT_BAD_IMAGE = 301, /* never returned: 501 to 509 say what is wrong with its header */
    POVUNDIRI_ADOPT_OLD_VERSION = 302, /* also: it cannot be looked at */
    POVUNDIRI_ADOPT_CORRUPT = 303,
    POVUNDIRI_ADOPT_DAMAGED = 304,
    POVUNDIRI_ADOPT_NO_UNITS = 305,
    POVUNDIRI_ADOPT_BAD_CURSORS = 306,
    POVUNDIRI_ADOPT_NO_MEMORY = 307, /* also: the room is too small */

    /* What is wrong with a spec. */
    POVUNDIRI_SPEC_BAD_MIN = 401,
    POVUNDIRI_SPEC_BAD_MAX = 402,
    POVUNDIRI_SPEC_TOO_FEW = 403,
    POVUNDIRI_SPEC_TOO_MANY = 404,
    POVUNDIRI_SPEC_BAD_RANGE = 405,
    POVUNDIRI_SPEC_EMPTY = 406,

    /* What is wrong with the header of an image. */
    POVUNDIRI_IMAGE_TOO_SHORT = 501,
    POVUNDIRI_IMAGE_BAD_COOKIE = 502,
    POVUNDIRI_IMAGE_BAD_VERSION = 503,
    POVUNDIRI_IMAGE_BAD_PAGE = 504,
    POVUNDIRI_IMAGE_BAD_SIZE = 505,
    POVUNDIRI_IMAGE_NOT_READY = 506,
    POVUNDIRI_IMAGE_DELETED = 507,
    POVUNDIRI_IMAGE_BAD_FREE = 508,
    POVUNDIRI_IMAGE_BAD_QUEUE = 509,
    POVUNDIRI_IMAGE_NO_MEMORY = 513 /* of a text of an image: out of memory while the image was read */
};

/* The proved functions. They test no pointer: not even an empty array may be null. `none` is a handle of zeros, which replaces a handle
 * that is given up. Call the functions below instead. */
uint32_t povundiri_proved_create(struct povundiri_shape shape, struct povundiri_handle *out);
uint32_t povundiri_proved_create_in(struct povundiri_room room, struct povundiri_shape shape, struct povundiri_handle *out);
uint32_t povundiri_proved_adopt(const uint64_t *words, size_t length, size_t cursors, struct povundiri_handle *out);
uint32_t povundiri_proved_adopt_in(struct povundiri_room room, const uint64_t *words, size_t length, size_t cursors,
                                   struct povundiri_handle *out);
uint32_t povundiri_proved_close(struct povundiri_handle *segment, struct povundiri_handle none, uint64_t *words, size_t length,
                                size_t *needed);
uint32_t povundiri_proved_drop(struct povundiri_handle *handle, struct povundiri_handle none);
uint32_t povundiri_proved_recorder(struct povundiri_handle *segment, uint32_t units, struct povundiri_handle *out);
uint32_t povundiri_proved_lend(struct povundiri_handle *segment, struct povundiri_handle *recorder, uint32_t units,
                               struct povundiri_handle none);
uint32_t povundiri_proved_join(struct povundiri_handle *segment, struct povundiri_handle *recorder, struct povundiri_handle none);
uint32_t povundiri_proved_units(struct povundiri_handle *handle, uint32_t *units);
uint32_t povundiri_proved_outstanding(struct povundiri_handle *segment, uint32_t *outstanding);
uint32_t povundiri_proved_hist(struct povundiri_handle *recorder, const uint8_t *name, size_t name_length, struct povundiri_spec spec,
                               const uint32_t *values, size_t values_length, size_t *hist);
uint32_t povundiri_proved_add(struct povundiri_handle *recorder, size_t hist, int32_t value, uint32_t count);
uint32_t povundiri_proved_batch(struct povundiri_handle *recorder, size_t hist, const struct povundiri_item *items, size_t length,
                                int64_t sum, size_t *added);
uint32_t povundiri_proved_delta(struct povundiri_handle *recorder, size_t hist, struct povundiri_count *counts, size_t length,
                                struct povundiri_totals *totals);
uint32_t povundiri_proved_snapshot(struct povundiri_handle *recorder, size_t hist, struct povundiri_count *counts, size_t length,
                                   struct povundiri_totals *totals);
uint32_t povundiri_proved_set_corrupt(struct povundiri_handle *recorder);
uint32_t povundiri_proved_limit_indexes(struct povundiri_handle *recorder, size_t entries);
uint32_t povundiri_proved_records(struct povundiri_handle *recorder, uint64_t *records, size_t length, size_t *needed);
uint32_t povundiri_proved_next_shared(struct povundiri_handle *recorder, size_t cursor, uint64_t *record);
uint32_t povundiri_proved_report(const uint64_t *words, size_t words_length, uint8_t *text, size_t text_length, size_t *needed);
uint32_t povundiri_proved_report_bounded(const uint64_t *words, size_t words_length, uint8_t *text, size_t text_length, size_t *needed,
                                         uint64_t most_keys);
uint32_t povundiri_proved_export(const uint64_t *words, size_t words_length, const uint8_t *prefix, size_t prefix_length, uint8_t *text,
                                 size_t text_length, size_t *needed);
uint32_t povundiri_proved_show(const uint64_t *words, size_t words_length, uint16_t width, uint8_t *text, size_t text_length,
                               size_t *needed);

uint32_t povundiri_proved_compose(const uint64_t *one, size_t one_length, const uint64_t *two, size_t two_length, const uint64_t *three,
                                  size_t three_length, uint64_t *image, size_t image_length);
uint32_t povundiri_proved_segment_look(struct povundiri_handle *segment, uint64_t *image, size_t image_length, size_t *needed);

uint32_t povundiri_proved_sums_new(struct povundiri_handle *out);
uint32_t povundiri_proved_sums_add(struct povundiri_handle *sums, uint64_t number, const uint64_t *words, size_t words_length);
uint32_t povundiri_proved_sums_add_totals(struct povundiri_handle *sums, const uint8_t *text, size_t text_length, size_t *line);
uint32_t povundiri_proved_sums_append(struct povundiri_handle *sums, struct povundiri_handle *other);
uint32_t povundiri_proved_sums_report(struct povundiri_handle *sums, uint8_t *text, size_t text_length, size_t *needed);
uint32_t povundiri_proved_sums_totals(struct povundiri_handle *sums, uint8_t *text, size_t text_length, size_t *needed);
uint32_t povundiri_proved_sums_export(struct povundiri_handle *sums, const uint8_t *prefix, size_t prefix_length, uint8_t *text,
                                      size_t text_length, size_t *needed);
uint32_t povundiri_proved_sums_show(struct povundiri_handle *sums, uint16_t width, uint8_t *text, size_t text_length, size_t *needed);

/* Whether an array is valid: only an empty one may be null. */
inline bool povundiri_is_array(const void *at, size_t length) {
    return at != NULL || length == 0;
}

/* The address of an array, or any aligned one if it is null. */
inline void *povundiri_address(const void *at) {
    return at != NULL ? (void *)(uintptr_t)at : (void *)(uintptr_t)16;
}

/* Whether a room is valid, as far as it can be tested. */
inline bool povundiri_is_room(struct povundiri_room room) {
    return room.at != NULL && (uintptr_t)room.at % 16 == 0 && room.bytes % 16 == 0 && room.bytes != 0;
}

/* ---- Segments ---- */

/* A new segment without records, in the heap. It has 4,294,967,295 units: a sample takes as many as it counts.
 * Statuses: NULL, NOT_EMPTY; OPEN_BAD_SHAPE, OPEN_BAD_CURSORS, OPEN_NO_MEMORY; NO_MEMORY.
 * Keep: pointers; handles: `out` begins as zeros; process. */
POVUNDIRI_CHECKED
inline uint32_t povundiri_create(struct povundiri_shape shape, struct povundiri_handle *out) {
    return out == NULL ? (uint32_t)POVUNDIRI_NULL : povundiri_proved_create(shape, out);
}

/* The same in a room. The room is overwritten; if the process is killed during this call, and the room was not zeros, it may hold some
 * of both.
 * Statuses: NULL, BAD_ROOM, then as above; OPEN_NO_MEMORY also if the room is too small. On any but DONE the room is still the caller's.
 * Keep: room; pointers, `out` is not in the room; handles: `out` begins as zeros; process. */
POVUNDIRI_CHECKED
inline uint32_t povundiri_create_in(struct povundiri_room room, struct povundiri_shape shape, struct povundiri_handle *out) {
    if (out == NULL) return POVUNDIRI_NULL;
    return povundiri_is_room(room) ? povundiri_proved_create_in(room, shape, out) : (uint32_t)POVUNDIRI_BAD_ROOM;
}

/* A segment in the heap that continues from the words of an image of version 2: with its names, counts, sums and free space, and all units
 * that it has not used. Any words may be passed: they are checked first.
 * Statuses: NULL, NOT_EMPTY; IMAGE_.. and ADOPT_.., the first that applies; NO_MEMORY.
 * Keep: pointers; handles: `out` begins as zeros; process. */
POVUNDIRI_CHECKED
inline uint32_t povundiri_adopt(const uint64_t *words, size_t length, size_t cursors, struct povundiri_handle *out) {
    if (out == NULL || !povundiri_is_array(words, length)) return POVUNDIRI_NULL;
    return povundiri_proved_adopt((const uint64_t *)povundiri_address(words), length, cursors, out);
}

/* The same in a room. If the image was read from the same room, each word is written as it is: a process that is killed during this call
 * leaves the image unchanged.
 * Statuses: NULL, BAD_ROOM, then as above; ADOPT_NO_MEMORY also if the room is too small. On any but DONE the room is still the caller's.
 * Keep: room; pointers, neither `words` nor `out` is in the room; handles: `out` begins as zeros; process. */
POVUNDIRI_CHECKED
inline uint32_t povundiri_adopt_in(struct povundiri_room room, const uint64_t *words, size_t length, size_t cursors,
                                   struct povundiri_handle *out) {
    if (out == NULL || !povundiri_is_array(words, length)) return POVUNDIRI_NULL;
    if (!povundiri_is_room(room)) return POVUNDIRI_BAD_ROOM;
    return povundiri_proved_adopt_in(room, (const uint64_t *)povundiri_address(words), length, cursors, out);
}

/* Ends a segment and writes its image into the array; then the handle is empty, and a room is the caller's again, with the image in it.
 * `needed`, which may be null, is how many words the image has, also on SHORT: then the segment stays open.
 * Statuses: NULL, EMPTY, OTHER_KIND, SHORT, IN_USE.
 * Keep: pointers, `words` is not in the segment's room; handles; turns; process. */
POVUNDIRI_CHECKED
inline uint32_t povundiri_close(struct povundiri_handle *segment, uint64_t *words, size_t length, size_t *needed) {
    const struct povundiri_handle none = {false, NULL};
    size_t own = 0;
    if (segment == NULL || !povundiri_is_array(words, length)) return POVUNDIRI_NULL;
    return povundiri_proved_close(segment, none, (uint64_t *)povundiri_address(words), length, needed != NULL ? needed : &own);
}

/* Gives up a segment, a recorder, a sum or a follower; then its handle is empty. What a recorder counted stays in the segment, which does
 * not get its other units back. A segment ends, without an image, when it and all its recorders are gone; then a room is the caller's again.
 * Statuses: NULL, EMPTY.
 * Keep: pointers; handles; turns; process. */
inline uint32_t povundiri_drop(struct povundiri_handle *handle) {
    const struct povundiri_handle none = {false, NULL};
    return handle == NULL ? (uint32_t)POVUNDIRI_NULL : povundiri_proved_drop(handle, none);
}

/* A recorder for one thread, with this number of the segment's units.
 * Statuses: NULL, NOT_EMPTY, NO_MEMORY, EMPTY, OTHER_KIND; REFUSED_NO_UNITS: the segment has fewer; REFUSED_TOO_MANY: it has 256 recorders.
 * Keep: pointers; handles: `out` begins as zeros; turns: that of the segment; process. */
POVUNDIRI_CHECKED
inline uint32_t povundiri_recorder(struct povundiri_handle *segment, uint32_t units, struct povundiri_handle *out) {
    if (segment == NULL || out == NULL) return POVUNDIRI_NULL;
    return segment == out ? (uint32_t)POVUNDIRI_NOT_EMPTY : povundiri_proved_recorder(segment, units, out);
}

/* Lends a running recorder `units` more of its segment's units, or 0: it may spend these too, and nothing else changes. Its histograms
 * keep their numbers. It works even if the segment has 256 recorders, and asks for no memory.
 * Statuses: NULL, EMPTY, OTHER_KIND; REFUSED_NO_UNITS: the segment has fewer, whichever segment the recorder is of; OTHER_SEGMENT. After
 * any of these the recorder is unchanged in its handle. If two threads each lend or join a recorder of the other's segment at the same
 * moment: a lend that is done leaves a recorder of the segment in the handle, which may be the other thread's; or it returns ELSEWHERE,
 * and the handle is empty: the recorder was joined to its own segment, or is in the other thread's handle. Either may return BUSY, and so
 * may a correct lend that runs at the same time: nothing has happened. If the recorder is of the segment that it is passed with,
 * OTHER_SEGMENT and ELSEWHERE are never returned. NO_MEMORY is for 2^63 recorders of a segment, which no program has.
 * Keep: pointers; handles; turns: those of both; process. */
POVUNDIRI_CHECKED
inline uint32_t povundiri_lend(struct povundiri_handle *segment, struct povundiri_handle *recorder, uint32_t units) {
    const struct povundiri_handle none = {false, NULL};
    if (segment == NULL || recorder == NULL) return POVUNDIRI_NULL;
    return segment == recorder ? (uint32_t)POVUNDIRI_OTHER_KIND : povundiri_proved_lend(segment, recorder, units, none);
}

/* Takes a recorder back: its handle is empty then, and the units that it has left are the segment's.
 * Statuses: NULL, EMPTY, OTHER_KIND, OTHER_SEGMENT. If one thread joins a recorder to a segment that is not its own while another
 * joins any to the recorder's own: the first may return ELSEWHERE or DONE, and the recorder is joined to its own segment; either may
 * return BUSY, and nothing has happened. If the recorder is of the segment that it is passed with, OTHER_SEGMENT and ELSEWHERE are never
 * returned.
 * Keep: pointers; handles; turns: those of both; process. */
POVUNDIRI_CHECKED
inline uint32_t povundiri_join(struct povundiri_handle *segment, struct povundiri_handle *recorder) {
    const struct povundiri_handle none = {false, NULL};
    if (segment == NULL || recorder == NULL) return POVUNDIRI_NULL;
    return segment == recorder ? (uint32_t)POVUNDIRI_OTHER_KIND : povundiri_proved_join(segment, recorder, none);
}

/* For a segment the units that no recorder was given, for a recorder those that it may still spend.
 * Statuses: NULL, EMPTY.
 * Keep: pointers; handles; turns; process. */
POVUNDIRI_CHECKED
inline uint32_t povundiri_units(struct povundiri_handle *handle, uint32_t *units) {
    return handle == NULL || units == NULL ? (uint32_t)POVUNDIRI_NULL : povundiri_proved_units(handle, units);
}

/* How many recorders of a segment were made and not joined.
 * Statuses: NULL, EMPTY, OTHER_KIND.
 * Keep: pointers; handles; turns; process. */
POVUNDIRI_CHECKED
inline uint32_t povundiri_outstanding(struct povundiri_handle *segment, uint32_t *outstanding) {
    return segment == NULL || outstanding == NULL ? (uint32_t)POVUNDIRI_NULL : povundiri_proved_outstanding(segment, outstanding);
}

/* ---- Recorders ---- */

/* The number of the histogram of a name, for the calls of this recorder only: of the first record of the name in the segment, which is
 * made if there is none. A name has 1 to 128 bytes from 0x21 to 0x7E without comma and quotation mark, and does not begin with '!'. `values`
 * are those of a custom spec, at which its buckets begin, in any order; the other kinds ignore them.
 * Statuses: NULL, EMPTY, BAD_KIND, NO_MEMORY, OTHER_KIND; REFUSED_BAD_NAME; SPEC_..; REFUSED_TOO_LARGE, REFUSED_NO_MEMORY,
 * REFUSED_OTHER_SPEC, REFUSED_CORRUPT, REFUSED_FULL.
 * Keep: pointers; handles; turns; process. */
POVUNDIRI_CHECKED
inline uint32_t povundiri_hist(struct povundiri_handle *recorder, const char *name, size_t name_length, struct povundiri_spec spec,
                               const uint32_t *values, size_t values_length, size_t *hist) {
    if (recorder == NULL || hist == NULL) return POVUNDIRI_NULL;
    if (!povundiri_is_array(name, name_length) || !povundiri_is_array(values, values_length)) return POVUNDIRI_NULL;
    return povundiri_proved_hist(recorder, (const uint8_t *)povundiri_address(name), name_length, spec,
                                 (const uint32_t *)povundiri_address(values), values_length, hist);
}

/* The same for a name that ends at its first zero byte, for each kind.
 * Statuses and what to keep: as above. */
POVUNDIRI_CHECKED
inline uint32_t povundiri_hist_linear(struct povundiri_handle *recorder, const char *name, uint32_t minimum, uint32_t maximum,
                                      uint32_t buckets, size_t *hist) {
    struct povundiri_spec spec = {POVUNDIRI_LINEAR, minimum, maximum, buckets};
    return name == NULL ? (uint32_t)POVUNDIRI_NULL : povundiri_hist(recorder, name, strlen(name), spec, NULL, 0, hist);
}

POVUNDIRI_CHECKED
inline uint32_t povundiri_hist_boolean(struct povundiri_handle *recorder, const char *name, size_t *hist) {
    struct povundiri_spec spec = {POVUNDIRI_BOOLEAN, 0, 0, 0};
    return name == NULL ? (uint32_t)POVUNDIRI_NULL : povundiri_hist(recorder, name, strlen(name), spec, NULL, 0, hist);
}

POVUNDIRI_CHECKED
inline uint32_t povundiri_hist_custom(struct povundiri_handle *recorder, const char *name, const uint32_t *values, size_t length,
                                      size_t *hist) {
    struct povundiri_spec spec = {POVUNDIRI_CUSTOM, 0, 0, 0};
    return name == NULL ? (uint32_t)POVUNDIRI_NULL : povundiri_hist(recorder, name, strlen(name), spec, values, length, hist);
}

/* A custom histogram of a scale, for values of any size: its buckets begin at the numbers m * 2^e with m below 2^(bits + 1), from `minimum`
 * up to the first at or above `maximum`. So each begins at most 1 + 2^-bits times as far up as the one before it, or 1 above that: with 3
 * bits, a value is at most an eighth above the least of its bucket. From 1 on, that is 2^bits values for each doubling.
 * Memory: with n values there are n + 1 buckets, 1,000 at most. The record takes 15 words, one for each 8 bytes of the name, begun or full,
 * and n; once there are samples in two buckets, the counts take 4 + 2 * (n + 1) words more. Each of both has to fit in a page: one of 2,016
 * words is enough for every scale. From 1 to the greatest value, 2,147,483,646, 3 bits have 232 values, 4 bits 448 and 5 bits 864: 470,
 * 902 and 1,734 words for the counts.
 * Statuses: as above, and before any that is about the segment: SPEC_BAD_MIN: the minimum is 0; SPEC_BAD_MAX: the maximum is not above the
 * minimum, or above 2,147,483,646; SPEC_TOO_FEW: 0 bits; SPEC_TOO_MANY: more than 8 bits, or more than 999 values.
 * What to keep: as above. */
POVUNDIRI_CHECKED
inline uint32_t povundiri_hist_scale(struct povundiri_handle *recorder, const char *name, uint32_t minimum, uint32_t maximum,
                                     uint32_t bits, size_t *hist) {
    struct povundiri_spec spec = {POVUNDIRI_SCALE, minimum, maximum, bits};
    return name == NULL ? (uint32_t)POVUNDIRI_NULL : povundiri_hist(recorder, name, strlen(name), spec, NULL, 0, hist);
}

POVUNDIRI_CHECKED
inline uint32_t povundiri_hist_sparse(struct povundiri_handle *recorder, const char *name, size_t *hist) {
    struct povundiri_spec spec = {POVUNDIRI_SPARSE, 0, 0, 0};
    return name == NULL ? (uint32_t)POVUNDIRI_NULL : povundiri_hist(recorder, name, strlen(name), spec, NULL, 0, hist);
}

/* Adds a sample: `count` units of a value. On any but DONE nothing was counted. A recorder keeps an index of the samples of sparse
 * histograms that it has visited on the list, which an add to a sparse histogram may let grow: then it asks for memory, and if there is
 * none, the call returns the same, and later ones take longer. An add to the other kinds asks for none.
 * Statuses: NULL, EMPTY, OTHER_KIND, UNKNOWN; REFUSED_ZERO_COUNT, REFUSED_NO_UNITS, REFUSED_CORRUPT, REFUSED_FULL.
 * Keep: pointers; handles; turns; process. */
POVUNDIRI_CHECKED
inline uint32_t povundiri_add(struct povundiri_handle *recorder, size_t hist, int32_t value, uint32_t count) {
    return recorder == NULL ? (uint32_t)POVUNDIRI_NULL : povundiri_proved_add(recorder, hist, value, count);
}

/* Adds units of values, in order, and then an amount to the sum. It costs the units of all items together, or the size of the sum divided
 * by 2^31 and rounded up, if that is more. `added`, which may be null, is how many items were counted: all on DONE, and on REFUSED_FULL
 * and REFUSED_CORRUPT those before the one for which no block was found. The sum is added on DONE only.
 * Statuses: NULL, EMPTY, NO_MEMORY; then as povundiri_add. It asks for 8 bytes for each item, and for what povundiri_add asks for.
 * Keep: pointers; handles; turns; process. */
POVUNDIRI_CHECKED
inline uint32_t povundiri_batch(struct povundiri_handle *recorder, size_t hist, const struct povundiri_item *items, size_t length,
                                int64_t sum, size_t *added) {
    size_t own = 0;
    if (recorder == NULL || !povundiri_is_array(items, length)) return POVUNDIRI_NULL;
    return povundiri_proved_batch(recorder, hist, (const struct povundiri_item *)povundiri_address(items), length, sum,
                                  added != NULL ? added : &own);
}

/* Takes what no delta took before: the keys that have such units, ascending, and what is new of the sum.
 * Statuses: NULL, EMPTY, OTHER_KIND, UNKNOWN; SHORT: the array needs room for as many keys as the histogram may have, and nothing is
 * taken (its buckets; for a sparse one as many samples as fit in the segment); REFUSED_NO_MEMORY.
 * Keep: pointers; handles; turns; process. */
POVUNDIRI_CHECKED
inline uint32_t povundiri_delta(struct povundiri_handle *recorder, size_t hist, struct povundiri_count *counts, size_t length,
                                struct povundiri_totals *totals) {
    if (recorder == NULL || totals == NULL || !povundiri_is_array(counts, length)) return POVUNDIRI_NULL;
    return povundiri_proved_delta(recorder, hist, (struct povundiri_count *)povundiri_address(counts), length, totals);
}

/* What a histogram has: the units of each of its buckets, or of each value that has some; its sum; and its units, counted once more.
 * Statuses and what to keep: as for povundiri_delta. */
POVUNDIRI_CHECKED
inline uint32_t povundiri_snapshot(struct povundiri_handle *recorder, size_t hist, struct povundiri_count *counts, size_t length,
                                   struct povundiri_totals *totals) {
    if (recorder == NULL || totals == NULL || !povundiri_is_array(counts, length)) return POVUNDIRI_NULL;
    return povundiri_proved_snapshot(recorder, hist, (struct povundiri_count *)povundiri_address(counts), length, totals);
}

/* Marks the segment as corrupt for good: from then on this recorder claims no block, nor does any allocation that loads the flags later,
 * and the image cannot be adopted.
 * Statuses: NULL, EMPTY, OTHER_KIND.
 * Keep: pointers; handles; turns; process. */
POVUNDIRI_CHECKED
inline uint32_t povundiri_set_corrupt(struct povundiri_handle *recorder) {
    return recorder == NULL ? (uint32_t)POVUNDIRI_NULL : povundiri_proved_set_corrupt(recorder);
}

/* Sets how many entries each of the recorder's three indexes may have: of the histograms that it knows, of the names that it has visited
 * on the list, and of the samples of sparse histograms that it has visited there. It is for callers that have little memory: calls search
 * the list for the rest, take longer, and return the same. What is entered already stays. Before the first such call there is no limit but
 * memory. An index keeps at most 80 bytes for each entry, and 1,000 bytes; that of samples also 110 bytes for each sparse histogram of
 * which it has a sample.
 * Statuses: NULL, EMPTY, OTHER_KIND.
 * Keep: pointers; handles; turns; process. */
POVUNDIRI_CHECKED
inline uint32_t povundiri_limit_indexes(struct povundiri_handle *recorder, size_t entries) {
    return recorder == NULL ? (uint32_t)POVUNDIRI_NULL : povundiri_proved_limit_indexes(recorder, entries);
}

/* The references of all records of the list, in its order: the words of the image at which they begin. `needed`, which may be null, is
 * how many there are, also on SHORT.
 * Statuses: NULL, EMPTY, OTHER_KIND, SHORT, REFUSED_NO_MEMORY.
 * Keep: pointers; handles; turns; process. */
POVUNDIRI_CHECKED
inline uint32_t povundiri_records(struct povundiri_handle *recorder, uint64_t *records, size_t length, size_t *needed) {
    size_t own = 0;
    if (recorder == NULL || !povundiri_is_array(records, length)) return POVUNDIRI_NULL;
    return povundiri_proved_records(recorder, (uint64_t *)povundiri_address(records), length, needed != NULL ? needed : &own);
}

/* The next record of a cursor that all recorders share: each record goes to one recorder only.
 * Statuses: NULL, EMPTY, OTHER_KIND, NO_CURSOR; LIST_ENDS: there is none yet.
 * Keep: pointers; handles; turns; process. */
POVUNDIRI_CHECKED
inline uint32_t povundiri_next_shared(struct povundiri_handle *recorder, size_t cursor, uint64_t *record) {
    return recorder == NULL || record == NULL ? (uint32_t)POVUNDIRI_NULL : povundiri_proved_next_shared(recorder, cursor, record);
}

/* ---- Looks ---- */

/* A look at a segment of version 2 that is in use: an image of it, while others record. It disturbs no recorder, and needs none. The
 * report, metrics and text of a look are those of an image, and povundiri_adopt takes it if nobody marked the segment as corrupt.
 *
 * The words are read three times, each by one load, and put together. The image reads without a fault. Of each bucket it has at least the
 * units of calls that had ended before the look began, and no unit of a call that began after it was done; it has each histogram that was
 * in the segment when the look began. The numbers of different histograms, and of different buckets of one, need not be of one moment; the
 * sum is that of one. A look that begins when another one has ended has no fewer units in a bucket. A look amid which the process is killed
 * and another one continues is outside of all this. It is tested on running programs; docs/PROVED.md says which of it is proved.
 *
 * `words` are those of the segment, such as those of a mapped file from its byte 8 on: its own, or another process's. `length` is how many
 * may be read: at least as many as the segment has. `needed`, which may be null, is how many words the image has, also on SHORT.
 * Statuses: NULL; SHORT; NO_MEMORY; IMAGE_..: the header has this fault; ADOPT_OLD_VERSION: the segment is of version 1.
 * Keep: pointers, except that others may store to the words meanwhile, as recorders do; process. */
uint32_t povundiri_look(const uint64_t *words, size_t length, uint64_t *image, size_t image_length, size_t *needed) POVUNDIRI_CHECKED;

/* The same of a segment by its handle, also of one in the heap.
 * Statuses: NULL, EMPTY, OTHER_KIND, SHORT, NO_MEMORY, ADOPT_OLD_VERSION.
 * Keep: pointers; handles; turns; process. */
POVUNDIRI_CHECKED
inline uint32_t povundiri_segment_look(struct povundiri_handle *segment, uint64_t *image, size_t image_length, size_t *needed) {
    size_t own = 0;
    if (segment == NULL || !povundiri_is_array(image, image_length)) return POVUNDIRI_NULL;
    return povundiri_proved_segment_look(segment, (uint64_t *)povundiri_address(image), image_length, needed != NULL ? needed : &own);
}

/* ---- Readers ---- */

/* The report of an image as CSV, without a zero byte at the end. Any words may be passed. `needed`, which may be null, is how many bytes it
 * has, also on SHORT. The memory that it needs grows with the output: a reading of the image, at least 24 bytes for each key, and the
 * report as well. A valid image of 8 MiB may have 65 million keys, 1.5 GiB, and a forged one may have a report of more than 5 GiB. For words
 * that you do not trust, call povundiri_report_bounded.
 * Statuses: NULL; IMAGE_..: its header has this fault; IMAGE_NO_MEMORY, NO_MEMORY; SHORT.
 * Keep: pointers; process. */
POVUNDIRI_CHECKED
inline uint32_t povundiri_report(const uint64_t *words, size_t length, char *text, size_t text_length, size_t *needed) {
    size_t own = 0;
    if (!povundiri_is_array(words, length) || !povundiri_is_array(text, text_length)) return POVUNDIRI_NULL;
    return povundiri_proved_report((const uint64_t *)povundiri_address(words), length, (uint8_t *)povundiri_address(text), text_length,
                                   needed != NULL ? needed : &own);
}

/* The same, for an image that has no more keys than `most_keys`: the buckets of all its histograms, and the values of the sparse ones.
 * One that has more is refused before memory is taken for its counts. To count the keys takes at most ten times the bytes of the image.
 * Then the report takes at least 24 bytes for each key, and at most a line for each, with a name of up to 128 bytes.
 * Statuses: those of povundiri_report; TOO_MANY_KEYS: exactly if it has more, the header has no fault and memory suffices.
 * Keep: pointers; process. */
POVUNDIRI_CHECKED
inline uint32_t povundiri_report_bounded(const uint64_t *words, size_t length, char *text, size_t text_length, size_t *needed,
                                         uint64_t most_keys) {
    size_t own = 0;
    if (!povundiri_is_array(words, length) || !povundiri_is_array(text, text_length)) return POVUNDIRI_NULL;
    return povundiri_proved_report_bounded((const uint64_t *)povundiri_address(words), length, (uint8_t *)povundiri_address(text),
                                           text_length, needed != NULL ? needed : &own, most_keys);
}

/* The metrics of an image in the Prometheus text format, as `persist_report export` writes them. Their names begin with `prefix`, a letter
 * of ASCII or '_' and then such characters and digits, or with `povundiri` if it is null. Labels for all lines cannot be given here.
 * All else is as for povundiri_report; if you do not trust the words, call povundiri_report_bounded first.
 * Statuses: NULL; BAD_PREFIX; IMAGE_..: its header has this fault; IMAGE_NO_MEMORY, NO_MEMORY; SHORT.
 * Keep: pointers; process. */
POVUNDIRI_CHECKED
inline uint32_t povundiri_export(const uint64_t *words, size_t length, const char *prefix, char *text, size_t text_length, size_t *needed) {
    size_t own = 0;
    const char *const begun = prefix != NULL ? prefix : "povundiri";
    if (!povundiri_is_array(words, length) || !povundiri_is_array(text, text_length)) return POVUNDIRI_NULL;
    return povundiri_proved_export((const uint64_t *)povundiri_address(words), length, (const uint8_t *)begun, strlen(begun),
                                   (uint8_t *)povundiri_address(text), text_length, needed != NULL ? needed : &own);
}

/* The text of an image for people, of all its histograms, as `persist_report show` writes it: UTF-8 with a bar for each bucket that has
 * units. A line has `width` cells, or 80 if it is 0; what does not fit makes a longer line. All else is as for povundiri_report; if you do
 * not trust the words, call povundiri_report_bounded first. The bars take three bytes for each cell.
 * Statuses: NULL; IMAGE_..: its header has this fault; IMAGE_NO_MEMORY, NO_MEMORY; SHORT.
 * Keep: pointers; process. */
POVUNDIRI_CHECKED
inline uint32_t povundiri_show(const uint64_t *words, size_t length, uint16_t width, char *text, size_t text_length, size_t *needed) {
    size_t own = 0;
    if (!povundiri_is_array(words, length) || !povundiri_is_array(text, text_length)) return POVUNDIRI_NULL;
    return povundiri_proved_show((const uint64_t *)povundiri_address(words), length, width, (uint8_t *)povundiri_address(text),
                                 text_length, needed != NULL ? needed : &own);
}

/* ---- Sums ---- */

/* The sum of no images, to which images are added, any number and of any size. For each name and spec it has the units of each key, the
 * marks, the sums of the samples, the redundant counts, and how many images had it.
 *
 *     struct povundiri_handle sums = {0};
 *     povundiri_sums_new(&sums);
 *     povundiri_sums_add(&sums, 0, words, length);        each image under a number
 *     povundiri_sums_add(&sums, 1, others, others_length);
 *     povundiri_sums_report(&sums, text, text_length, &needed);
 *     povundiri_sums_drop(&sums);
 *
 * Statuses: NULL, NOT_EMPTY, NO_MEMORY.
 * Keep: pointers; handles: `out` begins as zeros; process. */
POVUNDIRI_CHECKED
inline uint32_t povundiri_sums_new(struct povundiri_handle *out) {
    return out == NULL ? (uint32_t)POVUNDIRI_NULL : povundiri_proved_sums_new(out);
}

/* Reads an image and adds it under a number, which may be any. For each name, a text shows the histograms of one spec: that of the image
 * with the least number among those that have the name. Any words may be passed; if you do not trust them, call povundiri_report_bounded
 * first, since a reading takes at least 24 bytes for each key. On any status but DONE the sum is unchanged.
 * Statuses: NULL, EMPTY, OTHER_KIND; IMAGE_..: the header has this fault; IMAGE_NO_MEMORY, NO_MEMORY; TOO_MANY.
 * Keep: pointers; handles; turns; process. */
POVUNDIRI_CHECKED
inline uint32_t povundiri_sums_add(struct povundiri_handle *sums, uint64_t number, const uint64_t *words, size_t length) {
    if (sums == NULL || !povundiri_is_array(words, length)) return POVUNDIRI_NULL;
    return povundiri_proved_sums_add(sums, number, (const uint64_t *)povundiri_address(words), length);
}

/* Adds the sum in a text that povundiri_sums_totals or `persist_report report --totals` wrote. Any bytes may be passed. `line`, which may
 * be null, is the number of a line that is wrong, from 1, on BAD_TOTALS, and else 0. On any status but DONE the sum is unchanged.
 * Segments or a fold that the text may name are not kept.
 * Statuses: NULL, EMPTY, OTHER_KIND; BAD_TOTALS: these are no totals; NO_MEMORY; TOO_MANY.
 * Keep: pointers; handles; turns; process. */
POVUNDIRI_CHECKED
inline uint32_t povundiri_sums_add_totals(struct povundiri_handle *sums, const char *text, size_t length, size_t *line) {
    size_t own = 0;
    if (sums == NULL || !povundiri_is_array(text, length)) return POVUNDIRI_NULL;
    return povundiri_proved_sums_add_totals(sums, (const uint8_t *)povundiri_address(text), length, line != NULL ? line : &own);
}

/* Gives up a sum; then its handle is empty. It is povundiri_drop.
 * Statuses: NULL, EMPTY.
 * Keep: pointers; handles; turns; process. */
inline uint32_t povundiri_sums_drop(struct povundiri_handle *sums) {
    return povundiri_drop(sums);
}

/* Adds another sum, which stays as it is; its images come after those of this one. A sum may be added to itself. On any status but DONE
 * both are unchanged.
 * Statuses: NULL, EMPTY, OTHER_KIND, NO_MEMORY, TOO_MANY.
 * Keep: pointers, except that both may be one handle; handles; turns: those of both; process. */
POVUNDIRI_CHECKED
inline uint32_t povundiri_sums_append(struct povundiri_handle *sums, struct povundiri_handle *other) {
    struct povundiri_handle copy = {false, NULL};
    uint32_t status;
    if (sums == NULL || other == NULL) return POVUNDIRI_NULL;
    if (sums != other) return povundiri_proved_sums_append(sums, other);
    status = povundiri_proved_sums_new(&copy);
    if (status == POVUNDIRI_DONE) status = povundiri_proved_sums_append(&copy, other);
    if (status == POVUNDIRI_DONE) status = povundiri_proved_sums_append(sums, &copy);
    povundiri_drop(&copy);
    return status;
}

/* The report of a sum, as povundiri_report writes that of an image. If the sum is of several images, lines follow that begin with
 * '!images', '!other' and a name that also has histograms of another spec, and '!left'. `needed`, which may be null, is how many bytes the
 * report has, also on SHORT.
 * Statuses: NULL, EMPTY, OTHER_KIND, NO_MEMORY, SHORT, BAD_TOTALS.
 * Keep: pointers; handles; turns; process. */
POVUNDIRI_CHECKED
inline uint32_t povundiri_sums_report(struct povundiri_handle *sums, char *text, size_t text_length, size_t *needed) {
    size_t own = 0;
    if (sums == NULL || !povundiri_is_array(text, text_length)) return POVUNDIRI_NULL;
    return povundiri_proved_sums_report(sums, (uint8_t *)povundiri_address(text), text_length, needed != NULL ? needed : &own);
}

/* The whole sum as text, from which povundiri_sums_add_totals makes the same sum again (docs/FORMAT.md).
 * Statuses: as for povundiri_sums_report, but no BAD_TOTALS.
 * Keep: pointers; handles; turns; process. */
POVUNDIRI_CHECKED
inline uint32_t povundiri_sums_totals(struct povundiri_handle *sums, char *text, size_t text_length, size_t *needed) {
    size_t own = 0;
    if (sums == NULL || !povundiri_is_array(text, text_length)) return POVUNDIRI_NULL;
    return povundiri_proved_sums_totals(sums, (uint8_t *)povundiri_address(text), text_length, needed != NULL ? needed : &own);
}

/* The metrics of a sum in the Prometheus text format, with names that begin with `prefix`, as povundiri_export writes those of an image.
 * Statuses: those of povundiri_sums_report, and BAD_PREFIX.
 * Keep: pointers; handles; turns; process. */
POVUNDIRI_CHECKED
inline uint32_t povundiri_sums_export(struct povundiri_handle *sums, const char *prefix, char *text, size_t text_length, size_t *needed) {
    size_t own = 0;
    const char *const begun = prefix != NULL ? prefix : "povundiri";
    if (sums == NULL || !povundiri_is_array(text, text_length)) return POVUNDIRI_NULL;
    return povundiri_proved_sums_export(sums, (const uint8_t *)begun, strlen(begun), (uint8_t *)povundiri_address(text), text_length,
                                        needed != NULL ? needed : &own);
}

/* The text of a sum for people, with `width` cells in a line, 80 if it is 0, as povundiri_show writes that of an image.
 * Statuses: those of povundiri_sums_report.
 * Keep: pointers; handles; turns; process. */
POVUNDIRI_CHECKED
inline uint32_t povundiri_sums_show(struct povundiri_handle *sums, uint16_t width, char *text, size_t text_length, size_t *needed) {
    size_t own = 0;
    if (sums == NULL || !povundiri_is_array(text, text_length)) return POVUNDIRI_NULL;
    return povundiri_proved_sums_show(sums, width, (uint8_t *)povundiri_address(text), text_length, needed != NULL ? needed : &own);
}

/* The name of a status; any number may be passed. `persist_report explain NAME` says what each name means. */
const char *povundiri_status_text(uint32_t status);

/* ---- The version ---- */

/* The version of this header. The one number grows from each version to the next: `#if POVUNDIRI_VERSION >= 900`. */
#define POVUNDIRI_VERSION_MAJOR 0
#define POVUNDIRI_VERSION_MINOR 9
#define POVUNDIRI_VERSION_PATCH 0
#define POVUNDIRI_VERSION (10000 * POVUNDIRI_VERSION_MAJOR + 100 * POVUNDIRI_VERSION_MINOR + POVUNDIRI_VERSION_PATCH)
#define POVUNDIRI_VERSION_TEXT "0.9.0"

/* The version of the library that the program runs with, such as "0.9.0". A shared one may be later than the header. Any thread may call it
 * at any time, also in a signal handler. */
const char *povundiri_version(void);

#ifdef __cplusplus
}
#if defined(__GNUC__)
#pragma GCC diagnostic pop
#endif
#endif

#endif
