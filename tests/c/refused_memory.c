/* Each allocation of each call is refused alone: the call reports it, and if it is made once more it returns as if nothing had happened. An
 * add or a batch to a sparse histogram, where an index grows, succeeds nevertheless. Calls ask for as many bytes as docs/PERFORMANCE.md
 * says. In the end all blocks have been given back. The library's heap is that of heap.h. */
#include <stdarg.h>
#include <stdlib.h>

#include "checks.h"
#include "povundiri_merge.h"

enum { WORDS = 1024, PAGE = 256 };

static size_t until_refused = SIZE_MAX;
static int refused;

/* The run of calls that notes what they ask for, and refuses one request; or none. */
struct run;
static struct run *running;
static bool is_refused_in_run(size_t size);

static bool is_refused(size_t size) {
    if (running != NULL) return is_refused_in_run(size);
    if (until_refused == SIZE_MAX || until_refused-- > 0) return false;
    until_refused = SIZE_MAX;
    refused += 1;
    return true;
}

#include "heap.h"
#include "sparse.h"

static bool is_no_memory(uint32_t status) {
    return status == POVUNDIRI_NO_MEMORY || status == POVUNDIRI_REFUSED_NO_MEMORY || status == POVUNDIRI_OPEN_NO_MEMORY ||
           status == POVUNDIRI_ADOPT_NO_MEMORY || status == POVUNDIRI_IMAGE_NO_MEMORY;
}

/* Makes a call with its first allocation refused, then with its second alone, and so on until none is refused any more. */
#define REFUSE_EACH(call)                                        \
    do {                                                         \
        size_t number_;                                          \
        for (number_ = 0;; number_ += 1) {                       \
            uint32_t status_;                                    \
            until_refused = number_;                             \
            status_ = (call);                                    \
            if (until_refused != SIZE_MAX || status_ == 0) {     \
                until_refused = SIZE_MAX;                        \
                check_status(__LINE__, #call, 0, status_);       \
                break;                                           \
            }                                                    \
            HOLDS(is_no_memory(status_));                        \
        }                                                        \
    } while (0)

/* Makes a call that asks for no memory. */
#define ASKS_FOR_NONE(call)                  \
    do {                                     \
        const int before_ = refused;         \
        until_refused = 0;                   \
        DONE(call);                          \
        HOLDS(refused == before_);           \
        until_refused = SIZE_MAX;            \
    } while (0)

static const uint32_t VALUES[] = {10, 100, 1000};

static void record(struct povundiri_handle *recorder) {
    struct povundiri_count *counts = calloc(WORDS, sizeof *counts);
    struct povundiri_totals totals = {0, 0, 0};
    const struct povundiri_item items[] = {{50, 1}};
    uint64_t records[8];
    size_t hist = 9, again = 9, needed = 0;
    uint32_t left = 0;
    REFUSE_EACH(povundiri_hist_custom(recorder, "c", VALUES, 3, &hist));
    REFUSE_EACH(povundiri_hist_custom(recorder, "c", VALUES, 3, &again));
    HOLDS(hist == again);
    REFUSE_EACH(povundiri_hist_sparse(recorder, "s", &hist));
    ASKS_FOR_NONE(povundiri_add(recorder, hist, -3, 2));
    ASKS_FOR_NONE(povundiri_add(recorder, again, 50, 1));
    REFUSE_EACH(povundiri_batch(recorder, again, items, 1, 5, NULL));
    ASKS_FOR_NONE(povundiri_units(recorder, &left));
    ASKS_FOR_NONE(povundiri_next_shared(recorder, 0, records));
    REFUSE_EACH(povundiri_snapshot(recorder, hist, counts, WORDS, &totals));
    HOLDS(totals.length == 1 && counts[0].key == -3 && counts[0].count == 2 && totals.sum == -6);
    REFUSE_EACH(povundiri_delta(recorder, again, counts, WORDS, &totals));
    HOLDS(totals.length == 1 && counts[0].key == 10 && counts[0].count == 2 && totals.sum == 55);
    REFUSE_EACH(povundiri_records(recorder, records, 8, &needed));
    HOLDS(needed == 3);
    free(counts);
}

/* A merge of an image with one histogram. If memory runs out for the record, that is what stopped it; then nothing was added either. */
static void merge(struct povundiri_handle *segment, const uint64_t *words) {
    struct povundiri_merge_report report = {0};
    struct povundiri_handle recorder = {0};
    struct povundiri_count counts[4];
    struct povundiri_totals totals = {0, 0, 0};
    size_t hist = 0, stopped = 0, number;
    uint32_t status = 1;
    DONE(povundiri_recorder(segment, 100, &recorder));
    for (number = 0; status != POVUNDIRI_DONE && number < 1000; number += 1) {
        until_refused = number;
        status = povundiri_merge(&recorder, words, WORDS, 4, &report);
        until_refused = SIZE_MAX;
        HOLDS(status == POVUNDIRI_DONE || is_no_memory(status));
        HOLDS(status == POVUNDIRI_DONE || report.added == 0);
        HOLDS((report.stopped == POVUNDIRI_REFUSED_NO_MEMORY) == (status == POVUNDIRI_REFUSED_NO_MEMORY));
        stopped += report.stopped == POVUNDIRI_REFUSED_NO_MEMORY && strcmp(report.name, "c") == 0;
    }
    HOLDS(number > 10 && stopped > 1 && report.added == 2 && report.left == 0);
    DONE(povundiri_hist_custom(&recorder, "c", VALUES, 3, &hist));
    DONE(povundiri_snapshot(&recorder, hist, counts, 4, &totals));
    HOLDS(totals.redundant == 2 && totals.sum == 55 && counts[1].key == 10 && counts[1].count == 2);
    DONE(povundiri_join(segment, &recorder));
}

/* The same of a follower, which adds each unit once, whatever was refused before. */
static void follow_image(struct povundiri_handle *segment, const uint64_t *words) {
    struct povundiri_merge_report report = {0};
    struct povundiri_handle recorder = {0}, follower = {0};
    struct povundiri_count counts[4];
    struct povundiri_totals totals = {0, 0, 0};
    uint64_t added = 0;
    size_t hist = 0, stopped = 0, number;
    uint32_t status = 1;
    REFUSE_EACH(povundiri_follower_new(4, &follower));
    DONE(povundiri_recorder(segment, 100, &recorder));
    for (number = 0; status != POVUNDIRI_DONE && number < 1000; number += 1) {
        until_refused = number;
        status = povundiri_follower_merge(&follower, &recorder, words, WORDS, 2, &report);
        until_refused = SIZE_MAX;
        HOLDS(status == POVUNDIRI_DONE || is_no_memory(status));
        HOLDS((report.stopped == POVUNDIRI_REFUSED_NO_MEMORY) == (status == POVUNDIRI_REFUSED_NO_MEMORY));
        added += report.added;
        stopped += report.stopped == POVUNDIRI_REFUSED_NO_MEMORY && strcmp(report.name, "c") == 0;
    }
    HOLDS(number > 10 && stopped > 1 && added == 2 && report.left == 0);
    DONE(povundiri_hist_custom(&recorder, "c", VALUES, 3, &hist));
    DONE(povundiri_snapshot(&recorder, hist, counts, 4, &totals));
    HOLDS(totals.redundant == 2 && totals.sum == 55 && counts[1].key == 10 && counts[1].count == 2);
    DONE(povundiri_join(segment, &recorder));
    ASKS_FOR_NONE(povundiri_drop(&follower));
}

/* A follower that skips the image: all of it is noted, or nothing. */
static void skip_image(const uint64_t *words) {
    struct povundiri_handle follower = {0};
    uint64_t units = 9;
    DONE(povundiri_follower_new(4, &follower));
    REFUSE_EACH(povundiri_follower_skip(&follower, words, WORDS, &units));
    HOLDS(units == 2);
    DONE(povundiri_follower_skip(&follower, words, WORDS, &units));
    HOLDS(units == 0);
    DONE(povundiri_drop(&follower));
    REFUSE_EACH(povundiri_follower_of_marks(4, words, WORDS, &follower));
    DONE(povundiri_drop(&follower));
}

/* The words of an image of a custom histogram with two samples. */
static void image_of_two(struct povundiri_shape shape, uint64_t *words) {
    const struct povundiri_item items[] = {{50, 2}};
    struct povundiri_handle segment = {0}, recorder = {0};
    size_t hist = 0;
    DONE(povundiri_create(shape, &segment));
    DONE(povundiri_recorder(&segment, 100, &recorder));
    DONE(povundiri_hist_custom(&recorder, "c", VALUES, 3, &hist));
    DONE(povundiri_batch(&recorder, hist, items, 1, 55, NULL));
    DONE(povundiri_join(&segment, &recorder));
    DONE(povundiri_close(&segment, words, WORDS, NULL));
}

/* A segment into which these are merged, and another one into which they are followed. */
static void each_allocation_of_merges(void) {
    const struct povundiri_shape shape = {WORDS, PAGE, 7, 1, 2};
    struct povundiri_handle segment = {0};
    uint64_t words[WORDS], own[WORDS];
    image_of_two(shape, words);
    DONE(povundiri_create(shape, &segment));
    merge(&segment, words);
    DONE(povundiri_close(&segment, own, WORDS, NULL));
    DONE(povundiri_create(shape, &segment));
    follow_image(&segment, words);
    DONE(povundiri_close(&segment, own, WORDS, NULL));
    skip_image(words);
    HOLDS(blocks == 0);
}

static void each_allocation(void) {
    static const char expected[] = "c,custom,10,100,2\nc,total,2,55\ns,sparse,-3,-2,2\ns,total,2,-6\n";
    struct povundiri_shape shape = {WORDS, PAGE, 7, 1, 2};
    struct povundiri_handle segment = {0}, recorder = {0};
    struct povundiri_room room = {NULL, (WORDS + 2) * 8};
    uint64_t words[WORDS], look[WORDS];
    size_t needed = 0;
    char text[4096];
    void *memory = malloc(room.bytes + 16);
    room.at = (char *)memory + (16 - (uintptr_t)memory % 16) % 16;
    REFUSE_EACH(povundiri_create(shape, &segment));
    ASKS_FOR_NONE(povundiri_drop(&segment));
    REFUSE_EACH(povundiri_create_in(room, shape, &segment));
    REFUSE_EACH(povundiri_recorder(&segment, 100, &recorder));
    record(&recorder);
    ASKS_FOR_NONE(povundiri_lend(&segment, &recorder, 5));
    ASKS_FOR_NONE(povundiri_join(&segment, &recorder));
    ASKS_FOR_NONE(povundiri_close(&segment, words, WORDS, NULL));
    REFUSE_EACH(povundiri_adopt_in(room, words, WORDS, 1, &segment));
    ASKS_FOR_NONE(povundiri_drop(&segment));
    REFUSE_EACH(povundiri_adopt(words, WORDS, 1, &segment));
    REFUSE_EACH(povundiri_segment_look(&segment, words, WORDS, &needed));
    ASKS_FOR_NONE(povundiri_close(&segment, words, WORDS, NULL));
    REFUSE_EACH(povundiri_look(words, WORDS, look, WORDS, &needed));
    HOLDS(needed == WORDS && memcmp(look, words, sizeof words) == 0);
    REFUSE_EACH(povundiri_export(words, WORDS, NULL, text, sizeof text, &needed));
    REFUSE_EACH(povundiri_show(words, WORDS, 0, text, sizeof text, &needed));
    REFUSE_EACH(povundiri_report_bounded(words, WORDS, text, sizeof text, &needed, 1000));
    REFUSE_EACH(povundiri_report(words, WORDS, text, sizeof text, &needed));
    HOLDS(needed == sizeof expected - 1 && memcmp(text, expected, needed) == 0);
    HOLDS(refused > 20);
    HOLDS(blocks == 0);
    free(memory);
}

/* The sum of an image, of itself twice, and of what it wrote, each with every allocation refused: what is added is added once. */
static void each_of_sums(void) {
    static const char expected[] = "b,boolean,1,2,12\nb,total,12,12\ns,sparse,-3,-2,8\ns,total,8,-24\n!images,4\n";
    const struct povundiri_shape shape = {WORDS, PAGE, 7, 0, 2};
    struct povundiri_handle segment = {0}, recorder = {0}, sums = {0}, other = {0};
    uint64_t words[WORDS];
    size_t hist = 0, needed = 0, length = 0;
    char text[4096], totals[4096];
    DONE(povundiri_create(shape, &segment));
    DONE(povundiri_recorder(&segment, 100, &recorder));
    DONE(povundiri_hist_boolean(&recorder, "b", &hist));
    DONE(povundiri_add(&recorder, hist, 1, 3));
    DONE(povundiri_hist_sparse(&recorder, "s", &hist));
    DONE(povundiri_add(&recorder, hist, -3, 2));
    DONE(povundiri_join(&segment, &recorder));
    DONE(povundiri_close(&segment, words, WORDS, NULL));
    REFUSE_EACH(povundiri_sums_new(&sums));
    REFUSE_EACH(povundiri_sums_add(&sums, 0, words, WORDS));
    REFUSE_EACH(povundiri_sums_new(&other));
    REFUSE_EACH(povundiri_sums_append(&other, &sums));
    REFUSE_EACH(povundiri_sums_append(&other, &other));
    REFUSE_EACH(povundiri_sums_totals(&sums, totals, sizeof totals, &length));
    REFUSE_EACH(povundiri_sums_add_totals(&other, totals, length, NULL));
    REFUSE_EACH(povundiri_sums_append(&other, &sums));
    REFUSE_EACH(povundiri_sums_export(&other, NULL, text, sizeof text, &needed));
    REFUSE_EACH(povundiri_sums_show(&other, 0, text, sizeof text, &needed));
    REFUSE_EACH(povundiri_sums_report(&other, text, sizeof text, &needed));
    HOLDS(needed == sizeof expected - 1 && memcmp(text, expected, needed) == 0);
    ASKS_FOR_NONE(povundiri_sums_drop(&sums));
    ASKS_FOR_NONE(povundiri_sums_drop(&other));
    HOLDS(blocks == 0);
}

/* Adds with the allocation of this number refused, and checks what is counted. Returns whether there was one of this number. */
static bool adds_without(struct povundiri_handle *recorder, size_t hist, int32_t value, size_t number) {
    const int before = refused;
    until_refused = number;
    DONE(povundiri_add(recorder, hist, value, 2));
    until_refused = SIZE_MAX;
    return refused != before;
}

static void counts_twice(struct povundiri_handle *recorder, size_t hist) {
    struct povundiri_count *counts = calloc(WORDS, sizeof *counts);
    struct povundiri_totals totals = {0, 0, 0};
    DONE(povundiri_snapshot(recorder, hist, counts, WORDS, &totals));
    HOLDS(totals.length == 2 && counts[0].key == -3 && counts[0].count == 1 && counts[1].key == 5 && counts[1].count == 4);
    HOLDS(totals.sum == 17 && totals.redundant == 5);
    free(counts);
}

/* The second value, for which the recorder enters the first sample in its index. */
static void second_value(void) {
    bool asked = true;
    size_t number;
    for (number = 0; asked; number += 1) {
        struct sparse sparse = made_sparse();
        DONE(povundiri_add(&sparse.recorder, sparse.hist, -3, 1));
        asked = adds_without(&sparse.recorder, sparse.hist, 5, number);
        DONE(povundiri_add(&sparse.recorder, sparse.hist, 5, 2));
        counts_twice(&sparse.recorder, sparse.hist);
        DONE(povundiri_join(&sparse.segment, &sparse.recorder));
        DONE(povundiri_drop(&sparse.segment));
    }
    HOLDS(number > 1 && blocks == 0);
}

/* A batch of both values: it is refused if there is no memory for its items, and done if there is none for the index. */
static void batch_of_values(void) {
    static const struct povundiri_item items[] = {{-3, 1}, {5, 4}};
    bool asked = true;
    size_t number;
    for (number = 0; asked; number += 1) {
        struct sparse sparse = made_sparse();
        const int before = refused;
        uint32_t status;
        until_refused = number;
        status = povundiri_batch(&sparse.recorder, sparse.hist, items, 2, 17, NULL);
        until_refused = SIZE_MAX;
        asked = refused != before;
        check_status(__LINE__, "povundiri_batch", number == 0 ? POVUNDIRI_NO_MEMORY : POVUNDIRI_DONE, status);
        if (number == 0) DONE(povundiri_batch(&sparse.recorder, sparse.hist, items, 2, 17, NULL));
        counts_twice(&sparse.recorder, sparse.hist);
        DONE(povundiri_join(&sparse.segment, &sparse.recorder));
        DONE(povundiri_drop(&sparse.segment));
    }
    HOLDS(number > 2 && blocks == 0);
}

/* A second recorder, which finds on the list what the first one has made. */
static void second_recorder(void) {
    bool asked = true;
    size_t number;
    for (number = 0; asked; number += 1) {
        struct sparse sparse = made_sparse();
        struct povundiri_handle other = {false, NULL};
        size_t others = 0;
        DONE(povundiri_add(&sparse.recorder, sparse.hist, -3, 1));
        DONE(povundiri_add(&sparse.recorder, sparse.hist, 5, 2));
        DONE(povundiri_recorder(&sparse.segment, 100, &other));
        DONE(povundiri_hist_sparse(&other, "s", &others));
        asked = adds_without(&other, others, 5, number);
        counts_twice(&other, others);
        counts_twice(&sparse.recorder, sparse.hist);
        DONE(povundiri_join(&sparse.segment, &other));
        DONE(povundiri_join(&sparse.segment, &sparse.recorder));
        DONE(povundiri_drop(&sparse.segment));
    }
    HOLDS(number > 1 && blocks == 0);
}

/* ---- Each request of a run, refused alone ---- */

/* Each run makes the same calls, and notes their names, what they ask for and what they return. So one in which a request is refused, and its
 * call is made once more, has to return what one without returns, to the last word of the image. */
enum { MOST_CALLS = 256, MOST_REQUESTS = 1024, MOST_SAID = 65536 };

struct request {
    size_t call, bytes;
};

struct run {
    const char *calls[MOST_CALLS];
    struct request requests[MOST_REQUESTS];
    char said[MOST_SAID];
    size_t made, asked, length;
    /* The number of the request that is refused, and whether the later ones of its call are refused too. */
    size_t refused_at;
    bool is_lasting, is_refusing;
    /* How often a call said that memory was refused; the last of these calls, and its status. */
    size_t refusals, refused_call;
    uint32_t refused_as;
};

static struct run plain, other;

/* The calls that take memory. What each says if it is refused: the proved call below it, and for what C takes beside that, which is the
 * handle of a segment and of a recorder, the values of a custom spec, the items of a batch, and the text of a report. */
static const struct taker {
    const char *name;
    uint32_t below, beside;
} TAKERS[] = {
    {"create", POVUNDIRI_OPEN_NO_MEMORY, POVUNDIRI_NO_MEMORY},
    {"adopt", POVUNDIRI_ADOPT_NO_MEMORY, POVUNDIRI_NO_MEMORY},
    {"recorder", POVUNDIRI_NO_MEMORY, POVUNDIRI_NO_MEMORY},
    {"hist", POVUNDIRI_REFUSED_NO_MEMORY, POVUNDIRI_REFUSED_NO_MEMORY},
    {"custom hist", POVUNDIRI_REFUSED_NO_MEMORY, POVUNDIRI_NO_MEMORY},
    {"batch", POVUNDIRI_NO_MEMORY, POVUNDIRI_NO_MEMORY},
    {"sparse batch", POVUNDIRI_NO_MEMORY, POVUNDIRI_NO_MEMORY},
    {"sparse add", POVUNDIRI_DONE, POVUNDIRI_DONE}, /* it does without */
    {"snapshot", POVUNDIRI_REFUSED_NO_MEMORY, POVUNDIRI_REFUSED_NO_MEMORY},
    {"delta", POVUNDIRI_REFUSED_NO_MEMORY, POVUNDIRI_REFUSED_NO_MEMORY},
    {"records", POVUNDIRI_REFUSED_NO_MEMORY, POVUNDIRI_REFUSED_NO_MEMORY},
    {"report", POVUNDIRI_IMAGE_NO_MEMORY, POVUNDIRI_NO_MEMORY},
};
enum { TAKERS_LENGTH = sizeof TAKERS / sizeof TAKERS[0] };

/* Those that take none: an add to a histogram that is not sparse, and one to a histogram that the recorder does not know. */
static const char *const TAKING_NONE[] = {"add", "unknown", "units", "outstanding", "next_shared", "set_corrupt", "lend", "join", "close"};
enum { TAKING_NONE_LENGTH = sizeof TAKING_NONE / sizeof TAKING_NONE[0] };

static bool is_named(const struct run *run, size_t call, const char *name) {
    return strcmp(run->calls[call], name) == 0;
}

/* Whether a call does without the growth of an index. */
static bool is_indexed(const struct run *run, size_t call) {
    return is_named(run, call, "hist") || is_named(run, call, "custom hist") || is_named(run, call, "sparse add") ||
           is_named(run, call, "sparse batch");
}

static bool is_refused_in_run(size_t size) {
    const struct request request = {running->made - 1, size};
    const bool is_it = running->asked == running->refused_at;
    if (running->asked == MOST_REQUESTS) abort();
    running->requests[running->asked] = request;
    running->asked += 1;
    running->is_refusing = running->is_refusing || is_it;
    return is_it || (running->is_lasting && running->is_refusing);
}

static void says(const char *format, ...) __attribute__((format(printf, 1, 2)));
static void says(const char *format, ...) {
    const size_t room = MOST_SAID - running->length;
    va_list values;
    int length;
    va_start(values, format);
    length = vsnprintf(running->said + running->length, room, format, values);
    va_end(values);
    if (length < 0 || (size_t)length >= room) abort();
    running->length += (size_t)length;
}

static void begins(const char *name) {
    if (running->made == MOST_CALLS) abort();
    running->calls[running->made] = name;
    running->made += 1;
    running->is_refusing = false;
    says("\n%s", name);
}

/* Whether a call says that memory was refused. */
static bool was_refused(uint32_t status) {
    running->is_refusing = false;
    if (!is_no_memory(status)) return false;
    running->refusals += 1;
    running->refused_call = running->made - 1;
    running->refused_as = status;
    return true;
}

/* Makes a call, and once more if memory is refused. */
#define TRY(status, name, call)                                             \
    do {                                                                    \
        uint32_t came_;                                                     \
        begins(name);                                                       \
        came_ = (call);                                                     \
        if (was_refused(came_)) came_ = (call);                             \
        check_status(__LINE__, #call, (uint32_t)POVUNDIRI_##status, came_); \
    } while (0)

static uint32_t units_in(struct povundiri_handle *handle) {
    uint32_t units = 0;
    TRY(DONE, "units", povundiri_units(handle, &units));
    return units;
}

static const uint32_t BOUNDS[] = {20, 5, 10, 5};

static size_t histogram(struct povundiri_handle *recorder, const char *name, uint32_t kind) {
    const struct povundiri_spec spec = {kind, 0, 0, 0};
    const bool is_custom = kind == POVUNDIRI_CUSTOM;
    size_t hist = SIZE_MAX;
    TRY(DONE, is_custom ? "custom hist" : "hist", povundiri_hist(recorder, name, strlen(name), spec, BOUNDS, is_custom ? 4 : 0, &hist));
    says(" %s %zu", name, hist);
    return hist;
}

static void says_counts(const struct povundiri_count *counts, struct povundiri_totals totals) {
    size_t i;
    says(" %" PRId64 " %" PRIu64, totals.sum, totals.redundant);
    for (i = 0; i < totals.length; i += 1) says(" %" PRId32 ":%" PRIu64, counts[i].key, counts[i].count);
}

static void says_words(const uint64_t *words, size_t length) {
    size_t i;
    for (i = 0; i < length; i += 1) says(" %" PRIx64, words[i]);
}

/* All calls that take a histogram: they count 70,010 units. */
static void count_into(struct povundiri_handle *recorder, const char *name, uint32_t kind) {
    static const struct povundiri_item items[] = {{0, 1}, {7, 3}};
    const bool is_sparse = kind == POVUNDIRI_SPARSE;
    const char *const add = is_sparse ? "sparse add" : "add";
    const size_t hist = histogram(recorder, name, kind);
    struct povundiri_count counts[WORDS];
    struct povundiri_totals totals = {0, 0, 0};
    size_t added = 0;
    TRY(DONE, add, povundiri_add(recorder, hist, 1, 2));
    TRY(DONE, add, povundiri_add(recorder, hist, 12, 70000));
    TRY(DONE, is_sparse ? "sparse batch" : "batch", povundiri_batch(recorder, hist, items, 2, 5, &added));
    HOLDS(added == 2);
    says(" %" PRIu32, units_in(recorder));
    TRY(DONE, "snapshot", povundiri_snapshot(recorder, hist, counts, WORDS, &totals));
    says_counts(counts, totals);
    TRY(DONE, "delta", povundiri_delta(recorder, hist, counts, WORDS, &totals));
    says_counts(counts, totals);
    TRY(DONE, add, povundiri_add(recorder, hist, 5, 4));
    TRY(UNKNOWN, "unknown", povundiri_add(recorder, hist + 100, 5, 4));
}

/* What is counted: the units of record_all, and the samples that it makes. */
enum { SPENT = 4 * 70010 + 5, SAMPLES = 10, HISTOGRAMS = 8 };

/* The list of what a recorder knows grows more than once, and the index of its samples too. */
static void record_all(struct povundiri_handle *recorder) {
    static const char *const more[HISTOGRAMS - 3] = {"A", "B", "C", "D", "a_name_that_is_longer"};
    static const struct povundiri_item items[] = {{20, 1}, {21, 1}, {22, 1}, {23, 1}, {24, 1}};
    uint64_t records[HISTOGRAMS + SAMPLES];
    size_t i, hist, added = 0, needed = 0;
    count_into(recorder, "boolean", POVUNDIRI_BOOLEAN);
    count_into(recorder, "custom", POVUNDIRI_CUSTOM);
    count_into(recorder, "sparse", POVUNDIRI_SPARSE);
    count_into(recorder, "custom", POVUNDIRI_CUSTOM);
    hist = histogram(recorder, "sparse", POVUNDIRI_SPARSE);
    TRY(DONE, "sparse batch", povundiri_batch(recorder, hist, items, 5, 110, &added));
    HOLDS(added == 5);
    for (i = 0; i < HISTOGRAMS - 3; i += 1) histogram(recorder, more[i], POVUNDIRI_BOOLEAN);
    TRY(DONE, "records", povundiri_records(recorder, records, HISTOGRAMS + SAMPLES, &needed));
    HOLDS(needed == HISTOGRAMS + SAMPLES);
    says_words(records, needed);
}

/* The second recorder takes the first records of the shared cursor. */
static void follow(struct povundiri_handle *follower) {
    uint64_t records[2] = {0, 0};
    TRY(DONE, "next_shared", povundiri_next_shared(follower, 0, &records[0]));
    TRY(DONE, "next_shared", povundiri_next_shared(follower, 0, &records[1]));
    HOLDS(records[0] == 16);
    says_words(records, 2);
}

static void record_into(struct povundiri_handle *segment, bool spoils) {
    struct povundiri_handle recorder = {0}, follower = {0};
    uint32_t outstanding = 0;
    TRY(DONE, "recorder", povundiri_recorder(segment, 1000000, &recorder));
    TRY(DONE, "recorder", povundiri_recorder(segment, 0, &follower));
    record_all(&recorder);
    follow(&follower);
    if (spoils) TRY(DONE, "set_corrupt", povundiri_set_corrupt(&recorder));
    TRY(DONE, "lend", povundiri_lend(segment, &recorder, 5));
    HOLDS(units_in(&recorder) == 1000000 - SPENT + 5);
    TRY(DONE, "outstanding", povundiri_outstanding(segment, &outstanding));
    HOLDS(outstanding == 2);
    TRY(DONE, "join", povundiri_join(segment, &recorder));
    TRY(DONE, "join", povundiri_join(segment, &follower));
    HOLDS(units_in(segment) == UINT32_MAX - SPENT);
}

static void report_is(const uint64_t *words, bool is_spoiled) {
    static const char counted[] =
        "A,total,0,0\nB,total,0,0\nC,total,0,0\nD,total,0,0\na_name_that_is_longer,total,0,0\n"
        "boolean,boolean,0,1,1\nboolean,boolean,1,2,2\nboolean,boolean,2,2147483647,70007\nboolean,total,70010,840027\n"
        "custom,custom,0,5,6\ncustom,custom,5,10,14\ncustom,custom,10,20,140000\ncustom,total,140020,1680054\n"
        "sparse,sparse,0,1,1\nsparse,sparse,1,2,2\nsparse,sparse,5,6,4\nsparse,sparse,7,8,3\nsparse,sparse,12,13,70000\n"
        "sparse,sparse,20,21,1\nsparse,sparse,21,22,1\nsparse,sparse,22,23,1\nsparse,sparse,23,24,1\nsparse,sparse,24,25,1\n"
        "sparse,total,70015,840137\n";
    const char *const flag = is_spoiled ? "!flag,corrupt\n" : "";
    const size_t length = strlen(counted);
    char text[4096];
    size_t needed = 0;
    TRY(DONE, "report", povundiri_report(words, WORDS, text, sizeof text, &needed));
    HOLDS(needed == length + strlen(flag) && memcmp(text, counted, length) == 0 && memcmp(text + length, flag, strlen(flag)) == 0);
}

static void closes(struct povundiri_handle *segment, uint64_t *words) {
    TRY(DONE, "close", povundiri_close(segment, words, WORDS, NULL));
    says_words(words, WORDS);
}

/* Goes on from an image, whose deltas have left 130 of the sum of `sparse`, and seven values. */
static void adopt_and_record(const uint64_t *image) {
    struct povundiri_handle segment = {0}, recorder = {0};
    struct povundiri_count counts[WORDS];
    struct povundiri_totals totals = {0, 0, 0};
    uint64_t words[WORDS];
    size_t hist;
    TRY(DONE, "adopt", povundiri_adopt(image, WORDS, 1, &segment));
    HOLDS(units_in(&segment) == UINT32_MAX - SPENT);
    TRY(DONE, "recorder", povundiri_recorder(&segment, 2, &recorder));
    hist = histogram(&recorder, "sparse", POVUNDIRI_SPARSE);
    TRY(DONE, "sparse add", povundiri_add(&recorder, hist, 1, 2));
    TRY(DONE, "delta", povundiri_delta(&recorder, hist, counts, WORDS, &totals));
    HOLDS(totals.sum == 20 + 110 + 2 && totals.length == 7 && counts[0].key == 1 && counts[0].count == 2);
    says_counts(counts, totals);
    TRY(DONE, "join", povundiri_join(&segment, &recorder));
    closes(&segment, words);
}

/* Images that cannot be adopted: this is found when the list is read, or when all else is. */
static void adopt_changed(uint64_t *words) {
    enum { TAIL = 8, REDUNDANT = 29 };
    const uint64_t tail = words[TAIL];
    struct povundiri_handle segment = {0};
    TRY(ADOPT_BAD_CURSORS, "adopt", povundiri_adopt(words, WORDS, 9, &segment));
    words[TAIL] = 13;
    TRY(ADOPT_DAMAGED, "adopt", povundiri_adopt(words, WORDS, 1, &segment));
    words[TAIL] = tail;
    words[REDUNDANT] = (uint64_t)1 << 32;
    TRY(ADOPT_NO_UNITS, "adopt", povundiri_adopt(words, WORDS, 1, &segment));
}

/* Makes all calls. An image of version 1, or one that is marked as corrupt, cannot be adopted: so version 1 marks it, and 2 adopts it. */
static void make_run(struct run *run, uint64_t version, size_t refused_at, bool is_lasting) {
    const struct povundiri_shape shape = {WORDS, PAGE, 7, 1, version};
    struct povundiri_handle segment = {0};
    uint64_t words[WORDS];
    memset(run, 0, sizeof *run);
    run->refused_at = refused_at;
    run->is_lasting = is_lasting;
    running = run;
    TRY(DONE, "create", povundiri_create(shape, &segment));
    HOLDS(units_in(&segment) == UINT32_MAX);
    record_into(&segment, version == 1);
    closes(&segment, words);
    report_is(words, version == 1);
    if (version == 2) {
        adopt_and_record(words);
        adopt_changed(words);
    }
    running = NULL;
    HOLDS(blocks == 0 && kept == 0);
}

/* ---- What a run asks for ---- */

/* The bytes that a call of the plain run asks for in all. */
static size_t bytes_of(size_t call) {
    size_t i, bytes = 0;
    for (i = 0; i < plain.asked; i += 1) bytes += plain.requests[i].call == call ? plain.requests[i].bytes : 0;
    return bytes;
}

/* The bytes of each request of the calls of a name, one after the other; returns how many there are. */
static size_t bytes_each(const char *name, size_t *bytes) {
    size_t i, length = 0;
    for (i = 0; i < plain.asked; i += 1) {
        if (is_named(&plain, plain.requests[i].call, name)) bytes[length++] = plain.requests[i].bytes;
    }
    return length;
}

static void asks_for(int line, const char *name, const size_t *wanted, size_t length) {
    size_t bytes[MOST_REQUESTS];
    const size_t came = bytes_each(name, bytes);
    size_t i;
    check(line, name, came == length);
    for (i = 0; i < came && i < length; i += 1) {
        if (bytes[i] != wanted[i]) printf("request %zu of %s: wanted %zu bytes, came %zu\n", i, name, wanted[i], bytes[i]);
        check(line, name, bytes[i] == wanted[i]);
    }
}

/* Each call takes memory or takes none, and all of them are made. */
static void calls_are_right(bool adopts) {
    size_t i, call, bytes[MOST_REQUESTS], takers = 0, others = 0;
    for (i = 0; i < TAKERS_LENGTH; i += 1) takers += bytes_each(TAKERS[i].name, bytes) > 0;
    HOLDS(takers == (adopts ? TAKERS_LENGTH : TAKERS_LENGTH - 1));
    for (i = 0; i < TAKING_NONE_LENGTH; i += 1) {
        bool is_made = false;
        for (call = 0; call < plain.made; call += 1) is_made = is_made || is_named(&plain, call, TAKING_NONE[i]);
        others += is_made;
        check(__LINE__, TAKING_NONE[i], bytes_each(TAKING_NONE[i], bytes) == 0);
    }
    HOLDS(others == (adopts ? TAKING_NONE_LENGTH - 1 : TAKING_NONE_LENGTH));
}

/* `delta` and `snapshot` ask for 16 bytes for each key that the histogram may have, of the sparse one for each of its samples; `records`
 * for 8 for each block of five words that fits. A batch is copied for the proved one, 8 bytes an item. */
static void lists_are_right(bool adopts) {
    static const size_t keys[] = {16 * 3, 16 * 4, 16 * 4, 16 * 4, 16 * SAMPLES};
    static const size_t records[] = {(WORDS - 16) / 5 * 8};
    static const size_t items[] = {2 * 8, 2 * 8, 2 * 8};
    asks_for(__LINE__, "snapshot", keys, 4);
    asks_for(__LINE__, "delta", keys, adopts ? 5 : 4);
    asks_for(__LINE__, "records", records, 1);
    asks_for(__LINE__, "batch", items, 3);
}

/* A `hist` asks for 512 bytes at most, unless the list or an index of its recorder grows: the list of what it knows, the index of that, and
 * the index of names. The first lets all three grow, and so does that of the adopted segment; of the others two one of them. The values
 * of a custom spec are copied for the proved one. For a name that the recorder knows, that is all. */
static void hists_are_right(bool adopts) {
    enum { MOST_OF_HIST = 512, MOST_OF_GROWTH = 2048 };
    size_t call, first = 0, growing = 0;
    for (call = 0; call < plain.made; call += 1) {
        const bool is_custom = is_named(&plain, call, "custom hist");
        size_t bytes = bytes_of(call);
        if (!is_custom && !is_named(&plain, call, "hist")) continue;
        HOLDS(!is_custom || bytes >= sizeof BOUNDS);
        bytes -= is_custom ? sizeof BOUNDS : 0;
        first += bytes > 0;
        growing += bytes > MOST_OF_HIST;
        HOLDS(bytes <= MOST_OF_HIST + MOST_OF_GROWTH);
    }
    HOLDS(first == (adopts ? HISTOGRAMS + 1 : HISTOGRAMS) && growing <= (adopts ? 4 : 3));
}

/* The first `add` that visits a sample lets the index of samples grow, by as much as four samples need, and the last `batch` lets the list of
 * samples grow twice. Beside that a batch takes 8 bytes an item, as above. */
static void samples_are_right(void) {
    enum { MOST_OF_ADDS = 1536, MOST_OF_BATCHES = 384, OF_ITEMS = 2 * 8 + 5 * 8 };
    size_t call, adds = 0, batches = 0;
    for (call = 0; call < plain.made; call += 1) {
        if (is_named(&plain, call, "adopt")) break;
        if (is_named(&plain, call, "sparse add")) adds += bytes_of(call);
        if (is_named(&plain, call, "sparse batch")) batches += bytes_of(call);
    }
    HOLDS(adds > 0 && adds <= MOST_OF_ADDS);
    HOLDS(batches > OF_ITEMS && batches <= OF_ITEMS + MOST_OF_BATCHES);
}

/* A recorder takes no memory below C, and C one block for it: that of any handle, which `create` asks for last. */
static void recorders_are_right(bool adopts) {
    size_t i, created[MOST_REQUESTS], wanted[3];
    const size_t length = bytes_each("create", created);
    for (i = 0; i < 3; i += 1) wanted[i] = length > 0 ? created[length - 1] : 0;
    asks_for(__LINE__, "recorder", wanted, adopts ? 3 : 2);
}

/* `adopt` asks twice for the words of the table, 8 bytes for each word, for the cursor and for one more, and for nothing that is larger. */
static void adoptions_are_right(void) {
    enum { TABLE = 8 * (WORDS + 2) };
    size_t i, bytes[MOST_REQUESTS], tables = 0;
    const size_t length = bytes_each("adopt", bytes);
    for (i = 0; i < length; i += 1) {
        tables += bytes[i] == TABLE;
        HOLDS(bytes[i] <= TABLE);
    }
    HOLDS(tables == 2);
}

/* ---- The runs ---- */

/* Whether a run in which a request was refused is as it has to be: the call says so alone, or does without, and all else is as in the plain
 * run. */
static bool is_right(size_t number) {
    const size_t call = plain.requests[number].call;
    size_t i;
    if (other.length != plain.length || memcmp(other.said, plain.said, plain.length) != 0) return false;
    if (other.refusals == 0) return is_indexed(&plain, call);
    if (other.refusals != 1 || other.refused_call != call) return false;
    for (i = 0; i < TAKERS_LENGTH; i += 1) {
        if (is_named(&plain, call, TAKERS[i].name)) return other.refused_as == TAKERS[i].below || other.refused_as == TAKERS[i].beside;
    }
    return false;
}

/* A call may do with another request in place of the one that was refused; then all later ones are refused too. */
static void refuse(uint64_t version, size_t number) {
    const struct request *const one = &plain.requests[number];
    make_run(&other, version, number, false);
    if (other.refusals == 0 && other.requests[number + 1].call == one->call && other.asked > number + 1) make_run(&other, version, number, true);
    if (is_right(number)) return;
    printf("request %zu, %zu bytes of call %zu, %s\n", number, one->bytes, one->call, plain.calls[one->call]);
    HOLDS(is_right(number));
}

static void each_request(uint64_t version) {
    const bool adopts = version == 2;
    size_t number;
    make_run(&plain, version, SIZE_MAX, false);
    HOLDS(plain.refusals == 0);
    calls_are_right(adopts);
    lists_are_right(adopts);
    hists_are_right(adopts);
    samples_are_right();
    recorders_are_right(adopts);
    if (adopts) adoptions_are_right();
    for (number = 0; number < plain.asked; number += 1) refuse(version, number);
}

static void each_request_of_version_1(void) {
    each_request(1);
}

static void each_request_of_version_2(void) {
    each_request(2);
}

int main(void) {
    return group("each allocation", each_allocation) + group("each allocation of sums", each_of_sums) +
           group("each allocation of merges", each_allocation_of_merges) +
           group("a second value of a sparse histogram", second_value) +
           group("a batch of values of a sparse histogram", batch_of_values) +
           group("a second recorder of a sparse histogram", second_recorder) +
           group("each request of a run of version 1", each_request_of_version_1) +
           group("each request of a run of version 2", each_request_of_version_2);
}
