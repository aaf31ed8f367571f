/* Followers where something is missing: each allocation of each of their calls is refused alone, and the segment into which they merge is
 * full at each place, or has too few units. In the end each unit of the child is there once. An image with more keys than a follower takes is
 * refused before memory is taken for its counts. The library's heap is that of heap.h. */
#include <stdlib.h>

#include "checks.h"
#include "povundiri_merge.h"

enum { WORDS = 1024, PAGE = 256, MANY_KEYS = 1000, UNITS = 316, FIRST_UNITS = 36 };

/* Which of the next allocations is refused, from 0 on; SIZE_MAX: none. */
static size_t until_refused = SIZE_MAX;

static bool is_refused(size_t size) {
    (void)size;
    return until_refused != SIZE_MAX && until_refused-- == 0;
}

#include "heap.h"

static bool is_no_memory(uint32_t status) {
    return status == POVUNDIRI_NO_MEMORY || status == POVUNDIRI_IMAGE_NO_MEMORY || status == POVUNDIRI_REFUSED_NO_MEMORY;
}

/* ---- The child ---- */

static const uint32_t VALUES[] = {10, 100, 1000};

/* What the child counts before the first look, and what before the second. */
static const struct sample {
    size_t hist;
    int32_t value;
    uint32_t units;
} FIRST[] = {{0, 0, 1}, {0, 1, 2}, {1, 5, 3}, {1, 500, 4}, {2, 50, 5}, {2, 5000, 6}, {3, -3, 7}, {3, 9, 8}},
  SECOND[] = {{0, 1, 10}, {1, 5, 20}, {1, 999, 30}, {2, 9, 40}, {2, 50, 50}, {3, -3, 60}, {3, 1000, 70}};

/* What both come to, worked out by hand. */
static const char EXPECTED[] =
    "b,boolean,0,1,1\nb,boolean,1,2,12\nb,total,13,12\n"
    "c,custom,0,10,40\nc,custom,10,100,55\nc,custom,1000,2147483647,6\nc,total,101,33110\n"
    "l,linear,1,126,23\nl,linear,376,501,4\nl,linear,875,1000,30\nl,total,57,32085\n"
    "s,sparse,-3,-2,67\ns,sparse,9,10,8\ns,sparse,1000,1001,70\ns,total,145,69871\n";

static uint64_t first_look[WORDS], second_look[WORDS];

static void count(struct povundiri_handle *recorder, const size_t *hists, const struct sample *samples, size_t length) {
    size_t i;
    for (i = 0; i < length; i += 1) DONE(povundiri_add(recorder, hists[samples[i].hist], samples[i].value, samples[i].units));
}

static struct povundiri_handle segment_of(uint64_t id) {
    const struct povundiri_shape shape = {WORDS, PAGE, id, 0, 2};
    struct povundiri_handle segment = {0};
    DONE(povundiri_create(shape, &segment));
    return segment;
}

static void look_twice(void) {
    struct povundiri_handle segment = segment_of(7), recorder = {0};
    size_t hists[4];
    DONE(povundiri_recorder(&segment, UNITS, &recorder));
    DONE(povundiri_hist_boolean(&recorder, "b", &hists[0]));
    DONE(povundiri_hist_linear(&recorder, "l", 1, 1000, 10, &hists[1]));
    DONE(povundiri_hist_custom(&recorder, "c", VALUES, 3, &hists[2]));
    DONE(povundiri_hist_sparse(&recorder, "s", &hists[3]));
    count(&recorder, hists, FIRST, sizeof FIRST / sizeof FIRST[0]);
    DONE(povundiri_segment_look(&segment, first_look, WORDS, NULL));
    count(&recorder, hists, SECOND, sizeof SECOND / sizeof SECOND[0]);
    DONE(povundiri_segment_look(&segment, second_look, WORDS, NULL));
    DONE(povundiri_drop(&recorder));
    DONE(povundiri_drop(&segment));
    HOLDS(blocks == 0);
}

/* ---- The parent ---- */

/* A segment, a recorder of it, and the follower of the child. */
struct parent {
    struct povundiri_handle segment, recorder, follower;
};

static struct parent parent_of(uint64_t id, uint32_t units) {
    struct parent parent = {segment_of(id), {0}, {0}};
    DONE(povundiri_recorder(&parent.segment, units, &parent.recorder));
    return parent;
}

static void drop(struct parent *parent) {
    DONE(povundiri_drop(&parent->recorder));
    DONE(povundiri_drop(&parent->segment));
    DONE(povundiri_drop(&parent->follower));
}

/* Whether the parent's report begins with what the child has counted. */
static bool has_all(struct parent *parent) {
    uint64_t image[WORDS];
    char text[4096];
    size_t needed = 0;
    DONE(povundiri_segment_look(&parent->segment, image, WORDS, NULL));
    DONE(povundiri_report(image, WORDS, text, sizeof text, &needed));
    return needed == sizeof EXPECTED - 1 && memcmp(text, EXPECTED, needed) == 0;
}

/* ---- Refused memory ---- */

/* Whether an allocation was refused in this life. */
static bool refused_here;

/* Makes a call with one allocation refused, if it makes so many, and then once more. */
#define REFUSE_ONE(number, call, added)                                                                 \
    do {                                                                                                \
        uint32_t status_;                                                                               \
        bool refused_;                                                                                  \
        until_refused = (number);                                                                       \
        status_ = (call);                                                                               \
        refused_ = until_refused == SIZE_MAX && (number) != SIZE_MAX;                                   \
        until_refused = SIZE_MAX;                                                                       \
        HOLDS(status_ == POVUNDIRI_DONE || (refused_ && is_no_memory(status_)));                        \
        HOLDS(status_ == POVUNDIRI_DONE || status_ == POVUNDIRI_REFUSED_NO_MEMORY || (added) == 0);     \
        if (status_ != POVUNDIRI_DONE) DONE(call);                                                      \
        refused_here |= refused_;                                                                       \
    } while (0)

#define IN(call) (which == (call) ? number : SIZE_MAX)

/* Skips the second look, with a follower of its own. */
static void skip(size_t number) {
    struct povundiri_handle follower = {0};
    uint64_t units = 0;
    DONE(povundiri_follower_new(MANY_KEYS, &follower));
    DONE(povundiri_follower_skip(&follower, first_look, WORDS, &units));
    HOLDS(units == FIRST_UNITS);
    REFUSE_ONE(number, povundiri_follower_skip(&follower, second_look, WORDS, &units), 0);
    HOLDS(units == UNITS - FIRST_UNITS);
    DONE(povundiri_drop(&follower));
}

/* A life of a follower, with one allocation refused in one of its calls. Returns whether one was. */
static bool live(int which, size_t number) {
    struct parent parent = parent_of(1, MANY_KEYS);
    struct povundiri_handle *follower = &parent.follower, *recorder = &parent.recorder;
    struct povundiri_merge_report report = {0};
    refused_here = false;
    REFUSE_ONE(IN(0), povundiri_follower_new(MANY_KEYS, follower), 0);
    REFUSE_ONE(IN(1), povundiri_follower_merge(follower, recorder, first_look, WORDS, UNITS, &report), report.added);
    REFUSE_ONE(IN(2), povundiri_follower_merge(follower, recorder, second_look, WORDS, UNITS, &report), report.added);
    REFUSE_ONE(IN(3), povundiri_follower_merge(follower, recorder, second_look, WORDS, 0, &report), report.added);
    HOLDS(report.added == 0 && report.left == 0 && report.cost == 0 && has_all(&parent));
    skip(IN(4));
    drop(&parent);
    HOLDS(blocks == 0);
    return refused_here;
}

static void each_allocation(void) {
    static const size_t LEAST[] = {1, 10, 10, 2, 2};
    int which;
    for (which = 0; which < 5; which += 1) {
        size_t number = 0;
        while (live(which, number)) number += 1;
        HOLDS(number >= LEAST[which]);
    }
}

/* ---- A full segment ---- */

/* Fills a segment with values of a sparse histogram, whose name comes last. */
static void fill(struct parent *parent, int values) {
    size_t hist = 0;
    int i;
    DONE(povundiri_hist_sparse(&parent->recorder, "zz", &hist));
    for (i = 0; i < values; i += 1) DONE(povundiri_add(&parent->recorder, hist, i, 1));
}

/* Whether the sum of two segments begins with what the child has counted. */
static bool both_have_all(struct parent *one, struct parent *other) {
    struct povundiri_handle sums = {0};
    uint64_t image[WORDS];
    char text[8192];
    size_t needed = 0;
    DONE(povundiri_sums_new(&sums));
    DONE(povundiri_segment_look(&one->segment, image, WORDS, NULL));
    DONE(povundiri_sums_add(&sums, 1, image, WORDS));
    DONE(povundiri_segment_look(&other->segment, image, WORDS, NULL));
    DONE(povundiri_sums_add(&sums, 2, image, WORDS));
    DONE(povundiri_sums_report(&sums, text, sizeof text, &needed));
    DONE(povundiri_sums_drop(&sums));
    return needed > sizeof EXPECTED && memcmp(text, EXPECTED, sizeof EXPECTED - 1) == 0;
}

/* What happened to the first histogram that was passed over: it had no room for its record, or for some of its keys. */
static int without_record, cut_short;

/* Follows into a segment with little room, and then into the next one. */
static void overflow(int values) {
    struct parent parent = parent_of(1, UNITS + WORDS), next = parent_of(2, UNITS);
    struct povundiri_merge_report report = {0};
    uint64_t added;
    uint32_t status;
    fill(&parent, values);
    DONE(povundiri_follower_new(MANY_KEYS, &parent.follower));
    status = povundiri_follower_merge(&parent.follower, &parent.recorder, first_look, WORDS, UNITS, &report);
    HOLDS(status == POVUNDIRI_DONE || status == POVUNDIRI_REFUSED_FULL);
    HOLDS((status == POVUNDIRI_DONE) == (report.passed == 0) && report.added + report.left == FIRST_UNITS);
    without_record += status != POVUNDIRI_DONE && report.items == 0;
    cut_short += status != POVUNDIRI_DONE && report.items != 0;
    added = report.added;
    status = povundiri_follower_merge(&parent.follower, &parent.recorder, second_look, WORDS, UNITS, &report);
    HOLDS(status == POVUNDIRI_DONE || status == POVUNDIRI_REFUSED_FULL);
    added += report.added;
    HOLDS(added + report.left == UNITS && report.cost >= report.left);
    DONE(povundiri_follower_merge(&parent.follower, &next.recorder, second_look, WORDS, UNITS, &report));
    HOLDS(added + report.added == UNITS && report.left == 0 && report.passed == 0 && both_have_all(&parent, &next));
    DONE(povundiri_follower_new(MANY_KEYS, &next.follower));
    drop(&parent);
    drop(&next);
}

static void full_at_each_place(void) {
    const int most = (WORDS - 16) / 8 - 3;
    int values;
    without_record = cut_short = 0;
    for (values = most - 50; values <= most; values += 1) overflow(values);
    HOLDS(without_record > 5 && cut_short > 5);
}

/* ---- Too few units ---- */

static void too_few_units(void) {
    uint32_t units;
    for (units = 0; units < UNITS; units += 1) {
        struct parent parent = parent_of(1, units);
        struct povundiri_merge_report report = {0};
        uint64_t before[WORDS], after[WORDS];
        DONE(povundiri_follower_new(MANY_KEYS, &parent.follower));
        DONE(povundiri_segment_look(&parent.segment, before, WORDS, NULL));
        ANSWERS(REFUSED_NO_UNITS,
                povundiri_follower_merge(&parent.follower, &parent.recorder, second_look, WORDS, UNITS, &report));
        HOLDS(report.name[0] == 0 && report.added == 0 && report.cost == UNITS);
        DONE(povundiri_segment_look(&parent.segment, after, WORDS, NULL));
        HOLDS(memcmp(before, after, sizeof before) == 0);
        DONE(povundiri_lend(&parent.segment, &parent.recorder, UNITS - units));
        DONE(povundiri_follower_merge(&parent.follower, &parent.recorder, second_look, WORDS, UNITS, &report));
        HOLDS(report.added == UNITS && report.left == 0 && has_all(&parent));
        drop(&parent);
    }
    HOLDS(blocks == 0);
}

/* ---- Too many keys ---- */

enum { LARGE = 8192, LARGE_PAGE = 4096, HISTS = 400, BUCKETS = 1000, KEYS = HISTS * BUCKETS };

/* A look at a segment of so many histograms, in which nobody has counted: each has all its buckets as keys. */
static void look_at_many(uint64_t *words) {
    const struct povundiri_shape shape = {LARGE, LARGE_PAGE, 7, 0, 2};
    struct povundiri_handle segment = {0}, recorder = {0};
    size_t hist = 0;
    int i;
    DONE(povundiri_create(shape, &segment));
    DONE(povundiri_recorder(&segment, 1, &recorder));
    for (i = 0; i < HISTS; i += 1) {
        char name[16];
        snprintf(name, sizeof name, "h%03d", i);
        DONE(povundiri_hist_linear(&recorder, name, 1, 2147483646, BUCKETS, &hist));
    }
    DONE(povundiri_segment_look(&segment, words, LARGE, NULL));
    DONE(povundiri_drop(&recorder));
    DONE(povundiri_drop(&segment));
}

/* A key takes at least 24 bytes; what is refused, no more than ten times the image. */
static void too_many_keys(void) {
    static uint64_t words[LARGE];
    struct parent parent = parent_of(1, UNITS);
    struct povundiri_handle strict = {0};
    struct povundiri_merge_report report = {0};
    uint64_t units = 9;
    size_t before;
    look_at_many(words);
    DONE(povundiri_follower_new(KEYS - 1, &strict));
    DONE(povundiri_follower_new(KEYS, &parent.follower));
    most_kept = before = kept;
    ANSWERS(TOO_MANY_KEYS, povundiri_follower_merge(&strict, &parent.recorder, words, LARGE, UNITS, &report));
    ANSWERS(TOO_MANY_KEYS, povundiri_follower_skip(&strict, words, LARGE, &units));
    ANSWERS(TOO_MANY_KEYS, povundiri_merge(&parent.recorder, words, LARGE, KEYS - 1, &report));
    HOLDS(kept == before && most_kept < before + 10 * sizeof words && units == 9);
    DONE(povundiri_follower_merge(&parent.follower, &parent.recorder, words, LARGE, UNITS, &report));
    HOLDS(most_kept > before + 24 * (size_t)KEYS && report.added == 0);
    DONE(povundiri_drop(&strict));
    drop(&parent);
    HOLDS(blocks == 0);
}

int main(void) {
    int failed = group("looks at the child", look_twice);
    failed += group("each allocation", each_allocation);
    failed += group("full at each place", full_at_each_place);
    failed += group("too few units", too_few_units);
    failed += group("too many keys", too_many_keys);
    return failed != 0;
}
