/* Every call of povundiri_merge.h, and each of its statuses but those of refused memory (refused_memory.c). What the merges add was worked
 * out by hand. */
#include "every_call.h"
#include "povundiri_merge.h"

/* The smallest segment has room for the records of three histograms, and no more. */
enum { SMALL = 64, USUAL = 128, SMALL_PAGE = 64, MANY = 1000, TEXT = 4096 };

/* All units of a segment. */
static const uint32_t MOST_UNITS = UINT32_MAX;

/* Words of an image that is changed by hand: the mark of the single word of the first record, and the first two counts. */
enum { MARK_AT = 26, FIRST_COUNT_AT = 36, SECOND_COUNT_AT = 37, FLAGS_AT = 6 };

static struct povundiri_handle segment_of(uint64_t size, uint64_t page, uint64_t version) {
    const struct povundiri_shape shape = {size, page, 7, 0, version};
    struct povundiri_handle segment = {0};
    DONE(povundiri_create(shape, &segment));
    return segment;
}

static void end(struct povundiri_handle *segment, struct povundiri_handle *recorder, uint64_t *words) {
    size_t needed = 0;
    DONE(povundiri_join(segment, recorder));
    DONE(povundiri_close(segment, words, WORDS, &needed));
}

/* An image of two samples of value 1, and then one of value 0. If `taken`, a delta took the first two. */
static size_t image_of_three(uint64_t *words, bool taken, uint64_t version) {
    struct povundiri_handle segment = segment_of(USUAL, SMALL_PAGE, version), recorder = recorder_of(&segment, MANY);
    struct povundiri_count counts[3];
    struct povundiri_totals totals = {0, 0, 0};
    size_t hist = 0;
    DONE(povundiri_hist_boolean(&recorder, "A", &hist));
    DONE(povundiri_add(&recorder, hist, 1, 1));
    DONE(povundiri_add(&recorder, hist, 1, 1));
    if (taken) DONE(povundiri_delta(&recorder, hist, counts, 3, &totals));
    DONE(povundiri_add(&recorder, hist, 0, 1));
    end(&segment, &recorder, words);
    return USUAL;
}

/* An image of a boolean histogram of each of these names, each with a sample of value 1. */
static size_t image_of_names(uint64_t *words, const char *names, size_t count) {
    struct povundiri_handle segment = segment_of(WORDS, PAGE, 2), recorder = recorder_of(&segment, MANY);
    size_t hist = 0, i;
    for (i = 0; i < count; i += 1) {
        const char name[] = {names[i], 0};
        DONE(povundiri_hist_boolean(&recorder, name, &hist));
        DONE(povundiri_add(&recorder, hist, 1, 1));
    }
    end(&segment, &recorder, words);
    return WORDS;
}

/* What a report says, beside its flags. */
static bool says(const struct povundiri_merge_report *report, uint64_t added, uint64_t left, uint64_t cost, size_t items,
                 uint32_t stopped, const char *name) {
    return report->added == added && report->left == left && report->cost == cost && report->items == items &&
           report->stopped == stopped && strcmp(report->name, name) == 0;
}

static bool reports(const uint64_t *words, size_t length, const char *wanted) {
    char text[TEXT];
    size_t needed = 0;
    DONE(povundiri_report(words, length, text, sizeof text, &needed));
    return needed == strlen(wanted) && memcmp(text, wanted, needed) == 0;
}

static void refused_before_it_begins(void) {
    struct povundiri_handle segment = segment_of(USUAL, SMALL_PAGE, 2), recorder = recorder_of(&segment, MANY), none = {0};
    struct povundiri_merge_report report = {0};
    uint64_t words[WORDS], records[4];
    size_t length = image_of_three(words, false, 2), needed = 0;
    uint32_t units = 0;
    ANSWERS(NULL, povundiri_merge(NULL, words, length, MANY, &report));
    ANSWERS(NULL, povundiri_merge(&recorder, NULL, 1, MANY, &report));
    ANSWERS(IMAGE_TOO_SHORT, povundiri_merge(&recorder, NULL, 0, MANY, &report));
    ANSWERS(IMAGE_BAD_SIZE, povundiri_merge(&recorder, words, length - 1, MANY, &report));
    ANSWERS(EMPTY, povundiri_merge(&none, words, length, MANY, &report));
    HOLDS(says(&report, 0, 0, 0, 0, POVUNDIRI_DONE, "") && report.unspent == 0);
    ANSWERS(TOO_MANY_KEYS, povundiri_merge(&recorder, words, length, 2, &report));
    HOLDS(says(&report, 0, 0, 0, 0, POVUNDIRI_DONE, ""));
    ANSWERS(OTHER_KIND, povundiri_merge(&segment, words, length, MANY, &report));
    HOLDS(says(&report, 0, 3, 3, 0, POVUNDIRI_DONE, ""));
    DONE(povundiri_units(&recorder, &units));
    DONE(povundiri_records(&recorder, records, 4, &needed));
    HOLDS(units == MANY && needed == 0);
    DONE(povundiri_merge(&recorder, words, length, 3, NULL));
    DONE(povundiri_units(&recorder, &units));
    HOLDS(units == MANY - 3);
    DONE(povundiri_drop(&recorder));
    DONE(povundiri_drop(&segment));
}

/* The struct of a later release, and what lies behind it. */
struct longer {
    struct povundiri_merge_report first;
    uint64_t later;
};

static void sizes_of_reports(void) {
    struct povundiri_handle segment = segment_of(USUAL, SMALL_PAGE, 2), recorder = recorder_of(&segment, MANY);
    struct longer report;
    uint64_t words[WORDS];
    size_t length = image_of_three(words, true, 2);
    uint32_t units = 0;
    memset(&report, 9, sizeof report);
    report.first.size = sizeof report.first - 1;
    ANSWERS(SHORT, povundiri_merge(&recorder, words, length, MANY, &report.first));
    report.first.size = 1;
    ANSWERS(SHORT, povundiri_merge(&recorder, words, length, MANY, &report.first));
    DONE(povundiri_units(&recorder, &units));
    HOLDS(report.first.added == UINT64_C(0x0909090909090909) && units == MANY);
    report.first.size = 0;
    DONE(povundiri_merge(&recorder, words, length, MANY, &report.first));
    HOLDS(says(&report.first, 1, 0, 1, 0, POVUNDIRI_DONE, "") && report.first.size == 0);
    report.first.size = sizeof report.first;
    DONE(povundiri_merge(&recorder, words, length, MANY, &report.first));
    HOLDS(says(&report.first, 1, 0, 1, 0, POVUNDIRI_DONE, "") && report.first.size == sizeof report.first);
    report.first.size = sizeof report;
    DONE(povundiri_merge(&recorder, words, length, MANY, &report.first));
    HOLDS(report.first.size == sizeof report && report.later == UINT64_C(0x0909090909090909));
    DONE(povundiri_drop(&recorder));
    DONE(povundiri_drop(&segment));
}

/* What the delta took is not added: of the three samples that of value 0. The image has used three units. */
static void what_no_delta_took(void) {
    struct povundiri_handle segment = segment_of(USUAL, SMALL_PAGE, 2), recorder = recorder_of(&segment, MANY);
    struct povundiri_merge_report report = {sizeof report, 0, 0, 0, 0, 0, 0, 0, false, false, ""};
    uint64_t words[WORDS], image[WORDS];
    size_t length = image_of_three(words, true, 2);
    memcpy(image, words, sizeof *words * length);
    DONE(povundiri_merge(&recorder, words, length, 3, &report));
    HOLDS(says(&report, 1, 0, 1, 0, POVUNDIRI_DONE, "") && !report.full && !report.corrupt);
    HOLDS(report.unspent == MOST_UNITS - 3);
    HOLDS(memcmp(image, words, sizeof *words * length) == 0);
    end(&segment, &recorder, words);
    HOLDS(words[25] == 1 && words[27] == 0 && words[29] == 1);
    HOLDS(reports(words, USUAL, "A,boolean,0,1,1\nA,total,1,0\n"));
}

/* Images one after the other; each time what is asked for is found again. One without histograms adds nothing. */
static void several_images(void) {
    struct povundiri_handle segment = segment_of(USUAL, SMALL_PAGE, 2), recorder = recorder_of(&segment, MANY);
    struct povundiri_merge_report report = {0};
    uint64_t words[WORDS];
    DONE(povundiri_merge(&recorder, words, image_of_names(words, "", 0), 0, &report));
    HOLDS(says(&report, 0, 0, 0, 0, POVUNDIRI_DONE, "") && report.unspent == MOST_UNITS);
    DONE(povundiri_merge(&recorder, words, image_of_three(words, true, 1), MANY, &report));
    HOLDS(says(&report, 1, 0, 1, 0, POVUNDIRI_DONE, ""));
    DONE(povundiri_merge(&recorder, words, image_of_three(words, false, 2), MANY, &report));
    HOLDS(says(&report, 3, 0, 3, 0, POVUNDIRI_DONE, ""));
    end(&segment, &recorder, words);
    HOLDS(reports(words, USUAL, "A,boolean,0,1,2\nA,boolean,1,2,2\nA,total,4,2\n"));
}

/* In version 1 the mark of a single word that is set by hand takes both units of its bucket; its sum is still new. */
static void forged_marks(void) {
    struct povundiri_handle segment = segment_of(USUAL, SMALL_PAGE, 2), recorder = recorder_of(&segment, MANY);
    struct povundiri_merge_report report = {0};
    uint64_t words[WORDS];
    size_t length = image_of_three(words, false, 1);
    words[MARK_AT] = 65535;
    DONE(povundiri_merge(&recorder, words, length, MANY, &report));
    HOLDS(says(&report, 1, 0, 1, 0, POVUNDIRI_DONE, ""));
    end(&segment, &recorder, words);
    HOLDS(reports(words, USUAL, "A,boolean,0,1,1\nA,total,1,2\n"));
}

/* An image may claim more units than any segment has: it is refused before anything is made. */
static void more_units_than_there_are(void) {
    struct povundiri_handle segment = segment_of(USUAL, SMALL_PAGE, 2), recorder = recorder_of(&segment, MOST_UNITS);
    struct povundiri_merge_report report = {0};
    uint64_t words[WORDS], records[4];
    size_t length = image_of_three(words, false, 1), needed = 9;
    words[FIRST_COUNT_AT] = words[SECOND_COUNT_AT] = MOST_UNITS;
    ANSWERS(REFUSED_NO_UNITS, povundiri_merge(&recorder, words, length, MANY, &report));
    HOLDS(says(&report, 0, UINT64_C(8589934590), UINT64_C(8589934590), 0, POVUNDIRI_DONE, "") && report.unspent == 0);
    DONE(povundiri_records(&recorder, records, 4, &needed));
    HOLDS(needed == 0);
    DONE(povundiri_drop(&recorder));
    DONE(povundiri_drop(&segment));
}

/* A sum alone costs units: one for each 2^31, begun or full. */
static void sums_cost(void) {
    struct povundiri_handle dead = segment_of(USUAL, SMALL_PAGE, 2), old = recorder_of(&dead, MANY);
    struct povundiri_handle segment = segment_of(USUAL, SMALL_PAGE, 2), recorder = recorder_of(&segment, 4);
    struct povundiri_merge_report report = {0};
    uint64_t words[WORDS];
    size_t hist = 0;
    uint32_t units = 9;
    DONE(povundiri_hist_boolean(&old, "A", &hist));
    DONE(povundiri_batch(&old, hist, NULL, 0, INT64_C(-8589934593), NULL));
    end(&dead, &old, words);
    ANSWERS(REFUSED_NO_UNITS, povundiri_merge(&recorder, words, USUAL, MANY, &report));
    HOLDS(says(&report, 0, 0, 5, 0, POVUNDIRI_DONE, "") && report.unspent == MOST_UNITS - 5);
    DONE(povundiri_lend(&segment, &recorder, 1));
    DONE(povundiri_merge(&recorder, words, USUAL, MANY, &report));
    HOLDS(says(&report, 0, 0, 5, 0, POVUNDIRI_DONE, ""));
    DONE(povundiri_units(&recorder, &units));
    HOLDS(units == 0);
    end(&segment, &recorder, words);
    HOLDS(reports(words, USUAL, "A,total,0,-8589934593\n"));
}

/* There is no room for the fourth record: what came before it is added. The flag is that of the target, and then of its image. */
static void full_at_a_record(void) {
    struct povundiri_handle segment = segment_of(SMALL, SMALL_PAGE, 2), recorder = recorder_of(&segment, MANY);
    struct povundiri_handle other = segment_of(USUAL, SMALL_PAGE, 2), second = recorder_of(&other, MANY);
    struct povundiri_merge_report report = {0};
    uint64_t words[WORDS];
    uint32_t units = 0;
    ANSWERS(REFUSED_FULL, povundiri_merge(&recorder, words, image_of_names(words, "ABCD", 4), MANY, &report));
    HOLDS(says(&report, 3, 1, 4, 0, POVUNDIRI_REFUSED_FULL, "D") && !report.full);
    DONE(povundiri_units(&recorder, &units));
    HOLDS(units == MANY - 3);
    end(&segment, &recorder, words);
    HOLDS(reports(words, SMALL, "A,boolean,1,2,1\nA,total,1,1\nB,boolean,1,2,1\nB,total,1,1\nC,boolean,1,2,1\nC,total,1,1\n!flag,full\n"));
    DONE(povundiri_merge(&second, words, SMALL, MANY, &report));
    HOLDS(says(&report, 3, 0, 3, 0, POVUNDIRI_DONE, "") && report.full && !report.corrupt);
    DONE(povundiri_drop(&second));
    DONE(povundiri_drop(&other));
}

/* There is no room for the counts of a second bucket: the first key is added, and the sum is not. */
static void full_at_a_key(void) {
    struct povundiri_handle segment = segment_of(SMALL, SMALL_PAGE, 2), recorder = recorder_of(&segment, MANY);
    struct povundiri_merge_report report = {0};
    struct povundiri_count counts[3];
    struct povundiri_totals totals = {0, 0, 0};
    uint64_t words[WORDS];
    size_t hist = 0, first = 0, length = image_of_three(words, false, 2);
    DONE(povundiri_hist_boolean(&recorder, "A", &first));
    DONE(povundiri_hist_boolean(&recorder, "B", &hist));
    DONE(povundiri_hist_boolean(&recorder, "C", &hist));
    ANSWERS(REFUSED_FULL, povundiri_merge(&recorder, words, length, MANY, &report));
    HOLDS(says(&report, 1, 2, 3, 1, POVUNDIRI_REFUSED_FULL, "A"));
    DONE(povundiri_snapshot(&recorder, first, counts, 3, &totals));
    HOLDS(counts[0].count == 1 && counts[1].count == 0 && totals.sum == 0 && totals.redundant == 1);
    DONE(povundiri_drop(&recorder));
    DONE(povundiri_drop(&segment));
}

/* Other refusals of a histogram, each at the second of three: the first is added, and the third is not. */
static void stops(void) {
    struct povundiri_handle segment = segment_of(WORDS, PAGE, 2), recorder = recorder_of(&segment, MANY), copy;
    struct povundiri_merge_report report = {0};
    uint64_t words[WORDS];
    size_t hist = 0, length = image_of_names(words, "ABC", 3);
    DONE(povundiri_hist_sparse(&recorder, "B", &hist));
    ANSWERS(REFUSED_OTHER_SPEC, povundiri_merge(&recorder, words, length, MANY, &report));
    HOLDS(says(&report, 1, 2, 3, 0, POVUNDIRI_REFUSED_OTHER_SPEC, "B"));
    DONE(povundiri_drop(&recorder));
    DONE(povundiri_drop(&segment));
    segment = segment_of(WORDS, PAGE, 2);
    recorder = recorder_of(&segment, MANY);
    DONE(povundiri_hist_boolean(&recorder, "A", &hist));
    copy = recorder_of(&segment, MANY);
    DONE(povundiri_set_corrupt(&recorder));
    ANSWERS(REFUSED_CORRUPT, povundiri_merge(&copy, words, length, MANY, &report));
    HOLDS(says(&report, 1, 2, 3, 0, POVUNDIRI_REFUSED_CORRUPT, "B") && !report.corrupt);
    DONE(povundiri_join(&segment, &copy));
    end(&segment, &recorder, words);
    segment = segment_of(WORDS, PAGE, 2);
    recorder = recorder_of(&segment, MANY);
    DONE(povundiri_merge(&recorder, words, WORDS, MANY, &report));
    HOLDS(says(&report, 1, 0, 1, 0, POVUNDIRI_DONE, "") && report.corrupt && !report.full);
    DONE(povundiri_drop(&recorder));
    DONE(povundiri_drop(&segment));
}

/* Thirty-one buckets take 66 words of counts, more than a page of 64. The longest name is reported whole. */
static void too_large(void) {
    struct povundiri_handle dead = segment_of(WORDS, PAGE, 2), old = recorder_of(&dead, MANY);
    struct povundiri_handle segment = segment_of(USUAL, SMALL_PAGE, 2), recorder = recorder_of(&segment, MANY);
    struct povundiri_merge_report report = {0};
    uint64_t words[WORDS];
    char name[POVUNDIRI_LONGEST_NAME + 1];
    size_t hist = 0;
    memset(name, 'n', POVUNDIRI_LONGEST_NAME);
    name[POVUNDIRI_LONGEST_NAME] = 0;
    DONE(povundiri_hist_linear(&old, name, 1, 100, 31, &hist));
    DONE(povundiri_add(&old, hist, 50, 2));
    end(&dead, &old, words);
    ANSWERS(REFUSED_TOO_LARGE, povundiri_merge(&recorder, words, WORDS, 31, &report));
    HOLDS(says(&report, 0, 2, 2, 0, POVUNDIRI_REFUSED_TOO_LARGE, name));
    ANSWERS(TOO_MANY_KEYS, povundiri_merge(&recorder, words, WORDS, 30, &report));
    DONE(povundiri_drop(&recorder));
    DONE(povundiri_drop(&segment));
}

int main(void) {
    static const struct test TESTS[] = {
        {"refused before it begins", refused_before_it_begins},
        {"sizes of reports", sizes_of_reports},
        {"what no delta took", what_no_delta_took},
        {"several images", several_images},
        {"forged marks", forged_marks},
        {"more units than there are", more_units_than_there_are},
        {"sums cost", sums_cost},
        {"full at a record", full_at_a_record},
        {"full at a key", full_at_a_key},
        {"stops", stops},
        {"too large", too_large},
    };
    return run(TESTS, sizeof TESTS / sizeof TESTS[0]);
}
