/* Every call of a follower (povundiri_merge.h), and each of its statuses but those of refused memory. What is added was worked out by
 * hand. */
#include "every_call.h"
#include "povundiri_merge.h"

/* The smallest segment has room for the records of three histograms, and no more. */
enum { SMALL = 64, USUAL = 128, SMALL_PAGE = 64, MANY = 1000 };

static struct povundiri_handle segment_of(uint64_t size, uint64_t page, uint64_t id) {
    const struct povundiri_shape shape = {size, page, id, 0, 2};
    struct povundiri_handle segment = {0};
    DONE(povundiri_create(shape, &segment));
    return segment;
}

static struct povundiri_handle follower_of(uint64_t most_keys) {
    struct povundiri_handle follower = {0};
    DONE(povundiri_follower_new(most_keys, &follower));
    ANSWERS(NOT_EMPTY, povundiri_follower_new(most_keys, &follower));
    return follower;
}

/* A child: its segment, its recorder and a boolean histogram; and words for looks at it. */
struct child {
    struct povundiri_handle segment, recorder;
    size_t hist;
    uint64_t words[WORDS];
};

static void begin(struct child *child, uint64_t size, uint64_t id) {
    child->segment = segment_of(size, SMALL_PAGE, id);
    child->recorder = recorder_of(&child->segment, MANY);
    DONE(povundiri_hist_boolean(&child->recorder, "A", &child->hist));
}

/* Counts samples of a value, and looks. */
static size_t count(struct child *child, int32_t value, uint32_t units) {
    size_t needed = 0;
    if (units != 0) DONE(povundiri_add(&child->recorder, child->hist, value, units));
    DONE(povundiri_segment_look(&child->segment, child->words, WORDS, &needed));
    return needed;
}

static void drop(struct povundiri_handle *one, struct povundiri_handle *two) {
    DONE(povundiri_drop(one));
    DONE(povundiri_drop(two));
}

/* The units of the values 0 and 1 of the parent's histogram, and its sum. */
static bool has(struct povundiri_handle *recorder, uint64_t none, uint64_t one, int64_t sum) {
    struct povundiri_count counts[3];
    struct povundiri_totals totals = {0, 0, 0};
    size_t hist = 0;
    DONE(povundiri_hist_boolean(recorder, "A", &hist));
    DONE(povundiri_snapshot(recorder, hist, counts, 3, &totals));
    return counts[0].count == none && counts[1].count == one && totals.sum == sum;
}

static void nulls(void) {
    struct povundiri_handle follower = follower_of(MANY), recorder = {0}, none = {0};
    struct povundiri_merge_report report = {0};
    uint64_t words[USUAL] = {0}, units = 9;
    ANSWERS(NULL, povundiri_follower_new(1, NULL));
    ANSWERS(NULL, povundiri_follower_merge(NULL, &recorder, words, USUAL, 1, &report));
    ANSWERS(NULL, povundiri_follower_merge(&follower, NULL, words, USUAL, 1, &report));
    ANSWERS(NULL, povundiri_follower_merge(&follower, &recorder, NULL, 1, 1, &report));
    ANSWERS(NULL, povundiri_follower_skip(NULL, words, USUAL, &units));
    ANSWERS(NULL, povundiri_follower_skip(&follower, NULL, 1, &units));
    ANSWERS(EMPTY, povundiri_follower_merge(&none, &recorder, words, USUAL, 1, &report));
    ANSWERS(EMPTY, povundiri_follower_merge(&follower, &recorder, words, USUAL, 1, &report));
    ANSWERS(EMPTY, povundiri_follower_merge(&none, &none, words, USUAL, 1, &report));
    ANSWERS(OTHER_KIND, povundiri_follower_merge(&follower, &follower, words, USUAL, 1, &report));
    ANSWERS(EMPTY, povundiri_follower_skip(&none, words, USUAL, &units));
    ANSWERS(IMAGE_BAD_COOKIE, povundiri_follower_skip(&follower, words, USUAL, &units));
    report.size = sizeof report - 1;
    ANSWERS(SHORT, povundiri_follower_merge(&follower, &recorder, words, USUAL, 1, &report));
    HOLDS(units == 9);
    DONE(povundiri_drop(&follower));
}

static void each_unit_once(void) {
    struct povundiri_handle follower = follower_of(3), segment = segment_of(USUAL, SMALL_PAGE, 1), recorder = recorder_of(&segment, MANY);
    struct povundiri_merge_report report = {0};
    struct povundiri_count counts[3];
    struct povundiri_totals totals = {0, 0, 0};
    struct child child;
    begin(&child, USUAL, 7);
    DONE(povundiri_follower_merge(&follower, &recorder, child.words, count(&child, 1, 2), 2, &report));
    HOLDS(report.added == 2 && report.left == 0 && report.cost == 2 && report.passed == 0 && report.stopped == POVUNDIRI_DONE);
    DONE(povundiri_delta(&child.recorder, child.hist, counts, 3, &totals));
    DONE(povundiri_follower_merge(&follower, &recorder, child.words, count(&child, 0, 1), 1, &report));
    HOLDS(report.added == 1 && report.cost == 1);
    DONE(povundiri_follower_merge(&follower, &recorder, child.words, count(&child, 0, 0), 0, &report));
    HOLDS(report.added == 0 && report.cost == 0 && has(&recorder, 1, 2, 2));
    drop(&recorder, &segment);
    drop(&child.recorder, &child.segment);
    DONE(povundiri_drop(&follower));
}

/* What deltas took is noted from the beginning: the two units of the first one. */
static void of_marks(void) {
    struct povundiri_handle follower = {0}, segment = segment_of(USUAL, SMALL_PAGE, 1), recorder = recorder_of(&segment, MANY);
    struct povundiri_merge_report report = {0};
    struct povundiri_count counts[3];
    struct povundiri_totals totals = {0, 0, 0};
    const uint64_t zeros[USUAL] = {0};
    struct child child, other;
    size_t length;
    begin(&child, USUAL, 7);
    begin(&other, USUAL, 8);
    count(&child, 1, 2);
    DONE(povundiri_delta(&child.recorder, child.hist, counts, 3, &totals));
    count(&child, 1, 3);
    length = count(&child, 0, 4);
    ANSWERS(NULL, povundiri_follower_of_marks(3, child.words, length, NULL));
    ANSWERS(NULL, povundiri_follower_of_marks(3, NULL, 1, &follower));
    ANSWERS(IMAGE_TOO_SHORT, povundiri_follower_of_marks(3, NULL, 0, &follower));
    ANSWERS(IMAGE_BAD_COOKIE, povundiri_follower_of_marks(3, zeros, USUAL, &follower));
    ANSWERS(TOO_MANY_KEYS, povundiri_follower_of_marks(2, child.words, length, &follower));
    HOLDS(!follower.held);
    DONE(povundiri_follower_of_marks(3, child.words, length, &follower));
    ANSWERS(NOT_EMPTY, povundiri_follower_of_marks(3, child.words, length, &follower));
    ANSWERS(OTHER_SEGMENT, povundiri_follower_merge(&follower, &recorder, other.words, count(&other, 1, 9), MANY, &report));
    DONE(povundiri_follower_merge(&follower, &recorder, child.words, length, 7, &report));
    HOLDS(report.added == 7 && report.left == 0 && report.cost == 7 && has(&recorder, 4, 3, 3));
    DONE(povundiri_follower_merge(&follower, &recorder, child.words, count(&child, 1, 1), 1, &report));
    HOLDS(report.added == 1 && has(&recorder, 4, 4, 4));
    drop(&recorder, &segment);
    drop(&child.recorder, &child.segment);
    drop(&other.recorder, &other.segment);
    DONE(povundiri_drop(&follower));
}

static void refused(void) {
    struct povundiri_handle follower = follower_of(3), segment = segment_of(USUAL, SMALL_PAGE, 1), recorder = recorder_of(&segment, MANY);
    struct povundiri_merge_report report = {0};
    struct child child, other, longer;
    uint64_t old[WORDS], units = 9;
    size_t length;
    begin(&child, USUAL, 7);
    begin(&other, USUAL, 8);
    begin(&longer, SMALL, 7);
    length = count(&child, 1, 2);
    memcpy(old, child.words, sizeof old);
    ANSWERS(OTHER_KIND, povundiri_follower_merge(&segment, &recorder, old, length, MANY, &report));
    ANSWERS(OTHER_KIND, povundiri_follower_merge(&follower, &segment, old, length, MANY, &report));
    ANSWERS(IMAGE_BAD_SIZE, povundiri_follower_merge(&follower, &recorder, old, length - 1, MANY, &report));
    ANSWERS(COSTS_MORE, povundiri_follower_merge(&follower, &recorder, old, length, 1, &report));
    HOLDS(report.added == 0 && report.cost == 2);
    DONE(povundiri_follower_merge(&follower, &recorder, child.words, count(&child, 0, 3), 5, &report));
    ANSWERS(FELL, povundiri_follower_merge(&follower, &recorder, old, length, MANY, &report));
    ANSWERS(FELL, povundiri_follower_skip(&follower, old, length, &units));
    ANSWERS(OTHER_SEGMENT, povundiri_follower_merge(&follower, &recorder, other.words, count(&other, 1, 9), MANY, &report));
    ANSWERS(OTHER_SEGMENT, povundiri_follower_skip(&follower, longer.words, count(&longer, 1, 9), &units));
    HOLDS(units == 9 && has(&recorder, 3, 2, 2));
    DONE(povundiri_follower_skip(&follower, child.words, count(&child, 1, 4), &units));
    HOLDS(units == 4 && has(&recorder, 3, 2, 2));
    DONE(povundiri_follower_merge(&follower, &recorder, child.words, count(&child, 1, 1), 1, &report));
    HOLDS(report.added == 1 && has(&recorder, 3, 3, 3));
    drop(&recorder, &segment);
    drop(&child.recorder, &child.segment);
    drop(&other.recorder, &other.segment);
    drop(&longer.recorder, &longer.segment);
    DONE(povundiri_drop(&follower));
}

/* A recorder with too few units adds nothing, and is lent them. */
static void no_units(void) {
    struct povundiri_handle follower = follower_of(3), segment = segment_of(USUAL, SMALL_PAGE, 1), recorder = recorder_of(&segment, 1);
    struct povundiri_merge_report report = {0};
    struct child child;
    size_t length;
    begin(&child, USUAL, 7);
    length = count(&child, 1, 2);
    ANSWERS(REFUSED_NO_UNITS, povundiri_follower_merge(&follower, &recorder, child.words, length, MANY, &report));
    HOLDS(report.added == 0 && report.cost == 2 && report.name[0] == 0);
    DONE(povundiri_lend(&segment, &recorder, 1));
    DONE(povundiri_follower_merge(&follower, &recorder, child.words, length, MANY, &report));
    HOLDS(report.added == 2 && report.left == 0);
    drop(&recorder, &segment);
    drop(&child.recorder, &child.segment);
    DONE(povundiri_drop(&follower));
}

/* One histogram has another spec in the parent: the others are added, and it is tried each time. */
static void passed_over(void) {
    struct povundiri_handle follower = follower_of(MANY), segment = segment_of(WORDS, PAGE, 1), recorder = recorder_of(&segment, MANY);
    struct povundiri_merge_report report = {0};
    struct child child;
    size_t hist = 0, length;
    begin(&child, USUAL, 7);
    DONE(povundiri_hist_sparse(&recorder, "B", &hist));
    DONE(povundiri_hist_boolean(&child.recorder, "B", &hist));
    DONE(povundiri_add(&child.recorder, hist, 1, 5));
    DONE(povundiri_hist_boolean(&child.recorder, "C", &hist));
    DONE(povundiri_add(&child.recorder, hist, 1, 7));
    length = count(&child, 1, 2);
    ANSWERS(REFUSED_OTHER_SPEC, povundiri_follower_merge(&follower, &recorder, child.words, length, MANY, &report));
    HOLDS(report.added == 9 && report.left == 5 && report.passed == 1 && strcmp(report.name, "B") == 0 && report.items == 0);
    ANSWERS(REFUSED_OTHER_SPEC, povundiri_follower_merge(&follower, &recorder, child.words, length, MANY, &report));
    HOLDS(report.added == 0 && report.left == 5 && report.cost == 5);
    drop(&recorder, &segment);
    drop(&child.recorder, &child.segment);
    DONE(povundiri_drop(&follower));
}

/* A batch that is cut short is noted as far as it came; another segment gets the rest, with the sum. */
static void cut_short(void) {
    struct povundiri_handle follower = follower_of(3), segment = segment_of(SMALL, SMALL_PAGE, 1), recorder = recorder_of(&segment, MANY);
    struct povundiri_handle next = segment_of(USUAL, SMALL_PAGE, 2), second = recorder_of(&next, MANY);
    struct povundiri_merge_report report = {0};
    struct child child;
    size_t hist = 0, length;
    begin(&child, USUAL, 7);
    DONE(povundiri_hist_boolean(&recorder, "A", &hist));
    DONE(povundiri_hist_boolean(&recorder, "B", &hist));
    DONE(povundiri_hist_boolean(&recorder, "C", &hist));
    length = count(&child, 1, 2);
    length = count(&child, 0, 1);
    ANSWERS(REFUSED_FULL, povundiri_follower_merge(&follower, &recorder, child.words, length, MANY, &report));
    HOLDS(report.added == 1 && report.left == 2 && report.items == 1 && strcmp(report.name, "A") == 0);
    HOLDS(has(&recorder, 1, 0, 0));
    DONE(povundiri_follower_merge(&follower, &second, child.words, length, MANY, &report));
    HOLDS(report.added == 2 && report.left == 0 && has(&second, 0, 2, 2));
    drop(&recorder, &segment);
    drop(&second, &next);
    drop(&child.recorder, &child.segment);
    DONE(povundiri_drop(&follower));
}

int main(void) {
    static const struct test TESTS[] = {
        {"nulls", nulls},       {"each unit once", each_unit_once}, {"of marks", of_marks}, {"refused", refused}, {"no units", no_units},
        {"passed over", passed_over}, {"cut short", cut_short},
    };
    return run(TESTS, sizeof TESTS / sizeof TESTS[0]);
}
