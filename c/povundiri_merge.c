/* Merges: what the proved functions return, as the reports of povundiri_merge.h. */

#include "povundiri_merge_parts.h"

extern inline uint32_t povundiri_follower_new(uint64_t most_keys, struct povundiri_handle *out);
extern inline uint32_t povundiri_follower_of_marks(uint64_t most_keys, const uint64_t *words, size_t length, struct povundiri_handle *out);
extern inline uint32_t povundiri_follower_skip(struct povundiri_handle *follower, const uint64_t *words, size_t length, uint64_t *units);

/* It ends where the struct does, since there is no other yet. */
bool povundiri_parts_is_report(const struct povundiri_merge_report *report) {
    return report == NULL || report->size == 0 || report->size >= sizeof *report;
}

/* A report without numbers, into which the proved function writes the name. */
static struct povundiri_merge_report blank(void) {
    struct povundiri_merge_report report;
    memset(&report, 0, sizeof report);
    return report;
}

void povundiri_parts_give(const struct povundiri_merge_report *made, struct povundiri_merge_report *report) {
    size_t size;
    if (report == NULL) return;
    size = report->size;
    *report = *made;
    report->size = size;
}

/* Puts totals beside the name. A name without bytes says that no histogram stopped the merge. */
static void put(const struct povundiri_merge_totals *totals, uint32_t status, struct povundiri_merge_report *report) {
    report->added = totals->added;
    report->left = totals->left;
    report->cost = totals->cost;
    report->unspent = totals->unspent;
    report->items = totals->items;
    report->passed = totals->passed;
    report->stopped = totals->name_length != 0 ? status : (uint32_t)POVUNDIRI_DONE;
    report->full = totals->full;
    report->corrupt = totals->corrupt;
}

uint32_t povundiri_merge(struct povundiri_handle *recorder, const uint64_t *words, size_t length, uint64_t most_keys,
                         struct povundiri_merge_report *report) {
    struct povundiri_merge_totals totals = {0, 0, 0, 0, 0, 0, 0, false, false};
    struct povundiri_merge_report made = blank();
    uint32_t status;
    if (recorder == NULL || !povundiri_is_array(words, length)) return POVUNDIRI_NULL;
    if (!povundiri_parts_is_report(report)) return POVUNDIRI_SHORT;
    status = povundiri_proved_merge(recorder, (const uint64_t *)povundiri_address(words), length, most_keys, (uint8_t *)made.name,
                                    POVUNDIRI_LONGEST_NAME, &totals);
    put(&totals, status, &made);
    povundiri_parts_give(&made, report);
    return status;
}

uint32_t povundiri_follower_merge(struct povundiri_handle *follower, struct povundiri_handle *recorder, const uint64_t *words, size_t length,
                                  uint64_t most, struct povundiri_merge_report *report) {
    struct povundiri_merge_totals totals = {0, 0, 0, 0, 0, 0, 0, false, false};
    struct povundiri_merge_report made = blank();
    uint32_t status;
    if (follower == NULL || recorder == NULL || !povundiri_is_array(words, length)) return POVUNDIRI_NULL;
    if (!povundiri_parts_is_report(report)) return POVUNDIRI_SHORT;
    if (follower == recorder) return follower->held ? (uint32_t)POVUNDIRI_OTHER_KIND : (uint32_t)POVUNDIRI_EMPTY;
    status = povundiri_proved_follower_merge(follower, recorder, (const uint64_t *)povundiri_address(words), length, most,
                                             (uint8_t *)made.name, POVUNDIRI_LONGEST_NAME, &totals);
    put(&totals, status, &made);
    povundiri_parts_give(&made, report);
    return status;
}
