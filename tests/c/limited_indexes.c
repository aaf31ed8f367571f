/* Indexes with a limit keep no more than it allows, and then ask for nothing; the calls return the same. The library's heap is that of
 * heap.h. */
#include <stdlib.h>

#include "checks.h"

enum { WORDS = 16384, PAGE = 256 };

/* How often memory was asked for. */
static size_t requests;

static bool is_refused(size_t size) {
    (void)size;
    requests += 1;
    return false;
}

#include "heap.h"
#include "sparse.h"

/* Makes a call that asks for no memory. */
#define ASKS_FOR_NONE(call)                 \
    do {                                    \
        const size_t before_ = requests;    \
        DONE(call);                         \
        HOLDS(requests == before_);         \
    } while (0)

/* How many bytes an index may keep for each entry, and in any case; and that of samples for each sparse histogram. */
enum { MOST_OF_ENTRY = 80, MOST_BESIDE = 1000, MOST_OF_SPARSE = 110 };

enum { VALUES_COUNTED = 300, NAMES_ASKED = 200, SPARSE_ASKED = 150 };

static size_t most_of(size_t entries) {
    return MOST_BESIDE + MOST_OF_ENTRY * entries;
}

static void ends(struct sparse *sparse) {
    DONE(povundiri_join(&sparse->segment, &sparse->recorder));
    DONE(povundiri_drop(&sparse->segment));
    HOLDS(blocks == 0 && kept == 0);
}

/* Each of the values from 0 to the last counts once, and the first twice. */
static void has_all(struct sparse *sparse, int32_t values) {
    struct povundiri_count *counts = calloc(WORDS, sizeof *counts);
    struct povundiri_totals totals = {0, 0, 0};
    int32_t value;
    DONE(povundiri_snapshot(&sparse->recorder, sparse->hist, counts, WORDS, &totals));
    HOLDS(totals.length == (size_t)values && totals.redundant == (uint64_t)values + 1 && totals.sum == (int64_t)values * (values - 1) / 2);
    for (value = 0; value < values; value += 1) HOLDS(counts[value].key == value && counts[value].count == (value == 0 ? 2 : 1));
    free(counts);
}

/* What a recorder keeps once it has counted many values, if its indexes may have this many entries. When its index is full, it asks for
 * nothing any more. */
static size_t kept_of_values(size_t entries) {
    struct sparse sparse = made_sparse();
    size_t before = kept, full = 0, found;
    int32_t value;
    ASKS_FOR_NONE(povundiri_limit_indexes(&sparse.recorder, entries));
    for (value = 0; value < VALUES_COUNTED; value += 1) {
        if ((size_t)value == entries + 2) full = requests;
        DONE(povundiri_add(&sparse.recorder, sparse.hist, value, 1));
    }
    DONE(povundiri_add(&sparse.recorder, sparse.hist, 0, 1));
    HOLDS(entries >= VALUES_COUNTED || requests == full);
    found = kept - before;
    has_all(&sparse, VALUES_COUNTED);
    HOLDS(kept - before == found);
    ends(&sparse);
    return found;
}

static void limited_values(void) {
    static const size_t limits[] = {1, 2, 9, 10, 18, 19, 36, 37, 100, 145};
    const size_t all = kept_of_values(VALUES_COUNTED);
    size_t i;
    HOLDS(kept_of_values(0) == 0);
    HOLDS(all > most_of(100) + MOST_OF_SPARSE && all <= most_of(VALUES_COUNTED) + MOST_OF_SPARSE && kept_of_values(SIZE_MAX - 2) == all);
    for (i = 0; i < sizeof limits / sizeof limits[0]; i += 1) {
        const size_t found = kept_of_values(limits[i]);
        HOLDS(found > 0 && found <= most_of(limits[i]) + MOST_OF_SPARSE);
    }
}

/* What a recorder keeps for the samples of many sparse histograms, one of each, if its indexes may have this many entries. */
static size_t kept_of_sparse(size_t entries) {
    struct sparse sparse = made_sparse();
    size_t before, found, hists[SPARSE_ASKED];
    char name[16];
    int i;
    for (i = 0; i < SPARSE_ASKED; i += 1) {
        snprintf(name, sizeof name, "s%d", i);
        DONE(povundiri_hist_sparse(&sparse.recorder, name, &hists[i]));
    }
    DONE(povundiri_limit_indexes(&sparse.recorder, entries));
    before = kept;
    for (i = 0; i < SPARSE_ASKED; i += 1) DONE(povundiri_add(&sparse.recorder, hists[i], i, 1));
    DONE(povundiri_add(&sparse.recorder, hists[0], 0, 1));
    found = kept - before;
    ends(&sparse);
    return found;
}

static void limited_sparse(void) {
    static const size_t limits[] = {1, 2, 9, 10, 18, 19, 36, 37, 72, 73, SPARSE_ASKED};
    size_t i;
    HOLDS(kept_of_sparse(0) == 0);
    for (i = 0; i < sizeof limits / sizeof limits[0]; i += 1) {
        const size_t found = kept_of_sparse(limits[i]);
        HOLDS(found > 0 && found <= most_of(limits[i]) + MOST_OF_SPARSE * limits[i]);
    }
    HOLDS(kept_of_sparse(SPARSE_ASKED) > most_of(SPARSE_ASKED / 2) + MOST_OF_SPARSE * SPARSE_ASKED / 2);
}

/* What a recorder keeps once it knows many histograms, if its indexes may have this many entries. It finds each again, without memory. */
static size_t kept_of_names(size_t entries) {
    struct sparse sparse = made_sparse();
    size_t before = kept, found, hist = 0;
    char name[16];
    int i;
    ASKS_FOR_NONE(povundiri_limit_indexes(&sparse.recorder, entries));
    for (i = 0; i < NAMES_ASKED; i += 1) {
        snprintf(name, sizeof name, "n%d", i);
        DONE(povundiri_hist_boolean(&sparse.recorder, name, &hist));
        HOLDS(hist == (size_t)i + 1);
    }
    found = kept - before;
    for (i = 0; i < NAMES_ASKED; i += 1) {
        snprintf(name, sizeof name, "n%d", i);
        ASKS_FOR_NONE(povundiri_hist_boolean(&sparse.recorder, name, &hist));
        HOLDS(hist == (size_t)i + 1);
    }
    ends(&sparse);
    return found;
}

/* Two indexes are of names: of those that it knows, and of those on the list. */
static void limited_names(void) {
    static const size_t limits[] = {2, 9, 10, 19, 50};
    const size_t none = kept_of_names(1), all = kept_of_names(NAMES_ASKED + 1);
    size_t i;
    HOLDS(all > none + 2 * most_of(50) && all <= none + 2 * most_of(NAMES_ASKED) && kept_of_names(SIZE_MAX) == all);
    for (i = 0; i < sizeof limits / sizeof limits[0]; i += 1) HOLDS(kept_of_names(limits[i]) <= none + 2 * most_of(limits[i]));
}

/* What an index has stays when it gets a lower limit, and with a higher one it grows again. */
static void limits_change(void) {
    struct sparse sparse = made_sparse();
    size_t before, full;
    int32_t value;
    for (value = 0; value < 30; value += 1) DONE(povundiri_add(&sparse.recorder, sparse.hist, value, 1));
    before = kept;
    full = requests;
    DONE(povundiri_limit_indexes(&sparse.recorder, 1));
    for (; value < 100; value += 1) DONE(povundiri_add(&sparse.recorder, sparse.hist, value, 1));
    HOLDS(kept == before && requests == full);
    DONE(povundiri_limit_indexes(&sparse.recorder, 200));
    DONE(povundiri_add(&sparse.recorder, sparse.hist, value, 1));
    HOLDS(kept > before && requests > full);
    DONE(povundiri_add(&sparse.recorder, sparse.hist, 0, 1));
    has_all(&sparse, value + 1);
    ends(&sparse);
}

int main(void) {
    return group("a limit of the entries of samples", limited_values) +
           group("a limit of the entries of samples of many histograms", limited_sparse) +
           group("a limit of the entries of names", limited_names) + group("a limit that changes", limits_change);
}
