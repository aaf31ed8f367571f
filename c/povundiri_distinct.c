/* Which values a sparse metric had in this process: a table of atomic words, which never shrinks or grows. */

#include <stdlib.h>

#include "povundiri_recording_parts.h"

/* Half of the words are free at least, so that a value is mostly found at once. */
struct povundiri_distinct {
    uint64_t most;
    uint64_t mask;    /* how many words there are, a power of two, less 1 */
    uint64_t count;   /* of values, and of those that threads are about to put */
    uint64_t words[]; /* 0: free; else the value and 1 */
};

struct povundiri_distinct *povundiri_distinct_new(uint64_t most) {
    struct povundiri_distinct *distinct;
    size_t words = 2;
    while (words < 2 * most) words *= 2;
    distinct = (struct povundiri_distinct *)calloc(1, sizeof *distinct + words * sizeof distinct->words[0]);
    if (distinct == NULL) return NULL;
    distinct->most = most;
    distinct->mask = words - 1;
    return distinct;
}

static uint64_t word_of(int32_t value) { return (uint64_t)(uint32_t)value + 1; }

/* Where it is looked for first. */
static uint64_t place_of(const struct povundiri_distinct *distinct, uint64_t word) {
    return ((word * 0x9E3779B97F4A7C15U) >> 32) & distinct->mask;
}

/* Where the value is, or is not yet. */
static uint64_t find(const struct povundiri_distinct *distinct, uint64_t word, uint64_t at, uint64_t *there) {
    for (;; at = (at + 1) & distinct->mask) {
        *there = __atomic_load_n(&distinct->words[at], __ATOMIC_RELAXED);
        if (*there == word || *there == 0) return at;
    }
}

/* Makes room for one value more. */
static bool reserve(struct povundiri_distinct *distinct) {
    uint64_t count = __atomic_load_n(&distinct->count, __ATOMIC_RELAXED);
    do {
        if (count >= distinct->most) return false;
    } while (!__atomic_compare_exchange_n(&distinct->count, &count, count + 1, true, __ATOMIC_RELAXED, __ATOMIC_RELAXED));
    return true;
}

bool povundiri_distinct_take(struct povundiri_distinct *distinct, int32_t value) {
    const uint64_t word = word_of(value);
    uint64_t there = 0, at = find(distinct, word, place_of(distinct, word), &there);
    bool is_put = false;
    if (there == word) return true;
    if (!reserve(distinct)) return false;
    while (!is_put && there != word) {
        is_put = __atomic_compare_exchange_n(&distinct->words[at], &there, word, false, __ATOMIC_RELAXED, __ATOMIC_RELAXED);
        if (!is_put) at = find(distinct, word, at, &there);
    }
    /* Another thread has put it meanwhile. */
    if (!is_put) __atomic_fetch_sub(&distinct->count, 1, __ATOMIC_RELAXED);
    return true;
}
