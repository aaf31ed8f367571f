/* Merges for C99: what a segment counted that no process records into any more is added to one that lives; or, by a follower, what came
 * of a segment since its last image, while it runs.
 *
 *     struct povundiri_merge_report report = {sizeof report};
 *     status = povundiri_merge(&recorder, words, length, 100000, &report);      the words of an image, or of a look
 *
 * WHAT THE CALLER KEEPS is in povundiri.h.
 */
#ifndef POVUNDIRI_MERGE_H
#define POVUNDIRI_MERGE_H

#include "povundiri.h"

#ifdef __cplusplus
/* The inline functions are C, with its casts and its NULL. */
#if defined(__GNUC__)
#pragma GCC diagnostic push
#pragma GCC diagnostic ignored "-Wold-style-cast"
#pragma GCC diagnostic ignored "-Wzero-as-null-pointer-constant"
#endif
extern "C" {
#endif

/* The longest name of a histogram, in bytes. */
enum { POVUNDIRI_LONGEST_NAME = 128 };

/* What a merge did, or a follower. On a status that is not DONE it says how far it came.
 *   size      set by the caller: how many bytes the struct has, sizeof report; 0 means the first layout, which ends with `name`. More
 *             than the library knows are left as they are
 *   added     the units that were added
 *   left      the units of the image that no delta took there, and that were not added; of a follower those that came and were not added,
 *             or 0 if it refused the image
 *   cost      the units that it costs to add all that no delta took, or that came: of each histogram its units, or the size of its sum
 *             divided by 2^31 and rounded up, if that is more
 *   unspent   the units that the image's segment has left
 *   items     of the histogram that stopped the merge: how many of its keys were added. Its sum was not
 *   passed    of a follower: how many histograms were passed over
 *   stopped   DONE, or with which status that histogram was refused; if none stopped it, the same of the first that was passed over
 *   full, corrupt    the flags of the image
 *   name      the name of that histogram, with a zero byte at its end; else empty
 * Numbers above 18,446,744,073,709,551,615 are that. */
struct povundiri_merge_report {
    size_t size;
    uint64_t added;
    uint64_t left;
    uint64_t cost;
    uint64_t unspent;
    size_t items;
    size_t passed;
    uint32_t stopped;
    bool full;
    bool corrupt;
    char name[POVUNDIRI_LONGEST_NAME + 1];
};

/* What the proved function returns along with its status. */
struct povundiri_merge_totals {
    uint64_t added;
    uint64_t left;
    uint64_t cost;
    uint64_t unspent;
    size_t items;
    size_t passed;
    size_t name_length;
    bool full;
    bool corrupt;
};

/* The proved function. It tests no pointer: not even an empty array may be null. Call the function below instead. */
uint32_t povundiri_proved_merge(struct povundiri_handle *recorder, const uint64_t *words, size_t words_length, uint64_t most_keys,
                                uint8_t *name, size_t name_length, struct povundiri_merge_totals *totals);

/* Adds to a recorder's segment what no delta took of an image: for each histogram, in the order of the image's list, the units of each key
 * above its mark, and the sum less its mark. The histograms are found or made by name, with their specs. Any words may be passed; those of
 * a segment into which others record are first looked at (povundiri_look).
 *
 * THE IMAGE ITSELF IS UNCHANGED: merging it twice adds it twice. So it is for a segment that is dead, and is merged once.
 *
 * An image that reads as more keys than `most_keys`, the buckets of all its histograms and the values of the sparse ones, is refused before
 * memory is taken for its counts: a valid image of 8 MiB may have 65 million, and each takes at least 24 bytes.
 * `report`, which may be null, says what was added, on any status but NULL and SHORT.
 *
 * Statuses: NULL; SHORT: `report->size` is not 0, and less than that of the first layout; EMPTY; IMAGE_..: the header has this fault;
 * TOO_MANY_KEYS; IMAGE_NO_MEMORY; OTHER_KIND; NO_MEMORY; REFUSED_NO_UNITS with an empty `report->name`: the recorder may spend fewer units
 * than `report->cost`, so lend it these and call again. After any of these, nothing has happened.
 * Else a histogram stopped the merge, and `report` names it: what came before it is added, and so are its first `report->items` keys.
 * REFUSED_FULL: there is no room for it; REFUSED_OTHER_SPEC: the segment has one of this name with another spec; REFUSED_TOO_LARGE: it
 * does not fit in a page; REFUSED_CORRUPT, REFUSED_NO_MEMORY; and as far as the proofs go REFUSED_NO_UNITS, REFUSED_BAD_NAME and SPEC_..
 * Keep: pointers; handles; turns; process. */
uint32_t povundiri_merge(struct povundiri_handle *recorder, const uint64_t *words, size_t length, uint64_t most_keys,
                         struct povundiri_merge_report *report) POVUNDIRI_CHECKED;

/* ---- Followers ---- */

uint32_t povundiri_proved_follower_new(uint64_t most_keys, struct povundiri_handle *out);
uint32_t povundiri_proved_follower_of_marks(uint64_t most_keys, const uint64_t *words, size_t words_length, struct povundiri_handle *out);
uint32_t povundiri_proved_follower_merge(struct povundiri_handle *follower, struct povundiri_handle *recorder, const uint64_t *words,
                                         size_t words_length, uint64_t most, uint8_t *name, size_t name_length,
                                         struct povundiri_merge_totals *totals);
uint32_t povundiri_proved_follower_skip(struct povundiri_handle *follower, const uint64_t *words, size_t words_length, uint64_t *units);

/* What was merged of one segment so far, for a segment that is followed while others record into it. An image that reads as more keys than
 * `most_keys` is refused by each call.
 *
 *     struct povundiri_handle follower = {0};
 *     povundiri_follower_new(100000, &follower);
 *     povundiri_look(..);                                                          now and then, and a last time when it is dead
 *     povundiri_follower_merge(&follower, &recorder, words, length, 1000000, &report);
 *     povundiri_drop(&follower);
 *
 * Statuses: NULL, NOT_EMPTY, NO_MEMORY.
 * Keep: pointers; handles: `out` begins as zeros; process. */
POVUNDIRI_CHECKED
inline uint32_t povundiri_follower_new(uint64_t most_keys, struct povundiri_handle *out) {
    return out == NULL ? (uint32_t)POVUNDIRI_NULL : povundiri_proved_follower_new(most_keys, out);
}

/* A follower that has noted what deltas took of an image (its marks), and so adds of it what povundiri_merge would. It is for a segment that
 * is dead, and goes on where a merge would have stopped, also in another segment, without adding anything twice.
 *
 * Statuses: NULL, NOT_EMPTY; IMAGE_..; TOO_MANY_KEYS; IMAGE_NO_MEMORY; NO_MEMORY. On any but DONE `out` is unchanged.
 * Keep: pointers; handles: `out` begins as zeros; process. */
POVUNDIRI_CHECKED
inline uint32_t povundiri_follower_of_marks(uint64_t most_keys, const uint64_t *words, size_t length, struct povundiri_handle *out) {
    if (out == NULL || !povundiri_is_array(words, length)) return POVUNDIRI_NULL;
    return povundiri_proved_follower_of_marks(most_keys, (const uint64_t *)povundiri_address(words), length, out);
}

/* Adds to a recorder's segment what an image has above what the follower has noted, and notes it: of each histogram, by its name, the units
 * of each key and the sum. So each unit is added once, however often the segment is looked at. What deltas took there makes no
 * difference. Two followers of one segment, or a merge beside one, add twice.
 *
 * A histogram that is refused for BAD_NAME, SPEC_.., TOO_LARGE, OTHER_SPEC or FULL is passed over, and the others go on; NO_UNITS, CORRUPT
 * and NO_MEMORY stop the merge. What was not added is not noted, so the next call tries it again; nothing is added twice.
 *
 * What came may cost `most` units at most, since a child that lies may claim any number. `cost` of the report is what came costs; a sum
 * may cost as much again as the units, as sums and counts of a look are of different moments.
 *
 * Statuses: NULL; SHORT; EMPTY, of either handle; OTHER_KIND; IMAGE_..; OTHER_SEGMENT: the image has another id, size, page or version
 * than the last one that was followed; TOO_MANY_KEYS; IMAGE_NO_MEMORY; FELL: a count is less than what is noted, or a histogram is gone or
 * has another spec; COSTS_MORE: than `most`, see `report->cost`; REFUSED_NO_UNITS with an empty `report->name`: it costs no more than
 * `most`, but the recorder may spend fewer units than `report->cost`, so lend it these and call again; NO_MEMORY. After any of these nothing
 * has happened: the same image may be passed again, with more `most`, or skipped.
 * Else, with a `report->name`, REFUSED_.. or SPEC_..: why that histogram stopped the merge, or else why the first was passed over.
 * Keep: pointers; handles; turns: those of both; process. */
uint32_t povundiri_follower_merge(struct povundiri_handle *follower, struct povundiri_handle *recorder, const uint64_t *words, size_t length,
                                  uint64_t most, struct povundiri_merge_report *report) POVUNDIRI_CHECKED;

/* Notes an image and adds nothing. `units`, which may be null, is what it has above what was noted.
 * Statuses: NULL, EMPTY, OTHER_KIND; IMAGE_..; TOO_MANY_KEYS; IMAGE_NO_MEMORY; OTHER_SEGMENT; FELL; NO_MEMORY.
 * Keep: pointers; handles; turns; process. */
POVUNDIRI_CHECKED
inline uint32_t povundiri_follower_skip(struct povundiri_handle *follower, const uint64_t *words, size_t length, uint64_t *units) {
    uint64_t own = 0;
    if (follower == NULL || !povundiri_is_array(words, length)) return POVUNDIRI_NULL;
    return povundiri_proved_follower_skip(follower, (const uint64_t *)povundiri_address(words), length, units != NULL ? units : &own);
}

#ifdef __cplusplus
}
#if defined(__GNUC__)
#pragma GCC diagnostic pop
#endif
#endif

#endif
