/* Every call of povundiri.h from C, and each of its statuses but those of images and sums (every_call_images.c) and of refused memory
 * (refused_memory.c). */
#define _POSIX_C_SOURCE 200809L

#include <pthread.h>
#include <stdlib.h>

#include "every_call.h"

static struct povundiri_shape shape_of(uint64_t size, uint64_t page) {
    struct povundiri_shape shape = {size, page, 7, 1, 2};
    return shape;
}

static struct povundiri_handle segment_of(uint64_t size, uint64_t page) {
    struct povundiri_handle segment = {0};
    DONE(povundiri_create(shape_of(size, page), &segment));
    return segment;
}

/* A segment with a recorder and a linear histogram, whose number is 0. */
static void made(struct povundiri_handle *segment, struct povundiri_handle *recorder) {
    size_t hist = 9;
    *segment = segment_of(WORDS, PAGE);
    *recorder = recorder_of(segment, 1000);
    DONE(povundiri_hist_linear(recorder, "latency", 1, 1000, 10, &hist));
    HOLDS(hist == 0);
}

static void let_go(struct povundiri_handle *segment, struct povundiri_handle *recorder) {
    DONE(povundiri_drop(recorder));
    DONE(povundiri_drop(segment));
    HOLDS(!segment->held && !recorder->held);
}

static void nulls_of_segments(void) {
    struct povundiri_handle segment, recorder, out = {0};
    struct povundiri_room room = {NULL, 16};
    uint64_t words[16] = {0};
    uint32_t number;
    made(&segment, &recorder);
    ANSWERS(NULL, povundiri_create(shape_of(WORDS, PAGE), NULL));
    ANSWERS(NULL, povundiri_create_in(room, shape_of(WORDS, PAGE), NULL));
    ANSWERS(BAD_ROOM, povundiri_create_in(room, shape_of(WORDS, PAGE), &out));
    ANSWERS(NULL, povundiri_adopt(words, 16, 0, NULL));
    ANSWERS(NULL, povundiri_adopt(NULL, 16, 0, &out));
    ANSWERS(IMAGE_TOO_SHORT, povundiri_adopt(NULL, 0, 0, &out));
    ANSWERS(NULL, povundiri_adopt_in(room, words, 16, 0, NULL));
    ANSWERS(NULL, povundiri_adopt_in(room, NULL, 16, 0, &out));
    ANSWERS(BAD_ROOM, povundiri_adopt_in(room, words, 16, 0, &out));
    ANSWERS(NULL, povundiri_close(NULL, words, 16, NULL));
    ANSWERS(NULL, povundiri_close(&segment, NULL, 16, NULL));
    ANSWERS(NULL, povundiri_drop(NULL));
    ANSWERS(NULL, povundiri_recorder(NULL, 1, &out));
    ANSWERS(NULL, povundiri_recorder(&segment, 1, NULL));
    ANSWERS(NULL, povundiri_lend(NULL, &recorder, 1));
    ANSWERS(NULL, povundiri_lend(&segment, NULL, 1));
    ANSWERS(NULL, povundiri_join(NULL, &recorder));
    ANSWERS(NULL, povundiri_join(&segment, NULL));
    ANSWERS(NULL, povundiri_units(NULL, &number));
    ANSWERS(NULL, povundiri_units(&segment, NULL));
    ANSWERS(NULL, povundiri_outstanding(NULL, &number));
    ANSWERS(NULL, povundiri_outstanding(&segment, NULL));
    let_go(&segment, &recorder);
}

static void nulls_of_histograms(void) {
    const struct povundiri_spec sparse = {POVUNDIRI_SPARSE, 0, 0, 0};
    struct povundiri_handle segment, recorder;
    size_t hist;
    made(&segment, &recorder);
    ANSWERS(NULL, povundiri_hist(NULL, "a", 1, sparse, NULL, 0, &hist));
    ANSWERS(NULL, povundiri_hist(&recorder, NULL, 1, sparse, NULL, 0, &hist));
    ANSWERS(NULL, povundiri_hist(&recorder, "a", 1, sparse, NULL, 1, &hist));
    ANSWERS(NULL, povundiri_hist(&recorder, "a", 1, sparse, NULL, 0, NULL));
    ANSWERS(REFUSED_BAD_NAME, povundiri_hist(&recorder, NULL, 0, sparse, NULL, 0, &hist));
    ANSWERS(NULL, povundiri_hist_linear(&recorder, NULL, 1, 10, 3, &hist));
    ANSWERS(NULL, povundiri_hist_boolean(&recorder, NULL, &hist));
    ANSWERS(NULL, povundiri_hist_custom(&recorder, NULL, NULL, 0, &hist));
    ANSWERS(NULL, povundiri_hist_scale(&recorder, NULL, 1, 10, 3, &hist));
    ANSWERS(NULL, povundiri_hist_sparse(&recorder, NULL, &hist));
    let_go(&segment, &recorder);
}

static void nulls_of_recorders(void) {
    struct povundiri_handle segment, recorder;
    struct povundiri_totals totals;
    uint64_t words[16] = {0};
    made(&segment, &recorder);
    ANSWERS(NULL, povundiri_add(NULL, 0, 1, 1));
    ANSWERS(NULL, povundiri_batch(NULL, 0, NULL, 0, 0, NULL));
    ANSWERS(NULL, povundiri_batch(&recorder, 0, NULL, 1, 0, NULL));
    DONE(povundiri_batch(&recorder, 0, NULL, 0, 0, NULL));
    ANSWERS(NULL, povundiri_delta(NULL, 0, NULL, 0, &totals));
    ANSWERS(NULL, povundiri_delta(&recorder, 0, NULL, 1, &totals));
    ANSWERS(NULL, povundiri_delta(&recorder, 0, NULL, 0, NULL));
    ANSWERS(SHORT, povundiri_delta(&recorder, 0, NULL, 0, &totals));
    ANSWERS(NULL, povundiri_snapshot(NULL, 0, NULL, 0, &totals));
    ANSWERS(NULL, povundiri_snapshot(&recorder, 0, NULL, 1, &totals));
    ANSWERS(NULL, povundiri_snapshot(&recorder, 0, NULL, 0, NULL));
    ANSWERS(SHORT, povundiri_snapshot(&recorder, 0, NULL, 0, &totals));
    ANSWERS(NULL, povundiri_set_corrupt(NULL));
    ANSWERS(NULL, povundiri_limit_indexes(NULL, 1));
    ANSWERS(NULL, povundiri_records(NULL, words, 16, NULL));
    ANSWERS(NULL, povundiri_records(&recorder, NULL, 1, NULL));
    ANSWERS(SHORT, povundiri_records(&recorder, NULL, 0, NULL));
    ANSWERS(NULL, povundiri_next_shared(NULL, 0, words));
    ANSWERS(NULL, povundiri_next_shared(&recorder, 0, NULL));
    let_go(&segment, &recorder);
}

/* Every call of a recorder is made with this handle, and returns this status. */
static void asks_for_a_recorder(struct povundiri_handle *it, uint32_t status) {
    const struct povundiri_spec sparse = {POVUNDIRI_SPARSE, 0, 0, 0};
    struct povundiri_totals totals;
    uint64_t words[WORDS];
    size_t hist;
    HOLDS(povundiri_hist(it, "a", 1, sparse, NULL, 0, &hist) == status);
    HOLDS(povundiri_hist_linear(it, "a", 1, 10, 3, &hist) == status);
    HOLDS(povundiri_hist_boolean(it, "a", &hist) == status);
    HOLDS(povundiri_hist_custom(it, "a", NULL, 0, &hist) == status);
    HOLDS(povundiri_hist_scale(it, "a", 1, 10, 3, &hist) == status);
    HOLDS(povundiri_hist_sparse(it, "a", &hist) == status);
    HOLDS(povundiri_add(it, 0, 1, 1) == status);
    HOLDS(povundiri_batch(it, 0, NULL, 0, 0, NULL) == status);
    HOLDS(povundiri_delta(it, 0, NULL, 0, &totals) == status);
    HOLDS(povundiri_snapshot(it, 0, NULL, 0, &totals) == status);
    HOLDS(povundiri_set_corrupt(it) == status);
    HOLDS(povundiri_limit_indexes(it, 1) == status);
    HOLDS(povundiri_records(it, words, WORDS, NULL) == status);
    HOLDS(povundiri_next_shared(it, 0, words) == status);
}

/* Every call of a segment is made with this handle, and returns this status. */
static void asks_for_a_segment(struct povundiri_handle *it, struct povundiri_handle *recorder, uint32_t status) {
    struct povundiri_handle out = {0};
    uint64_t words[WORDS];
    uint32_t number;
    HOLDS(povundiri_close(it, words, WORDS, NULL) == status);
    HOLDS(povundiri_segment_look(it, words, WORDS, NULL) == status);
    HOLDS(povundiri_recorder(it, 1, &out) == status);
    HOLDS(povundiri_lend(it, recorder, 1) == status);
    HOLDS(povundiri_join(it, recorder) == status);
    HOLDS(povundiri_outstanding(it, &number) == status);
}

/* Every call of a sum is made with this handle, and returns this status. */
static void asks_for_a_sum(struct povundiri_handle *it, struct povundiri_handle *sums, uint32_t status) {
    uint64_t words[16] = {0};
    char text[16];
    size_t needed = 9, line = 9;
    HOLDS(povundiri_sums_add(it, 0, words, 16) == status);
    HOLDS(povundiri_sums_add_totals(it, text, 0, &line) == status && line == 0);
    HOLDS(povundiri_sums_append(it, sums) == status);
    HOLDS(povundiri_sums_append(sums, it) == status);
    HOLDS(povundiri_sums_append(it, it) == status);
    HOLDS(povundiri_sums_report(it, text, 16, &needed) == status);
    HOLDS(povundiri_sums_totals(it, text, 16, &needed) == status);
    HOLDS(povundiri_sums_export(it, NULL, text, 16, &needed) == status);
    HOLDS(povundiri_sums_show(it, 0, text, 16, &needed) == status);
    HOLDS(needed == 9);
}

static void handles_of_sums(void) {
    struct povundiri_handle segment, recorder, none = {0}, sums = {0};
    uint32_t number;
    made(&segment, &recorder);
    DONE(povundiri_sums_new(&sums));
    ANSWERS(NOT_EMPTY, povundiri_sums_new(&sums));
    ANSWERS(NOT_EMPTY, povundiri_sums_new(&segment));
    ANSWERS(NOT_EMPTY, povundiri_create(shape_of(WORDS, PAGE), &sums));
    asks_for_a_sum(&none, &sums, POVUNDIRI_EMPTY);
    asks_for_a_sum(&segment, &sums, POVUNDIRI_OTHER_KIND);
    asks_for_a_sum(&recorder, &sums, POVUNDIRI_OTHER_KIND);
    asks_for_a_recorder(&sums, POVUNDIRI_OTHER_KIND);
    asks_for_a_segment(&sums, &recorder, POVUNDIRI_OTHER_KIND);
    ANSWERS(OTHER_KIND, povundiri_join(&segment, &sums));
    ANSWERS(OTHER_KIND, povundiri_lend(&segment, &sums, 1));
    ANSWERS(OTHER_KIND, povundiri_units(&sums, &number));
    HOLDS(sums.held);
    DONE(povundiri_sums_drop(&sums));
    HOLDS(!sums.held);
    ANSWERS(EMPTY, povundiri_sums_drop(&sums));
    DONE(povundiri_sums_new(&sums));
    DONE(povundiri_drop(&sums));
    let_go(&segment, &recorder);
}

static void other_handles(void) {
    struct povundiri_handle segment, recorder, none = {0}, other = segment_of(WORDS, PAGE), second;
    uint64_t words[1] = {0};
    uint32_t number;
    made(&segment, &recorder);
    second = recorder_of(&other, 1);
    ANSWERS(NOT_EMPTY, povundiri_create(shape_of(WORDS, PAGE), &segment));
    ANSWERS(NOT_EMPTY, povundiri_adopt(words, 0, 0, &segment));
    ANSWERS(NOT_EMPTY, povundiri_recorder(&segment, 1, &recorder));
    ANSWERS(NOT_EMPTY, povundiri_recorder(&segment, 1, &segment));
    asks_for_a_recorder(&none, POVUNDIRI_EMPTY);
    asks_for_a_recorder(&segment, POVUNDIRI_OTHER_KIND);
    asks_for_a_segment(&none, &recorder, POVUNDIRI_EMPTY);
    asks_for_a_segment(&recorder, &second, POVUNDIRI_OTHER_KIND);
    ANSWERS(OTHER_KIND, povundiri_lend(&segment, &segment, 1));
    ANSWERS(OTHER_KIND, povundiri_lend(&segment, &other, 1));
    ANSWERS(EMPTY, povundiri_lend(&segment, &none, 1));
    ANSWERS(OTHER_KIND, povundiri_join(&segment, &segment));
    ANSWERS(OTHER_KIND, povundiri_join(&segment, &other));
    ANSWERS(OTHER_SEGMENT, povundiri_join(&other, &recorder));
    ANSWERS(EMPTY, povundiri_join(&segment, &none));
    ANSWERS(EMPTY, povundiri_units(&none, &number));
    ANSWERS(EMPTY, povundiri_drop(&none));
    let_go(&segment, &recorder);
    let_go(&other, &second);
}

/* A handle holds nothing once it was closed, joined or dropped. */
static void ended(void) {
    struct povundiri_handle segment, recorder;
    uint64_t words[WORDS];
    made(&segment, &recorder);
    ANSWERS(IN_USE, povundiri_close(&segment, words, WORDS, NULL));
    DONE(povundiri_join(&segment, &recorder));
    ANSWERS(EMPTY, povundiri_join(&segment, &recorder));
    ANSWERS(EMPTY, povundiri_add(&recorder, 0, 1, 1));
    DONE(povundiri_close(&segment, words, WORDS, NULL));
    ANSWERS(EMPTY, povundiri_close(&segment, words, WORDS, NULL));
    ANSWERS(EMPTY, povundiri_drop(&segment));
}

static void shapes(void) {
    struct povundiri_handle out = {0};
    struct povundiri_shape shape = shape_of(WORDS, 65);
    ANSWERS(OPEN_BAD_SHAPE, povundiri_create(shape, &out));
    shape = shape_of(WORDS + 16, PAGE);
    ANSWERS(OPEN_BAD_SHAPE, povundiri_create(shape, &out));
    shape = shape_of(2097152, PAGE);
    ANSWERS(OPEN_BAD_SHAPE, povundiri_create(shape, &out));
    shape = shape_of(WORDS, PAGE);
    shape.version = 3;
    ANSWERS(OPEN_BAD_SHAPE, povundiri_create(shape, &out));
    shape.version = 1;
    shape.cursors = 9;
    ANSWERS(OPEN_BAD_CURSORS, povundiri_create(shape, &out));
    shape.cursors = 8;
    HOLDS(!out.held);
    DONE(povundiri_create(shape, &out));
    DONE(povundiri_drop(&out));
}

/* A room for a segment of WORDS words that shares a cursor, which is freed by its address. */
static struct povundiri_room new_room(void) {
    struct povundiri_room room = {NULL, (WORDS + 2) * 8};
    if (posix_memalign(&room.at, 16, room.bytes) != 0) abort();
    return room;
}

static void bad_rooms(void) {
    const struct povundiri_room room = new_room();
    struct povundiri_handle segment = {0};
    struct povundiri_room bad = {(char *)room.at + 8, room.bytes - 16};
    uint64_t words[WORDS] = {0};
    ANSWERS(BAD_ROOM, povundiri_create_in(bad, shape_of(WORDS, PAGE), &segment));
    ANSWERS(BAD_ROOM, povundiri_adopt_in(bad, words, WORDS, 0, &segment));
    bad.at = room.at;
    bad.bytes = room.bytes - 8;
    ANSWERS(BAD_ROOM, povundiri_create_in(bad, shape_of(WORDS, PAGE), &segment));
    bad.bytes = 0;
    ANSWERS(BAD_ROOM, povundiri_create_in(bad, shape_of(WORDS, PAGE), &segment));
    bad.bytes = room.bytes - 16;
    ANSWERS(OPEN_NO_MEMORY, povundiri_create_in(bad, shape_of(WORDS, PAGE), &segment));
    ANSWERS(OPEN_BAD_SHAPE, povundiri_create_in(room, shape_of(WORDS, 65), &segment));
    HOLDS(!segment.held);
    free(room.at);
}

/* A room is the segment's until that is closed, or dropped with all its recorders. The image begins at its byte 8. */
static void rooms(void) {
    const struct povundiri_room room = new_room();
    const struct povundiri_room small = {room.at, room.bytes - 16};
    struct povundiri_handle segment = {0}, recorder;
    uint64_t words[WORDS];
    DONE(povundiri_create_in(room, shape_of(WORDS, PAGE), &segment));
    recorder = recorder_of(&segment, 10);
    HOLDS(((uint64_t *)room.at)[0] == 0 && ((uint64_t *)room.at)[1] == 0x408305DC);
    DONE(povundiri_join(&segment, &recorder));
    DONE(povundiri_close(&segment, words, WORDS, NULL));
    HOLDS(memcmp((char *)room.at + 8, words, WORDS * 8) == 0);
    ANSWERS(ADOPT_NO_MEMORY, povundiri_adopt_in(small, words, WORDS, 1, &segment));
    ANSWERS(ADOPT_BAD_CURSORS, povundiri_adopt_in(room, words, WORDS, 9, &segment));
    ANSWERS(IMAGE_BAD_SIZE, povundiri_adopt_in(room, words, WORDS - 1, 1, &segment));
    DONE(povundiri_adopt_in(room, words, WORDS, 1, &segment));
    ANSWERS(NOT_EMPTY, povundiri_create_in(room, shape_of(WORDS, PAGE), &segment));
    ANSWERS(NOT_EMPTY, povundiri_adopt_in(room, words, WORDS, 1, &segment));
    recorder = recorder_of(&segment, 10);
    DONE(povundiri_drop(&segment));
    DONE(povundiri_set_corrupt(&recorder));
    DONE(povundiri_drop(&recorder));
    HOLDS(((uint64_t *)room.at)[7] == 1);
    memset(room.at, 0, room.bytes);
    free(room.at);
}

static void units(void) {
    struct povundiri_handle segment = segment_of(WORDS, PAGE), recorder = {0}, many[256];
    uint32_t number = 0;
    size_t i;
    DONE(povundiri_units(&segment, &number));
    HOLDS(number == UINT32_MAX);
    recorder = recorder_of(&segment, UINT32_MAX - 1);
    DONE(povundiri_units(&recorder, &number));
    HOLDS(number == UINT32_MAX - 1);
    memset(many, 0, sizeof many);
    ANSWERS(REFUSED_NO_UNITS, povundiri_recorder(&segment, 2, &many[0]));
    for (i = 0; i < 255; i += 1) DONE(povundiri_recorder(&segment, 0, &many[i]));
    ANSWERS(REFUSED_TOO_MANY, povundiri_recorder(&segment, 0, &many[255]));
    DONE(povundiri_outstanding(&segment, &number));
    HOLDS(number == 256);
    DONE(povundiri_join(&segment, &recorder));
    for (i = 0; i < 255; i += 1) DONE(povundiri_join(&segment, &many[i]));
    DONE(povundiri_outstanding(&segment, &number));
    HOLDS(number == 0);
    DONE(povundiri_units(&segment, &number));
    HOLDS(number == UINT32_MAX);
    DONE(povundiri_drop(&segment));
}

static void has_units(struct povundiri_handle *it, uint32_t wanted) {
    uint32_t units = wanted + 1;
    DONE(povundiri_units(it, &units));
    HOLDS(units == wanted);
}

/* A recorder whose share is used up is lent more and continues, with the same histograms at the same numbers. In the end the segment has
 * all units but those that were counted. */
static void lends(void) {
    struct povundiri_handle segment = segment_of(WORDS, PAGE), recorder = recorder_of(&segment, 2);
    struct povundiri_totals totals = {0, 0, 0};
    struct povundiri_count counts[10];
    size_t first = 9, second = 9, again = 9;
    DONE(povundiri_hist_linear(&recorder, "latency", 1, 1000, 10, &first));
    DONE(povundiri_hist_boolean(&recorder, "b", &second));
    DONE(povundiri_add(&recorder, first, 500, 2));
    ANSWERS(REFUSED_NO_UNITS, povundiri_add(&recorder, second, 1, 1));
    DONE(povundiri_lend(&segment, &recorder, 5));
    has_units(&recorder, 5);
    has_units(&segment, UINT32_MAX - 7);
    DONE(povundiri_add(&recorder, second, 1, 1));
    DONE(povundiri_add(&recorder, first, 500, 3));
    DONE(povundiri_lend(&segment, &recorder, 0));
    has_units(&recorder, 1);
    DONE(povundiri_hist_boolean(&recorder, "b", &again));
    HOLDS(first == 0 && second == 1 && again == 1);
    DONE(povundiri_snapshot(&recorder, first, counts, 10, &totals));
    HOLDS(totals.sum == 2500 && counts[4].key == 376 && counts[4].count == 5);
    DONE(povundiri_join(&segment, &recorder));
    has_units(&segment, UINT32_MAX - 6);
    DONE(povundiri_drop(&segment));
}

/* All units may be lent, and no more: then all is unchanged. */
static void lends_all(void) {
    struct povundiri_handle segment = segment_of(WORDS, PAGE), recorder = recorder_of(&segment, 10);
    ANSWERS(REFUSED_NO_UNITS, povundiri_lend(&segment, &recorder, UINT32_MAX - 9));
    has_units(&segment, UINT32_MAX - 10);
    has_units(&recorder, 10);
    DONE(povundiri_lend(&segment, &recorder, UINT32_MAX - 10));
    has_units(&segment, 0);
    has_units(&recorder, UINT32_MAX);
    ANSWERS(REFUSED_NO_UNITS, povundiri_lend(&segment, &recorder, 1));
    DONE(povundiri_lend(&segment, &recorder, 0));
    has_units(&recorder, UINT32_MAX);
    DONE(povundiri_join(&segment, &recorder));
    has_units(&segment, UINT32_MAX);
    DONE(povundiri_drop(&segment));
}

/* A recorder of another segment is not lent to: both segments and the recorder are unchanged. */
static void lends_to_its_own(void) {
    struct povundiri_handle segment, recorder, other = segment_of(WORDS, PAGE), all;
    size_t hist = 9;
    made(&segment, &recorder);
    ANSWERS(OTHER_SEGMENT, povundiri_lend(&other, &recorder, 5));
    ANSWERS(OTHER_SEGMENT, povundiri_lend(&other, &recorder, 0));
    has_units(&other, UINT32_MAX);
    has_units(&segment, UINT32_MAX - 1000);
    has_units(&recorder, 1000);
    DONE(povundiri_add(&recorder, 0, 500, 1000));
    DONE(povundiri_hist_sparse(&recorder, "s", &hist));
    HOLDS(hist == 1);
    all = recorder_of(&other, UINT32_MAX);
    ANSWERS(REFUSED_NO_UNITS, povundiri_lend(&other, &recorder, 1));
    DONE(povundiri_lend(&segment, &recorder, 1));
    has_units(&recorder, 1);
    let_go(&segment, &recorder);
    let_go(&other, &all);
}

static void lends_to_many(void) {
    struct povundiri_handle segment = segment_of(WORDS, PAGE), none = {0}, many[256];
    uint32_t outstanding = 0;
    size_t i;
    for (i = 0; i < 256; i += 1) many[i] = recorder_of(&segment, 1);
    ANSWERS(REFUSED_TOO_MANY, povundiri_recorder(&segment, 0, &none));
    for (i = 0; i < 256; i += 1) DONE(povundiri_lend(&segment, &many[i], (uint32_t)i));
    DONE(povundiri_outstanding(&segment, &outstanding));
    HOLDS(outstanding == 256);
    for (i = 0; i < 256; i += 1) has_units(&many[i], (uint32_t)i + 1);
    has_units(&segment, UINT32_MAX - 256 * 257 / 2);
    for (i = 0; i < 256; i += 1) DONE(povundiri_join(&segment, &many[i]));
    has_units(&segment, UINT32_MAX);
    DONE(povundiri_drop(&segment));
}

static void histograms(void) {
    static const uint32_t values[] = {10, 100, 1000};
    const struct povundiri_spec sparse_spec = {POVUNDIRI_SPARSE, 9, 9, 9};
    struct povundiri_handle segment, recorder;
    size_t hist = 0, again = 0;
    made(&segment, &recorder);
    DONE(povundiri_hist_boolean(&recorder, "b", &hist));
    HOLDS(hist == 1);
    DONE(povundiri_hist_custom(&recorder, "c", values, 3, &hist));
    HOLDS(hist == 2);
    DONE(povundiri_hist_sparse(&recorder, "s", &hist));
    DONE(povundiri_hist(&recorder, "s-and more", 1, sparse_spec, NULL, 0, &again));
    HOLDS(hist == 3 && again == 3);
    ANSWERS(REFUSED_OTHER_SPEC, povundiri_hist_boolean(&recorder, "s", &hist));
    let_go(&segment, &recorder);
}

static void specs(void) {
    static const uint32_t zero[] = {0}, high[] = {2147483647u};
    struct povundiri_handle segment, recorder;
    struct povundiri_spec kind = {0, 1, 10, 3};
    size_t hist = 0;
    made(&segment, &recorder);
    ANSWERS(BAD_KIND, povundiri_hist(&recorder, "k", 1, kind, NULL, 0, &hist));
    kind.kind = 6;
    ANSWERS(BAD_KIND, povundiri_hist(&recorder, "k", 1, kind, NULL, 0, &hist));
    ANSWERS(SPEC_BAD_MIN, povundiri_hist_linear(&recorder, "k", 0, 10, 3, &hist));
    ANSWERS(SPEC_BAD_MAX, povundiri_hist_linear(&recorder, "k", 10, 10, 3, &hist));
    ANSWERS(SPEC_TOO_FEW, povundiri_hist_linear(&recorder, "k", 1, 10, 2, &hist));
    ANSWERS(SPEC_TOO_MANY, povundiri_hist_linear(&recorder, "k", 1, 10, 12, &hist));
    ANSWERS(SPEC_BAD_RANGE, povundiri_hist_custom(&recorder, "k", high, 1, &hist));
    ANSWERS(SPEC_BAD_MIN, povundiri_hist_scale(&recorder, "k", 0, 0, 0, &hist));
    ANSWERS(SPEC_BAD_MAX, povundiri_hist_scale(&recorder, "k", 10, 10, 0, &hist));
    ANSWERS(SPEC_BAD_MAX, povundiri_hist_scale(&recorder, "k", 1, 2147483647u, 3, &hist));
    ANSWERS(SPEC_TOO_FEW, povundiri_hist_scale(&recorder, "k", 1, 10, 0, &hist));
    ANSWERS(SPEC_TOO_MANY, povundiri_hist_scale(&recorder, "k", 1, 10, 9, &hist));
    ANSWERS(SPEC_TOO_MANY, povundiri_hist_scale(&recorder, "k", 1, 1949, 8, &hist));
    ANSWERS(REFUSED_TOO_LARGE, povundiri_hist_scale(&recorder, "k", 1, 1948, 8, &hist));
    ANSWERS(SPEC_EMPTY, povundiri_hist_custom(&recorder, "k", zero, 1, &hist));
    ANSWERS(SPEC_EMPTY, povundiri_hist_custom(&recorder, "k", NULL, 0, &hist));
    ANSWERS(REFUSED_TOO_LARGE, povundiri_hist_linear(&recorder, "k", 1, 1000, 500, &hist));
    let_go(&segment, &recorder);
}

/* A scale is a custom histogram of its values. */
static void scales(void) {
    static const uint32_t values[] = {1, 2, 3, 4, 6, 8, 12, 16, 24}, one[] = {2147483646u};
    struct povundiri_handle segment, recorder;
    size_t hist = 0, again = 0;
    made(&segment, &recorder);
    DONE(povundiri_hist_scale(&recorder, "s", 1, 20, 1, &hist));
    DONE(povundiri_hist_custom(&recorder, "s", values, 9, &again));
    HOLDS(hist == 1 && again == 1);
    ANSWERS(REFUSED_OTHER_SPEC, povundiri_hist_scale(&recorder, "s", 1, 20, 2, &hist));
    DONE(povundiri_hist_scale(&recorder, "t", 2147483645u, 2147483646u, 8, &hist));
    DONE(povundiri_hist_custom(&recorder, "t", one, 1, &again));
    HOLDS(hist == 2 && again == 2);
    let_go(&segment, &recorder);
}

static void names(void) {
    struct povundiri_handle segment, recorder;
    char name[130];
    size_t hist = 0;
    made(&segment, &recorder);
    ANSWERS(REFUSED_BAD_NAME, povundiri_hist_sparse(&recorder, "", &hist));
    ANSWERS(REFUSED_BAD_NAME, povundiri_hist_sparse(&recorder, "a,b", &hist));
    ANSWERS(REFUSED_BAD_NAME, povundiri_hist_sparse(&recorder, "!a", &hist));
    memset(name, 'n', sizeof name - 1);
    name[129] = 0;
    ANSWERS(REFUSED_BAD_NAME, povundiri_hist_sparse(&recorder, name, &hist));
    name[128] = 0;
    DONE(povundiri_hist_sparse(&recorder, name, &hist));
    let_go(&segment, &recorder);
}

static void refused_samples(void) {
    struct povundiri_handle segment, recorder;
    struct povundiri_item items[] = {{5, 2}, {700, 0}};
    struct povundiri_count counts[10];
    struct povundiri_totals totals = {0, 0, 0};
    size_t added = 9;
    uint32_t left = 0;
    made(&segment, &recorder);
    ANSWERS(UNKNOWN, povundiri_add(&recorder, 1, 1, 1));
    ANSWERS(UNKNOWN, povundiri_batch(&recorder, SIZE_MAX, items, 1, 0, NULL));
    ANSWERS(UNKNOWN, povundiri_delta(&recorder, 1, counts, 10, &totals));
    ANSWERS(UNKNOWN, povundiri_snapshot(&recorder, 1, counts, 10, &totals));
    ANSWERS(REFUSED_ZERO_COUNT, povundiri_add(&recorder, 0, 1, 0));
    ANSWERS(REFUSED_NO_UNITS, povundiri_add(&recorder, 0, 1, 1001));
    ANSWERS(REFUSED_ZERO_COUNT, povundiri_batch(&recorder, 0, items, 2, 0, &added));
    HOLDS(added == 0);
    added = 9;
    ANSWERS(REFUSED_NO_UNITS, povundiri_batch(&recorder, 0, NULL, 0, INT64_MIN, &added));
    HOLDS(added == 0);
    DONE(povundiri_units(&recorder, &left));
    HOLDS(left == 1000);
    let_go(&segment, &recorder);
}

static void samples(void) {
    struct povundiri_handle segment, recorder;
    const struct povundiri_item items[] = {{5, 2}, {700, 3}};
    struct povundiri_count counts[10];
    struct povundiri_totals totals = {0, 0, 0};
    size_t added = 9;
    uint32_t left = 0;
    made(&segment, &recorder);
    DONE(povundiri_add(&recorder, 0, -5, 4));
    DONE(povundiri_batch(&recorder, 0, items, 2, -12, &added));
    DONE(povundiri_units(&recorder, &left));
    HOLDS(added == 2 && left == 991);
    ANSWERS(SHORT, povundiri_snapshot(&recorder, 0, counts, 9, &totals));
    HOLDS(totals.length == 10);
    totals.length = 0;
    ANSWERS(SHORT, povundiri_delta(&recorder, 0, counts, 9, &totals));
    HOLDS(totals.length == 10);
    DONE(povundiri_snapshot(&recorder, 0, counts, 10, &totals));
    HOLDS(totals.length == 10 && totals.sum == -12 && totals.redundant == 9);
    HOLDS(counts[0].key == 0 && counts[0].count == 4 && counts[1].key == 1 && counts[1].count == 2 && counts[9].key == 1000);
    DONE(povundiri_delta(&recorder, 0, counts, 10, &totals));
    HOLDS(totals.length == 3 && totals.sum == -12 && totals.redundant == 0);
    HOLDS(counts[0].key == 0 && counts[0].count == 4 && counts[1].key == 1 && counts[1].count == 2);
    HOLDS(counts[2].key == 625 && counts[2].count == 3);
    DONE(povundiri_delta(&recorder, 0, counts, 10, &totals));
    HOLDS(totals.length == 0 && totals.sum == 0);
    let_go(&segment, &recorder);
}

/* A sparse histogram: keys below 0, and room for as many samples as fit in the segment. */
static void sparse(void) {
    struct povundiri_handle segment, recorder;
    struct povundiri_count *counts = calloc(WORDS, sizeof *counts);
    struct povundiri_totals totals = {0, 0, 0};
    size_t hist = 0;
    made(&segment, &recorder);
    DONE(povundiri_hist_sparse(&recorder, "s", &hist));
    DONE(povundiri_add(&recorder, hist, INT32_MAX, 1));
    DONE(povundiri_add(&recorder, hist, INT32_MIN, 2));
    ANSWERS(SHORT, povundiri_snapshot(&recorder, hist, counts, 2, &totals));
    HOLDS(totals.length > 2 && totals.length <= WORDS / 5);
    DONE(povundiri_snapshot(&recorder, hist, counts, totals.length, &totals));
    HOLDS(totals.length == 2 && totals.sum == INT32_MAX + 2 * (int64_t)INT32_MIN && totals.redundant == 3);
    HOLDS(counts[0].key == INT32_MIN && counts[0].count == 2 && counts[1].key == INT32_MAX && counts[1].count == 1);
    let_go(&segment, &recorder);
    free(counts);
}

/* Whatever limit its indexes have, a recorder finds its histograms, and counts the values of a sparse one. */
static void limited_to(size_t entries) {
    struct povundiri_handle segment, recorder;
    struct povundiri_count *counts = calloc(WORDS, sizeof *counts);
    struct povundiri_totals totals = {0, 0, 0};
    size_t hist = 0, again = 9;
    int32_t value;
    made(&segment, &recorder);
    DONE(povundiri_limit_indexes(&recorder, entries));
    DONE(povundiri_hist_boolean(&recorder, "b", &hist));
    DONE(povundiri_hist_sparse(&recorder, "s", &hist));
    for (value = 0; value < 5; value += 1) DONE(povundiri_add(&recorder, hist, value, 1));
    for (value = 4; value >= 0; value -= 1) DONE(povundiri_add(&recorder, hist, value, 1));
    DONE(povundiri_hist_linear(&recorder, "latency", 1, 1000, 10, &again));
    HOLDS(again == 0);
    DONE(povundiri_hist_sparse(&recorder, "s", &again));
    HOLDS(hist == 2 && again == 2);
    DONE(povundiri_snapshot(&recorder, hist, counts, WORDS, &totals));
    HOLDS(totals.length == 5 && totals.sum == 20 && totals.redundant == 10);
    for (value = 0; value < 5; value += 1) HOLDS(counts[value].key == value && counts[value].count == 2);
    let_go(&segment, &recorder);
    free(counts);
}

static void limited(void) {
    size_t entries;
    for (entries = 0; entries < 6; entries += 1) limited_to(entries);
    limited_to(SIZE_MAX);
}

static void full(void) {
    struct povundiri_handle segment = segment_of(128, 64), recorder = recorder_of(&segment, 1000);
    const struct povundiri_item items[] = {{0, 1}, {1001, 1}};
    size_t hist = 0, other = 0, added = 9;
    int32_t value = 0;
    uint32_t left = 0, before = 0;
    DONE(povundiri_hist_sparse(&recorder, "s", &hist));
    while (value < 100 && povundiri_add(&recorder, hist, value, 1) == POVUNDIRI_DONE) value += 1;
    HOLDS(value > 5 && value < 100);
    DONE(povundiri_units(&recorder, &before));
    ANSWERS(REFUSED_FULL, povundiri_add(&recorder, hist, value, 1));
    ANSWERS(REFUSED_FULL, povundiri_hist_boolean(&recorder, "b", &other));
    ANSWERS(REFUSED_FULL, povundiri_batch(&recorder, hist, items, 2, 1, &added));
    HOLDS(added == 1);
    DONE(povundiri_units(&recorder, &left));
    HOLDS(left == before - 1);
    let_go(&segment, &recorder);
}

static void corrupt(void) {
    struct povundiri_handle segment, recorder, other;
    const struct povundiri_item items[] = {{0, 1}};
    size_t hist = 0, added = 9;
    made(&segment, &recorder);
    DONE(povundiri_hist_sparse(&recorder, "s", &hist));
    other = recorder_of(&segment, 10);
    DONE(povundiri_set_corrupt(&other));
    ANSWERS(REFUSED_CORRUPT, povundiri_add(&recorder, hist, 1, 1));
    ANSWERS(REFUSED_CORRUPT, povundiri_batch(&recorder, hist, items, 1, 1, &added));
    HOLDS(added == 0);
    ANSWERS(REFUSED_CORRUPT, povundiri_hist_sparse(&recorder, "t", &hist));
    DONE(povundiri_join(&segment, &other));
    let_go(&segment, &recorder);
}

static void records(void) {
    struct povundiri_handle segment, recorder, other;
    uint64_t list[3], given[3];
    size_t needed = 0, hist = 0;
    made(&segment, &recorder);
    other = recorder_of(&segment, 0);
    DONE(povundiri_hist_boolean(&other, "b", &hist));
    DONE(povundiri_hist_sparse(&recorder, "s", &hist));
    ANSWERS(SHORT, povundiri_records(&recorder, list, 2, &needed));
    HOLDS(needed == 3);
    DONE(povundiri_records(&recorder, list, 3, &needed));
    HOLDS(needed == 3 && list[0] == 16 && list[0] < list[1] && list[1] < list[2]);
    ANSWERS(NO_CURSOR, povundiri_next_shared(&recorder, 1, given));
    DONE(povundiri_next_shared(&recorder, 0, &given[0]));
    DONE(povundiri_next_shared(&other, 0, &given[1]));
    DONE(povundiri_next_shared(&recorder, 0, &given[2]));
    HOLDS(memcmp(list, given, sizeof list) == 0);
    ANSWERS(LIST_ENDS, povundiri_next_shared(&recorder, 0, given));
    DONE(povundiri_drop(&other));
    let_go(&segment, &recorder);
}

static void *record(void *argument) {
    struct povundiri_handle *recorder = argument;
    size_t hist = 0, i;
    uint32_t status = povundiri_hist_linear(recorder, "latency", 1, 1000, 10, &hist);
    for (i = 0; i < 10000 && status == POVUNDIRI_DONE; i += 1) status = povundiri_add(recorder, hist, 500, 1);
    return (void *)(uintptr_t)status;
}

static void threads(void) {
    struct povundiri_handle segment = segment_of(WORDS, PAGE), recorders[4];
    struct povundiri_totals totals = {0, 0, 0};
    struct povundiri_count counts[10];
    pthread_t threads[4];
    void *status = NULL;
    size_t i, hist = 0;
    for (i = 0; i < 4; i += 1) recorders[i] = recorder_of(&segment, 10000);
    for (i = 0; i < 4; i += 1) HOLDS(pthread_create(&threads[i], NULL, record, &recorders[i]) == 0);
    for (i = 0; i < 4; i += 1) {
        HOLDS(pthread_join(threads[i], &status) == 0 && status == NULL);
        if (i < 3) DONE(povundiri_join(&segment, &recorders[i]));
    }
    DONE(povundiri_hist_linear(&recorders[3], "latency", 1, 1000, 10, &hist));
    DONE(povundiri_snapshot(&recorders[3], hist, counts, 10, &totals));
    HOLDS(totals.redundant == 40000 && totals.sum == 20000000 && counts[4].key == 376 && counts[4].count == 40000);
    let_go(&segment, &recorders[3]);
}

static void texts(void) {
    HOLDS(strcmp(povundiri_status_text(POVUNDIRI_DONE), "Done") == 0);
    HOLDS(strcmp(povundiri_status_text(POVUNDIRI_REFUSED_NO_UNITS), "NoUnits") == 0);
    HOLDS(strcmp(povundiri_status_text(POVUNDIRI_IMAGE_BAD_QUEUE), "BadQueue") == 0);
    HOLDS(strcmp(povundiri_status_text(POVUNDIRI_ELSEWHERE), "Elsewhere") == 0);
    HOLDS(strcmp(povundiri_status_text(POVUNDIRI_BUSY), "Busy") == 0);
    HOLDS(strcmp(povundiri_status_text(99), "NoSuchStatus") == 0);
    HOLDS(strcmp(povundiri_status_text(UINT32_MAX), "NoSuchStatus") == 0);
    HOLDS(strcmp(povundiri_version(), POVUNDIRI_VERSION_TEXT) == 0);
}

static const struct test TESTS[] = {
    {"nulls_of_segments", nulls_of_segments},
    {"nulls_of_histograms", nulls_of_histograms},
    {"nulls_of_recorders", nulls_of_recorders},
    {"handles_of_sums", handles_of_sums},
    {"other_handles", other_handles},
    {"ended", ended},
    {"shapes", shapes},
    {"bad_rooms", bad_rooms},
    {"rooms", rooms},
    {"units", units},
    {"lends", lends},
    {"lends_all", lends_all},
    {"lends_to_its_own", lends_to_its_own},
    {"lends_to_many", lends_to_many},
    {"histograms", histograms},
    {"specs", specs},
    {"scales", scales},
    {"names", names},
    {"refused_samples", refused_samples},
    {"samples", samples},
    {"sparse", sparse},
    {"limited", limited},
    {"full", full},
    {"corrupt", corrupt},
    {"records", records},
    {"threads", threads},
    {"texts", texts},
};

int main(void) {
    return run(TESTS, sizeof TESTS / sizeof TESTS[0]);
}
