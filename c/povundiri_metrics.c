/* The metrics of a recording: which histograms were asked for, and whether segments have room for them. */

#include <stdlib.h>
#include <string.h>

#include "povundiri_recording_parts.h"

static bool is_same_spec(const struct povundiri_metric *metric, struct povundiri_spec spec, const uint32_t *values, size_t count) {
    const bool has_bounds = spec.kind == POVUNDIRI_LINEAR || spec.kind == POVUNDIRI_SCALE;
    if (metric->spec.kind != spec.kind) return false;
    if (spec.kind == POVUNDIRI_CUSTOM) {
        return metric->count == count && (count == 0 || memcmp(metric->values, values, count * sizeof *values) == 0);
    }
    return !has_bounds ||
           (metric->spec.minimum == spec.minimum && metric->spec.maximum == spec.maximum && metric->spec.buckets == spec.buckets);
}

bool povundiri_metrics_have_one_name(const struct povundiri_metric *one, const struct povundiri_metric *other) {
    return one->length == other->length && memcmp(one->name, other->name, one->length) == 0;
}

/* Which part has the metric of this number; *first is that of the first one there. */
static size_t part_of(size_t metric, size_t *first) {
    size_t part = 0, room = FIRST_METRICS;
    for (*first = 0; metric - *first >= room; part += 1) {
        *first += room;
        room *= 2;
    }
    return part;
}

struct povundiri_metric *povundiri_metrics_at(const struct povundiri_metrics *metrics, size_t metric) {
    size_t first;
    const size_t part = part_of(metric, &first);
    return metrics->parts[part][metric - first];
}

bool povundiri_metrics_find(const struct povundiri_metrics *metrics, const char *name, size_t length, struct povundiri_spec spec,
                            const uint32_t *values, size_t count, size_t *metric) {
    size_t i;
    for (i = 0; i < metrics->count; i += 1) {
        const struct povundiri_metric *const other = povundiri_metrics_at(metrics, i);
        if (other->length == length && memcmp(other->name, name, length) == 0 && is_same_spec(other, spec, values, count)) {
            *metric = i;
            return true;
        }
    }
    return false;
}

static void end_trial(struct povundiri_trial *trial) {
    if (trial->recorder.held) povundiri_drop(&trial->recorder);
    if (trial->segment.held) povundiri_drop(&trial->segment);
    trial->words = 0;
}

/* Begins with a new segment of this shape. */
static uint32_t begin_trial(struct povundiri_trial *trial, struct povundiri_shape shape) {
    uint32_t status;
    end_trial(trial);
    status = povundiri_create(shape, &trial->segment);
    if (status == POVUNDIRI_DONE) status = povundiri_recorder(&trial->segment, UINT32_MAX, &trial->recorder);
    if (status == POVUNDIRI_DONE) trial->words = shape.size;
    return status;
}

/* What the segment says to a metric with samples in two buckets. */
static uint32_t try_with(struct povundiri_trial *trial, const struct povundiri_metric *metric) {
    struct povundiri_handle *const recorder = &trial->recorder;
    size_t hist = 0;
    uint32_t status = povundiri_hist(recorder, metric->name, metric->length, metric->spec, metric->values, metric->count, &hist);
    if (status == POVUNDIRI_DONE) status = povundiri_add(recorder, hist, 0, 1);
    if (status == POVUNDIRI_DONE) status = povundiri_add(recorder, hist, INT32_MAX, 1);
    return status;
}

/* What a new segment of this shape says to it. */
static uint32_t try_in(struct povundiri_shape shape, const struct povundiri_metric *metric) {
    struct povundiri_trial trial = {{false, NULL}, {false, NULL}, 0};
    uint32_t status = begin_trial(&trial, shape);
    if (status == POVUNDIRI_DONE) status = try_with(&trial, metric);
    end_trial(&trial);
    return status;
}

static struct povundiri_shape page_of(struct povundiri_shape shape) {
    shape.size = shape.page;
    return shape;
}

/* What a segment of one page says to it: what is tried already has others; if it refuses the metric, a new one. */
static uint32_t try_in_page(struct povundiri_trial *trial, struct povundiri_shape shape, const struct povundiri_metric *metric) {
    uint32_t status;
    if (trial->words == shape.page && try_with(trial, metric) == POVUNDIRI_DONE) return POVUNDIRI_DONE;
    status = begin_trial(trial, page_of(shape));
    return status == POVUNDIRI_DONE ? try_with(trial, metric) : status;
}

static bool has_no_room(uint32_t status) { return status == POVUNDIRI_REFUSED_FULL || status == POVUNDIRI_REFUSED_TOO_LARGE; }

/* Whether a name and a spec are such as a histogram may have, and whether it is too large for segments of this shape, since one page says
 * this to it. Most fit in one page, which takes a small part of the time of a whole segment. */
static uint32_t judge(struct povundiri_shape shape, const struct povundiri_metric *metric, uint32_t status, bool *is_it) {
    if (has_no_room(status)) status = try_in(shape, metric);
    *is_it = has_no_room(status);
    return *is_it ? (uint32_t)POVUNDIRI_DONE : status;
}

static void end(struct povundiri_metric *metric) {
    if (metric == NULL) return;
    free(metric->name);
    free(metric->values);
    free(metric->distinct);
    free(metric);
}

/* Where the next one comes, in a part that is made if it is not there; null if there is no memory. */
static struct povundiri_metric **next_in(struct povundiri_metrics *metrics) {
    size_t first;
    const size_t part = part_of(metrics->count, &first);
    if (metrics->parts[part] == NULL) {
        metrics->parts[part] = (struct povundiri_metric **)calloc((size_t)FIRST_METRICS << part, sizeof *metrics->parts[part]);
    }
    return metrics->parts[part] == NULL ? NULL : &metrics->parts[part][metrics->count - first];
}

/* The number of the first one of this name, or the next number. */
static size_t first_of_name(const struct povundiri_metrics *metrics, const struct povundiri_metric *metric) {
    size_t i = 0;
    while (i < metrics->count && !povundiri_metrics_have_one_name(povundiri_metrics_at(metrics, i), metric)) i += 1;
    return i;
}

/* Puts a metric after the others. */
static uint32_t put(struct povundiri_metrics *metrics, const char *name, size_t length, struct povundiri_spec spec, const uint32_t *values,
                    size_t count) {
    struct povundiri_metric **const next = next_in(metrics);
    struct povundiri_metric *const metric = (struct povundiri_metric *)calloc(1, sizeof *metric);
    const bool is_bounded = spec.kind == POVUNDIRI_SPARSE && metrics->most_values <= UINT32_MAX;
    if (metric != NULL) {
        metric->name = (char *)malloc(length + 1);
        metric->values = (uint32_t *)malloc((count + 1) * sizeof *values);
        if (is_bounded) metric->distinct = povundiri_distinct_new(metrics->most_values);
    }
    if (next == NULL || metric == NULL || metric->name == NULL || metric->values == NULL || (is_bounded && metric->distinct == NULL)) {
        end(metric);
        return POVUNDIRI_NO_MEMORY;
    }
    if (length > 0) memcpy(metric->name, name, length);
    if (count > 0) memcpy(metric->values, values, count * sizeof *values);
    metric->length = length;
    metric->spec = spec;
    metric->count = count;
    metric->earlier = first_of_name(metrics, metric);
    *next = metric;
    return POVUNDIRI_DONE;
}

uint32_t povundiri_metrics_add(struct povundiri_metrics *metrics, struct povundiri_shape shape, const char *name, size_t length,
                               struct povundiri_spec spec, const uint32_t *values, size_t count) {
    struct povundiri_metric *metric;
    uint32_t status = put(metrics, name, length, spec, values, count);
    if (status != POVUNDIRI_DONE) return status;
    metric = povundiri_metrics_at(metrics, metrics->count);
    status = judge(shape, metric, try_in_page(&metrics->trial, shape, metric), &metric->is_too_large);
    if (status != POVUNDIRI_DONE) povundiri_metrics_forget(metrics);
    return status;
}

void povundiri_metrics_keep(struct povundiri_metrics *metrics) { __atomic_store_n(&metrics->count, metrics->count + 1, __ATOMIC_RELEASE); }

void povundiri_metrics_forget(struct povundiri_metrics *metrics) {
    struct povundiri_metric **const next = next_in(metrics);
    end(*next);
    *next = NULL;
}

void povundiri_metrics_end_trial(struct povundiri_metrics *metrics) { end_trial(&metrics->trial); }

/* What was too large for a smaller shape may fit here. What fits in a smaller one fits in all: so a call that ends late does no harm. */
void povundiri_metrics_judge_again(struct povundiri_metrics *metrics, struct povundiri_shape shape) {
    const size_t count = povundiri_metrics_count(metrics);
    size_t i;
    for (i = 0; i < count; i += 1) {
        struct povundiri_metric *const metric = povundiri_metrics_at(metrics, i);
        bool is_still = true;
        if (!is_too_large(metric)) continue;
        if (judge(shape, metric, try_in(page_of(shape), metric), &is_still) == POVUNDIRI_DONE && !is_still) {
            __atomic_store_n(&metric->is_too_large, false, __ATOMIC_RELAXED);
        }
    }
}
