/* A segment with a sparse histogram in it. Before it includes this, a test defines how large the segment is: WORDS and PAGE. */
#ifndef SPARSE_H
#define SPARSE_H

#include "checks.h"

/* A segment in the heap, and a recorder with a sparse histogram in it. */
struct sparse {
    struct povundiri_handle segment, recorder;
    size_t hist;
};

static struct sparse made_sparse(void) {
    const struct povundiri_shape shape = {WORDS, PAGE, 7, 0, 2};
    struct sparse sparse = {{false, NULL}, {false, NULL}, 0};
    DONE(povundiri_create(shape, &sparse.segment));
    DONE(povundiri_recorder(&sparse.segment, 1000, &sparse.recorder));
    DONE(povundiri_hist_sparse(&sparse.recorder, "s", &sparse.hist));
    return sparse;
}

#endif
