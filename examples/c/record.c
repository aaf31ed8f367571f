/* Records a thousand samples into a mapped file, and continues from what stands there: run it twice.
 *
 *     cc -std=c99 record.c $(pkg-config --cflags --libs povundiri-static) -o record
 *     ./record latency.seg && ./record latency.seg
 *     persist_report extract latency.seg latency.img && persist_report show latency.img */
#include <povundiri_file.h>
#include <stdio.h>
#include <string.h>

/* Returns why not all samples were counted. */
static uint32_t record(struct povundiri_handle *segment) {
    struct povundiri_handle recorder = {0};
    size_t latency = 0;
    uint32_t joined, status = povundiri_recorder(segment, 1000, &recorder);
    if (status != POVUNDIRI_DONE) return status;
    status = povundiri_hist_linear(&recorder, "latency", 1, 1000, 10, &latency);
    for (int value = 0; value < 1000 && status == POVUNDIRI_DONE; value += 1) status = povundiri_add(&recorder, latency, value, 1);
    joined = povundiri_join(segment, &recorder);
    return status != POVUNDIRI_DONE ? status : joined;
}

int main(int count, char **words) {
    const struct povundiri_shape shape = {65536, 4096, 7, 0, 2};
    struct povundiri_handle segment = {0};
    struct povundiri_file file = {0};
    struct povundiri_opened opened = POVUNDIRI_OPENED;
    uint32_t status;
    if (count != 2) return 2;
    status = povundiri_open(words[1], shape, POVUNDIRI_ADOPT_OR_SET_ASIDE, NULL, &file, &segment, &opened);
    if (opened.set_aside[0] != 0) fprintf(stderr, "damaged (%s): %s\n", povundiri_status_text(opened.refused), opened.set_aside);
    if (status == POVUNDIRI_DONE) status = record(&segment);
    if (status != POVUNDIRI_DONE) {
        fprintf(stderr, "%s: %s\n", words[1], status == POVUNDIRI_SYSTEM ? strerror(opened.fault) : povundiri_status_text(status));
    }
    povundiri_drop(&segment);
    povundiri_file_close(&file);
    return status == POVUNDIRI_DONE ? 0 : 1;
}
