/* What every_call.c and every_call_images.c share: recorders of small segments, and how a list of tests is run. */
#ifndef EVERY_CALL_H
#define EVERY_CALL_H

#include "checks.h"

enum { WORDS = 1024, PAGE = 256 };

static struct povundiri_handle recorder_of(struct povundiri_handle *segment, uint32_t units) {
    struct povundiri_handle recorder = {0};
    DONE(povundiri_recorder(segment, units, &recorder));
    return recorder;
}

struct test {
    const char *name;
    void (*checks)(void);
};

/* Runs tests, one after the other. Returns 1 if one failed. */
static int run(const struct test *tests, size_t count) {
    int failed = 0;
    size_t i;
    for (i = 0; i < count; i += 1) failed += group(tests[i].name, tests[i].checks);
    return failed != 0;
}

#endif
