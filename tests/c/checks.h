/* The checks of a test: each check that fails prints a line, and each group of checks prints a line with its name at its end. */
#ifndef CHECKS_H
#define CHECKS_H

#include <inttypes.h>
#include <stdio.h>
#include <string.h>

#include "povundiri.h"

static int failed_here;

static void check(int line, const char *what, int holds) {
    if (holds) return;
    printf("line %d: %s\n", line, what);
    failed_here += 1;
}

static void check_status(int line, const char *call, uint32_t wanted, uint32_t came) {
    if (wanted == came) return;
    printf("line %d: %s: wanted %" PRIu32 " (%s), came %" PRIu32 " (%s)\n", line, call, wanted, povundiri_status_text(wanted), came,
           povundiri_status_text(came));
    failed_here += 1;
}

#define HOLDS(condition) check(__LINE__, #condition, (condition))
#define ANSWERS(status, call) check_status(__LINE__, #call, POVUNDIRI_##status, (call))
#define DONE(call) ANSWERS(DONE, call)

/* Runs a group of checks; returns 1 if one failed. */
static __attribute__((unused)) int group(const char *name, void (*checks)(void)) {
    failed_here = 0;
    checks();
    printf("%s: %s\n", name, failed_here == 0 ? "passed" : "failed");
    fflush(stdout);
    return failed_here != 0;
}

/* Says that a group cannot be run here, and why; returns 0. */
static __attribute__((unused)) int left_out(const char *name, const char *why) {
    printf("left out: %s: %s\n", name, why);
    return 0;
}

#endif
