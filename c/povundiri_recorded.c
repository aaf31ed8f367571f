/* What a recording's folder has, as texts, followed by what all processes have missed there. */

#define _GNU_SOURCE

#include <inttypes.h>
#include <pthread.h>
#include <stdio.h>
#include <stdlib.h>
#include <string.h>

#include "povundiri_recording_parts.h"

static const char *const REASONS[MISSED_REASONS] = {"too_large", "other_spec", "no_space", "rolling", "forked",
                                                    "ended",     "no_memory",  "removed",  "child",   "values"};

const char *povundiri_missed_text(uint32_t reason) { return reason < MISSED_REASONS ? REASONS[reason] : NULL; }

/* The sum of the folder, and what was missed by reason, unless that is null. */
static uint32_t read_folder(struct povundiri_recording *recording, struct povundiri_handle *sums, uint64_t *left, uint64_t *missed,
                            int *fault) {
    struct povundiri_held folder;
    uint32_t status = POVUNDIRI_SYSTEM;
    int state;
    pthread_setcancelstate(PTHREAD_CANCEL_DISABLE, &state);
    *fault = povundiri_recording_folder(recording, &folder);
    if (*fault == 0) {
        status = povundiri_parts_sums(folder.descriptor, sums, left, fault);
        if (status == POVUNDIRI_DONE && missed != NULL) povundiri_recording_all_missed(recording, folder.descriptor, missed);
        povundiri_parts_close(&folder);
    }
    pthread_setcancelstate(state, NULL);
    return status;
}

uint32_t povundiri_recording_sums(struct povundiri_recording *recording, struct povundiri_handle *sums, uint64_t *left, int *fault) {
    uint64_t own = 0;
    if (recording == NULL || sums == NULL || fault == NULL) return POVUNDIRI_NULL;
    if (sums->held) return POVUNDIRI_NOT_EMPTY;
    return read_folder(recording, sums, left != NULL ? left : &own, NULL, fault);
}

/* What is in a text beside the sum. */
struct beside {
    uint64_t left;
    uint64_t missed[MISSED_REASONS];
};

/* Which text, and what is asked of it. */
struct asked {
    enum { REPORT, EXPORT, SHOW } what;
    const char *prefix;
    uint16_t width;
};

static uint32_t text_call(struct povundiri_handle *sums, const struct asked *asked, char *text, size_t room, size_t *needed) {
    if (asked->what == EXPORT) return povundiri_sums_export(sums, asked->prefix, text, room, needed);
    if (asked->what == SHOW) return povundiri_sums_show(sums, asked->width, text, room, needed);
    return povundiri_sums_report(sums, text, room, needed);
}

/* What is written after the text of the sum, into room for it; the bytes of it. */
static size_t write_ending(const struct asked *asked, const struct beside *beside, char *text, size_t room) {
    const char *const prefix = asked->prefix != NULL ? asked->prefix : "povundiri";
    size_t at = 0, i;
#define PUT(...) at += (size_t)snprintf(room > at ? text + at : NULL, room > at ? room - at : 0, __VA_ARGS__)
    if (asked->what == REPORT && beside->left > 0) PUT("!left,%" PRIu64 "\n", beside->left);
    if (asked->what == EXPORT) {
        PUT("# HELP %s_missed_total Units that were not counted, by reason.\n", prefix);
        PUT("# TYPE %s_missed_total counter\n", prefix);
    }
    for (i = 0; i < MISSED_REASONS; i += 1) {
        const uint64_t missed = beside->missed[i];
        if (asked->what == EXPORT) PUT("%s_missed_total{reason=\"%s\"} %" PRIu64 "\n", prefix, REASONS[i], missed);
        if (asked->what == REPORT && missed > 0) PUT("!missed,%s,%" PRIu64 "\n", REASONS[i], missed);
        if (asked->what == SHOW && missed > 0) PUT("missed, %s: %" PRIu64 "\n", REASONS[i], missed);
    }
#undef PUT
    return at;
}

/* The text, for free(), with a zero after it. */
static uint32_t text_of(struct povundiri_handle *sums, const struct asked *asked, const struct beside *beside, char **text,
                        size_t *length) {
    enum { MOST_ENDING = 4096 };
    const size_t ending = MOST_ENDING + (asked->prefix != NULL ? 16 * strlen(asked->prefix) : 0);
    size_t needed = 0;
    uint32_t status = text_call(sums, asked, NULL, 0, &needed);
    if (status != POVUNDIRI_SHORT && status != POVUNDIRI_DONE) return status;
    *text = (char *)malloc(needed + ending + 1);
    if (*text == NULL) return POVUNDIRI_NO_MEMORY;
    status = text_call(sums, asked, *text, needed, &needed);
    if (status == POVUNDIRI_DONE) {
        *length = needed + write_ending(asked, beside, *text + needed, ending);
        (*text)[*length] = 0;
    } else {
        free(*text);
        *text = NULL;
    }
    return status;
}

static uint32_t text(struct povundiri_recording *recording, const struct asked *asked, char **text_at, size_t *length, int *fault) {
    struct povundiri_handle sums = {false, NULL};
    struct beside beside = {0, {0}};
    uint32_t status;
    if (recording == NULL || text_at == NULL || length == NULL || fault == NULL) return POVUNDIRI_NULL;
    *text_at = NULL;
    *length = 0;
    status = read_folder(recording, &sums, &beside.left, beside.missed, fault);
    if (status == POVUNDIRI_DONE) status = text_of(&sums, asked, &beside, text_at, length);
    if (sums.held) povundiri_sums_drop(&sums);
    return status;
}

uint32_t povundiri_recording_report(struct povundiri_recording *recording, char **text_at, size_t *length, int *fault) {
    const struct asked asked = {REPORT, NULL, 0};
    return text(recording, &asked, text_at, length, fault);
}

uint32_t povundiri_recording_show(struct povundiri_recording *recording, uint16_t width, char **text_at, size_t *length, int *fault) {
    const struct asked asked = {SHOW, NULL, width};
    return text(recording, &asked, text_at, length, fault);
}

/* It folds first, where there are many segments; whether that is done makes no difference to the text. */
uint32_t povundiri_recording_export(struct povundiri_recording *recording, const char *prefix, char **text_at, size_t *length, int *fault) {
    const struct asked asked = {EXPORT, prefix, 0};
    if (recording != NULL) (void)povundiri_recording_fold_if_due(recording);
    return text(recording, &asked, text_at, length, fault);
}
