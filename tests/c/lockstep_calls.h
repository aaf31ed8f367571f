/* Calls of a recorder, each by the record of a schedule (docs/STEPPED.md). Its answer is written as `stepped` writes it, but that a `hist`
 * answers the number that the histogram has for this recorder. */
#ifndef LOCKSTEP_CALLS_H
#define LOCKSTEP_CALLS_H

#include <inttypes.h>
#include <stdarg.h>
#include <stdio.h>
#include <stdlib.h>
#include <string.h>
#include <unistd.h>

#include "povundiri.h"

enum { MOST_FIELDS = 64, MOST_LINE = 2048, MOST_NAMES = 32, MOST_COUNTS = 4096 };

/* A recorder, and the names that it knows. */
struct caller {
    struct povundiri_handle recorder;
    char names[MOST_NAMES][MOST_LINE];
    size_t hists[MOST_NAMES];
    size_t length;
};

/* A line, whose commas are zeros, and where its fields begin. */
struct record {
    char text[MOST_LINE];
    char *fields[MOST_FIELDS];
    size_t length;
};

struct text {
    char *at;
    size_t room, length;
};

static void fail(const char *format, ...) __attribute__((noreturn, format(printf, 1, 2)));
static void fail(const char *format, ...) {
    va_list more;
    va_start(more, format);
    vfprintf(stderr, format, more);
    va_end(more);
    _exit(3);
}

static void put(struct text *text, const char *format, ...) __attribute__((format(printf, 2, 3)));
static void put(struct text *text, const char *format, ...) {
    const size_t room = text->room - text->length;
    va_list more;
    int length;
    va_start(more, format);
    length = vsnprintf(text->at + text->length, room, format, more);
    va_end(more);
    if (length < 0 || (size_t)length >= room) fail("an answer is too long\n");
    text->length += (size_t)length;
}

static void split(const char *line, struct record *record) {
    char *at = record->text;
    if (strlen(line) >= sizeof record->text) fail("too long: %s\n", line);
    strcpy(record->text, line);
    record->text[strcspn(record->text, "\n")] = '\0';
    for (record->length = 0; at != NULL && record->length < MOST_FIELDS; record->length += 1) {
        record->fields[record->length] = at;
        at = strchr(at, ',');
        if (at != NULL) *at++ = '\0';
    }
    if (at != NULL) fail("too many fields: %s\n", line);
}

static const char *field(const struct record *record, size_t place) {
    if (place >= record->length) fail("%s has no field %zu\n", record->fields[0], place);
    return record->fields[place];
}

static int64_t number(const struct record *record, size_t place) {
    char *end;
    const char *text = field(record, place);
    const int64_t value = strtoll(text, &end, 10);
    if (*text == '\0' || *end != '\0') fail("no number: %s\n", text);
    return value;
}

static uint32_t unsigned_number(const struct record *record, size_t place) {
    return (uint32_t)number(record, place);
}

/* The place of a name among those that a recorder knows, or their number if it does not. */
static size_t place_of(const struct caller *caller, const char *name) {
    size_t place = 0;
    while (place < caller->length && strcmp(caller->names[place], name) != 0) place += 1;
    return place;
}

/* Why a call is refused, in one word. */
static const char *reason(uint32_t status) {
    const char *name = povundiri_status_text(status), *last = strrchr(name, ' ');
    return last != NULL ? last + 1 : name;
}

static void refuse(struct text *answer, uint32_t status) {
    const bool is_spec = status >= POVUNDIRI_SPEC_BAD_MIN && status <= POVUNDIRI_SPEC_EMPTY;
    put(answer, "refused,%s%s", is_spec ? "BadSpec," : "", reason(status));
}

static uint32_t found(struct caller *caller, const struct record *record, size_t *hist) {
    const char *name = field(record, 2), *kind = field(record, 3);
    uint32_t values[MOST_FIELDS];
    size_t length;
    if (strcmp(kind, "boolean") == 0) return povundiri_hist_boolean(&caller->recorder, name, hist);
    if (strcmp(kind, "sparse") == 0) return povundiri_hist_sparse(&caller->recorder, name, hist);
    if (strcmp(kind, "linear") == 0) {
        return povundiri_hist_linear(&caller->recorder, name, unsigned_number(record, 4), unsigned_number(record, 5),
                                     unsigned_number(record, 6), hist);
    }
    for (length = 0; length + 4 < record->length; length += 1) values[length] = unsigned_number(record, length + 4);
    return povundiri_hist_custom(&caller->recorder, name, values, length, hist);
}

static void call_hist(struct caller *caller, const struct record *record, struct text *answer) {
    const char *name = field(record, 2);
    const size_t place = place_of(caller, name);
    size_t hist = 0;
    const uint32_t status = found(caller, record, &hist);
    if (status != POVUNDIRI_DONE) {
        refuse(answer, status);
        return;
    }
    if (place == MOST_NAMES) fail("too many names\n");
    strcpy(caller->names[place], name);
    caller->hists[place] = hist;
    if (place == caller->length) caller->length += 1;
    put(answer, "hist,%zu", hist);
}

static void call_batch(struct caller *caller, size_t hist, const struct record *record, struct text *answer) {
    struct povundiri_item items[MOST_FIELDS];
    size_t length, added = 0;
    uint32_t status;
    for (length = 0; 2 * length + 5 < record->length; length += 1) {
        items[length].value = (int32_t)number(record, 2 * length + 4);
        items[length].count = unsigned_number(record, 2 * length + 5);
    }
    status = povundiri_batch(&caller->recorder, hist, items, length, number(record, 3), &added);
    if (status == POVUNDIRI_DONE) {
        put(answer, "added");
    } else {
        put(answer, "batch_refused,%zu,%s", added, reason(status));
    }
}

static void call_reading(struct caller *caller, size_t hist, const struct record *record, struct text *answer) {
    static struct povundiri_count counts[MOST_COUNTS];
    struct povundiri_totals totals;
    const bool takes = strcmp(record->fields[0], "delta") == 0;
    const uint32_t status = (takes ? povundiri_delta : povundiri_snapshot)(&caller->recorder, hist, counts, MOST_COUNTS, &totals);
    size_t place;
    if (status != POVUNDIRI_DONE) {
        refuse(answer, status);
        return;
    }
    put(answer, "%s,%" PRIi64, record->fields[0], totals.sum);
    if (!takes) put(answer, ",%" PRIu64, totals.redundant);
    for (place = 0; place < totals.length; place += 1) put(answer, ",%" PRIi32 ",%" PRIu64, counts[place].key, counts[place].count);
}

static void call_add(struct caller *caller, size_t hist, const struct record *record, struct text *answer) {
    const uint32_t status = povundiri_add(&caller->recorder, hist, (int32_t)number(record, 3), unsigned_number(record, 4));
    if (status == POVUNDIRI_DONE) {
        put(answer, "added");
    } else {
        refuse(answer, status);
    }
}

/* The call of a record, whose answer is put behind the text. */
static void call(struct caller *caller, const struct record *record, struct text *answer) {
    const char *kind = record->fields[0];
    const bool has_name = strcmp(kind, "set_corrupt") != 0 && strcmp(kind, "hist") != 0;
    const size_t place = has_name ? place_of(caller, field(record, 2)) : 0;
    if (has_name && place == caller->length) fail("no histogram %s is known\n", field(record, 2));
    if (strcmp(kind, "hist") == 0) {
        call_hist(caller, record, answer);
    } else if (strcmp(kind, "add") == 0) {
        call_add(caller, caller->hists[place], record, answer);
    } else if (strcmp(kind, "batch") == 0) {
        call_batch(caller, caller->hists[place], record, answer);
    } else if (strcmp(kind, "delta") == 0 || strcmp(kind, "snapshot") == 0) {
        call_reading(caller, caller->hists[place], record, answer);
    } else if (strcmp(kind, "set_corrupt") == 0) {
        const uint32_t status = povundiri_set_corrupt(&caller->recorder);
        put(answer, status == POVUNDIRI_DONE ? "flagged" : "refused,%s", povundiri_status_text(status));
    } else {
        fail("no call: %s\n", kind);
    }
}

#endif
