/* The functions of povundiri.h that are inline there, for callers by name; the names of the statuses; and the version. */

#include "povundiri.h"

extern inline bool povundiri_is_array(const void *at, size_t length);
extern inline void *povundiri_address(const void *at);
extern inline bool povundiri_is_room(struct povundiri_room room);
extern inline uint32_t povundiri_create(struct povundiri_shape shape, struct povundiri_handle *out);
extern inline uint32_t povundiri_create_in(struct povundiri_room room, struct povundiri_shape shape, struct povundiri_handle *out);
extern inline uint32_t povundiri_adopt(const uint64_t *words, size_t length, size_t cursors, struct povundiri_handle *out);
extern inline uint32_t povundiri_adopt_in(struct povundiri_room room, const uint64_t *words, size_t length, size_t cursors,
                                          struct povundiri_handle *out);
extern inline uint32_t povundiri_close(struct povundiri_handle *segment, uint64_t *words, size_t length, size_t *needed);
extern inline uint32_t povundiri_drop(struct povundiri_handle *handle);
extern inline uint32_t povundiri_recorder(struct povundiri_handle *segment, uint32_t units, struct povundiri_handle *out);
extern inline uint32_t povundiri_lend(struct povundiri_handle *segment, struct povundiri_handle *recorder, uint32_t units);
extern inline uint32_t povundiri_join(struct povundiri_handle *segment, struct povundiri_handle *recorder);
extern inline uint32_t povundiri_units(struct povundiri_handle *handle, uint32_t *units);
extern inline uint32_t povundiri_outstanding(struct povundiri_handle *segment, uint32_t *outstanding);
extern inline uint32_t povundiri_hist(struct povundiri_handle *recorder, const char *name, size_t name_length, struct povundiri_spec spec,
                                      const uint32_t *values, size_t values_length, size_t *hist);
extern inline uint32_t povundiri_hist_linear(struct povundiri_handle *recorder, const char *name, uint32_t minimum, uint32_t maximum,
                                             uint32_t buckets, size_t *hist);
extern inline uint32_t povundiri_hist_boolean(struct povundiri_handle *recorder, const char *name, size_t *hist);
extern inline uint32_t povundiri_hist_custom(struct povundiri_handle *recorder, const char *name, const uint32_t *values, size_t length,
                                             size_t *hist);
extern inline uint32_t povundiri_hist_scale(struct povundiri_handle *recorder, const char *name, uint32_t minimum, uint32_t maximum,
                                            uint32_t bits, size_t *hist);
extern inline uint32_t povundiri_hist_sparse(struct povundiri_handle *recorder, const char *name, size_t *hist);
extern inline uint32_t povundiri_add(struct povundiri_handle *recorder, size_t hist, int32_t value, uint32_t count);
extern inline uint32_t povundiri_batch(struct povundiri_handle *recorder, size_t hist, const struct povundiri_item *items, size_t length,
                                       int64_t sum, size_t *added);
extern inline uint32_t povundiri_delta(struct povundiri_handle *recorder, size_t hist, struct povundiri_count *counts, size_t length,
                                       struct povundiri_totals *totals);
extern inline uint32_t povundiri_snapshot(struct povundiri_handle *recorder, size_t hist, struct povundiri_count *counts, size_t length,
                                          struct povundiri_totals *totals);
extern inline uint32_t povundiri_set_corrupt(struct povundiri_handle *recorder);
extern inline uint32_t povundiri_limit_indexes(struct povundiri_handle *recorder, size_t entries);
extern inline uint32_t povundiri_records(struct povundiri_handle *recorder, uint64_t *records, size_t length, size_t *needed);
extern inline uint32_t povundiri_next_shared(struct povundiri_handle *recorder, size_t cursor, uint64_t *record);
extern inline uint32_t povundiri_segment_look(struct povundiri_handle *segment, uint64_t *image, size_t image_length, size_t *needed);
extern inline uint32_t povundiri_report(const uint64_t *words, size_t length, char *text, size_t text_length, size_t *needed);
extern inline uint32_t povundiri_report_bounded(const uint64_t *words, size_t length, char *text, size_t text_length, size_t *needed,
                                                uint64_t most_keys);
extern inline uint32_t povundiri_export(const uint64_t *words, size_t length, const char *prefix, char *text, size_t text_length,
                                        size_t *needed);
extern inline uint32_t povundiri_show(const uint64_t *words, size_t length, uint16_t width, char *text, size_t text_length, size_t *needed);
extern inline uint32_t povundiri_sums_new(struct povundiri_handle *out);
extern inline uint32_t povundiri_sums_add(struct povundiri_handle *sums, uint64_t number, const uint64_t *words, size_t length);
extern inline uint32_t povundiri_sums_add_totals(struct povundiri_handle *sums, const char *text, size_t length, size_t *line);
extern inline uint32_t povundiri_sums_drop(struct povundiri_handle *sums);
extern inline uint32_t povundiri_sums_append(struct povundiri_handle *sums, struct povundiri_handle *other);
extern inline uint32_t povundiri_sums_report(struct povundiri_handle *sums, char *text, size_t text_length, size_t *needed);
extern inline uint32_t povundiri_sums_totals(struct povundiri_handle *sums, char *text, size_t text_length, size_t *needed);
extern inline uint32_t povundiri_sums_export(struct povundiri_handle *sums, const char *prefix, char *text, size_t text_length,
                                             size_t *needed);
extern inline uint32_t povundiri_sums_show(struct povundiri_handle *sums, uint16_t width, char *text, size_t text_length, size_t *needed);

struct named {
    uint32_t status;
    const char *name;
};

/* Each is unique. If several statuses have one word that `persist_report explain` knows, the call or the part that it is of comes in
 * front, as in the lines of that program. */
static const struct named NAMES[] = {
    {POVUNDIRI_DONE, "Done"},
    {POVUNDIRI_NULL, "Null"},
    {POVUNDIRI_BAD_ROOM, "BadRoom"},
    {POVUNDIRI_EMPTY, "EmptyHandle"},
    {POVUNDIRI_NOT_EMPTY, "FullHandle"},
    {POVUNDIRI_OTHER_KIND, "OtherKind"},
    {POVUNDIRI_OTHER_SEGMENT, "OtherSegment"},
    {POVUNDIRI_SHORT, "Short"},
    {POVUNDIRI_UNKNOWN, "UnknownHistogram"},
    {POVUNDIRI_NO_CURSOR, "NoCursor"},
    {POVUNDIRI_BAD_KIND, "NoSuchKind"},
    {POVUNDIRI_IN_USE, "InUse"},
    {POVUNDIRI_LIST_ENDS, "ListEnds"},
    {POVUNDIRI_NO_MEMORY, "NoMemory"},
    {POVUNDIRI_ELSEWHERE, "Elsewhere"},
    {POVUNDIRI_BUSY, "Busy"},
    {POVUNDIRI_SYSTEM, "System"},
    {POVUNDIRI_TOO_MANY_KEYS, "TooManyKeys"},
    {POVUNDIRI_BAD_PREFIX, "BadPrefix"},
    {POVUNDIRI_TOO_MANY, "Sums TooMany"},
    {POVUNDIRI_BAD_TOTALS, "BadTotals"},
    {POVUNDIRI_FELL, "Fell"},
    {POVUNDIRI_COSTS_MORE, "CostsMore"},
    {POVUNDIRI_NOT_OWNER, "NotOwner"},
    {POVUNDIRI_FOLDER_IN_USE, "FolderInUse"},
    {POVUNDIRI_NO_RECORDING, "NoRecording"},
    {POVUNDIRI_BAD_OPTIONS, "BadOptions"},
    {POVUNDIRI_REFUSED_BAD_NAME, "BadName"},
    {POVUNDIRI_REFUSED_BAD_SPEC, "BadSpec"},
    {POVUNDIRI_REFUSED_ZERO_COUNT, "ZeroCount"},
    {POVUNDIRI_REFUSED_NO_UNITS, "NoUnits"},
    {POVUNDIRI_REFUSED_TOO_MANY, "TooMany"},
    {POVUNDIRI_REFUSED_NO_MEMORY, "Refused NoMemory"},
    {POVUNDIRI_REFUSED_TOO_LARGE, "TooLarge"},
    {POVUNDIRI_REFUSED_CORRUPT, "Corrupt"},
    {POVUNDIRI_REFUSED_FULL, "Full"},
    {POVUNDIRI_REFUSED_OTHER_SPEC, "OtherSpec"},
    {POVUNDIRI_OPEN_BAD_SHAPE, "BadShape"},
    {POVUNDIRI_OPEN_BAD_CURSORS, "Open BadCursors"},
    {POVUNDIRI_OPEN_NO_MEMORY, "Open NoMemory"},
    {POVUNDIRI_ADOPT_BAD_IMAGE, "Image"},
    {POVUNDIRI_ADOPT_OLD_VERSION, "OldVersion"},
    {POVUNDIRI_ADOPT_CORRUPT, "Adopt Corrupt"},
    {POVUNDIRI_ADOPT_DAMAGED, "Damaged"},
    {POVUNDIRI_ADOPT_NO_UNITS, "Adopt NoUnits"},
    {POVUNDIRI_ADOPT_BAD_CURSORS, "Adopt BadCursors"},
    {POVUNDIRI_ADOPT_NO_MEMORY, "Adopt NoMemory"},
    {POVUNDIRI_SPEC_BAD_MIN, "BadMin"},
    {POVUNDIRI_SPEC_BAD_MAX, "BadMax"},
    {POVUNDIRI_SPEC_TOO_FEW, "TooFew"},
    {POVUNDIRI_SPEC_TOO_MANY, "BadSpec TooMany"},
    {POVUNDIRI_SPEC_BAD_RANGE, "BadRange"},
    {POVUNDIRI_SPEC_EMPTY, "Empty"},
    {POVUNDIRI_IMAGE_TOO_SHORT, "TooShort"},
    {POVUNDIRI_IMAGE_BAD_COOKIE, "BadCookie"},
    {POVUNDIRI_IMAGE_BAD_VERSION, "BadVersion"},
    {POVUNDIRI_IMAGE_BAD_PAGE, "BadPage"},
    {POVUNDIRI_IMAGE_BAD_SIZE, "BadSize"},
    {POVUNDIRI_IMAGE_NOT_READY, "NotReady"},
    {POVUNDIRI_IMAGE_DELETED, "Deleted"},
    {POVUNDIRI_IMAGE_BAD_FREE, "BadFree"},
    {POVUNDIRI_IMAGE_BAD_QUEUE, "BadQueue"},
    {POVUNDIRI_IMAGE_NO_MEMORY, "Image NoMemory"},
};

const char *povundiri_status_text(uint32_t status) {
    size_t i;
    for (i = 0; i < sizeof NAMES / sizeof NAMES[0]; i += 1) {
        if (NAMES[i].status == status) return NAMES[i].name;
    }
    return "NoSuchStatus";
}

const char *povundiri_version(void) {
    return POVUNDIRI_VERSION_TEXT;
}
