// Takes the place of the proved functions when the thread sanitizer watches what is in c/: it cannot see into the library that rt builds. A
// segment counts units and recorders as there, and one total for all histograms; it has no words. Each call reads and writes its handles,
// so two at once are found. What threads share of a segment is relaxed, so that it puts no call of one thread before a call of another.

#include <algorithm>
#include <atomic>
#include <cstdint>
#include <limits>

#include "povundiri.h"
#include "povundiri_merge.h"

namespace {

constexpr std::uint32_t kMostRecorders = 256;

struct Words {
    std::atomic<std::uint32_t> owners{1};
    std::atomic<std::uint64_t> total{0};
};

// What a handle points to: a segment, or a recorder with a number of histograms.
struct Held {
    bool is_segment;
    Words* words;
    std::uint32_t units;
    std::uint32_t outstanding;
    std::size_t histograms;
};

void release(Words* words) {
    if (words->owners.fetch_sub(1, std::memory_order_acq_rel) == 1) delete words;
}

// What a handle has. The handle is written again, as by a real call.
Held* held(povundiri_handle* handle) {
    const povundiri_handle was = *handle;
    *handle = was;
    return was.held ? static_cast<Held*>(was.at) : nullptr;
}

std::uint32_t fill(povundiri_handle* out, const Held& of) {
    if (held(out) != nullptr) return POVUNDIRI_NOT_EMPTY;
    *out = {true, new Held(of)};
    return POVUNDIRI_DONE;
}

void empty(povundiri_handle* handle) {
    release(held(handle)->words);
    delete held(handle);
    *handle = {};
}

std::uint32_t kind(povundiri_handle* handle, bool is_segment) {
    const Held* of = held(handle);
    if (of == nullptr) return POVUNDIRI_EMPTY;
    return of->is_segment == is_segment ? std::uint32_t{POVUNDIRI_DONE} : std::uint32_t{POVUNDIRI_OTHER_KIND};
}

std::uint32_t counted(povundiri_handle* recorder, std::size_t hist, povundiri_count* counts, std::size_t length, povundiri_totals* totals) {
    if (kind(recorder, false) != POVUNDIRI_DONE) return kind(recorder, false);
    if (hist >= held(recorder)->histograms) return POVUNDIRI_UNKNOWN;
    *totals = {1, 0, 0};
    if (length < 1) return POVUNDIRI_SHORT;
    counts[0] = {1, held(recorder)->words->total.load(std::memory_order_relaxed)};
    totals->redundant = counts[0].count;
    return POVUNDIRI_DONE;
}

// What a call of a follower or a sum returns.
std::uint32_t no_sums(const povundiri_handle* handle) { return handle->held ? POVUNDIRI_OTHER_KIND : POVUNDIRI_EMPTY; }

}  // namespace

extern "C" {

std::uint32_t povundiri_proved_create(povundiri_shape, povundiri_handle* out) {
    return fill(out, {true, new Words, std::numeric_limits<std::uint32_t>::max(), 0, 0});
}

std::uint32_t povundiri_proved_create_in(povundiri_room, povundiri_shape shape, povundiri_handle* out) {
    return povundiri_proved_create(shape, out);
}

std::uint32_t povundiri_proved_adopt(const std::uint64_t*, std::size_t, std::size_t, povundiri_handle* out) {
    return povundiri_proved_create({}, out);
}

std::uint32_t povundiri_proved_adopt_in(povundiri_room, const std::uint64_t*, std::size_t, std::size_t, povundiri_handle* out) {
    return povundiri_proved_create({}, out);
}

std::uint32_t povundiri_proved_drop(povundiri_handle* handle, povundiri_handle) {
    if (held(handle) == nullptr) return POVUNDIRI_EMPTY;
    empty(handle);
    return POVUNDIRI_DONE;
}

// The image has one word: the total.
std::uint32_t povundiri_proved_close(povundiri_handle* segment, povundiri_handle, std::uint64_t* words, std::size_t length,
                                     std::size_t* needed) {
    if (kind(segment, true) != POVUNDIRI_DONE) return kind(segment, true);
    *needed = 1;
    if (length < 1) return POVUNDIRI_SHORT;
    if (held(segment)->outstanding != 0) return POVUNDIRI_IN_USE;
    words[0] = held(segment)->words->total.load(std::memory_order_relaxed);
    empty(segment);
    return POVUNDIRI_DONE;
}

std::uint32_t povundiri_proved_recorder(povundiri_handle* segment, std::uint32_t units, povundiri_handle* out) {
    if (kind(segment, true) != POVUNDIRI_DONE) return kind(segment, true);
    Held* of = held(segment);
    if (of->units < units) return POVUNDIRI_REFUSED_NO_UNITS;
    if (of->outstanding == kMostRecorders) return POVUNDIRI_REFUSED_TOO_MANY;
    const std::uint32_t status = fill(out, {false, of->words, units, 0, 0});
    if (status != POVUNDIRI_DONE) return status;
    of->words->owners.fetch_add(1, std::memory_order_relaxed);
    of->units -= units;
    of->outstanding += 1;
    return status;
}

std::uint32_t povundiri_proved_join(povundiri_handle* segment, povundiri_handle* recorder, povundiri_handle) {
    if (kind(segment, true) != POVUNDIRI_DONE) return kind(segment, true);
    if (kind(recorder, false) != POVUNDIRI_DONE) return kind(recorder, false);
    if (held(segment)->words != held(recorder)->words) return POVUNDIRI_OTHER_SEGMENT;
    held(segment)->units += held(recorder)->units;
    held(segment)->outstanding -= 1;
    empty(recorder);
    return POVUNDIRI_DONE;
}

std::uint32_t povundiri_proved_lend(povundiri_handle* segment, povundiri_handle* recorder, std::uint32_t units, povundiri_handle) {
    if (kind(segment, true) != POVUNDIRI_DONE) return kind(segment, true);
    if (kind(recorder, false) != POVUNDIRI_DONE) return kind(recorder, false);
    if (held(segment)->words != held(recorder)->words) return POVUNDIRI_OTHER_SEGMENT;
    if (held(segment)->units < units) return POVUNDIRI_REFUSED_NO_UNITS;
    held(segment)->units -= units;
    held(recorder)->units += units;
    return POVUNDIRI_DONE;
}

std::uint32_t povundiri_proved_units(povundiri_handle* handle, std::uint32_t* units) {
    if (held(handle) == nullptr) return POVUNDIRI_EMPTY;
    *units = held(handle)->units;
    return POVUNDIRI_DONE;
}

std::uint32_t povundiri_proved_outstanding(povundiri_handle* segment, std::uint32_t* outstanding) {
    if (kind(segment, true) != POVUNDIRI_DONE) return kind(segment, true);
    *outstanding = held(segment)->outstanding;
    return POVUNDIRI_DONE;
}

std::uint32_t povundiri_proved_hist(povundiri_handle* recorder, const std::uint8_t*, std::size_t, povundiri_spec, const std::uint32_t*,
                                    std::size_t, std::size_t* hist) {
    if (kind(recorder, false) != POVUNDIRI_DONE) return kind(recorder, false);
    *hist = held(recorder)->histograms++;
    return POVUNDIRI_DONE;
}

std::uint32_t povundiri_proved_add(povundiri_handle* recorder, std::size_t hist, std::int32_t, std::uint32_t count) {
    if (kind(recorder, false) != POVUNDIRI_DONE) return kind(recorder, false);
    Held* of = held(recorder);
    if (hist >= of->histograms) return POVUNDIRI_UNKNOWN;
    if (count == 0) return POVUNDIRI_REFUSED_ZERO_COUNT;
    if (of->units < count) return POVUNDIRI_REFUSED_NO_UNITS;
    of->units -= count;
    of->words->total.fetch_add(count, std::memory_order_relaxed);
    return POVUNDIRI_DONE;
}

std::uint32_t povundiri_proved_batch(povundiri_handle* recorder, std::size_t hist, const povundiri_item* items, std::size_t length,
                                     std::int64_t, std::size_t* added) {
    std::uint32_t units = 0;
    for (std::size_t i = 0; i < length; ++i) units += items[i].count;
    const std::uint32_t status = povundiri_proved_add(recorder, hist, 0, units);
    *added = status == POVUNDIRI_DONE ? length : 0;
    return status;
}

std::uint32_t povundiri_proved_delta(povundiri_handle* recorder, std::size_t hist, povundiri_count* counts, std::size_t length,
                                     povundiri_totals* totals) {
    return counted(recorder, hist, counts, length, totals);
}

std::uint32_t povundiri_proved_snapshot(povundiri_handle* recorder, std::size_t hist, povundiri_count* counts, std::size_t length,
                                        povundiri_totals* totals) {
    return counted(recorder, hist, counts, length, totals);
}

// Of the words the first is what is to be added, as an image of this has it: a total.
std::uint32_t povundiri_proved_merge(povundiri_handle* recorder, const std::uint64_t* words, std::size_t length, std::uint64_t, std::uint8_t*,
                                     std::size_t, povundiri_merge_totals* totals) {
    if (held(recorder) == nullptr) return POVUNDIRI_EMPTY;
    if (length < 1) return POVUNDIRI_IMAGE_TOO_SHORT;
    *totals = {0, words[0], words[0], 0, 0, 0, 0, false, false};
    if (kind(recorder, false) != POVUNDIRI_DONE) return kind(recorder, false);
    Held* of = held(recorder);
    if (of->units < words[0]) return POVUNDIRI_REFUSED_NO_UNITS;
    of->units -= static_cast<std::uint32_t>(words[0]);
    of->words->total.fetch_add(words[0], std::memory_order_relaxed);
    totals->added = words[0];
    totals->left = 0;
    return POVUNDIRI_DONE;
}

std::uint32_t povundiri_proved_set_corrupt(povundiri_handle* recorder) { return kind(recorder, false); }

std::uint32_t povundiri_proved_limit_indexes(povundiri_handle* recorder, std::size_t) { return kind(recorder, false); }

std::uint32_t povundiri_proved_records(povundiri_handle* recorder, std::uint64_t*, std::size_t, std::size_t* needed) {
    *needed = 0;
    return kind(recorder, false);
}

std::uint32_t povundiri_proved_next_shared(povundiri_handle* recorder, std::size_t, std::uint64_t*) {
    return kind(recorder, false) == POVUNDIRI_DONE ? std::uint32_t{POVUNDIRI_LIST_ENDS} : kind(recorder, false);
}

std::uint32_t povundiri_proved_compose(const std::uint64_t*, std::size_t, const std::uint64_t*, std::size_t, const std::uint64_t*,
                                       std::size_t, std::uint64_t*, std::size_t) {
    return POVUNDIRI_DONE;
}

std::uint32_t povundiri_proved_segment_look(povundiri_handle* segment, std::uint64_t*, std::size_t, std::size_t* needed) {
    *needed = 0;
    return kind(segment, true);
}

std::uint32_t povundiri_proved_report(const std::uint64_t*, std::size_t, std::uint8_t*, std::size_t, std::size_t* needed) {
    *needed = 0;
    return POVUNDIRI_DONE;
}

std::uint32_t povundiri_proved_report_bounded(const std::uint64_t*, std::size_t, std::uint8_t*, std::size_t, std::size_t* needed,
                                              std::uint64_t) {
    *needed = 0;
    return POVUNDIRI_DONE;
}

std::uint32_t povundiri_proved_export(const std::uint64_t*, std::size_t, const std::uint8_t*, std::size_t, std::uint8_t*, std::size_t,
                                      std::size_t* needed) {
    *needed = 0;
    return POVUNDIRI_DONE;
}

std::uint32_t povundiri_proved_show(const std::uint64_t*, std::size_t, std::uint16_t, std::uint8_t*, std::size_t, std::size_t* needed) {
    *needed = 0;
    return POVUNDIRI_DONE;
}

// There are no followers and no sums here: each handle is of another kind, or empty.
std::uint32_t povundiri_proved_follower_new(std::uint64_t, povundiri_handle*) { return POVUNDIRI_NO_MEMORY; }
std::uint32_t povundiri_proved_follower_of_marks(std::uint64_t, const std::uint64_t*, std::size_t, povundiri_handle*) {
    return POVUNDIRI_NO_MEMORY;
}

std::uint32_t povundiri_proved_follower_merge(povundiri_handle* follower, povundiri_handle* recorder, const std::uint64_t*, std::size_t,
                                              std::uint64_t, std::uint8_t*, std::size_t, povundiri_merge_totals*) {
    return recorder->held ? no_sums(follower) : std::uint32_t{POVUNDIRI_EMPTY};
}

std::uint32_t povundiri_proved_follower_skip(povundiri_handle* follower, const std::uint64_t*, std::size_t, std::uint64_t*) {
    return no_sums(follower);
}

std::uint32_t povundiri_proved_sums_new(povundiri_handle*) { return POVUNDIRI_NO_MEMORY; }

std::uint32_t povundiri_proved_sums_add(povundiri_handle* sums, std::uint64_t, const std::uint64_t*, std::size_t) { return no_sums(sums); }

std::uint32_t povundiri_proved_sums_add_totals(povundiri_handle* sums, const std::uint8_t*, std::size_t, std::size_t* line) {
    *line = 0;
    return no_sums(sums);
}

std::uint32_t povundiri_proved_sums_append(povundiri_handle* sums, povundiri_handle*) { return no_sums(sums); }

std::uint32_t povundiri_proved_sums_report(povundiri_handle* sums, std::uint8_t*, std::size_t, std::size_t*) { return no_sums(sums); }

std::uint32_t povundiri_proved_sums_totals(povundiri_handle* sums, std::uint8_t*, std::size_t, std::size_t*) { return no_sums(sums); }

std::uint32_t povundiri_proved_sums_export(povundiri_handle* sums, const std::uint8_t*, std::size_t, std::uint8_t*, std::size_t, std::size_t*) {
    return no_sums(sums);
}

std::uint32_t povundiri_proved_sums_show(povundiri_handle* sums, std::uint16_t, std::uint8_t*, std::size_t, std::size_t*) {
    return no_sums(sums);
}
}
