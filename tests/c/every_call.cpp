// Every call of povundiri.hpp: those that return a status, and with exceptions those that throw.

#include "povundiri.hpp"

#include <array>
#include <atomic>
#include <cstdlib>
#include <set>
#include <thread>

#include "checks.hpp"

namespace {

using povundiri::Counts;
using povundiri::Hist;
using povundiri::Recorder;
using povundiri::Segment;
using povundiri::Status;

constexpr std::size_t kWords = 1024;
constexpr povundiri::Shape kShape = povundiri::shape(kWords, 256, 7, 1);
constexpr const char* kReport =
    "b,boolean,1,2,1\nb,total,1,1\nc,custom,10,100,5\nc,total,5,60\nl,linear,1,126,3\nl,total,3,51\ns,sparse,-3,-2,1\ns,total,1,-3\n";

// A room that lasts as long as this.
class Memory {
public:
    explicit Memory(std::size_t bytes) : at_(std::aligned_alloc(16, bytes)), bytes_(bytes) {}
    Memory(const Memory&) = delete;
    ~Memory() { std::free(at_); }

    povundiri::Room room() const { return {at_, bytes_}; }

private:
    void* at_;
    std::size_t bytes_;
};

constexpr std::size_t kBytes = (kWords + 2) * 8;

// A segment, two recorders of it, and a histogram of each kind by the first of them.
struct Made {
    Segment segment;
    Recorder recorder, other;
    Hist linear, boolean, custom, sparse;
};

void statuses_of_making(Made& made) {
    Segment none;
    Recorder& recorder = made.recorder;
    DONE(Segment::try_create(kShape, made.segment));
    RETURNS(NotEmpty, Segment::try_create(kShape, made.segment));
    RETURNS(Empty, none.try_recorder(recorder));
    HOLDS(made.segment.shape().size == kWords && made.segment.id() == 7 && made.segment.version() == 2 && none.shape().size == 0);
    DONE(made.segment.try_recorder(recorder, 100));
    DONE(recorder.try_limit_indexes(1));
    DONE(made.segment.try_recorder(made.other, 1));
    DONE(recorder.try_linear(std::string_view("latency", 1), 1, 1000, 10, made.linear));
    DONE(recorder.try_boolean(std::string("b"), made.boolean));
    DONE(recorder.try_custom("c", {10, 100, 1000}, made.custom));
    DONE(recorder.try_sparse("s", made.sparse));
    RETURNS(RefusedOtherSpec, recorder.try_sparse("c", made.sparse));
}

void statuses_of_recording(Made& made) {
    Recorder& recorder = made.recorder;
    Counts counts;
    std::size_t added = 0;
    DONE(recorder.try_add(made.linear, 17, 3));
    DONE(recorder.try_add(made.boolean, true));
    HOLDS(recorder.add(made.sparse, std::int64_t{-3}));
    DONE(recorder.try_batch(made.custom, {{10, 2}, {20, 3}}, 60, added));
    HOLDS(added == 2);
    RETURNS(Unknown, made.other.try_add(made.linear, 1));
    RETURNS(Unknown, made.other.try_delta(made.linear, counts));
    DONE(recorder.try_snapshot(made.custom, counts));
    HOLDS(counts.units().size() == 4 && counts.units()[1].key == 10 && counts.units()[1].count == 5 && counts.sum() == 60);
    HOLDS(counts.redundant() == 5);
    DONE(recorder.try_delta(made.sparse, counts));
    HOLDS(counts.units().size() == 1 && counts.units()[0].key == -3 && counts.sum() == -3);
}

void statuses_of_ending(Made& made, std::vector<std::uint64_t>& image) {
    std::vector<std::uint64_t> records;
    std::uint32_t number = 0;
    std::uint64_t record = 0;
    DONE(made.recorder.try_records(records));
    DONE(made.recorder.try_next_shared(0, record));
    HOLDS(records.size() == 5 && record == records[0]);
    RETURNS(NoCursor, made.recorder.try_next_shared(1, record));
    DONE(made.recorder.try_units(number));
    HOLDS(number == 90);
    DONE(made.segment.try_outstanding(number));
    HOLDS(number == 2);
    RETURNS(InUse, made.segment.try_close(image));
    DONE(made.segment.try_join(made.recorder));
    DONE(made.segment.try_join(made.other));
    HOLDS(!made.recorder && !made.other && made.segment);
    DONE(made.segment.try_units(number));
    HOLDS(number == UINT32_MAX - 10);
    DONE(made.segment.try_close(image));
}

void statuses_of_texts(const std::vector<std::uint64_t>& image) {
    std::string text;
    DONE(povundiri::try_report(image, text));
    HOLDS(image.size() == kWords && text == kReport);
    // Three buckets of the boolean histogram, four of the custom one, ten of the linear one, and one value.
    DONE(povundiri::try_report(image, text, 18));
    HOLDS(text == kReport);
    RETURNS(TooManyKeys, povundiri::try_report(image, text, 17));
    RETURNS(ImageTooShort, povundiri::try_report({image.data(), 15}, text));
    DONE(povundiri::try_export_text(image, text));
    HOLDS(text.find("\npovundiri_units_bucket{histogram=\"l\",le=\"125\"} 3\n") != std::string::npos);
    DONE(povundiri::try_export_text(image, text, "my"));
    HOLDS(text.find("\nmy_sparse_total{histogram=\"s\",value=\"-3\"} 1\n") != std::string::npos);
    HOLDS(text.find("povundiri") == std::string::npos);
    RETURNS(BadPrefix, povundiri::try_export_text(image, text, "a:b"));
    RETURNS(ImageTooShort, povundiri::try_export_text({image.data(), 15}, text));
    DONE(povundiri::try_show_text(image, text));
    HOLDS(text.find("b\n  boolean, units 1, sum 1, mean 1.00\n  values  " + std::string(49, ' ') + "units percent   up to\n") == 0);
    DONE(povundiri::try_show_text(image, text, 40));
    HOLDS(text.find("b\n  boolean, units 1, sum 1, mean 1.00\n  values  " + std::string(9, ' ') + "units percent   up to\n") == 0);
    RETURNS(ImageTooShort, povundiri::try_show_text({image.data(), 15}, text));
}

void statuses() {
    Made made;
    std::vector<std::uint64_t> image;
    statuses_of_making(made);
    statuses_of_recording(made);
    statuses_of_ending(made, image);
    statuses_of_texts(image);
    RETURNS(Empty, made.segment.try_close(image));
}

// An image with a boolean and a sparse histogram.
std::vector<std::uint64_t> image_to_add() {
    Segment segment;
    Recorder recorder;
    Hist boolean, sparse;
    std::vector<std::uint64_t> image;
    DONE(Segment::try_create(kShape, segment));
    DONE(segment.try_recorder(recorder));
    DONE(recorder.try_boolean("b", boolean));
    DONE(recorder.try_sparse("s", sparse));
    DONE(recorder.try_add(boolean, true, 5));
    DONE(recorder.try_add(sparse, -3, 2));
    DONE(segment.try_join(recorder));
    DONE(segment.try_close(image));
    return image;
}

// The sum of an image has its texts; and its totals, which it leaves.
void sum_of_one(povundiri::Sums& sums, const std::vector<std::uint64_t>& image, std::string& totals) {
    std::string text, own;
    DONE(povundiri::try_report(image, own));
    DONE(sums.try_add(4, image));
    RETURNS(ImageTooShort, sums.try_add(5, {image.data(), 15}));
    DONE(sums.try_report(text));
    HOLDS(text == own);
    DONE(sums.try_totals(totals));
    HOLDS(totals.find("totals,1\nimages,1,0,0,0,0\nhist,b,1,4,5,0,5,boolean\n") == 0);
    DONE(povundiri::try_export_text(image, own, "my"));
    DONE(sums.try_export_text(text, "my"));
    HOLDS(text == own);
    RETURNS(BadPrefix, sums.try_export_text(text, "a:b"));
    DONE(povundiri::try_show_text(image, own, 40));
    DONE(sums.try_show_text(text, 40));
    HOLDS(text == own);
}

// Totals and sums are added to a sum, also the sum itself.
void sum_of_sums(povundiri::Sums& sums, const std::string& totals) {
    povundiri::Sums other;
    std::string text;
    std::size_t line = 9;
    RETURNS(BadTotals, other.try_add_totals("totals,2\n", &line));
    HOLDS(line == 1);
    DONE(other.try_add_totals(totals, &line));
    HOLDS(line == 0);
    DONE(other.try_append(sums));
    DONE(other.try_append(other));
    DONE(other.try_report(text));
    HOLDS(text == "b,boolean,1,2,20\nb,total,20,20\ns,sparse,-3,-2,8\ns,total,8,-24\n!images,4\n");
}

// A sum that was moved from, or never used, is that of no images.
void moved_sums(povundiri::Sums& sums, const std::vector<std::uint64_t>& image, const std::string& totals) {
    std::string text;
    povundiri::Sums moved(std::move(sums));
    DONE(moved.try_totals(text));
    HOLDS(text == totals);
    DONE(sums.try_report(text));
    HOLDS(text.empty());
    sums = std::move(moved);
    DONE(sums.try_totals(text));
    HOLDS(text == totals);
    DONE(moved.try_append(sums));
    moved.reset();
    DONE(moved.try_totals(text));
    HOLDS(text == "totals,1\nimages,0,0,0,0,0\nend,0\n");
    DONE(moved.try_add_totals("totals,1\nimages,18446744073709551615,0,0,0,0\nend,0\n"));
    RETURNS(TooMany, moved.try_add(0, image));
}

void sums() {
    const std::vector<std::uint64_t> image = image_to_add();
    povundiri::Sums sums;
    std::string totals;
    sum_of_one(sums, image, totals);
    sum_of_sums(sums, totals);
    moved_sums(sums, image, totals);
}

// A merge borrows the units that it costs: 5 of a boolean value and 2 of a sparse one.
void merges() {
    const std::vector<std::uint64_t> image = image_to_add();
    const std::size_t keys = 4;
    Segment segment;
    Recorder recorder, none;
    povundiri::MergeReport report;
    std::vector<std::uint64_t> merged;
    std::string text;
    std::uint32_t units = 0;
    RETURNS(Empty, none.try_merge(image, keys, report));
    DONE(Segment::try_create(kShape, segment));
    DONE(segment.try_recorder(recorder, 6));
    RETURNS(TooManyKeys, recorder.try_merge(image, keys - 1, report));
    RETURNS(ImageTooShort, recorder.try_merge({image.data(), 15}, keys, report));
    DONE(recorder.try_units(units));
    HOLDS(units == 6);
    DONE(recorder.try_merge(image, keys, report));
    HOLDS(report.added == 7 && report.left == 0 && report.cost == 7 && report.name[0] == 0);
    DONE(recorder.try_units(units));
    HOLDS(units == 6);
    DONE(segment.try_join(recorder));
    DONE(segment.try_units(units));
    HOLDS(units == UINT32_MAX - 7);
    DONE(segment.try_close(merged));
    DONE(povundiri::try_report(merged, text));
    HOLDS(text == "b,boolean,1,2,5\nb,total,5,5\ns,sparse,-3,-2,2\ns,total,2,-6\n");
}

// What comes before the histogram that stops it is added, and it is not tried again. A segment with too few units has none taken.
void merges_stop() {
    const std::vector<std::uint64_t> image = image_to_add();
    Segment segment;
    Recorder recorder;
    Hist hist;
    povundiri::MergeReport report;
    std::uint32_t units = 0;
    DONE(Segment::try_create(kShape, segment));
    DONE(segment.try_recorder(recorder, 1));
    DONE(recorder.try_boolean("s", hist));
    RETURNS(RefusedOtherSpec, recorder.try_merge(image, 4, report));
    HOLDS(report.added == 5 && report.left == 2 && report.stopped == POVUNDIRI_REFUSED_OTHER_SPEC && std::string(report.name) == "s");
    DONE(recorder.try_add(hist, 1, UINT32_MAX - 11));
    RETURNS(RefusedNoUnits, recorder.try_merge(image, 4, report));
    HOLDS(report.added == 0 && report.left == 7 && report.cost == 7 && report.stopped == POVUNDIRI_DONE && report.name[0] == 0);
    DONE(recorder.try_units(units));
    HOLDS(units < 7);
}

// A follower adds an image once, and borrows the units that it costs. One that was moved from begins again.
void followers() {
    const std::vector<std::uint64_t> image = image_to_add();
    Segment segment;
    Recorder recorder, none;
    povundiri::Follower follower(4), strict(3);
    povundiri::MergeReport report;
    std::uint64_t units = 9;
    RETURNS(Empty, follower.try_merge(none, image, 7, report));
    DONE(Segment::try_create(kShape, segment));
    DONE(segment.try_recorder(recorder, 6));
    RETURNS(TooManyKeys, strict.try_merge(recorder, image, 7, report));
    RETURNS(ImageTooShort, follower.try_skip({image.data(), 15}, units));
    RETURNS(CostsMore, follower.try_merge(recorder, image, 6, report));
    HOLDS(units == 9 && report.added == 0 && report.cost == 7 && report.name[0] == 0);
    DONE(follower.try_merge(recorder, image, 7, report));
    HOLDS(report.added == 7 && report.left == 0 && report.cost == 7 && report.passed == 0);
    povundiri::Follower moved(std::move(follower));
    DONE(moved.try_merge(recorder, image, 0, report));
    HOLDS(report.added == 0 && report.cost == 0);
    DONE(follower.try_skip(image, units));
    HOLDS(units == 7);
    follower = std::move(moved);
    DONE(follower.try_skip(image, units));
    HOLDS(units == 0);
    follower.reset();
    DONE(follower.try_skip(image, units));
    HOLDS(units == 7);
}

// A segment with too few units has none taken; a histogram of another spec is left out, and the others are added.
void followers_pass_over() {
    const std::vector<std::uint64_t> image = image_to_add();
    Segment segment, other;
    Recorder recorder, second;
    Hist hist;
    povundiri::Follower follower(4);
    povundiri::MergeReport report;
    DONE(Segment::try_create(kShape, segment));
    DONE(segment.try_recorder(recorder, 1));
    DONE(recorder.try_boolean("b", hist));
    DONE(recorder.try_add(hist, 1, UINT32_MAX - 6));
    RETURNS(RefusedNoUnits, follower.try_merge(recorder, image, 7, report));
    HOLDS(report.added == 0 && report.cost == 7 && report.stopped == POVUNDIRI_DONE && report.name[0] == 0);
    DONE(Segment::try_create(kShape, other));
    DONE(other.try_recorder(second, 1));
    DONE(second.try_sparse("b", hist));
    RETURNS(RefusedOtherSpec, follower.try_merge(second, image, 7, report));
    HOLDS(report.added == 2 && report.left == 5 && report.passed == 1 && std::string(report.name) == "b");
}

// The sum of a look is of another moment than its units, so it may cost as much again; but all looks at an honest child cost at most twice its
// units together. The amount of each sample here costs as much as its unit.
void followers_cost() {
    constexpr int kLooks = 500;
    constexpr std::uint64_t kEnough = 4'000'000'000;
    Segment segment, of_child;
    Recorder recorder;
    povundiri::Follower follower(10);
    std::atomic<bool> ends{false};
    std::uint64_t counted = 0, added = 0, cost = 0;
    DONE(Segment::try_create(kShape, segment));
    DONE(Segment::try_create(kShape, of_child));
    DONE(segment.try_recorder(recorder));
    const auto follow = [&] {
        povundiri::MergeReport report;
        std::vector<std::uint64_t> image;
        DONE(of_child.try_look(image));
        DONE(follower.try_merge(recorder, image, kEnough, report));
        added += report.added;
        cost += report.cost;
    };
    std::thread child([&] {
        Recorder own;
        Hist hist;
        if (of_child.try_recorder(own) != Status::Done || own.try_linear("l", 1, 1000, 10, hist) != Status::Done) return;
        while (!ends) counted += own.add(hist, 2'147'483'646);
    });
    for (int look = 0; look < kLooks; ++look) follow();
    ends = true;
    child.join();
    follow();
    HOLDS(added > 0 && added == counted && added <= cost && cost <= 2 * added);
}

void corrupt() {
    Segment segment;
    Recorder recorder;
    Hist hist;
    std::vector<std::uint64_t> image;
    DONE(Segment::try_create(kShape, segment));
    DONE(segment.try_recorder(recorder));
    DONE(recorder.try_set_corrupt());
    RETURNS(RefusedCorrupt, recorder.try_sparse("s", hist));
    DONE(segment.try_join(recorder));
    DONE(segment.try_close(image));
    RETURNS(AdoptCorrupt, Segment::try_adopt(image, segment));
}

// A room is the caller's again after the last of the segment and its recorders, whichever ends first; what was moved from is empty.
void moves() {
    Memory memory(kBytes);
    Segment segment;
    Recorder outlives;
    {
        Segment first;
        Recorder recorder, left;
        DONE(Segment::try_create(kShape, memory.room(), first));
        DONE(first.try_recorder(recorder, 10));
        DONE(first.try_recorder(left, 10));
        segment = std::move(first);
        outlives = std::move(recorder);
        HOLDS(segment && outlives);
        Segment& itself = segment;
        segment = std::move(itself);
        HOLDS(bool(segment));
    }
    DONE(segment.try_join(outlives));
    DONE(segment.try_recorder(outlives, 10));
    segment.reset();
    HOLDS(!segment);
    Hist hist;
    DONE(outlives.try_boolean("b", hist));
    outlives.reset();
    const std::uint64_t* const words = static_cast<std::uint64_t*>(memory.room().at) + 1;
    const std::vector<std::uint64_t> image(words, words + kWords);
    DONE(Segment::try_adopt(image, memory.room(), segment, 1));
    HOLDS(segment.shape().size == kWords && segment.shape().page == 256 && segment.shape().cursors == 1 && segment.id() == 7);
    DONE(segment.try_recorder(outlives, 10));
}

// Each status is an error code, and no two have one name.
void names() {
    std::set<std::string> names;
    for (std::uint32_t number = 0; number < 1000; ++number) {
        const auto status = static_cast<Status>(number);
        const std::error_code code = status;
        HOLDS(code.message() == povundiri::text(status) && &code.category() == &povundiri::category());
        if (code.message() == "NoSuchStatus") continue;
        HOLDS(names.insert(code.message()).second);
    }
    HOLDS(names.count("Done") == 1 && names.count("Forked") == 1 && names.count("Adopt NoUnits") == 1);
    HOLDS(std::error_code(Status::Unknown) == Status::Unknown && std::error_code(Status::Unknown) != Status::Empty);
    HOLDS(std::error_code(Status::RefusedNoMemory) == std::errc::not_enough_memory);
    HOLDS(std::error_code(Status::RefusedNoUnits) != std::errc::not_enough_memory);
    HOLDS(!std::error_code(Status::Done) && std::string(povundiri::category().name()) == "povundiri");
}

// A shape for a number of bytes is valid, has these bytes or a little less, and pages of at least 2,048 words if it has 4,096 words or
// more. For bytes out of bounds it is not valid.
void shapes() {
    struct Row {
        std::uint64_t bytes, size, page;
    };
    static_assert(povundiri::shape_for(65'536, 7, 3).id == 7 && povundiri::shape_for(65'536, 7, 3).cursors == 3);
    static_assert(povundiri::shape_for(65'536).version == povundiri::kFrozenVersion);
    for (const Row& row : {Row{512, 64, 64}, Row{8191, 1008, 1008}, Row{32'767, 4080, 4080}, Row{32'768, 4096, 4096}, Row{32'776, 4096, 2048},
                           Row{65'535, 8160, 4080}, Row{524'288, 65'536, 4096}, Row{8'388'600, 1'044'480, 4080},
                           Row{8'388'608, 1'048'576, 4096}, Row{8'388'615, 1'048'576, 4096}}) {
        const povundiri::Shape shape = povundiri::shape_for(row.bytes, 7);
        Segment segment;
        HOLDS(shape.size == row.size && shape.page == row.page);
        DONE(Segment::try_create(shape, segment));
    }
    for (const std::uint64_t bytes : {std::uint64_t{0}, std::uint64_t{511}, std::uint64_t{8'388'616}, UINT64_MAX}) {
        Segment segment;
        RETURNS(OpenBadShape, Segment::try_create(povundiri::shape_for(bytes), segment));
    }
}

// An enumeration of n is linear, and has a bucket for each value below n and one from n on.
void enumerations() {
    Segment segment;
    Recorder recorder;
    Hist hist, again;
    Counts counts;
    DONE(Segment::try_create(povundiri::shape_for(65'536, 7), segment));
    DONE(segment.try_recorder(recorder, 10));
    DONE(recorder.try_enumeration("e", 5, hist));
    DONE(recorder.try_linear("e", 1, 5, 6, again));
    for (int value = 0; value < 7; ++value) HOLDS(recorder.add(hist, value));
    DONE(recorder.try_snapshot(hist, counts));
    HOLDS(counts.units().size() == 6);
    for (int value = 0; value < 6; ++value) HOLDS(counts.units()[static_cast<std::size_t>(value)].key == value);
    HOLDS(counts.units()[4].count == 1 && counts.units()[5].count == 2);
    DONE(recorder.try_enumeration("least", 2, hist));
    DONE(recorder.try_enumeration("most", 999, hist));
    RETURNS(SpecBadMax, recorder.try_enumeration("k", 0, hist));
    RETURNS(SpecBadMax, recorder.try_enumeration("k", 1, hist));
    RETURNS(SpecTooMany, recorder.try_enumeration("k", 1000, hist));
    RETURNS(SpecBadMax, recorder.try_enumeration("k", UINT32_MAX, hist));
}

// A scale is a custom histogram of its values.
void scales() {
    Segment segment;
    Recorder recorder;
    Hist hist, again;
    DONE(Segment::try_create(povundiri::shape_for(65'536, 7), segment));
    DONE(segment.try_recorder(recorder, 10));
    DONE(recorder.try_scale("s", 1, 20, 1, hist));
    DONE(recorder.try_custom("s", {1, 2, 3, 4, 6, 8, 12, 16, 24}, again));
    RETURNS(RefusedOtherSpec, recorder.try_scale("s", 1, 20, 2, hist));
    DONE(recorder.try_scale("most", 1, 1948, 8, hist));
    RETURNS(SpecTooMany, recorder.try_scale("k", 1, 1949, 8, hist));
    RETURNS(SpecBadMin, recorder.try_scale("k", 0, 20, 1, hist));
}

#if defined(__cpp_exceptions)

// What was thrown, and its status.
template <typename Call>
std::string thrown(const Call& call, Status wanted) {
    try {
        call();
    } catch (const povundiri::Fault& fault) {
        HOLDS(fault.status() == wanted && fault.code() == wanted);
        return fault.what();
    }
    return "nothing";
}

#define THROWS(status, what, call) HOLDS(thrown([&] { call; }, Status::status) == (what))

void exceptions_of_sums(const std::vector<std::uint64_t>& image) {
    povundiri::Sums sums, other;
    sums.add(0, image);
    HOLDS(sums.report() == kReport && sums.export_text() == povundiri::export_text(image) && sums.show_text() == povundiri::show_text(image));
    other.add_totals(sums.totals());
    other.append(sums);
    HOLDS(other.totals().find("\nimages,2,0,0,0,0\n") != std::string::npos);
    THROWS(ImageTooShort, "add, image 7: TooShort", sums.add(7, {}));
    THROWS(BadTotals, "add_totals, line 1: BadTotals", sums.add_totals("total"));
    THROWS(BadPrefix, "export_text: BadPrefix", sums.export_text(""));
    other.add_totals("totals,1\nimages,18446744073709551613,0,0,0,0\nend,0\n");
    THROWS(TooMany, "append: Sums TooMany", other.append(sums));
}

// What recorders return and throw.
void exceptions_of_recorders(const Segment& segment, Recorder& recorder) {
    const Hist linear = recorder.linear("l", 1, 1000, 10), boolean = recorder.boolean("b"), sparse = recorder.sparse("s");
    const std::array<std::uint32_t, 3> values = {1000, 10, 100};
    const Hist custom = recorder.custom("c", values);
    recorder.add_or_throw(linear, 17, 3);
    recorder.add_or_throw(boolean, 1);
    recorder.add_or_throw(sparse, -3);
    const std::vector<povundiri::Item> items = {{10, 2}, {20, 3}};
    recorder.batch_or_throw(custom, items, 60);
    HOLDS(recorder.snapshot(linear).redundant() == 3 && recorder.delta(custom).sum() == 60);
    HOLDS(recorder.records().size() == 5 && recorder.next_shared(0) == recorder.records()[0]);
    for (int i = 0; i < 4; ++i) HOLDS(recorder.next_shared(0).has_value());
    HOLDS(!recorder.next_shared(0) && recorder.units() == 90 && segment.outstanding() == 1);
    THROWS(RefusedZeroCount, "add, value 1, count 0: ZeroCount", recorder.add_or_throw(linear, 1, 0));
    THROWS(Unknown, "batch, items 1: UnknownHistogram", recorder.batch_or_throw(Hist(), {{1, 91}}, 0));
    THROWS(SpecBadMin, "hist \"k\": BadMin", recorder.linear("k", 0, 1, 3));
    THROWS(SpecTooFew, "hist \"k\": TooFew", recorder.scale("k", 1, 2, 0));
    THROWS(SpecBadMax, "hist \"k\": BadMax", recorder.enumeration("k", 1));
    THROWS(RefusedOtherSpec, "hist \"l\": OtherSpec", recorder.sparse("l"));
    THROWS(RefusedBadName, "hist \"a b\": BadName", recorder.boolean("a b"));
    THROWS(NoCursor, "next_shared, cursor 3: NoCursor", recorder.next_shared(3));
}

void exceptions_of_merges() {
    const std::vector<std::uint64_t> image = image_to_add();
    Segment segment(kShape);
    Recorder recorder = segment.recorder(1);
    HOLDS(recorder.merge(image, 4).added == 7);
    THROWS(TooManyKeys, "merge, words 1024: TooManyKeys", recorder.merge(image, 3));
    Segment other(kShape);
    recorder = other.recorder(1);
    recorder.boolean("s");
    THROWS(RefusedOtherSpec, "merge, histogram \"s\": OtherSpec", recorder.merge(image, 4));
}

void exceptions_of_texts(const std::vector<std::uint64_t>& image) {
    HOLDS(povundiri::report(image) == kReport);
    THROWS(ImageTooShort, "report, words 0: TooShort", povundiri::report({}));
    THROWS(TooManyKeys, "report, most keys 3: TooManyKeys", povundiri::report(image, 3));
    HOLDS(povundiri::export_text(image).size() > povundiri::export_text(image, "my").size());
    THROWS(BadPrefix, "export_text, words 1024: BadPrefix", povundiri::export_text(image, ""));
    THROWS(ImageTooShort, "export_text, words 0: TooShort", povundiri::export_text({}));
    HOLDS(povundiri::show_text(image) == povundiri::show_text(image, 80));
    THROWS(ImageTooShort, "show_text, words 0: TooShort", povundiri::show_text({}));
}

void exceptions_of_adopted(const std::vector<std::uint64_t>& image, povundiri::Room room) {
    THROWS(ImageTooShort, "adopt, words 0: TooShort", Segment::adopt({}));
    Segment again = Segment::adopt(image, room, 1), heap = Segment::adopt(image);
    HOLDS(again.units() == heap.units() && heap.units() == UINT32_MAX - 10);
    Recorder one = heap.recorder();
    one.limit_indexes(1);
    one.set_corrupt();
    heap.join(one);
    THROWS(Empty, "limit_indexes, entries 1: EmptyHandle", one.limit_indexes(1));
    HOLDS(povundiri::report(heap.close()) == std::string(kReport) + "!flag,corrupt\n");
}

// The system's faults are its own.
void exceptions_of_the_system() {
    try {
        const povundiri::Opened opened = Segment::open("/nowhere/file", kShape, povundiri::Policy::AdoptOrFail);
        HOLDS(false);
    } catch (const std::system_error& fault) {
        HOLDS(fault.code() == std::errc::no_such_file_or_directory && std::string(fault.what()).find("open \"/nowhere/file\": ") == 0);
    }
}

void exceptions() {
    Memory memory(kBytes);
    Segment segment(kShape, memory.room());
    Recorder recorder = segment.recorder(100);
    exceptions_of_recorders(segment, recorder);
    THROWS(InUse, "close: InUse", segment.close());
    THROWS(RefusedNoUnits, "lend, units 4294967295: NoUnits", segment.lend(recorder, UINT32_MAX));
    THROWS(OpenBadShape, "create, words 1: BadShape", Segment(povundiri::shape(1, 1)));
    THROWS(Empty, "recorder, lease 1048576: EmptyHandle", Segment().recorder());
    segment.join(std::move(recorder));
    THROWS(Empty, "join: EmptyHandle", segment.join(recorder));
    const std::vector<std::uint64_t> image = segment.close();
    exceptions_of_texts(image);
    exceptions_of_adopted(image, memory.room());
    exceptions_of_sums(image);
    exceptions_of_merges();
    exceptions_of_the_system();
}

#endif

void threads() {
    Segment segment;
    DONE(Segment::try_create(kShape, segment));
    std::array<std::thread, 4> running;
    std::array<int, 4> counted{};
    for (std::size_t i = 0; i < running.size(); ++i) {
        running[i] = std::thread([&segment, &number = counted[i]] {
            Recorder recorder;
            Hist hist;
            if (segment.try_recorder(recorder) != Status::Done || recorder.try_boolean("b", hist) != Status::Done) return;
            for (int sample = 0; sample < 10'000; ++sample) number += recorder.add(hist, 1);
        });
    }
    for (std::thread& thread : running) thread.join();
    for (const int number : counted) HOLDS(number == 10'000);
    std::uint32_t units = 0;
    DONE(segment.try_units(units));
    HOLDS(units == UINT32_MAX - 40'000);
}

}  // namespace

int main() {
    int failed = group("statuses", statuses);
    failed += group("sums", sums);
    failed += group("merges", merges);
    failed += group("merges stop", merges_stop);
    failed += group("followers", followers);
    failed += group("followers pass over", followers_pass_over);
    failed += group("what followers cost", followers_cost);
    failed += group("corrupt", corrupt);
    failed += group("moves", moves);
    failed += group("names", names);
    failed += group("shapes", shapes);
    failed += group("enumerations", enumerations);
    failed += group("scales", scales);
#if defined(__cpp_exceptions)
    failed += group("exceptions", exceptions);
#endif
    failed += group("threads", threads);
    return failed != 0;
}
