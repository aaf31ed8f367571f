// Segments in files by povundiri.hpp: opened FOLDER. What 'open' has done is returned, and what was recorded continues or is set aside.

#include <sys/stat.h>
#include <unistd.h>

#include <cstdlib>
#include <cstring>
#include <fstream>
#include <iterator>
#include <string>

#include "checks.hpp"

namespace {

using povundiri::Counts;
using povundiri::Hist;
using povundiri::Opened;
using povundiri::Outcome;
using povundiri::Policy;
using povundiri::Recorder;
using povundiri::Segment;
using povundiri::Status;

constexpr povundiri::Shape kShape = povundiri::shape(4096, 256, 7, 2);

std::string folder;

std::string path_of(const char* name) { return folder + "/" + name; }

std::error_code open(const char* name, Policy policy, Opened& opened, const povundiri::Shape& shape = kShape) {
    return Segment::try_open(path_of(name).c_str(), shape, policy, opened);
}

std::string content(const std::string& path) {
    std::ifstream file(path, std::ios::binary);
    return {std::istreambuf_iterator<char>(file), {}};
}

// Writes a word of the image in a file.
void write_word(const char* name, std::size_t place, std::uint64_t word) {
    std::fstream file(path_of(name), std::ios::binary | std::ios::in | std::ios::out);
    file.seekp(static_cast<std::streamoff>(8 * (place + 1)));
    char bytes[8];
    std::memcpy(bytes, &word, sizeof bytes);
    HOLDS(bool(file.write(bytes, sizeof bytes)));
}

void record(Segment& segment, std::uint32_t units) {
    Recorder recorder;
    Hist hist;
    DONE(segment.try_recorder(recorder));
    DONE(recorder.try_boolean("b", hist));
    DONE(recorder.try_add(hist, 1, units));
}

std::uint64_t recorded(Segment& segment) {
    Recorder recorder;
    Hist hist;
    Counts counts;
    DONE(segment.try_recorder(recorder));
    DONE(recorder.try_boolean("b", hist));
    DONE(recorder.try_snapshot(hist, counts));
    return counts.redundant();
}

// Makes a file with a segment in which `units` units are counted.
void make(const char* name, std::uint32_t units) {
    Opened opened;
    HOLDS(!open(name, Policy::AdoptOrFail, opened) && opened.outcome() == Outcome::Made && *opened.set_aside() == 0);
    HOLDS(!opened.spent() && !opened.other_shape() && opened.refused() == Status::Done);
    record(opened.segment, units);
}

void goes_on() {
    make("goes_on", 3);
    Opened opened;
    HOLDS(!open("goes_on", Policy::AdoptOrSetAside, opened, povundiri::shape(8192, 512, 9, 1)));
    HOLDS(opened.outcome() == Outcome::Adopted && opened.other_shape() && !opened.spent() && recorded(opened.segment) == 3);
    const povundiri::Shape shape = opened.segment.shape();
    HOLDS(shape.size == 4096 && shape.page == 256 && shape.id == 7 && shape.version == 2 && shape.cursors == 1);
    HOLDS(opened.segment.id() == 7 && opened.segment.version() == 2);
    HOLDS(open("other", Policy::AdoptOrFail, opened) == Status::NotEmpty);
    std::vector<std::uint64_t> image;
    DONE(opened.segment.try_close(image));
    HOLDS(image.size() == 4096 && !opened.segment);
    // Once it is closed, others may open it.
    Opened again;
    HOLDS(!open("goes_on", Policy::AdoptOrFail, again) && recorded(again.segment) == 3);
}

void damaged() {
    make("damaged", 3);
    write_word("damaged", 7, 15);
    const std::string was = content(path_of("damaged"));
    Opened opened;
    HOLDS(open("damaged", Policy::AdoptOrFail, opened) == Status::ImageBadFree && !opened.segment && *opened.set_aside() == 0);
    HOLDS(content(path_of("damaged")) == was);
    HOLDS(!open("damaged", Policy::AdoptOrSetAside, opened) && opened.outcome() == Outcome::MadeAnew);
    HOLDS(opened.refused() == Status::ImageBadFree && std::string(opened.set_aside()).find(path_of("damaged.damaged-")) == 0);
    HOLDS(content(opened.set_aside()) == was);
    record(opened.segment, 2);
    HOLDS(recorded(opened.segment) == 2);
}

void spent() {
    make("spent", UINT32_MAX);
    Opened opened;
    HOLDS(!open("spent", Policy::AdoptOrSetAside, opened) && opened.outcome() == Outcome::Adopted && opened.spent());
    Recorder recorder;
    Hist hist;
    DONE(opened.segment.try_recorder(recorder));
    DONE(recorder.try_boolean("b", hist));
    RETURNS(RefusedNoUnits, recorder.try_add(hist, 1));
    recorder.reset();
    opened.segment.reset();
    HOLDS(!open("spent", Policy::AdoptOrBeginAnew, opened) && opened.outcome() == Outcome::MadeAnew && !opened.spent());
    HOLDS(std::string(opened.set_aside()).find(path_of("spent.full-")) == 0);
    record(opened.segment, 1);
}

void faults() {
    Opened opened;
    HOLDS(open("none/file", Policy::AdoptOrFail, opened) == std::errc::no_such_file_or_directory && !opened.segment);
    HOLDS(open("bad", Policy::AdoptOrFail, opened, povundiri::shape(1, 1)) == Status::OpenBadShape);
    std::ofstream(path_of("text")) << "what somebody else has written\n";
    HOLDS(open("text", Policy::AdoptOrBeginAnew, opened) == std::errc::file_exists);
    HOLDS(content(path_of("text")) == "what somebody else has written\n");
    make("busy", 1);
    Opened first;
    HOLDS(!open("busy", Policy::AdoptOrFail, first));
    HOLDS(open("busy", Policy::AdoptOrSetAside, opened) == std::errc::device_or_resource_busy && *opened.set_aside() == 0);
    HOLDS(recorded(first.segment) == 1);
    HOLDS(Segment::try_open(nullptr, kShape, Policy::AdoptOrFail, opened) == Status::Null);
    // A file that its group may write is trusted only if the options say so.
    HOLDS(chmod(path_of("goes_on").c_str(), 0660) == 0);
    HOLDS(open("goes_on", Policy::AdoptOrSetAside, opened) == std::errc::operation_not_permitted);
    povundiri::FileOptions options;
    options.flags = POVUNDIRI_FILE_GROUP_WRITES;
    HOLDS(!Segment::try_open(path_of("goes_on").c_str(), kShape, Policy::AdoptOrFail, opened, options) && bool(opened.segment));
}

std::error_code look(const char* name, std::vector<std::uint64_t>& image) { return povundiri::try_look_file(path_of(name).c_str(), image); }

// A file in use is looked at by its name, and so is an image.
void looked() {
    make("looked", 3);
    Opened opened;
    HOLDS(!open("looked", Policy::AdoptOrFail, opened));
    record(opened.segment, 2);
    std::vector<std::uint64_t> image, other;
    HOLDS(!look("looked", image) && image.size() == 4096 && povundiri::report(image) == "b,boolean,1,2,5\nb,total,5,5\n");
    DONE(opened.segment.try_look(other));
    HOLDS(image == other);
    const auto* const bytes = reinterpret_cast<const char*>(image.data());
    std::ofstream(path_of("image"), std::ios::binary).write(bytes, static_cast<std::streamsize>(8 * image.size()));
    HOLDS(!look("image", other) && image == other);
    std::ofstream(path_of("short"), std::ios::binary).write(bytes, static_cast<std::streamsize>(8 * image.size() - 8));
    HOLDS(look("short", other) == Status::ImageBadSize && other.empty());
    HOLDS(look("none", other) == std::errc::no_such_file_or_directory);
    HOLDS(povundiri::try_look_file(folder.c_str(), other) == std::errc::invalid_argument);
    std::ofstream(path_of("other_text")) << std::string(4096, 'x');
    HOLDS(look("other_text", other) == Status::ImageBadCookie);
    std::ofstream(path_of("empty")).flush();
    HOLDS(look("empty", other) == Status::ImageTooShort);
    HOLDS(povundiri::try_look_file(nullptr, other) == Status::Null);
    std::uint64_t* words = nullptr;
    std::size_t length = 1;
    int fault = 1;
    HOLDS(povundiri_file_look(path_of("none").c_str(), &words, &length, nullptr) == POVUNDIRI_NULL);
    HOLDS(povundiri_file_look(path_of("image").c_str(), &words, &length, &fault) == POVUNDIRI_DONE && length == 4096 && fault == 0);
    std::free(words);
    Segment moving;
    DONE(Segment::try_create(povundiri::shape(4096, 256, 7, 0, 1), moving));
    RETURNS(AdoptOldVersion, moving.try_look(other));
    RETURNS(Empty, Segment().try_look(other));
    RETURNS(Short, static_cast<Status>(povundiri_look(image.data(), image.size(), nullptr, 0, nullptr)));
    DONE(povundiri::try_look(image, other));
    HOLDS(image == other);
}

}  // namespace

int main(int count, char** words) {
    if (count != 2) return 2;
    folder = words[1];
    int failed = group("a segment continues", goes_on);
    failed += group("a damaged file", damaged);
    failed += group("a spent file", spent);
    failed += group("looks", looked);
    failed += group("faults", faults);
    return failed != 0;
}
