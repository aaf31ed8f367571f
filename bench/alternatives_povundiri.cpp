// Samples counted by this library (alternatives.h). WAY is
//
//     recording    by povundiri_recording.hpp, in a folder, in as many segments as is usual
//     one_shard    the same in one segment
//     recorder     by povundiri.hpp, in a segment in a mapped file: each thread has a recorder with its usual lease
//
// What was counted is read from outside: of the folder's report, and of a look at the file.

#include <algorithm>
#include <cstddef>
#include <cstdint>
#include <sstream>
#include <string>
#include <vector>

#include <povundiri.hpp>
#include <povundiri_recording.hpp>

#include "alternatives.h"
#include "scratch_folder.h"

namespace {

// As many as record.cpp has.
constexpr std::uint64_t kWords = 65'536, kPage = 4096;

std::string name_of(std::size_t histogram) { return "h" + std::to_string(histogram); }

std::vector<std::string> fields_of(const std::string& line) {
    std::vector<std::string> fields;
    std::istringstream words(line);
    for (std::string field; std::getline(words, field, ',');) fields.push_back(field);
    return fields;
}

// What a report says of a linear histogram: lines NAME,linear,LOW,HIGH,UNITS of its buckets with units, and NAME,total,UNITS,SUM. Nothing if
// one of these is no bucket of the histogram.
plain::Counted counted_in(const std::string& report, const std::string& name, std::uint32_t buckets) {
    const std::vector<std::uint32_t> boundaries = plain::linear(buckets);
    plain::Counted counted{std::vector<plain::Word>(buckets), 0};
    std::istringstream lines(report);
    for (std::string line; std::getline(lines, line);) {
        const std::vector<std::string> fields = fields_of(line);
        if (fields.size() < 4 || fields[0] != name) continue;
        if (fields[1] == "total") counted.sum = std::stoll(fields[3]);
        if (fields[1] != "linear" || fields.size() < 5) continue;
        const auto low = std::find(boundaries.begin(), boundaries.end() - 1, std::stoul(fields[2]));
        if (low + 1 >= boundaries.end() || std::stoul(fields[3]) != low[1]) return {};
        counted.units[static_cast<std::size_t>(low - boundaries.begin())] += std::stoull(fields[4]);
    }
    return counted;
}

// With so many shards; 0: as is usual.
template <std::uint64_t shards>
class Recording {
public:
    using Number = std::int32_t;

    explicit Recording(const plain::Plan& plan) : buckets_(plan.buckets), recording_(folder_.path(), options()) {}

    povundiri::Metric worker(std::size_t histogram) {
        return recording_.linear(name_of(histogram), plain::kLeast, plain::kGreatest, buckets_);
    }

    plain::Counted counted(std::size_t histogram) { return counted_in(recording_.report(), name_of(histogram), buckets_); }

private:
    static povundiri::RecordingOptions options() {
        povundiri::RecordingOptions options;
        options.bytes = 8 * kWords;
        options.shards = shards;
        return options;
    }

    std::uint32_t buckets_;
    plain::Folder folder_;
    povundiri::Recording recording_;
};

struct Worker {
    povundiri::Recorder recorder;
    povundiri::Hist histogram;

    bool add(std::int32_t value) { return recorder.add(histogram, value); }
};

class Segment {
public:
    using Number = std::int32_t;

    explicit Segment(const plain::Plan& plan)
        : buckets_(plan.buckets),
          path_(std::string(folder_.path()) + "/segment"),
          segment_(povundiri::Segment::open(path_.c_str(), povundiri::shape(kWords, kPage), povundiri::Policy::AdoptOrFail).segment) {}

    Worker worker(std::size_t histogram) {
        Worker worker{segment_.recorder(), {}};
        worker.histogram = worker.recorder.linear(name_of(histogram), plain::kLeast, plain::kGreatest, buckets_);
        return worker;
    }

    plain::Counted counted(std::size_t histogram) const {
        return counted_in(povundiri::report(povundiri::look_file(path_.c_str())), name_of(histogram), buckets_);
    }

private:
    std::uint32_t buckets_;
    plain::Folder folder_;
    std::string path_;
    povundiri::Segment segment_;
};

}  // namespace

int main(int count, char** words) {
    const plain::Options options = plain::options_of(count, words);
    if (options.way == "recording") return plain::measure<Recording<0>>(options);
    if (options.way == "one_shard") return plain::measure<Recording<1>>(options);
    return options.way == "recorder" ? plain::measure<Segment>(options) : plain::usage();
}
