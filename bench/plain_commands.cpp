// The commands of the program, as a plain C++ program does them: the floor that the time of the proved program is held
// against.
//
//     plain_commands report FILE
//     plain_commands run SCRIPT OUT --workers K
//     plain_commands merge BASE DEAD OUT
//
// It writes the same images and reports, the same faults and the same statuses. 'run' reads the whole script, and its
// workers record in threads of their own by the same atomic steps (plain_segment.h).

#include <charconv>
#include <cstdio>
#include <cstdlib>
#include <cstring>
#include <memory>
#include <optional>
#include <string>
#include <string_view>
#include <system_error>
#include <thread>
#include <unordered_map>
#include <utility>
#include <vector>

#include "plain_reading.h"
#include "plain_segment.h"

namespace {

using plain::Failure;
using plain::Fault;
using plain::Made;
using plain::Recorder;
using plain::Segment;
using plain::Word;
using plain::Words;

constexpr std::size_t kMostScript = 16'777'216;
constexpr Word kMost32 = 0xFFFF'FFFF;

struct Close {
    void operator()(std::FILE* file) const { std::fclose(file); }
};
using File = std::unique_ptr<std::FILE, Close>;

File open(const char* path, const char* mode, const char* fault) {
    File file(std::fopen(path, mode));
    if (!file) throw Failure{fault, 4};
    return file;
}

// The records of a script. Their fields are parts of the script's own bytes: a field in quotes is unquoted in place.
class Records {
public:
    explicit Records(std::string& text) : at_(text.data()), end_(text.data() + text.size()) {
        if (text.compare(0, 3, "\xEF\xBB\xBF") == 0) at_ += 3;
    }

    bool next(std::vector<std::string_view>& fields) {
        while (at_ != end_ && is_end(*at_)) ++at_;
        if (at_ == end_) return false;
        fields.clear();
        while (true) {
            fields.push_back(field());
            if (at_ == end_) return true;
            const char byte = *at_++;
            if (byte == ',') continue;
            if (byte == '\r' && at_ != end_ && *at_ == '\n') ++at_;
            return true;
        }
    }

private:
    static bool is_end(char byte) { return byte == '\n' || byte == '\r'; }

    std::string_view field() {
        char* const begin = at_;
        char* out = at_;
        if (at_ != end_ && *at_ == '"') out = quoted(out);
        if (out == at_) {
            while (at_ != end_ && *at_ != ',' && !is_end(*at_)) ++at_;
            out = at_;
        } else {
            while (at_ != end_ && *at_ != ',' && !is_end(*at_)) *out++ = *at_++;
        }
        return {begin, static_cast<std::size_t>(out - begin)};
    }

    char* quoted(char* out) {
        ++at_;
        while (at_ != end_) {
            if (*at_ == '"' && (at_ + 1 == end_ || at_[1] != '"')) {
                ++at_;
                return out;
            }
            if (*at_ == '"') ++at_;
            *out++ = *at_++;
        }
        return out;
    }

    char* at_;
    char* end_;
};

// The number that decimal digits write, if it is at most `most`.
std::optional<Word> number(std::string_view digits, Word most) {
    if (digits.empty() || digits[0] < '0' || digits[0] > '9') return std::nullopt;
    Word value = 0;
    const auto [end, error] = std::from_chars(digits.data(), digits.data() + digits.size(), value);
    if (error != std::errc() || end != digits.data() + digits.size() || value > most) return std::nullopt;
    return value;
}

std::optional<std::int64_t> signed_number(std::string_view text) {
    const bool is_below = !text.empty() && text[0] == '-';
    const auto size = number(is_below ? text.substr(1) : text, is_below ? 0x8000'0000 : 0x7FFF'FFFF);
    if (!size) return std::nullopt;
    return is_below ? -static_cast<std::int64_t>(*size) : static_cast<std::int64_t>(*size);
}

struct Hist {
    std::string_view name;
    Made made;
    Word number;
};

struct Call {
    std::size_t hist;
    bool is_delta;
    std::int64_t value;
    Word count;
    Word number;
};

struct Script {
    Word size = 0, page = 0, id = 0;
    std::vector<Hist> hists;
    std::vector<Call> calls;
};

class ScriptReader {
public:
    explicit ScriptReader(std::string& text) : records_(text) {}

    Script read() {
        number_ = 1;
        require(records_.next(fields_) && open());
        while (records_.next(fields_)) {
            ++number_;
            if (fields_[0] == "hist") {
                put_hist();
            } else if (fields_[0] == "add") {
                put_add();
            } else {
                require(fields_[0] == "delta" && fields_.size() == 2);
                script_.calls.push_back({place_of(fields_[1]), true, 0, 0, number_});
            }
        }
        return std::move(script_);
    }

private:
    void require(bool holds) const {
        if (!holds) throw Failure{"BadLine " + std::to_string(number_), 3};
    }

    void refuse(const char* why) const { throw Failure{"Refused " + std::to_string(number_) + " " + why, 3}; }

    Word number_in(std::size_t field, Word most = kMost32) const {
        const auto value = number(fields_[field], most);
        require(value.has_value());
        return *value;
    }

    bool open() {
        if (fields_[0] != "segment" || fields_.size() != 4) return false;
        script_.size = number_in(1), script_.page = number_in(2), script_.id = number_in(3, ~Word{0});
        if (script_.page < 64 || script_.page > 65'536 || script_.page % 16 != 0) return false;
        return script_.size >= script_.page && script_.size <= plain::kMostWords && script_.size % script_.page == 0;
    }

    void put_hist() {
        require(fields_.size() >= 3);
        Made made = spec();
        require(script_.calls.empty());
        places_.emplace(fields_[1], script_.hists.size());
        script_.hists.push_back({fields_[1], std::move(made), number_});
    }

    Made spec() const {
        if (fields_[2] == "linear") {
            require(fields_.size() == 6);
            return plain::linear_spec(plain::kLinear, number_in(3), number_in(4), number_in(5));
        }
        if (fields_[2] == "custom") {
            require(fields_.size() > 3);
            std::vector<Word> values;
            for (std::size_t i = 3; i < fields_.size(); ++i) values.push_back(number_in(i));
            return plain::custom_spec(std::move(values));
        }
        require((fields_[2] == "boolean" || fields_[2] == "sparse") && fields_.size() == 3);
        return fields_[2] == "sparse" ? plain::sparse_spec() : plain::linear_spec(plain::kBoolean, 1, 2, 3);
    }

    std::size_t place_of(std::string_view name) const {
        const auto found = places_.find(name);
        require(found != places_.end());
        return found->second;
    }

    void put_add() {
        require(fields_.size() == 4);
        const auto value = signed_number(fields_[2]);
        require(value.has_value());
        const Word count = number_in(3);
        const std::size_t place = place_of(fields_[1]);
        if (count == 0) refuse("ZeroCount");
        units_ += count;
        if (units_ > plain::kMostUnits) refuse("NoUnits");
        script_.calls.push_back({place, false, *value, count, number_});
    }

    Records records_;
    std::vector<std::string_view> fields_;
    std::unordered_map<std::string_view, std::size_t> places_;
    Script script_;
    Word number_ = 0;
    Word units_ = 0;
};

struct Stop {
    Word number = 0;
    Fault why = nullptr;
};

// Makes the calls of a worker: from the call `part` on, one in `workers`.
Stop work(Segment& segment, const Script& script, std::size_t part, std::size_t workers, Word units) {
    Recorder recorder(segment, units);
    std::vector<std::optional<std::size_t>> places(script.hists.size());
    for (std::size_t i = part; i < script.calls.size(); i += workers) {
        const Call& call = script.calls[i];
        std::optional<std::size_t>& place = places[call.hist];
        if (!place) {
            const Hist& hist = script.hists[call.hist];
            std::size_t made = 0;
            if (const Fault why = recorder.hist(hist.name, hist.made, made)) return {call.number, why};
            place = made;
        }
        if (call.is_delta) {
            recorder.delta(*place);
        } else if (const Fault why = recorder.add(*place, call.value, call.count)) {
            return {call.number, why};
        }
    }
    return {};
}

void refuse(const Stop& stop) { throw Failure{"Refused " + std::to_string(stop.number) + " " + stop.why, 3}; }

void make_histograms(Segment& segment, const Script& script) {
    Recorder recorder(segment, 0);
    for (const Hist& hist : script.hists) {
        std::size_t place = 0;
        if (const Fault why = recorder.hist(hist.name, hist.made, place)) refuse({hist.number, why});
    }
}

// Runs all workers, each in a thread of its own, and reports the refusal with the lowest record number.
void run_workers(Segment& segment, const Script& script, std::size_t workers) {
    std::vector<Word> units(workers);
    for (std::size_t i = 0; i < script.calls.size(); ++i) units[i % workers] += script.calls[i].count;
    std::vector<Stop> stops(workers);
    std::vector<std::thread> threads;
    for (std::size_t part = 0; part < workers; ++part) {
        threads.emplace_back([&, part] { stops[part] = work(segment, script, part, workers, units[part]); });
    }
    for (std::thread& thread : threads) thread.join();
    const Stop* least = nullptr;
    for (const Stop& stop : stops) {
        if (stop.why != nullptr && (least == nullptr || stop.number < least->number)) least = &stop;
    }
    if (least != nullptr) refuse(*least);
}

// Makes or empties OUT last, so that an earlier fault leaves it unchanged. A fault of the device does not.
void write_image(const char* path, const Words& words) {
    std::string bytes(8 * words.size(), '\0');
    for (std::size_t i = 0; i < words.size(); ++i) {
        for (int byte = 0; byte < 8; ++byte) bytes[8 * i + byte] = static_cast<char>(words[i] >> 8 * byte);
    }
    plain::write_out(open(path, "wb", "Write").get(), bytes);
}

void run(const char* script_path, const char* out_path, std::size_t workers) {
    const File script_file = open(script_path, "rb", "Read");
    std::string text = plain::bytes_of(script_file.get(), kMostScript);
    if (text.size() > kMostScript) throw Failure{"TooLong", 3};
    const Script script = ScriptReader(text).read();
    Segment segment(script.size, script.page, script.id);
    make_histograms(segment, script);
    run_workers(segment, script, workers);
    const Words words = segment.image();
    const std::string report = plain::report_of(words);
    write_image(out_path, words);
    plain::write_out(stdout, report);
}

Words image_of(std::FILE* file) {
    Words words = plain::words_of(plain::bytes_of(file, plain::kMostBytes));
    if (const Fault fault = plain::header_fault(words)) throw Failure{std::string("Image ") + fault, 3};
    return words;
}

Made spec_of(const Words& words, const plain::Histogram& histogram) {
    const Word at = histogram.at;
    if (histogram.kind == plain::kSparse) return plain::sparse_spec();
    if (histogram.kind != plain::kCustom) return plain::linear_spec(histogram.kind, words[at + 5], words[at + 6], words[at + 7]);
    const auto first = words.begin() + static_cast<std::ptrdiff_t>(at + plain::kName + (histogram.name.size() + 7) / 8);
    return plain::custom_spec({first, first + static_cast<std::ptrdiff_t>(words[at + 7] - 1)});
}

// Adds to a segment what no delta has taken of an image.
void merge_image(Recorder& recorder, const Words& words) {
    for (const plain::Histogram& histogram : plain::Reader(words, plain::Part::kRemainder).read().histograms) {
        std::vector<plain::Item> items;
        for (const plain::Bucket& bucket : histogram.buckets) items.emplace_back(bucket.low, bucket.count);
        std::size_t place = 0;
        Fault why = recorder.hist(histogram.name, spec_of(words, histogram), place);
        if (why == nullptr) why = recorder.batch(place, items, histogram.sum);
        if (why != nullptr) throw Failure{"Merge " + histogram.name + " " + why, 3};
    }
}

void merge(const char* base_path, const char* dead_path, const char* out_path) {
    const File base_file = open(base_path, "rb", "Read"), dead_file = open(dead_path, "rb", "Read");
    const Words base = image_of(base_file.get()), dead = image_of(dead_file.get());
    Segment segment(base[2], base[3], base[4]);
    Recorder recorder(segment, plain::kMostUnits);
    merge_image(recorder, base);
    merge_image(recorder, dead);
    write_image(out_path, segment.image());
}

void report(const char* path) { plain::write_out(stdout, plain::report_of(image_of(open(path, "rb", "Read").get()))); }

int usage() {
    std::fprintf(stderr, "plain_commands report FILE | run SCRIPT OUT --workers K | merge BASE DEAD OUT\n");
    return 2;
}

}  // namespace

int main(int count, char** arguments) {
    const std::string_view command = count > 1 ? arguments[1] : "";
    const int workers = count == 6 ? std::atoi(arguments[5]) : 1;
    if (command == "report" && count == 3) return plain::status_of([&] { report(arguments[2]); });
    if (command == "run" && (count == 4 || (count == 6 && std::strcmp(arguments[4], "--workers") == 0)) && workers > 0) {
        return plain::status_of([&] { run(arguments[2], arguments[3], static_cast<std::size_t>(workers)); });
    }
    if (command == "merge" && count == 5) return plain::status_of([&] { merge(arguments[2], arguments[3], arguments[4]); });
    return usage();
}
