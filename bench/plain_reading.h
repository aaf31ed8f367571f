// Images and reports of them, as a plain C++ program reads and writes them.
//
// All that the format says is checked. It is written for readers, with the containers of the standard library.

#pragma once

#include <algorithm>
#include <array>
#include <charconv>
#include <cstdint>
#include <cstdio>
#include <cstring>
#include <new>
#include <optional>
#include <string>
#include <string_view>
#include <unordered_map>
#include <unordered_set>
#include <utility>
#include <vector>

namespace plain {

using Word = std::uint64_t;
using Words = std::vector<Word>;

inline constexpr std::size_t kMostBytes = 8'388'608;
inline constexpr Word kMostWords = 1'048'576;
inline constexpr Word kSegmentCookie = 0x408305DC;
inline constexpr Word kBlockCookie = 0xC8799269;
inline constexpr Word kQueue = 12;
inline constexpr Word kFirstBlock = 16;
inline constexpr Word kSmallestBlock = 5;
inline constexpr Word kMostBuckets = 1000;
inline constexpr Word kGreatest = 2'147'483'647;
inline constexpr Word kMostUnits = 4'294'967'295;
inline constexpr Word kMostPacked = 65'535;
inline constexpr Word kTop = Word{1} << 63;
inline constexpr Word kNothingPacked = kTop + 65'535;

enum Type : Word { kPurged = 0, kHistogram = 1, kCounts = 2, kSample = 3 };
enum Kind : Word { kLinear = 1, kBoolean = 2, kCustom = 3, kSparse = 4 };

using Fault = const char*;

// A fault: what the error stream gets, and the status.
struct Failure {
    std::string text;
    int status;
};

struct Bucket {
    std::int64_t low;
    std::int64_t high;
    Word count;
};

struct Histogram {
    Word at = 0;  // its record
    std::string name;
    Word kind = 0;
    std::vector<Bucket> buckets;  // ascending, and those with units alone
    Word units = 0;
    std::int64_t sum = 0;
    Word redundant = 0;
};

struct Reading {
    std::vector<Histogram> histograms;
    std::vector<std::pair<Word, Fault>> bad;
    Fault stopped = nullptr;
};

// All bytes that a file has left, but no more than one above `most`.
inline std::string bytes_of(std::FILE* file, std::size_t most) {
    std::string bytes(most + 1, '\0');
    const std::size_t taken = std::fread(bytes.data(), 1, bytes.size(), file);
    if (std::ferror(file)) throw Failure{"Read", 4};
    bytes.resize(taken);
    return bytes;
}

inline Words words_of(const std::string& bytes) {
    if (bytes.size() > kMostBytes) throw Failure{"TooLong", 3};
    if (bytes.size() % 8 != 0) throw Failure{"NotWords", 3};
    Words words(bytes.size() / 8);
    for (std::size_t i = 0; i < words.size(); ++i) {
        Word word = 0;
        for (int byte = 7; byte >= 0; --byte) word = word << 8 | static_cast<unsigned char>(bytes[8 * i + byte]);
        words[i] = word;
    }
    return words;
}

inline Fault header_fault(const Words& words) {
    if (words.size() < 16) return "TooShort";
    if (words[0] != kSegmentCookie) return "BadCookie";
    if (words[1] != 1 && words[1] != 2) return "BadVersion";
    const Word size = words[2], page = words[3], state = words[5], free = words[7];
    if (page < 64 || page > 65'536 || page % 16 != 0) return "BadPage";
    if (size != words.size() || size % page != 0 || size > kMostWords) return "BadSize";
    if (state != 1 && state != 2) return "NotReady";
    if (state == 2) return "Deleted";
    if (free < kFirstBlock || free > size) return "BadFree";
    if (words[12] != 4 || words[13] != 1 || words[14] != 0) return "BadQueue";
    return nullptr;
}

inline bool is_valid_sum(const Words& words, Word at) {
    constexpr auto bound = static_cast<std::int64_t>(kMostUnits << 31);
    const auto sum = static_cast<std::int64_t>(words[at + 11]);
    const auto mark = static_cast<std::int64_t>(words[at + 12]);
    if (sum < -bound || sum > bound || mark < -bound || mark > bound) return false;
    return mark < 0 ? sum <= bound + mark : sum >= mark - bound;
}

// The bucket that the single word names, and the units that it keeps beside the counts.
struct Single {
    bool is_valid = false;
    bool is_disabled = false;
    std::optional<Word> bucket;
    Word units = 0;
};

// A word that is packed, or that was when it was frozen.
inline Single packed_of(Word word, Word n) {
    Single single;
    const Word bucket = word >> 32, units = word & 0xFFFF'FFFF;
    single.is_valid = bucket < n && units >= 1 && units <= kMostPacked;
    if (single.is_valid) {
        single.bucket = bucket;
        single.units = units;
    }
    return single;
}

inline Single single_of(Word word, Word n, Word version) {
    Single single;
    if (word == 0) {
        single.is_valid = true;
    } else if (word < kTop) {
        single = packed_of(word, n);
    } else if (version == 1) {
        single.is_valid = word == kNothingPacked || word - kTop < n;
        if (single.is_valid && word != kNothingPacked) single.bucket = word - kTop;
    } else if (word == kTop) {
        single.is_valid = true;
    } else {
        single = packed_of(word - kTop, n);
    }
    single.is_disabled = word >= kTop;
    return single;
}

// What is read of the buckets and the sum: all, or what no delta has taken.
enum class Part { kTotal, kRemainder };

class Reader {
public:
    explicit Reader(const Words& words, Part part = Part::kTotal)
        : words_(words), part_(part), version_(words[1]), page_(words[3]), free_(words[7]) {}

    Reading read() {
        std::vector<bool> is_met(words_.size());
        for (Word at = words_[kQueue + 3]; at != kQueue; at = words_[at + 3]) {
            reading_.stopped = block_fault(at);
            if (reading_.stopped == nullptr && is_met[at]) reading_.stopped = "Loop";
            if (reading_.stopped != nullptr) break;
            is_met[at] = true;
            Fault fault = nullptr;
            if (words_[at + 2] == kHistogram) fault = read_histogram(at);
            if (words_[at + 2] == kSample) fault = read_sample(at);
            if (fault != nullptr) reading_.bad.emplace_back(at, fault);
        }
        for (const auto& [at, index] : sparse_) settle(reading_.histograms[index]);
        return std::move(reading_);
    }

private:
    Fault block_fault(Word at) const {
        if (at < kFirstBlock || at >= free_ || free_ - at < kSmallestBlock) return "BadRef";
        const Word size = words_[at];
        if (words_[at + 1] != kBlockCookie || size < kSmallestBlock || size > free_ - at) return "BadBlock";
        if (at / page_ != (at + size - 1) / page_) return "BadBlock";
        return nullptr;
    }

    // The name, empty if it is invalid.
    std::string name_of(Word at) const {
        const Word length = words_[at + 14];
        if (length < 1 || length > 128 || 15 + (length + 7) / 8 > words_[at]) return {};
        std::string name(length, '\0');
        for (Word i = 0; i < length; ++i) name[i] = static_cast<char>(words_[at + 15 + i / 8] >> 8 * (i % 8));
        const bool is_valid = name[0] != '!' && std::all_of(name.begin(), name.end(), [](char byte) {
            return '!' <= byte && byte <= '~' && byte != ',' && byte != '"';
        });
        return is_valid ? name : std::string();
    }

    // Writes the boundaries of the record's ranges to boundaries_; false if its spec is invalid.
    bool take_spec(Word at, Word name_words) {
        const Word kind = words_[at + 4], least = words_[at + 5], most = words_[at + 6], n = words_[at + 7];
        boundaries_.clear();
        if (kind == kSparse) return least == 0 && most == 0 && n == 0;
        if (kind == kBoolean && (least != 1 || most != 2 || n != 3)) return false;
        if (n < 2 || n > kMostBuckets || 4 + 2 * n > page_) return false;
        boundaries_.push_back(0);
        const bool is_valid = kind == kCustom ? take_custom(at, name_words, least, most, n) : take_linear(least, most, n);
        boundaries_.push_back(kGreatest);
        return is_valid;
    }

    bool take_linear(Word least, Word most, Word n) {
        if (least == 0 || most <= least || most >= kGreatest || n < 3 || n > most - least + 2) return false;
        for (Word i = 1; i < n; ++i) {
            boundaries_.push_back((2 * (least * (n - 1 - i) + most * (i - 1)) + (n - 2)) / (2 * (n - 2)));
        }
        return true;
    }

    bool take_custom(Word at, Word name_words, Word least, Word most, Word n) {
        if (15 + name_words + n - 1 > words_[at]) return false;
        const auto first = words_.begin() + static_cast<std::ptrdiff_t>(at + 15 + name_words);
        for (auto value = first; value != first + static_cast<std::ptrdiff_t>(n - 1); ++value) {
            if (*value <= boundaries_.back() || *value >= kGreatest) return false;
            boundaries_.push_back(*value);
        }
        return boundaries_[1] == least && boundaries_.back() == most;
    }

    // Checks the counts, the single word and the marks, and writes the totals of the buckets to totals_.
    Fault take_totals(Word at) {
        const Word n = words_[at + 7], counts = words_[at + 8], single_mark = words_[at + 10];
        if (counts != 0) {
            if (block_fault(counts) != nullptr || words_[counts + 2] != kCounts) return "BadCounts";
            if (words_[counts] < 4 + 2 * n) return "BadCounts";
            const auto first = words_.begin() + static_cast<std::ptrdiff_t>(counts + 4);
            totals_.assign(first, first + static_cast<std::ptrdiff_t>(n));
        } else {
            totals_.assign(n, 0);
        }
        if (std::any_of(totals_.begin(), totals_.end(), [](Word total) { return total > kMostUnits; })) return "BadCounts";
        const Single single = single_of(words_[at + 9], n, version_);
        if (single.bucket) totals_[*single.bucket] += single.units;
        if (single.bucket && totals_[*single.bucket] > kMostUnits) return "BadCounts";
        if (!single.is_valid || (single.is_disabled && counts == 0)) return "BadSingle";
        if (!single.bucket && single_mark != 0) return "BadMark";
        if (single.bucket && single_mark > most_single_mark(totals_[*single.bucket])) return "BadMark";
        for (Word i = 0; counts != 0 && i < n; ++i) {
            if (words_[counts + 4 + n + i] > totals_[i] && single.bucket != i) return "BadMark";
        }
        if (part_ == Part::kRemainder) take_marks(counts, single, single_mark);
        return nullptr;
    }

    // Leaves of each total what is above its mark.
    void take_marks(Word counts, const Single& single, Word single_mark) {
        for (std::size_t i = 0; i < totals_.size(); ++i) {
            const Word mark = single.bucket == i ? single_mark : counts == 0 ? 0 : words_[counts + 4 + totals_.size() + i];
            totals_[i] = above(totals_[i], mark);
        }
    }

    Word above(Word total, Word mark) const { return total > mark ? total - mark : 0; }

    // In version 1 the units of the packed bucket may be on their way to the counts.
    Word most_single_mark(Word total) const { return version_ == 1 ? std::max(total, kMostPacked) : total; }

    Fault read_histogram(Word at) {
        const Word kind = words_[at + 4];
        if (words_[at] < 16 || kind < kLinear || kind > kSparse) return "BadKind";
        Histogram histogram;
        histogram.name = name_of(at);
        if (histogram.name.empty()) return "BadName";
        if (!take_spec(at, (histogram.name.size() + 7) / 8)) return "BadSpec";
        totals_.clear();
        if (kind == kSparse) {
            if (words_[at + 8] != 0 || words_[at + 9] != 0 || words_[at + 10] != 0) return "BadCounts";
        } else if (const Fault fault = take_totals(at)) {
            return fault;
        }
        if (!is_valid_sum(words_, at)) return "BadSum";
        if (!names_.insert(histogram.name).second) return nullptr;
        histogram.at = at;
        histogram.kind = kind;
        histogram.sum = static_cast<std::int64_t>(words_[at + 11]);
        if (part_ == Part::kRemainder) histogram.sum -= static_cast<std::int64_t>(words_[at + 12]);
        histogram.redundant = words_[at + 13];
        for (std::size_t i = 0; i < totals_.size(); ++i) {
            if (totals_[i] == 0) continue;
            histogram.buckets.push_back(
                {static_cast<std::int64_t>(boundaries_[i]), static_cast<std::int64_t>(boundaries_[i + 1]), totals_[i]});
            histogram.units += totals_[i];
        }
        if (kind == kSparse) sparse_.emplace(at, reading_.histograms.size());
        reading_.histograms.push_back(std::move(histogram));
        return nullptr;
    }

    Fault read_sample(Word at) {
        if (words_[at] < 8) return "BadSample";
        const Word count = words_[at + 6], mark = words_[at + 7];
        const Word units = part_ == Part::kTotal ? count : above(count, mark);
        const auto value = static_cast<std::int64_t>(words_[at + 5]);
        if (value < INT32_MIN || value > INT32_MAX || count > kMostUnits || mark > count) return "BadSample";
        const auto found = sparse_.find(words_[at + 4]);
        if (found == sparse_.end()) return "BadSample";
        reading_.histograms[found->second].buckets.push_back({value, value + 1, units});
        return nullptr;
    }

    // Sorts the samples of a sparse histogram; of several samples of one value only the first counts.
    static void settle(Histogram& histogram) {
        std::vector<Bucket>& buckets = histogram.buckets;
        std::stable_sort(buckets.begin(), buckets.end(),
                         [](const Bucket& one, const Bucket& other) { return one.low < other.low; });
        const auto is_same = [](const Bucket& one, const Bucket& other) { return one.low == other.low; };
        buckets.erase(std::unique(buckets.begin(), buckets.end(), is_same), buckets.end());
        const auto is_empty = [](const Bucket& bucket) { return bucket.count == 0; };
        buckets.erase(std::remove_if(buckets.begin(), buckets.end(), is_empty), buckets.end());
        for (const Bucket& bucket : buckets) histogram.units += bucket.count;
    }

    const Words& words_;
    const Part part_;
    const Word version_;
    const Word page_;
    const Word free_;
    Reading reading_;
    std::unordered_set<std::string> names_;
    std::unordered_map<Word, std::size_t> sparse_;  // the sparse histograms by their references
    std::vector<Word> boundaries_;                  // of the record that is being read
    std::vector<Word> totals_;                      // of the record that is being read
};

class Text {
public:
    // Reserves room for the whole text, so that it is not moved while it grows.
    explicit Text(std::size_t room) { text_.reserve(room); }

    Text& operator<<(std::string_view text) {
        text_.append(text);
        return *this;
    }

    template <typename Number>
    Text& number(Number value) {
        std::array<char, 24> digits;
        const auto end = std::to_chars(digits.data(), digits.data() + digits.size(), value).ptr;
        text_.append(digits.data(), end);
        return *this;
    }

    std::string take() { return std::move(text_); }

private:
    std::string text_;
};

inline void write_histogram(Text& text, const Histogram& histogram) {
    constexpr std::array<std::string_view, 5> kinds = {"", "linear", "boolean", "custom", "sparse"};
    for (const Bucket& bucket : histogram.buckets) {
        text << histogram.name << "," << kinds[histogram.kind] << ",";
        text.number(bucket.low) << ",";
        text.number(bucket.high) << ",";
        text.number(bucket.count) << "\n";
    }
    text << histogram.name << ",total,";
    text.number(histogram.units) << ",";
    text.number(histogram.sum) << "\n";
}

inline std::string report_of(const Words& words) {
    Reading reading = Reader(words).read();
    std::sort(reading.histograms.begin(), reading.histograms.end(),
              [](const Histogram& one, const Histogram& other) { return one.name < other.name; });
    constexpr std::size_t most_numbers = 60;  // bytes of a line without the name
    std::size_t room = 0;
    for (const Histogram& histogram : reading.histograms) {
        room += (histogram.buckets.size() + 1) * (histogram.name.size() + most_numbers);
    }
    Text text(room);
    for (const Histogram& histogram : reading.histograms) write_histogram(text, histogram);
    if (words[6] & 1) text << "!flag,corrupt\n";
    if (words[6] & 2) text << "!flag,full\n";
    for (const Histogram& histogram : reading.histograms) {
        if (histogram.redundant == histogram.units) continue;
        text << "!redundant," << histogram.name << ",";
        text.number(histogram.redundant) << "\n";
    }
    for (const auto& [at, fault] : reading.bad) {
        text << "!bad,";
        text.number(at) << "," << fault << "\n";
    }
    if (reading.stopped != nullptr) text << "!stopped," << reading.stopped << "\n";
    return text.take();
}

// Writes a text out to the device itself.
inline void write_out(std::FILE* file, std::string_view text) {
    const bool is_written = std::fwrite(text.data(), 1, text.size(), file) == text.size();
    if (std::fflush(file) != 0 || !is_written) throw Failure{"Write", 4};
}

// Does the work, reports a fault of it, and returns the status of the program.
template <typename Work>
int status_of(const Work& work) {
    try {
        work();
    } catch (const Failure& failure) {
        std::fprintf(stderr, "persist_report: %s\n", failure.text.c_str());
        return failure.status;
    } catch (const std::bad_alloc&) {
        std::fprintf(stderr, "persist_report: NoMemory\n");
        return 5;
    }
    return 0;
}

}  // namespace plain
