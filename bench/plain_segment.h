// A running segment of version 2 that threads share, by the same atomic steps as the proved one, as a plain C++ program
// writes it.

#pragma once

#include <algorithm>
#include <atomic>
#include <cstdint>
#include <cstdlib>
#include <string>
#include <string_view>
#include <unordered_map>
#include <utility>
#include <vector>

#include "plain_reading.h"

namespace plain {

inline constexpr Word kCorruptFlag = 1, kFullFlag = 2;
inline constexpr Word kFlags = 6, kFree = 7, kTail = 8;
inline constexpr Word kWasted = ~Word{0};
inline constexpr Word kMostName = 128;

// Words of a block, of a histogram's record and of a sample, from where it begins.
inline constexpr Word kNext = 3, kPayload = 4;
inline constexpr Word kCountsAt = 8, kSingleAt = 9, kSingleMark = 10, kSum = 11, kSumMark = 12, kRedundant = 13, kLength = 14,
                      kName = 15;
inline constexpr Word kOwner = 4, kValue = 5, kCount = 6, kMark = 7;

// How a histogram splits the values.
struct Spec {
    Word kind = 0, least = 0, most = 0, n = 0;
    std::vector<Word> ranges;      // of a custom one: those between 0 and the greatest
    std::vector<Word> boundaries;  // of one with buckets: all ranges

    bool is_same(const Spec& other) const {
        return std::tie(kind, least, most, n, ranges) == std::tie(other.kind, other.least, other.most, other.n, other.ranges);
    }
};

// A spec or the fault of what it is made of.
struct Made {
    Spec spec;
    Fault fault = nullptr;
};

inline Made linear_spec(Word kind, Word least, Word most, Word n) {
    if (least == 0) return {{}, "BadSpec BadMin"};
    if (most <= least || most >= kGreatest) return {{}, "BadSpec BadMax"};
    if (n < 3) return {{}, "BadSpec TooFew"};
    if (n > kMostBuckets || n > most - least + 2) return {{}, "BadSpec TooMany"};
    Spec spec{kind, least, most, n, {}, {0}};
    for (Word i = 1; i < n; ++i) {
        spec.boundaries.push_back((2 * (least * (n - 1 - i) + most * (i - 1)) + (n - 2)) / (2 * (n - 2)));
    }
    spec.boundaries.push_back(kGreatest);
    return {std::move(spec)};
}

inline Made custom_spec(std::vector<Word> values) {
    if (values.size() >= kMostBuckets) return {{}, "BadSpec TooMany"};
    if (std::any_of(values.begin(), values.end(), [](Word value) { return value >= kGreatest; })) return {{}, "BadSpec BadRange"};
    std::sort(values.begin(), values.end());
    values.erase(std::unique(values.begin(), values.end()), values.end());
    if (!values.empty() && values[0] == 0) values.erase(values.begin());
    if (values.empty()) return {{}, "BadSpec Empty"};
    Spec spec{kCustom, values.front(), values.back(), values.size() + 1, values, {0}};
    spec.boundaries.insert(spec.boundaries.end(), values.begin(), values.end());
    spec.boundaries.push_back(kGreatest);
    return {std::move(spec)};
}

inline Made sparse_spec() { return {Spec{kSparse, 0, 0, 0, {}, {}}}; }

// The words that threads share.
class Segment {
public:
    Segment(Word size, Word page, Word id) : words_(size), size_(size), page_(page) {
        const std::array<Word, 16> head = {kSegmentCookie, 2, size, page, id, 1, 0, kFirstBlock, kQueue, 0, 0, 0, 4, 1, 0, kQueue};
        for (std::size_t i = 0; i < head.size(); ++i) words_[i].store(head[i]);
    }

    std::atomic<Word>& operator[](Word at) { return words_[at]; }
    Word size() const { return size_; }
    Word page() const { return page_; }

    Words image() const { return Words(words_.begin(), words_.end()); }

private:
    std::vector<std::atomic<Word>> words_;
    const Word size_;
    const Word page_;
};

inline bool exchange(std::atomic<Word>& word, Word from, Word to) { return word.compare_exchange_strong(from, to); }

inline void raise(std::atomic<Word>& word, Word to) {
    Word seen = word.load();
    while (seen < to && !word.compare_exchange_weak(seen, to)) {
    }
}

// A key and its units.
using Item = std::pair<std::int64_t, Word>;

// One thread's part of a segment: the histograms that it knows and the units that it may still add.
class Recorder {
public:
    Recorder(Segment& segment, Word units) : segment_(segment), units_(units) {}

    // The histogram of a name, made if there is none, and its place among those that this recorder knows.
    Fault hist(std::string_view name, const Made& made, std::size_t& place) {
        if (!is_name(name)) return "BadName";
        if (made.fault != nullptr) return made.fault;
        if (words_of_record(name, made.spec) > segment_.page() || kPayload + 2 * made.spec.n > segment_.page()) return "TooLarge";
        const auto known = places_.find(std::string(name));
        if (known != places_.end()) {
            place = known->second;
            return known_[place].spec.is_same(made.spec) ? nullptr : "OtherSpec";
        }
        return find(name, made.spec, place);
    }

    Fault add(std::size_t place, std::int64_t value, Word count) {
        if (count == 0) return "ZeroCount";
        if (count > units_) return "NoUnits";
        const Known& known = known_[place];
        const std::int64_t taken = known.spec.kind == kSparse ? value : std::clamp<std::int64_t>(value, 0, kGreatest - 1);
        if (const Fault fault = count_units(known, taken, count)) return fault;
        if (taken != 0) segment_[known.at + kSum].fetch_add(static_cast<Word>(taken) * count);
        segment_[known.at + kRedundant].fetch_add(count);
        units_ -= count;
        return nullptr;
    }

    Fault batch(std::size_t place, const std::vector<Item>& items, std::int64_t sum) {
        Word counts = 0;
        for (const Item& item : items) counts += item.second;
        const Word size = sum < 0 ? Word{0} - static_cast<Word>(sum) : static_cast<Word>(sum);
        const Word cost = std::max(counts, (size + (Word{1} << 31) - 1) >> 31);
        if (cost > units_) return "NoUnits";
        const Known& known = known_[place];
        for (const Item& item : items) {
            if (const Fault fault = count_units(known, item.first, item.second)) return fault;
            segment_[known.at + kRedundant].fetch_add(item.second);
        }
        if (sum != 0) segment_[known.at + kSum].fetch_add(static_cast<Word>(sum));
        units_ -= cost;
        return nullptr;
    }

    void delta(std::size_t place) {
        const Known& known = known_[place];
        if (known.spec.kind == kSparse) {
            take_samples(known);
        } else {
            take_buckets(known);
        }
        segment_[known.at + kSumMark].exchange(segment_[known.at + kSum].load());
    }

private:
    struct Known {
        Word at;  // its record
        Spec spec;
    };

    static bool is_name(std::string_view name) {
        return !name.empty() && name.size() <= kMostName && name[0] != '!' && std::all_of(name.begin(), name.end(), [](char byte) {
            return '!' <= byte && byte <= '~' && byte != ',' && byte != '"';
        });
    }

    static Word words_of_record(std::string_view name, const Spec& spec) {
        return kName + (name.size() + 7) / 8 + spec.ranges.size();
    }

    // The first block of the list after a place that the test takes, or 0; the place is then the list's end.
    template <typename Test>
    Word walk(Word& place, const Test& test) {
        for (Word next = segment_[place + kNext].load(); next != kQueue; next = segment_[place + kNext].load()) {
            place = next;
            if (test(next)) return next;
        }
        return 0;
    }

    // The name of a histogram's record.
    std::string name_at(Word at) {
        std::string name(segment_[at + kLength].load(), ' ');
        for (std::size_t i = 0; i < name.size(); ++i) name[i] = static_cast<char>(segment_[at + kName + i / 8].load() >> 8 * (i % 8));
        return name;
    }

    // The first record of a name on the list, or 0: one that was visited, or one after the place up to which this recorder has looked.
    Word first_named(const std::string& name) {
        if (const auto met = met_.find(name); met != met_.end()) return met->second;
        walk(passed_, [&](Word at) {
            if (segment_[at + 2].load() == kHistogram) met_.emplace(name_at(at), at);
            return false;
        });
        const auto met = met_.find(name);
        return met == met_.end() ? 0 : met->second;
    }

    Fault find(std::string_view name, const Spec& spec, std::size_t& place) {
        Words payload = {spec.kind, spec.least, spec.most, spec.n, 0, 0, 0, 0, 0, 0, name.size()};
        payload.resize(payload.size() + (name.size() + 7) / 8);
        for (std::size_t i = 0; i < name.size(); ++i) {
            payload[kName - kPayload + i / 8] |= static_cast<Word>(static_cast<unsigned char>(name[i])) << 8 * (i % 8);
        }
        payload.insert(payload.end(), spec.ranges.begin(), spec.ranges.end());
        const auto make = [&](Word& made) {
            const Fault fault = allocate(payload.size(), kHistogram, made);
            for (std::size_t i = 0; fault == nullptr && i < payload.size(); ++i) {
                if (payload[i] != 0) segment_[made + kPayload + i].store(payload[i]);
            }
            return fault;
        };
        const std::string text(name);
        Word at = first_named(text);
        if (at == 0) {
            Word made = 0;
            if (const Fault fault = make(made)) return fault;
            publish(made);
            at = first_named(text);
        }
        if (!has_spec(at, spec, kName + (name.size() + 7) / 8)) return "OtherSpec";
        place = known_.size();
        known_.push_back({at, spec});
        places_.emplace(name, place);
        return nullptr;
    }

    bool has_spec(Word at, const Spec& spec, Word first_range) {
        const std::array<Word, 4> wanted = {spec.kind, spec.least, spec.most, spec.n};
        for (std::size_t i = 0; i < wanted.size(); ++i) {
            if (segment_[at + kPayload + i].load() != wanted[i]) return false;
        }
        for (std::size_t i = 0; i < spec.ranges.size(); ++i) {
            if (segment_[at + first_range + i].load() != spec.ranges[i]) return false;
        }
        return true;
    }

    Fault allocate(Word payload, Word type, Word& made) {
        const Word size = payload + kPayload;
        while (true) {
            if (segment_[kFlags].load() & kCorruptFlag) return "Corrupt";
            const Word free = segment_[kFree].load();
            const Word room = segment_.page() - free % segment_.page();
            if (free + size > segment_.size()) {
                segment_[kFlags].fetch_or(kFullFlag);
                return "Full";
            }
            const bool is_wasted = size > room;
            const Word taken = is_wasted || room - size < kSmallestBlock ? room : size;
            if (!exchange(segment_[kFree], free, free + taken)) continue;
            segment_[free].store(taken);
            segment_[free + 1].store(is_wasted ? kWasted : kBlockCookie);
            if (is_wasted) continue;
            segment_[free + 2].store(type);
            made = free;
            return nullptr;
        }
    }

    void publish(Word made) {
        segment_[made + kNext].store(kQueue);
        while (true) {
            const Word tail = segment_[kTail].load();
            Word seen = kQueue;
            if (segment_[tail + kNext].compare_exchange_strong(seen, made)) {
                exchange(segment_[kTail], tail, made);
                return;
            }
            exchange(segment_[kTail], tail, seen);
        }
    }

    // The word in which the units of a value are counted, or none if they were packed.
    Fault count_units(const Known& known, std::int64_t value, Word count) {
        Word counted = 0;
        if (known.spec.kind == kSparse) {
            if (const Fault fault = find_sample(known, value, counted)) return fault;
            segment_[counted + kCount].fetch_add(count);
            return nullptr;
        }
        const auto& boundaries = known.spec.boundaries;
        const auto bucket = static_cast<Word>(std::upper_bound(boundaries.begin(), boundaries.end(), static_cast<Word>(value)) - boundaries.begin() - 1);
        if (pack(known, bucket, count)) return nullptr;
        if (const Fault fault = counts_of(known, counted)) return fault;
        freeze(known);
        segment_[counted + kPayload + bucket].fetch_add(count);
        return nullptr;
    }

    // Packs units into the single word, if that is free for their bucket.
    bool pack(const Known& known, Word bucket, Word count) {
        std::atomic<Word>& single = segment_[known.at + kSingleAt];
        while (true) {
            const Word seen = single.load();
            if (seen >= kTop) return false;
            const Word packed = seen & 0xFFFF'FFFF;
            if ((seen != 0 && seen >> 32 != bucket) || packed + count > kMostPacked) return false;
            if (exchange(single, seen, bucket << 32 | (packed + count))) return true;
        }
    }

    Fault counts_of(const Known& known, Word& counts) {
        counts = segment_[known.at + kCountsAt].load();
        if (counts != 0) return nullptr;
        Word made = 0;
        if (const Fault fault = allocate(2 * known.spec.n, kCounts, made)) return fault;
        if (segment_[known.at + kCountsAt].compare_exchange_strong(counts, made)) {
            counts = made;
        } else {
            segment_[made + 2].store(kPurged);
        }
        return nullptr;
    }

    void freeze(const Known& known) {
        std::atomic<Word>& single = segment_[known.at + kSingleAt];
        Word seen = single.load();
        while (seen < kTop && !single.compare_exchange_strong(seen, kTop | seen)) {
        }
    }

    bool is_sample(const Known& known, Word at) {
        return segment_[at + 2].load() == kSample && segment_[at + kOwner].load() == known.at;
    }

    // The sample of a value, or 0: one that was visited, or one after the place up to which this recorder has looked for samples.
    Word first_sampled(Word owner, Word value) {
        const Word key = owner << 32 | (value & 0xFFFF'FFFF);
        if (const auto met = sampled_.find(key); met != sampled_.end()) return met->second;
        walk(sampled_place_, [&](Word at) {
            if (segment_[at + 2].load() == kSample) {
                sampled_.emplace(segment_[at + kOwner].load() << 32 | (segment_[at + kValue].load() & 0xFFFF'FFFF), at);
            }
            return false;
        });
        const auto met = sampled_.find(key);
        return met == sampled_.end() ? 0 : met->second;
    }

    Fault find_sample(const Known& known, std::int64_t value, Word& found) {
        const auto word = static_cast<Word>(value);
        found = first_sampled(known.at, word);
        if (found != 0) return nullptr;
        Word made = 0;
        if (const Fault fault = allocate(4, kSample, made)) return fault;
        segment_[made + kOwner].store(known.at);
        if (word != 0) segment_[made + kValue].store(word);
        publish(made);
        found = first_sampled(known.at, word);
        return nullptr;
    }

    void take_samples(const Known& known) {
        Word place = known.at;
        walk(place, [&](Word at) {
            if (is_sample(known, at)) {
                if (const Word count = segment_[at + kCount].load()) raise(segment_[at + kMark], count);
            }
            return false;
        });
    }

    void take_buckets(const Known& known) {
        const Word single = segment_[known.at + kSingleAt].load();
        const Word packed = single % kTop & 0xFFFF'FFFF, bucket = packed == 0 ? known.spec.n : single % kTop >> 32;
        if (single < kTop) {
            if (packed != 0) raise(segment_[known.at + kSingleMark], packed);
            return;
        }
        const Word counts = segment_[known.at + kCountsAt].load();
        for (Word i = 0; i < known.spec.n; ++i) {
            const Word count = segment_[counts + kPayload + i].load() + (i == bucket ? packed : 0);
            if (count != 0) raise(segment_[i == bucket ? known.at + kSingleMark : counts + kPayload + known.spec.n + i], count);
        }
    }

    Segment& segment_;
    Word units_;
    std::vector<Known> known_;
    std::unordered_map<std::string, std::size_t> places_;
    std::unordered_map<std::string, Word> met_;
    Word passed_ = kQueue;
    std::unordered_map<Word, Word> sampled_;  // samples that were visited, by histogram and value
    Word sampled_place_ = kQueue;
};

}  // namespace plain
