// The report of the sum of all images in a folder, as a plain C++ program writes it: the floor that the time of the
// proved program is held against.
//
//     plain_sums FOLDER
//
// It reads the files in the order of their names, checks all that the format says (plain_reading.h), and adds up the
// histograms that have one name and one spec. It has no rule for names that have two specs.

#include <algorithm>
#include <array>
#include <cstdio>
#include <filesystem>
#include <map>
#include <string>
#include <vector>

#include "plain_reading.h"

namespace {

__extension__ using Amount = __int128;

struct Sum {
    plain::Word kind = 0;
    std::vector<plain::Bucket> buckets;  // ascending
    Amount amount = 0;
    plain::Word units = 0;
    plain::Word redundant = 0;
};

using Name = std::pair<std::string, std::array<plain::Word, 4>>;

// Adds buckets that ascend to others that do.
void add_buckets(std::vector<plain::Bucket>& all, const std::vector<plain::Bucket>& more) {
    std::vector<plain::Bucket> both;
    both.reserve(all.size() + more.size());
    auto one = all.begin();
    for (const plain::Bucket& bucket : more) {
        while (one != all.end() && one->low < bucket.low) both.push_back(*one++);
        const bool is_same = one != all.end() && one->low == bucket.low;
        both.push_back({bucket.low, bucket.high, bucket.count + (is_same ? one++->count : 0)});
    }
    both.insert(both.end(), one, all.end());
    all.swap(both);
}

class Sums {
public:
    void add(const plain::Words& words) {
        ++images_;
        flags_ |= words[6];
        for (const plain::Histogram& histogram : plain::Reader(words).read().histograms) {
            const plain::Word* spec = &words[histogram.at + 4];
            Sum& sum = sums_[{histogram.name, {spec[0], spec[1], spec[2], spec[3]}}];
            sum.kind = histogram.kind;
            sum.amount += histogram.sum;
            sum.units += histogram.units;
            sum.redundant += histogram.redundant;
            add_buckets(sum.buckets, histogram.buckets);
        }
    }

    std::string report() const {
        plain::Text text(1 << 20);
        for (const auto& [name, sum] : sums_) {
            plain::Histogram histogram;
            histogram.name = name.first;
            histogram.kind = sum.kind;
            histogram.buckets = sum.buckets;
            histogram.units = sum.units;
            histogram.sum = static_cast<std::int64_t>(sum.amount);
            plain::write_histogram(text, histogram);
        }
        if (flags_ & 1) text << "!flag,corrupt\n";
        if (flags_ & 2) text << "!flag,full\n";
        for (const auto& [name, sum] : sums_) {
            if (sum.redundant == sum.units) continue;
            text << "!redundant," << name.first << ",";
            text.number(sum.redundant) << "\n";
        }
        text << "!images,";
        text.number(images_) << "\n";
        return text.take();
    }

private:
    plain::Word images_ = 0;
    plain::Word flags_ = 0;
    std::map<Name, Sum> sums_;
};

// The words of a file, for which there is no more room than it has bytes.
plain::Words words_in(const std::filesystem::path& path) {
    std::FILE* file = std::fopen(path.c_str(), "rb");
    if (file == nullptr) throw plain::Failure{"Read", 4};
    const std::string bytes =
        plain::bytes_of(file, std::min<std::size_t>(std::filesystem::file_size(path), plain::kMostBytes));
    std::fclose(file);
    return plain::words_of(bytes);
}

void run(const char* folder) {
    std::vector<std::filesystem::path> paths;
    for (const auto& entry : std::filesystem::directory_iterator(folder)) paths.push_back(entry.path());
    std::sort(paths.begin(), paths.end());
    Sums sums;
    for (const std::filesystem::path& path : paths) {
        const plain::Words words = words_in(path);
        if (const plain::Fault fault = plain::header_fault(words))
            throw plain::Failure{std::string("Image ") + fault, 3};
        sums.add(words);
    }
    plain::write_out(stdout, sums.report());
}

}  // namespace

int main(int count, char** arguments) {
    if (count != 2) {
        std::fprintf(stderr, "plain_sums FOLDER\n");
        return 2;
    }
    return plain::status_of([&] { run(arguments[1]); });
}
