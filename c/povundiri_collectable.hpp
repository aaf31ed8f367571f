// A recording as a Collectable of prometheus-cpp 1.0 and later, for its exposer:
//
//     const auto metrics = std::make_shared<povundiri::Collectable>(recording);
//     exposer.RegisterCollectable(metrics);                            // the exposer does not own it: keep 'metrics'
//
// It returns the families of Recording::prometheus, with all their values, of which those above 2^53 are rounded to doubles. The exposer may
// ask from several threads. As long as it may ask, the Recording is not moved, assigned, ended or destroyed. If there is no text, as after a
// fault of the system or with an invalid prefix, it returns no family; std::bad_alloc is thrown. As each text is of the whole folder, let
// one process of a folder be scraped.
#ifndef POVUNDIRI_COLLECTABLE_HPP
#define POVUNDIRI_COLLECTABLE_HPP

#include <prometheus/collectable.h>
#include <prometheus/metric_family.h>

#include <cstdlib>
#include <limits>
#include <string>
#include <string_view>
#include <utility>
#include <vector>

#include "povundiri_recording.hpp"

namespace povundiri {

class Collectable : public prometheus::Collectable {
public:
    explicit Collectable(Recording& recording, std::string prefix = "povundiri") : recording_(recording), prefix_(std::move(prefix)) {}

    std::vector<prometheus::MetricFamily> Collect() const override {
        std::vector<prometheus::MetricFamily> families;
        std::string text;
        if (recording_.try_prometheus(text, prefix_.c_str())) return families;
        for (std::string_view rest = text; !rest.empty();) {
            const std::string_view line = rest.substr(0, rest.find('\n'));
            rest.remove_prefix(line.size() < rest.size() ? line.size() + 1 : rest.size());
            if (line.substr(0, kHelp.size()) == kHelp) {
                begin(families, line.substr(kHelp.size()));
            } else if (line.substr(0, kType.size()) == kType) {
                families.back().type = type_of(line.substr(line.rfind(' ') + 1));
            } else if (!families.empty()) {
                add(families.back(), line);
            }
        }
        return families;
    }

private:
    using Labels = std::vector<prometheus::ClientMetric::Label>;

    static constexpr std::string_view kHelp = "# HELP ", kType = "# TYPE ", kBucket = "_bucket", kSum = "_sum", kCount = "_count";

    static void begin(std::vector<prometheus::MetricFamily>& families, std::string_view line) {
        const std::size_t ends = line.find(' ');
        families.emplace_back();
        families.back().name = line.substr(0, ends);
        families.back().help = ends == line.npos ? std::string_view() : line.substr(ends + 1);
    }

    static prometheus::MetricType type_of(std::string_view word) {
        if (word == "histogram") return prometheus::MetricType::Histogram;
        return word == "counter" ? prometheus::MetricType::Counter : prometheus::MetricType::Gauge;
    }

    // The labels of a line, which come off its front with their braces.
    static Labels labels_of(std::string_view& line) {
        Labels labels;
        if (line.empty() || line.front() != '{') return labels;
        while (!line.empty() && line.front() != '}') {
            const std::size_t ends = line.find('=');
            labels.push_back({std::string(line.substr(1, ends - 1)), ""});
            for (line.remove_prefix(ends + 2); line.front() != '"'; line.remove_prefix(1)) {
                const bool is_escaped = line.front() == '\\';
                if (is_escaped) line.remove_prefix(1);
                labels.back().value += is_escaped && line.front() == 'n' ? '\n' : line.front();
            }
            line.remove_prefix(1);
        }
        line.remove_prefix(1);
        return labels;
    }

    // The value of a label, which is removed.
    static std::string taken(Labels& labels, std::string_view name) {
        for (auto label = labels.begin(); label != labels.end(); ++label) {
            if (label->name != name) continue;
            std::string value = std::move(label->value);
            labels.erase(label);
            return value;
        }
        return {};
    }

    // A metric has all lines of one histogram, which follow one another.
    static prometheus::ClientMetric& metric_of(prometheus::MetricFamily& family, const Labels& labels) {
        if (family.metric.empty() || family.metric.back().label != labels) {
            family.metric.emplace_back();
            family.metric.back().label = labels;
        }
        return family.metric.back();
    }

    static void add(prometheus::MetricFamily& family, std::string_view line) {
        const std::string_view name = line.substr(0, line.find_first_of("{ "));
        line.remove_prefix(name.size());
        Labels labels = labels_of(line);
        const std::string number(line.substr(1));
        if (family.type != prometheus::MetricType::Histogram) {
            prometheus::ClientMetric& metric = metric_of(family, labels);
            metric.counter.value = metric.gauge.value = std::strtod(number.c_str(), nullptr);
            return;
        }
        const std::string_view what = name.substr(family.name.size());
        if (what == kBucket) {
            const std::string last = taken(labels, "le");
            const double bound = last == "+Inf" ? std::numeric_limits<double>::infinity() : std::strtod(last.c_str(), nullptr);
            metric_of(family, labels).histogram.bucket.push_back({std::strtoull(number.c_str(), nullptr, 10), bound});
        } else if (what == kSum) {
            metric_of(family, labels).histogram.sample_sum = std::strtod(number.c_str(), nullptr);
        } else if (what == kCount) {
            metric_of(family, labels).histogram.sample_count = std::strtoull(number.c_str(), nullptr, 10);
        }
    }

    Recording& recording_;
    std::string prefix_;
};

}  // namespace povundiri

#endif
