// Samples counted in histograms of prometheus-cpp (alternatives.h). WAY is prometheus. Those of several threads have a label each.

#include <cstddef>
#include <cstdint>
#include <string>
#include <vector>

#include <prometheus/histogram.h>
#include <prometheus/registry.h>

#include "alternatives.h"

namespace {

// The greatest value of each bucket but the last one.
std::vector<double> ends(std::uint32_t buckets) {
    const std::vector<std::uint32_t> boundaries = plain::linear(buckets);
    std::vector<double> ends;
    for (std::uint32_t i = 1; i < buckets; ++i) ends.push_back(boundaries[i] - 1.0);
    return ends;
}

struct Worker {
    prometheus::Histogram& histogram;

    bool add(double value) {
        histogram.Observe(value);
        return true;
    }
};

class Prometheus {
public:
    using Number = double;

    explicit Prometheus(const plain::Plan& plan) {
        auto& family = prometheus::BuildHistogram().Name("latency").Register(registry_);
        for (std::size_t i = 0; i < plan.histograms(); ++i) {
            histograms_.push_back(&family.Add({{"thread", std::to_string(i)}}, ends(plan.buckets)));
        }
    }

    Worker worker(std::size_t histogram) { return {*histograms_[histogram]}; }

    // A bucket of the metric has the units of those before it as well.
    plain::Counted counted(std::size_t histogram) const {
        const prometheus::ClientMetric::Histogram metric = histograms_[histogram]->Collect().histogram;
        plain::Counted counted{{}, static_cast<std::int64_t>(metric.sample_sum)};
        plain::Word before = 0;
        for (const prometheus::ClientMetric::Bucket& bucket : metric.bucket) {
            counted.units.push_back(bucket.cumulative_count - before);
            before = bucket.cumulative_count;
        }
        return counted;
    }

private:
    prometheus::Registry registry_;
    std::vector<prometheus::Histogram*> histograms_;
};

}  // namespace

int main(int count, char** words) {
    const plain::Options options = plain::options_of(count, words);
    return options.way == "prometheus" ? plain::measure<Prometheus>(options) : plain::usage();
}
