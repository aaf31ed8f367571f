// 'collected FOLDER': what prometheus-cpp writes of a recording has the lines of its own text, and no others.
#include <prometheus/text_serializer.h>

#include <algorithm>
#include <cstdio>
#include <sstream>
#include <string>
#include <vector>

#include "checks.hpp"
#include "povundiri_collectable.hpp"

namespace {

std::string home;

// The lines of samples, in an order of their own; prometheus-cpp has another.
std::vector<std::string> lines_of(const std::string& text) {
    std::vector<std::string> lines;
    std::istringstream stream(text);
    for (std::string line; std::getline(stream, line);) {
        if (line[0] != '#') lines.push_back(line);
    }
    std::sort(lines.begin(), lines.end());
    return lines;
}

std::string serialized(const povundiri::Collectable& collectable) { return prometheus::TextSerializer().Serialize(collectable.Collect()); }

void collected() {
    povundiri::Recording recording;
    HOLDS(!povundiri::Recording::try_open((home + "/metrics").c_str(), recording));
    const povundiri::Collectable usual(recording), mine(recording, "my_1");
    HOLDS(lines_of(serialized(usual)) == lines_of(recording.prometheus()) && lines_of(recording.prometheus()).size() > 7);
    const povundiri::Metric metrics[] = {recording.linear("load{method=GET}", 1, 1000, 10),
                                         recording.linear("load{method=PUT}", 1, 1000, 10), recording.boolean("with\\backslash"),
                                         recording.sparse("codes"), recording.scale("us", 1, 100'000, 3)};
    for (int sample = 0; sample < 1000; ++sample) {
        for (const povundiri::Metric& metric : metrics) HOLDS(metric.add(sample, 1 + sample % 3));
    }
    const std::string text = recording.prometheus();
    HOLDS(lines_of(serialized(usual)) == lines_of(text) && lines_of(text).size() > 1100);
    HOLDS(lines_of(serialized(mine)) == lines_of(recording.prometheus("my_1")) && lines_of(serialized(mine)) != lines_of(text));
    for (const prometheus::MetricFamily& family : usual.Collect()) {
        const std::string name = "\n# TYPE " + family.name + " ", help = "# HELP " + family.name + " " + family.help + "\n";
        const std::string type = family.type == prometheus::MetricType::Histogram ? "histogram\n"
                                 : family.type == prometheus::MetricType::Counter ? "counter\n"
                                                                                  : "gauge\n";
        HOLDS(text.find(name + type) != std::string::npos && text.find(help) != std::string::npos);
    }
    HOLDS(povundiri::Collectable(recording, "no prefix").Collect().empty());
}

}  // namespace

int main(int count, char** words) {
    if (count != 2) return 2;
    home = words[1];
    return group("prometheus-cpp", collected);
}
