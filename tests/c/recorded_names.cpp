// Names with labels, and how a recording exports them: 'recorded_names FOLDER'. Each group works in a folder of its own below that.
#include <algorithm>
#include <chrono>
#include <string>
#include <vector>

#include "recorded.hpp"

namespace {

using namespace std::chrono_literals;
using povundiri::BadName;
using povundiri::Label;
using povundiri::name;

std::string repeated(char byte, std::size_t times) { return std::string(times, byte); }

void names() {
    HOLDS(name("http.latency", {{"route", "a"}, {"method", "GET"}}) == "http.latency{method=GET;route=a}");
    HOLDS(name("http.latency", {{"method", "GET"}, {"route", "a"}}) == "http.latency{method=GET;route=a}");
    HOLDS(name("http.latency", {}) == "http.latency" && name("a", {{"k", "v"}}) == "a{k=v}");
    // Keys ascend byte by byte: capitals, then '_', then small letters; a shorter one before what it begins.
    HOLDS(name("a", {{"b", "1"}, {"_b", "2"}, {"B", "3"}, {"ba", "4"}, {"b_", "5"}, {"b0", "6"}}) == "a{B=3;_b=2;b=1;b0=6;b_=5;ba=4}");
    // What a value and a base may have beside letters; 'flag' is a key of an export's own lines alone.
    HOLDS(name("a;b=c}", {{"flag", "/u/{id}?x=1&y=!|\\'"}}) == "a;b=c}{flag=/u/{id}?x=1&y=!|\\'}");
    HOLDS(name("a!", {{"le_", "!"}, {"les", "~"}}) == "a!{le_=!;les=~}");
    // 128 bytes, and not one more.
    HOLDS(name(repeated('a', 128), {}).size() == 128 && name(repeated('a', 123), {{"k", "v"}}).size() == 128);
    std::vector<Label> labels;
    HOLDS(name("a", labels) == "a");
    labels = {{"z", "1"}, {"y", "2"}};
    HOLDS(name(std::string("a"), labels) == "a{y=2;z=1}" && labels[0].key == "z");
}

#if defined(__cpp_exceptions)
// Checks at which position, and with which byte, a name is refused.
void refuses(int line, const std::string& base, const std::vector<Label>& labels, std::size_t position, int byte) {
    try {
        std::printf("line %d: it is a name: %s\n", line, name(base, labels).c_str());
        ++failed_here;
    } catch (const BadName& fault) {
        const bool is_right = fault.position() == position && fault.byte() == byte && fault.status() == Status::RefusedBadName;
        if (!is_right) std::printf("line %d: %s, not at %zu byte %d\n", line, fault.what(), position, byte);
        failed_here += is_right ? 0 : 1;
    }
}
#define REFUSES(...) refuses(__LINE__, __VA_ARGS__)

void refused() {
    // The base: empty, with what no name can have, with a brace, too long. Position and byte are those in the name with its labels.
    REFUSES("", {}, 0, BadName::kEnd);
    REFUSES("", {{"k", "v"}}, 0, '{');
    REFUSES("!a", {}, 0, '!');
    REFUSES("a b", {}, 1, ' ');
    REFUSES("a,b", {}, 1, ',');
    REFUSES("ab\"", {}, 2, '"');
    REFUSES("a\x7F", {}, 1, 0x7F);
    REFUSES("caf\xC3\xA9", {}, 3, 0xC3);
    REFUSES("a\n", {{"k", "v"}}, 1, '\n');
    REFUSES(std::string("a\0b", 3), {}, 1, 0);
    REFUSES("a{k=v}", {}, 1, '{');
    REFUSES(repeated('a', 129), {}, 128, 'a');
    REFUSES(repeated('a', 128), {{"k", "v"}}, 128, '{');
    REFUSES(repeated('a', 125), {{"k", "v"}}, 128, 'v');
    REFUSES(repeated('a', 124), {{"k", "v"}}, 128, '}');
    // A key: empty, no word, with "__", an export's own, twice.
    REFUSES("a", {{"", "v"}}, 2, '=');
    REFUSES("a", {{"0k", "v"}}, 2, '0');
    REFUSES("a", {{"k-l", "v"}}, 3, '-');
    REFUSES("a", {{"k=l", "v"}}, 3, '=');
    REFUSES("a", {{"k__l", "v"}}, 4, '_');
    REFUSES("a", {{"__k", "v"}}, 3, '_');
    for (const char* key : {"le", "name", "value", "kind", "histogram"}) REFUSES("a", {{key, "v"}}, 2, key[0]);
    REFUSES("a", {{"k", "v"}, {"l", "v"}, {"k", "w"}}, 6, 'k');
    // A value: empty, with what ends it, with what no name can have, too long.
    REFUSES("a", {{"k", ""}}, 4, '}');
    REFUSES("a", {{"l", "v"}, {"k", ""}}, 4, ';');
    REFUSES("a", {{"k", "v;l=w"}}, 5, ';');
    REFUSES("a", {{"k", "v w"}}, 5, ' ');
    REFUSES("a", {{"k", "v\"w"}}, 5, '"');
    REFUSES("http.latency", {{"route", "a"}, {"method", "G,T"}}, 21, ',');
    REFUSES("a", {{"k", repeated('v', 200)}}, 128, 'v');
    // The first byte is reported, of the labels in the order of their keys.
    REFUSES("a", {{"z", " "}, {"k", ","}}, 4, ',');
}

// What is said of a name that is refused.
template <typename Call>
std::string said_by(const Call& call) {
    try {
        call();
    } catch (const std::system_error& fault) {
        return fault.what();
    }
    return "";
}

void said() {
    Recording recording;
    HOLDS(opens(folder("said"), recording));
    HOLDS(said_by([] { name("http.latency", {{"route", "a b"}}); }) == "name \"http.latency{route=a b}\": at 20 is byte 32: BadName");
    HOLDS(said_by([] { name("", {}); }) == "name \"\": at 0 is its end: BadName");
    HOLDS(said_by([&] { recording.counter("requests"); }) == "counter \"requests\": at 8 is its end: BadName");
    HOLDS(said_by([&] { recording.counter("requests{route=_total}"); }) == "counter \"requests{route=_total}\": at 8 is byte 123: BadName");
    HOLDS(said_by([&] { recording.counter_family("requests", {"route"}, 3); }) == "counter \"requests\": at 8 is its end: BadName");
    HOLDS(said_by([&] { recording.counter(",_total"); }) == "hist \",_total\": BadName");
    HOLDS(said_by([&] {
              recording.scale_family("a", {"route", "route"}, 1, 10, 3, 3);
          }) == "name \"a{route=_other;route=_other}\": at 15 is byte 114: BadName");
    HOLDS(said_by([&] { recording.scale<std::chrono::microseconds>("a_ms", 1us, 1s, 3); }) == "hist \"a_ms\": BadUnit");
    HOLDS(said_by([&] { recording.scale_family<std::chrono::microseconds>("a_ms", {"k"}, 1us, 1s, 3, 3); }) == "family \"a_ms\": BadUnit");
    HOLDS(units_in(recording.report(), "a") == -1 && units_in(recording.report(), "requests") == -1);
}
#endif

bool has_line(const std::string& text, const std::string& line) { return ("\n" + text).find("\n" + line + "\n") != std::string::npos; }

// Each name that name() makes is one of a histogram, whose labels an export takes apart.
void exported() {
    Recording recording;
    HOLDS(opens(folder("exported"), recording));
    HOLDS(metric_of(recording, name("http.latency", {{"route", "/u/{id}"}, {"method", "GET"}}).c_str()).add(1, 3));
    HOLDS(metric_of(recording, name("a;b=c}", {{"flag", "x\\y"}}).c_str()).add(1, 4));
    HOLDS(metric_of(recording, name(repeated('a', 123), {{"k", "v"}}).c_str()).add(1, 5));
    HOLDS(recording.counter(name("requests_total", {{"route", "a"}, {"Method", "GET"}})).add(6));
    const std::string text = recording.prometheus(), count = "povundiri_units_count{histogram=\"";
    HOLDS(has_line(text, count + "http.latency\",method=\"GET\",route=\"/u/{id}\"} 3"));
    HOLDS(has_line(text, count + "a;b=c}\",flag=\"x\\\\y\"} 4"));
    HOLDS(has_line(text, count + repeated('a', 123) + "\",k=\"v\"} 5"));
    HOLDS(has_line(text, count + "requests_total\",Method=\"GET\",route=\"a\"} 6"));
}

int run() {
    int failed = group("names", names);
    failed += group("names in an export", exported);
#if defined(__cpp_exceptions)
    failed += group("what no name can have", refused);
    failed += group("what is said of them", said);
#endif
    return failed;
}

}  // namespace

int main(int count, char** words) { return in_folder(count, words, run); }
