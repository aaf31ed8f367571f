// One program of a file with exceptions, this one, and a file without, mixed_plain.cpp. Both use the same classes, and what the second
// throws by povundiri::raise comes here. Where povundiri_raise.cpp is compiled without exceptions, it ends the process: mixed aborts.

#include <string>

#include "checks.hpp"
#include "mixed_plain.hpp"

namespace {

using povundiri::Recorder;
using povundiri::Segment;

void both_record() {
    Segment segment(povundiri::shape(1024, 256, 7));
    HOLDS(plain::counts(segment, 3));
    Recorder recorder = segment.recorder(5);
    const povundiri::Hist hist = recorder.boolean("b");
    recorder.add_or_throw(hist, 1, 4);
    HOLDS(recorder.snapshot(hist).redundant() == 7);
    Recorder moved = plain::moved(std::move(recorder));
    moved.add_or_throw(hist, 1);
    HOLDS(plain::name(povundiri::Status::Forked) == "Forked");
}

// An empty segment has no recorders, also if code without exceptions asks for one.
void thrown_without_exceptions() {
    Segment none;
    try {
        plain::ask(none);
        HOLDS(false);
    } catch (const povundiri::Fault& fault) {
        HOLDS(fault.status() == povundiri::Status::Empty && std::string(fault.what()) == "recorder, lease 1048576: EmptyHandle");
    }
}

}  // namespace

int main(int count, char** words) {
    if (count == 2 && std::string(words[1]) == "aborts") thrown_without_exceptions();
    return group("files with exceptions and without", both_record) + group("a call that throws", thrown_without_exceptions);
}
