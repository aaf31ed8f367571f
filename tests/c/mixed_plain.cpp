#include "mixed_plain.hpp"

#if defined(__cpp_exceptions)
#error "this file is to be compiled without exceptions"
#endif

namespace plain {

bool counts(povundiri::Segment& segment, std::uint32_t units) {
    povundiri::Recorder recorder;
    povundiri::Hist hist;
    if (segment.try_recorder(recorder) != povundiri::Status::Done) return false;
    return recorder.try_boolean("b", hist) == povundiri::Status::Done && recorder.add(hist, 1, units);
}

povundiri::Recorder moved(povundiri::Recorder recorder) { return recorder; }

std::string name(povundiri::Status status) { return make_error_code(status).message(); }

void ask(povundiri::Segment& segment) { povundiri::Recorder recorder = segment.recorder(); }

}  // namespace plain
