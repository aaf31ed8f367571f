// Two threads join recorders at the same moment by povundiri.h, one or both of them to a segment that is not the recorder's own. Whatever
// the calls return, no recorder is lost and none is joined twice: in the end both segments have all their units again. The classes of
// povundiri.hpp do not let it come to this: they know which segment a recorder is of.

#include <cstdint>

#include "checks.h"
#include "meeting.h"

namespace {

constexpr povundiri_shape kShape = {1024, 256, 0, 0, 2};
constexpr std::uint32_t kShare = 1000;

// The handle of a segment, or of a recorder.
struct Handle {
    Handle() = default;
    Handle(const Handle&) = delete;
    ~Handle() { povundiri_drop(&it); }

    povundiri_handle it{};
};

// A join: a recorder is passed to a segment.
struct Join {
    Handle& segment;
    Handle recorder{};
    std::uint32_t status = POVUNDIRI_NULL;
};

void make(void* join) {
    Join& made = *static_cast<Join*>(join);
    made.status = povundiri_join(&made.segment.it, &made.recorder.it);
}

// A join that is done, or was done elsewhere, leaves its handle empty; one that is refused leaves it full, and then its own segment takes
// it.
void comes_home(Join& join, Handle& own) {
    const bool is_joined = join.status == POVUNDIRI_DONE || join.status == POVUNDIRI_ELSEWHERE;
    HOLDS(is_joined || join.status == POVUNDIRI_OTHER_SEGMENT || join.status == POVUNDIRI_BUSY);
    HOLDS(is_joined != join.recorder.it.held);
    if (join.recorder.it.held) DONE(povundiri_join(&own.it, &join.recorder.it));
}

void is_whole(Handle& segment) {
    std::uint32_t units = 0, outstanding = 1;
    DONE(povundiri_units(&segment.it, &units));
    DONE(povundiri_outstanding(&segment.it, &outstanding));
    HOLDS(units == UINT32_MAX && outstanding == 0);
}

// Whether a join did not meet the other one: then it is done, or returns that the recorder is of another segment.
bool was_alone(void* join) {
    const std::uint32_t status = static_cast<Join*>(join)->status;
    return status != POVUNDIRI_ELSEWHERE && status != POVUNDIRI_BUSY;
}

// The first recorder is of the other segment; so is the second, if both cross. The first join is the one that is stopped.
void cross(bool both) {
    Handle here, there;
    Handle& home = both ? here : there;
    meeting joins;
    DONE(povundiri_create(kShape, &here.it));
    DONE(povundiri_create(kShape, &there.it));
    Join one{here}, other{there};
    HOLDS(meeting_begins(&joins, make, was_alone, &other, &one));
    if (failed_here != 0) return;
    while (failed_here == 0 && meeting_goes_on(&joins)) {
        DONE(povundiri_recorder(&there.it, kShare, &one.recorder.it));
        DONE(povundiri_recorder(&home.it, kShare, &other.recorder.it));
        meeting_round(&joins);
        HOLDS(both || one.status != POVUNDIRI_DONE);
        comes_home(one, there);
        comes_home(other, home);
        is_whole(here);
        is_whole(there);
    }
    HOLDS(meeting_ends(&joins));
    HOLDS(joins.meetings >= LEAST_MEETINGS);
}

void one_crosses() { cross(false); }

void both_cross() { cross(true); }

}  // namespace

int main() { return group("one of two joins crosses", one_crosses) + group("both joins cross", both_cross); }
