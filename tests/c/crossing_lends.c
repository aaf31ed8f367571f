/* Two threads pass recorders to segments at the same moment, one or both of them to a segment that is not the recorder's own. Whatever the
 * calls return, no recorder and no unit is lost: in the end both segments have all their units again. */
#define _POSIX_C_SOURCE 200809L

#include "checks.h"
#include "meeting.h"

enum { SHARE = 1000, LENT = 50 };

/* What a thread does: it lends, or joins, a recorder by a handle to a segment by a handle. */
struct pass {
    struct povundiri_handle *segment;
    struct povundiri_handle *recorder;
    bool joins;
    uint32_t status;
};

static void make(void *argument) {
    struct pass *pass = argument;
    pass->status = pass->joins ? povundiri_join(pass->segment, pass->recorder) : povundiri_lend(pass->segment, pass->recorder, LENT);
}

static bool is_empty(const struct pass *pass) {
    return pass->status == POVUNDIRI_ELSEWHERE || (pass->joins && pass->status == POVUNDIRI_DONE);
}

/* The call returned a status that it may return, and its handle holds a recorder or none, as that status says. */
static void answered(const struct pass *pass) {
    HOLDS(pass->status == POVUNDIRI_DONE || pass->status == POVUNDIRI_OTHER_SEGMENT || pass->status == POVUNDIRI_ELSEWHERE ||
          pass->status == POVUNDIRI_BUSY);
    HOLDS(pass->recorder->held != is_empty(pass));
}

/* Whether the call did not meet the other one: then it is done, or returns that the recorder is of another segment. */
static bool was_alone(void *argument) {
    const struct pass *pass = argument;
    return pass->status != POVUNDIRI_ELSEWHERE && pass->status != POVUNDIRI_BUSY;
}

/* The recorder in a handle, if there is one, is joined to its own segment. */
static void come_home(struct povundiri_handle *recorder, struct povundiri_handle *here, struct povundiri_handle *there) {
    uint32_t status;
    if (!recorder->held) return;
    status = povundiri_join(here, recorder);
    if (status == POVUNDIRI_OTHER_SEGMENT) status = povundiri_join(there, recorder);
    HOLDS(status == POVUNDIRI_DONE);
}

static void is_whole(struct povundiri_handle *segment) {
    uint32_t units = 0, outstanding = 1;
    DONE(povundiri_units(segment, &units));
    DONE(povundiri_outstanding(segment, &outstanding));
    HOLDS(units == UINT32_MAX && outstanding == 0);
}

/* The first call lends a recorder of the other segment; it is the one that is stopped. The second lends or joins one to the other segment:
 * a recorder of the first segment if both cross, else one of the other segment itself, and then its call is done, or returns BUSY. */
static void cross(bool both, bool joins) {
    const struct povundiri_shape shape = {1024, 256, 7, 0, 2};
    struct povundiri_handle here = {0}, there = {0}, one = {0}, other = {0};
    struct pass wrong = {&here, &one, false, POVUNDIRI_NULL};
    struct pass beside = {&there, &other, joins, POVUNDIRI_NULL};
    struct meeting passes;
    DONE(povundiri_create(shape, &here));
    DONE(povundiri_create(shape, &there));
    HOLDS(meeting_begins(&passes, make, was_alone, &beside, &wrong));
    if (failed_here != 0) return;
    while (failed_here == 0 && meeting_goes_on(&passes)) {
        DONE(povundiri_recorder(&there, SHARE, &one));
        DONE(povundiri_recorder(both ? &here : &there, SHARE, &other));
        meeting_round(&passes);
        answered(&wrong);
        answered(&beside);
        if (!both) {
            HOLDS(wrong.status != POVUNDIRI_DONE);
            HOLDS(beside.status == POVUNDIRI_DONE || beside.status == POVUNDIRI_BUSY);
        }
        come_home(&one, &here, &there);
        come_home(&other, &here, &there);
        is_whole(&here);
        is_whole(&there);
    }
    HOLDS(meeting_ends(&passes));
    HOLDS(passes.meetings >= LEAST_MEETINGS);
    DONE(povundiri_drop(&here));
    DONE(povundiri_drop(&there));
}

static void lends_beside_a_lend(void) { cross(false, false); }

static void joins_beside_a_lend(void) { cross(false, true); }

static void lends_cross(void) { cross(true, false); }

static void a_join_and_a_lend_cross(void) { cross(true, true); }

int main(void) {
    return group("a right lend beside a wrong one", lends_beside_a_lend) + group("a right join beside a wrong lend", joins_beside_a_lend) +
           group("both lends cross", lends_cross) + group("a join and a lend cross", a_join_and_a_lend_cross);
}
