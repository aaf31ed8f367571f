/* Two threads that make a call each, in round after round. In the first rounds both begin at the same moment; whether the calls meet then
 * is a matter of the machine. In the rounds after these the other thread makes its call again and again, is stopped by a signal somewhere
 * amid it, and goes on when the test's own call has been made: so they meet also on one processor that has other work, and there are as
 * many of these rounds as it takes, for minutes. */
#ifndef MEETING_H
#define MEETING_H

#include <errno.h>
#include <pthread.h>
#include <signal.h>
#include <stdbool.h>
#include <string.h>
#include <time.h>

enum { ROUNDS_AT_ONCE = 2500, LEAST_MEETINGS = 20, MOST_SECONDS_TO_MEET = 60, SPINS = 50000, DELAYS = 64, NAP = 20000 };

/* How far a thread that is to be stopped has come. */
enum meeting_stop { GOES_ON, CALLS, IS_STOPPED };

static enum meeting_stop meeting_stop;

struct meeting {
    void (*make)(void *call);
    bool (*was_alone)(void *call); /* whether it returned what it returns without the other one, so that it can be made again */
    void *own, *others;            /* the call of the thread of the test, and that of the other thread */
    pthread_t other;
    unsigned arrivals; /* how often the two have arrived where they wait for each other, together */
    int rounds;
    int meetings; /* in how many of the rounds in which one is stopped they have met */
    bool ends;
    struct timespec began; /* the first of these rounds */
};

/* Sleeps for 20 microseconds or more. */
static void meeting_nap(void) {
    const struct timespec nap = {0, NAP};
    nanosleep(&nap, NULL);
}

/* Waits until the other thread has arrived too, each twice a round. At first it keeps its processor, so that they go on at the same moment.
 */
static void meeting_arrive(struct meeting *meeting) {
    const unsigned all = (__atomic_fetch_add(&meeting->arrivals, 1, __ATOMIC_SEQ_CST) | 1) + 1;
    int spins = 0;
    for (; __atomic_load_n(&meeting->arrivals, __ATOMIC_SEQ_CST) < all; spins += 1) {
        if (spins >= SPINS) meeting_nap();
    }
}

/* Waits some nanoseconds for each of these. */
static void meeting_delay(struct meeting *meeting, int delays) {
    for (; delays > 0; delays -= 1) (void)__atomic_load_n(&meeting->arrivals, __ATOMIC_SEQ_CST);
}

static bool meeting_stops(const struct meeting *meeting) { return meeting->rounds >= ROUNDS_AT_ONCE; }

static enum meeting_stop meeting_state(void) { return __atomic_load_n(&meeting_stop, __ATOMIC_SEQ_CST); }

static void meeting_set(enum meeting_stop state) { __atomic_store_n(&meeting_stop, state, __ATOMIC_SEQ_CST); }

/* The handler of the signal. */
static void meeting_stopped(int number) {
    const int fault = errno;
    (void)number;
    meeting_set(IS_STOPPED);
    while (meeting_state() == IS_STOPPED) meeting_nap();
    errno = fault;
}

/* Makes the call until it was stopped, or met the other one. */
static void meeting_call_until_stopped(struct meeting *meeting) {
    meeting_set(CALLS);
    do {
        meeting->make(meeting->others);
    } while (meeting_state() == CALLS && meeting->was_alone(meeting->others));
}

static void *meeting_rounds(void *argument) {
    struct meeting *meeting = (struct meeting *)argument;
    for (;;) {
        meeting_arrive(meeting);
        if (meeting->ends) return NULL;
        if (meeting_stops(meeting)) {
            meeting_call_until_stopped(meeting);
        } else {
            meeting_delay(meeting, DELAYS / 2 - meeting->rounds % DELAYS);
            meeting->make(meeting->others);
        }
        meeting_arrive(meeting);
    }
}

/* Begins without a round. Whether there is another thread. */
static bool meeting_begins(struct meeting *meeting, void (*make)(void *call), bool (*was_alone)(void *call), void *own, void *others) {
    struct sigaction action;
    memset(meeting, 0, sizeof *meeting);
    memset(&action, 0, sizeof action);
    action.sa_handler = meeting_stopped;
    meeting->make = make;
    meeting->was_alone = was_alone;
    meeting->own = own;
    meeting->others = others;
    return sigaction(SIGUSR1, &action, NULL) == 0 && pthread_create(&meeting->other, NULL, meeting_rounds, meeting) == 0;
}

/* Makes the test's own call while the other thread is stopped. */
static void meeting_call_amid(struct meeting *meeting) {
    while (meeting_state() != CALLS) meeting_nap();
    pthread_kill(meeting->other, SIGUSR1);
    while (meeting_state() != IS_STOPPED) meeting_nap();
    meeting->make(meeting->own);
    meeting_set(GOES_ON);
}

static void meeting_round(struct meeting *meeting) {
    meeting_arrive(meeting);
    if (meeting_stops(meeting)) {
        meeting_call_amid(meeting);
    } else {
        meeting_delay(meeting, meeting->rounds % DELAYS - DELAYS / 2);
        meeting->make(meeting->own);
    }
    meeting_arrive(meeting);
    if (meeting_stops(meeting)) meeting->meetings += !meeting->was_alone(meeting->own) || !meeting->was_alone(meeting->others);
    meeting->rounds += 1;
    if (meeting->rounds == ROUNDS_AT_ONCE) clock_gettime(CLOCK_MONOTONIC, &meeting->began);
}

/* Whether there is another round: until they have met often enough. */
static bool meeting_goes_on(const struct meeting *meeting) {
    struct timespec now;
    if (!meeting_stops(meeting)) return true;
    clock_gettime(CLOCK_MONOTONIC, &now);
    return meeting->meetings < LEAST_MEETINGS && now.tv_sec - meeting->began.tv_sec < MOST_SECONDS_TO_MEET;
}

static bool meeting_ends(struct meeting *meeting) {
    meeting->ends = true;
    meeting_arrive(meeting);
    return pthread_join(meeting->other, NULL) == 0;
}

#endif
