/* The handle of a recorder goes to and fro between two threads, so that each call happens before the next: by a mutex, and by a store with
 * release and a load with acquire. With the word 'relaxed' it goes by relaxed ones: a mistake, which the thread sanitizer has to see. */
#define _POSIX_C_SOURCE 200809L

#include <pthread.h>
#include <sched.h>
#include <stdatomic.h>

#include "checks.h"

enum { ROUNDS = 1000 };

static struct povundiri_handle segment, recorder;
static size_t hist;

/* Whose turn it is, 0 or 1: under the mutex, or alone with these orders. */
static pthread_mutex_t lock = PTHREAD_MUTEX_INITIALIZER;
static int locked_turn;
static atomic_int turn;
static memory_order loads, stores;

static void wait_locked(int own) {
    for (;;) {
        pthread_mutex_lock(&lock);
        const int now = locked_turn;
        pthread_mutex_unlock(&lock);
        if (now == own) return;
        sched_yield();
    }
}

static void pass_locked(int own) {
    pthread_mutex_lock(&lock);
    locked_turn = 1 - own;
    pthread_mutex_unlock(&lock);
}

static void wait_alone(int own) {
    while (atomic_load_explicit(&turn, loads) != own) sched_yield();
}

static void pass_alone(int own) {
    atomic_store_explicit(&turn, 1 - own, stores);
}

struct hand {
    void (*wait)(int own);
    void (*pass)(int own);
    int own;
};

/* Counts once in each of its turns. It also moves the recorder into a handle of its own and back, as a caller may. */
static void *count(void *argument) {
    const struct hand *hand = argument;
    const struct povundiri_handle none = {false, NULL};
    for (int round = 0; round < ROUNDS; ++round) {
        hand->wait(hand->own);
        struct povundiri_handle moved = recorder;
        recorder = none;
        DONE(povundiri_add(&moved, hist, 1, 1));
        recorder = moved;
        hand->pass(hand->own);
    }
    return NULL;
}

/* Everything that both threads counted is there, and the thread that joins the other one continues with the handle. */
static void hand_on(void (*wait)(int), void (*pass)(int)) {
    struct hand one = {wait, pass, 0}, other = {wait, pass, 1};
    const struct povundiri_shape shape = {1024, 256, 7, 0, 2};
    struct povundiri_count counts[1024];
    struct povundiri_totals totals;
    pthread_t thread;
    DONE(povundiri_create(shape, &segment));
    DONE(povundiri_recorder(&segment, 2 * ROUNDS, &recorder));
    DONE(povundiri_hist_sparse(&recorder, "s", &hist));
    HOLDS(pthread_create(&thread, NULL, count, &other) == 0);
    count(&one);
    HOLDS(pthread_join(thread, NULL) == 0);
    DONE(povundiri_snapshot(&recorder, hist, counts, 1024, &totals));
    HOLDS(totals.length == 1 && counts[0].key == 1 && counts[0].count == 2 * ROUNDS);
    DONE(povundiri_join(&segment, &recorder));
    DONE(povundiri_drop(&segment));
}

static void by_mutex(void) {
    hand_on(wait_locked, pass_locked);
}

static void by_atomic(void) {
    hand_on(wait_alone, pass_alone);
}

int main(int words, char **word) {
    const bool is_relaxed = words > 1 && strcmp(word[1], "relaxed") == 0;
    int failed = 0;
    loads = is_relaxed ? memory_order_relaxed : memory_order_acquire;
    stores = is_relaxed ? memory_order_relaxed : memory_order_release;
    if (!is_relaxed) failed += group("handed on by a mutex", by_mutex);
    failed += group(is_relaxed ? "handed on by relaxed steps" : "handed on by release and acquire", by_atomic);
    return failed != 0;
}
