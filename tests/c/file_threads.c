/* Threads that open, damage, set aside and close the same files, under the thread sanitizer: file_threads FOLDER
 *
 * Each unit that was counted is in the file of its path, or in one of those that were set aside. */
#include "files.h"

#include <dirent.h>
#include <pthread.h>

enum { THREADS = 4, ROUNDS = 150, PATHS = 2 };

static const char *const PATH_NAMES[PATHS] = {"threads_0", "threads_1"};

struct thread {
    pthread_t thread;
    int number;
    int counted, set_aside, wrong;
};

/* Marks the segment as corrupt, as nothing that records here would: the next open sets the file aside. */
static int damage(const char *path) {
    const uint64_t corrupt = 1;
    const int descriptor = open(path, O_WRONLY | O_CLOEXEC);
    const int done = pwrite(descriptor, &corrupt, 8, 8 + 8 * 6) == 8;
    close(descriptor);
    return done;
}

/* Counts one unit in the file, if this thread gets it. */
static int count_once(struct thread *thread, int round) {
    const char *path = path_of(PATH_NAMES[(thread->number + round) % PATHS]);
    struct povundiri_file file = {0};
    struct povundiri_handle segment = {0}, recorder = {0};
    struct povundiri_opened opened = POVUNDIRI_OPENED;
    size_t hist;
    const uint32_t status = povundiri_open(path, shape_of(WORDS), POVUNDIRI_ADOPT_OR_SET_ASIDE, NULL, &file, &segment, &opened);
    thread->set_aside += opened.set_aside[0] != 0;
    if (status == POVUNDIRI_SYSTEM && opened.fault == EBUSY) return 1;
    if (status == POVUNDIRI_ADOPT_CORRUPT && opened.set_aside[0] != 0) return 1; /* another thread damaged the next one meanwhile */
    if (status != POVUNDIRI_DONE || povundiri_recorder(&segment, 1, &recorder) != POVUNDIRI_DONE) return 0;
    if (povundiri_hist_sparse(&recorder, "s", &hist) != POVUNDIRI_DONE) return 0;
    if (povundiri_add(&recorder, hist, 3, 1) != POVUNDIRI_DONE || povundiri_join(&segment, &recorder) != POVUNDIRI_DONE) return 0;
    thread->counted += 1;
    if (round % 10 == 9 && !damage(path)) return 0;
    if (povundiri_drop(&segment) != POVUNDIRI_DONE) return 0;
    povundiri_file_close(&file);
    return 1;
}

/* A file of the thread's own, which nobody else opens, is never busy. */
static int open_own(const struct thread *thread) {
    struct povundiri_file file = {0};
    char name[32];
    snprintf(name, sizeof name, "own_%d", thread->number);
    if (povundiri_file_open(&file, path_of(name), 8224, NULL) != 0 || povundiri_fork_generation() == 0) return 0;
    if (povundiri_file_keep_on_fork(&file, true) != 0) return 0;
    povundiri_file_close(&file);
    return 1;
}

static void *run(void *at) {
    struct thread *thread = (struct thread *)at;
    int round;
    for (round = 0; round < ROUNDS; round += 1) thread->wrong += !count_once(thread, round) || !open_own(thread);
    return NULL;
}

static long units_of_all(int *files) {
    DIR *all = opendir(folder);
    const struct dirent *entry;
    long units = 0;
    *files = 0;
    while (all != NULL && (entry = readdir(all)) != NULL) {
        if (strncmp(entry->d_name, "threads_", 8) != 0) continue;
        units += units_in(path_of(entry->d_name));
        *files += 1;
    }
    closedir(all);
    return units;
}

static void threads(void) {
    struct thread all[THREADS];
    int i, counted = 0, set_aside = 0, files;
    memset(all, 0, sizeof all);
    for (i = 0; i < THREADS; i += 1) {
        all[i].number = i;
        HOLDS(pthread_create(&all[i].thread, NULL, run, &all[i]) == 0);
    }
    for (i = 0; i < THREADS; i += 1) {
        HOLDS(pthread_join(all[i].thread, NULL) == 0 && all[i].wrong == 0);
        counted += all[i].counted;
        set_aside += all[i].set_aside;
    }
    HOLDS(counted > THREADS * ROUNDS / 4 && set_aside > 0);
    HOLDS(units_of_all(&files) == counted && files == set_aside + PATHS);
}

int main(int count, char **words) {
    if (count != 2) return 2;
    folder = words[1];
    return group("threads", threads);
}
