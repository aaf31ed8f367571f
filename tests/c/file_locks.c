/* Which process has a file, and what signals and limits do to its opening: file_locks FOLDER
 *
 * It is linked with a povundiri_file.c of which some calls to the system come here: -Dflock=test_flock and so on. */
#include "files.h"

#include <sys/mount.h>

/* How often the next calls are interrupted before they are made. */
static int interruptions;
static int interrupted;

static int is_interrupted(void) {
    if (interrupted >= interruptions) {
        interrupted = 0;
        return 0;
    }
    interrupted += 1;
    errno = EINTR;
    return 1;
}

/* What happens before the next lock is asked for. */
static void (*before_lock)(void);

int test_flock(int descriptor, int how);
int test_flock(int descriptor, int how) {
    if (before_lock != NULL) before_lock();
    before_lock = NULL;
    return is_interrupted() ? -1 : flock(descriptor, how);
}

ssize_t test_pread(int descriptor, void *to, size_t bytes, off_t at);
ssize_t test_pread(int descriptor, void *to, size_t bytes, off_t at) {
    return is_interrupted() ? -1 : pread(descriptor, to, bytes, at);
}

int test_openat(int folder, const char *path, int flags, ...);
int test_openat(int folder, const char *path, int flags, ...) {
    return is_interrupted() ? -1 : openat(folder, path, flags, 0600);
}

int test_posix_fallocate(int descriptor, off_t at, off_t bytes);
int test_posix_fallocate(int descriptor, off_t at, off_t bytes) {
    return is_interrupted() ? EINTR : posix_fallocate(descriptor, at, bytes);
}

int test_ftruncate(int descriptor, off_t length);
int test_ftruncate(int descriptor, off_t length) {
    return is_interrupted() ? -1 : ftruncate(descriptor, length);
}

/* ---- The lock ---- */

static void second_open(void) {
    struct povundiri_file file = {0}, other = {0};
    struct povundiri_opened opened = POVUNDIRI_OPENED;
    int64_t began;
    make_segment("twice", 5);
    HOLDS(open_file(&file, "twice") == 0);
    began = milliseconds_now();
    HOLDS(open_file(&other, "twice") == EBUSY && !povundiri_file_is_open(&other));
    HOLDS(milliseconds_now() - began >= 100 && milliseconds_now() - began < 60000);
    ANSWERS(SYSTEM, open_and_count("twice", POVUNDIRI_ADOPT_OR_BEGIN_ANEW, 1, &opened));
    HOLDS(opened.fault == EBUSY && opened.set_aside[0] == 0 && units_in(path_of("twice")) == 5);
    povundiri_file_close(&file);
    DONE(open_and_count("twice", POVUNDIRI_ADOPT_OR_FAIL, 1, &opened));
}

/* The lock belongs to the open file: closing another descriptor of the path does not end it. */
static void other_descriptors(void) {
    struct povundiri_file file = {0};
    int i;
    HOLDS(open_file(&file, "others") == 0 && opened_by_another("others") == EBUSY);
    for (i = 0; i < 3; i += 1) {
        const int descriptor = open(path_of("others"), i == 0 ? O_RDONLY : O_RDWR);
        HOLDS(descriptor >= 0 && close(descriptor) == 0);
    }
    HOLDS(opened_by_another("others") == EBUSY);
    povundiri_file_close(&file);
    HOLDS(opened_by_another("others") == 0);
}

/* Nor does closing the file's own descriptor, as a daemon does that closes all; and what is then opened under the same number is not closed
 * with the file. */
static void all_descriptors_closed(void) {
    struct povundiri_file file = {0};
    int descriptor, other;
    HOLDS(open_file(&file, "daemons") == 0);
    descriptor = povundiri_file_descriptor(&file);
    HOLDS(close(descriptor) == 0 && opened_by_another("daemons") == EBUSY);
    other = open("/dev/null", O_RDONLY | O_CLOEXEC);
    HOLDS(other == descriptor && opened_by_another("daemons") == EBUSY);
    povundiri_file_close(&file);
    HOLDS(fcntl(other, F_GETFD) == FD_CLOEXEC && close(other) == 0 && opened_by_another("daemons") == 0);
    HOLDS(open_file(&file, "daemons") == 0 && close(povundiri_file_descriptor(&file)) == 0);
    povundiri_file_close(&file);
    HOLDS(opened_by_another("daemons") == 0);
}

/* Starts a child that holds a lock of the file for some milliseconds, by a descriptor that only reads. It has the lock when this
 * returns. */
static pid_t reader_for(const char *name, int how, int milliseconds) {
    int ready[2];
    char byte;
    pid_t child;
    HOLDS(pipe(ready) == 0);
    child = fork();
    if (child == 0) {
        const int descriptor = open(path_of(name), O_RDONLY);
        if (flock(descriptor, how) != 0 || write(ready[1], "r", 1) != 1) _exit(1);
        sleep_for(milliseconds);
        _exit(0);
    }
    HOLDS(read(ready[0], &byte, 1) == 1);
    close(ready[0]);
    close(ready[1]);
    return child;
}

/* Opens the file while a reader has such a lock for 50 ms; once more if a busy machine made that too long. */
static uint32_t open_while_probed(int how) {
    struct povundiri_opened opened = {0};
    uint32_t status = POVUNDIRI_SYSTEM;
    int tries;
    for (tries = 0; tries < 10 && (tries == 0 || opened.fault == EBUSY); tries += 1) {
        const pid_t child = reader_for("probed", how, 50);
        status = open_and_count("probed", POVUNDIRI_ADOPT_OR_FAIL, 1, &opened);
        HOLDS(end_of(child) == 0);
    }
    return status;
}

static void readers_that_probe(void) {
    struct povundiri_opened opened = POVUNDIRI_OPENED;
    pid_t child;
    make_segment("probed", 5);
    DONE(open_while_probed(LOCK_SH));
    DONE(open_while_probed(LOCK_EX));
    child = reader_for("probed", LOCK_SH, 2000);
    ANSWERS(SYSTEM, open_and_count("probed", POVUNDIRI_ADOPT_OR_FAIL, 1, &opened));
    HOLDS(opened.fault == EBUSY && end_of(child) == 0 && units_in(path_of("probed")) == 7);
}

/* Starts a child that has the lock, gives the file another name a little later, makes a new file if `makes_one`, and ends. */
static pid_t owner_that_sets_aside(bool makes_one) {
    int ready[2];
    char byte;
    pid_t child;
    HOLDS(pipe(ready) == 0);
    child = fork();
    if (child == 0) {
        const int descriptor = open(path_of("renamed"), O_RDWR);
        if (flock(descriptor, LOCK_EX) != 0 || write(ready[1], "r", 1) != 1) _exit(1);
        sleep_for(30);
        if (rename(path_of("renamed"), path_of("renamed.old")) != 0) _exit(1);
        if (makes_one) store("renamed", "", 0);
        _exit(0);
    }
    HOLDS(read(ready[0], &byte, 1) == 1);
    close(ready[0]);
    close(ready[1]);
    return child;
}

/* While this process waits for the lock, its owner sets the file aside: then the file that now has the name is opened; once more if a busy
 * machine made the wait too long. */
static void other_file_of_the_name(void) {
    int makes_one, tries;
    for (makes_one = 0; makes_one < 2; makes_one += 1) {
        struct povundiri_file file = {0};
        struct stat about, named;
        int fault = EBUSY;
        for (tries = 0; tries < 10 && fault == EBUSY; tries += 1) {
            pid_t child;
            make_segment("renamed", 5);
            child = owner_that_sets_aside(makes_one);
            fault = open_file(&file, "renamed");
            HOLDS(end_of(child) == 0);
        }
        HOLDS(fault == 0);
        HOLDS(fstat(povundiri_file_descriptor(&file), &about) == 0 && stat(path_of("renamed"), &named) == 0);
        HOLDS(about.st_ino == named.st_ino && units_in(path_of("renamed.old")) == 5);
        povundiri_file_close(&file);
    }
}

static void set_it_aside(void) {
    HOLDS(rename(path_of("between"), path_of("between.old")) == 0);
}

static void set_it_aside_and_make_one(void) {
    set_it_aside();
    store("between", "", 0);
}

/* The same if that happens between the opening and the lock. */
static void other_file_before_the_lock(void) {
    static void (*const happens[])(void) = {set_it_aside, set_it_aside_and_make_one};
    struct povundiri_opened opened = POVUNDIRI_OPENED;
    size_t i;
    for (i = 0; i < 2; i += 1) {
        make_segment("between", 5);
        before_lock = happens[i];
        DONE(open_and_count("between", POVUNDIRI_ADOPT_OR_FAIL, 1, &opened));
        HOLDS(opened.outcome == POVUNDIRI_MADE);
        HOLDS(units_in(path_of("between")) == 1 && units_in(path_of("between.old")) == 5);
    }
}

/* ---- Signals ---- */

static volatile sig_atomic_t signals;

static void count_signal(int number) {
    (void)number;
    signals += 1;
}

/* Opens new files and old ones in a folder, while signals come all the time. */
static void open_in_storm(const char *where, int rounds) {
    const struct itimerval often = {{0, 150}, {0, 150}}, never = {{0, 0}, {0, 0}};
    const char *before = folder;
    struct sigaction action;
    int i;
    folder = where;
    memset(&action, 0, sizeof action);
    action.sa_handler = count_signal;
    HOLDS(sigaction(SIGALRM, &action, NULL) == 0);
    signals = 0;
    HOLDS(setitimer(ITIMER_REAL, &often, NULL) == 0);
    for (i = 0; i < rounds; i += 1) {
        struct povundiri_file file = {0};
        HOLDS(povundiri_file_open(&file, path_of("storm"), LARGEST, NULL) == 0);
        HOLDS(blocks_of("storm") >= LARGEST);
        povundiri_file_close(&file);
        HOLDS(povundiri_file_open(&file, path_of("storm"), LARGEST, NULL) == 0);
        povundiri_file_close(&file);
        unlink(path_of("storm"));
    }
    HOLDS(setitimer(ITIMER_REAL, &never, NULL) == 0 && signals >= rounds);
    folder = before;
}

/* In a folder in memory, if there is one: there the system is longest at work on one call. */
static void signal_storm(void) {
    char memory[64];
    open_in_storm(folder, 5);
    if (access("/dev/shm", W_OK) != 0) return;
    snprintf(memory, sizeof memory, "/dev/shm/povundiri_%ld", (long)getpid());
    HOLDS(mkdir(memory, 0700) == 0);
    open_in_storm(memory, 20);
    HOLDS(rmdir(memory) == 0);
}

/* Each call to the system is interrupted three times before it is made. */
static void interrupted_calls(void) {
    struct povundiri_opened opened = POVUNDIRI_OPENED;
    const uint64_t wrong = 16; /* the free pointer, before the record */
    interruptions = 3;
    unlink(path_of("interrupted"));
    DONE(open_and_count("interrupted", POVUNDIRI_ADOPT_OR_FAIL, 5, &opened));
    DONE(open_and_count("interrupted", POVUNDIRI_ADOPT_OR_FAIL, 1, &opened));
    HOLDS(opened.outcome == POVUNDIRI_ADOPTED && units_in(path_of("interrupted")) == 6);
    HOLDS(truncate(path_of("interrupted"), 8200) == 0);
    store_at("interrupted", 8 + 8 * 7, &wrong, 8);
    ANSWERS(ADOPT_DAMAGED, open_and_count("interrupted", POVUNDIRI_ADOPT_OR_FAIL, 1, &opened));
    HOLDS(length_of("interrupted") == 8200);
    interruptions = 0;
}

/* ---- Limits and full devices ---- */

static void limit_of_length(void) {
    struct povundiri_opened opened = POVUNDIRI_OPENED;
    pid_t child = fork();
    if (child == 0) {
        const struct rlimit limit = {8223, 8223};
        struct povundiri_file file = {0};
        int fault;
        if (setrlimit(RLIMIT_FSIZE, &limit) != 0) _exit(1);
        fault = open_file(&file, "limited");
        _exit(fault == EFBIG && length_of("limited") == 0 ? 0 : 1);
    }
    HOLDS(end_of(child) == 0);
    make_segment("limited", 5);
    HOLDS(truncate(path_of("limited"), 8200) == 0);
    child = fork();
    if (child == 0) {
        const struct rlimit limit = {8223, 8223};
        if (setrlimit(RLIMIT_FSIZE, &limit) != 0) _exit(1);
        if (open_and_count("limited", POVUNDIRI_ADOPT_OR_SET_ASIDE, 1, &opened) != POVUNDIRI_SYSTEM) _exit(2);
        _exit(opened.fault == EFBIG && length_of("limited") == 8200 ? 0 : 3);
    }
    HOLDS(end_of(child) == 0);
    DONE(open_and_count("limited", POVUNDIRI_ADOPT_OR_FAIL, 1, &opened));
    HOLDS(units_in(path_of("limited")) == 6);
}

/* Fills the device of the folder to its last byte, by a file of this name. */
static void fill(const char *name) {
    static const char bytes[4096] = {1};
    const int descriptor = open(path_of(name), O_WRONLY | O_CREAT, 0600);
    size_t piece;
    for (piece = sizeof bytes; piece > 0; piece /= 2) {
        while (write(descriptor, bytes, piece) == (ssize_t)piece) continue;
    }
    HOLDS(errno == ENOSPC && close(descriptor) == 0);
}

/* A file that was cut off is judged by the bytes that it has: no room is asked for those that are missing. */
static void cut_on_full_device(void) {
    struct povundiri_opened opened = POVUNDIRI_OPENED;
    make_segment("cut", 5);
    HOLDS(truncate(path_of("cut"), 4104) == 0);
    fill("rest");
    ANSWERS(IMAGE_BAD_SIZE, open_and_count("cut", POVUNDIRI_ADOPT_OR_FAIL, 1, &opened));
    HOLDS(opened.fault == 0 && length_of("cut") == 4104);
    HOLDS(unlink(path_of("rest")) == 0);
}

static void full_device(void) {
    struct povundiri_file file = {0};
    struct povundiri_opened opened = POVUNDIRI_OPENED;
    const char *before = folder;
    static char small[4096];
    snprintf(small, sizeof small, "%s", path_of("small"));
    folder = small;
    HOLDS(povundiri_file_open(&file, path_of("new"), LARGEST, NULL) == ENOSPC && length_of("new") == 0);
    make_segment("segment", 5);
    HOLDS(povundiri_file_open(&file, path_of("segment"), LARGEST, NULL) == ENOSPC);
    HOLDS(length_of("segment") == 8224 && units_in(path_of("segment")) == 5);
    DONE(open_and_count("segment", POVUNDIRI_ADOPT_OR_FAIL, 1, &opened));
    HOLDS(povundiri_file_open(&file, path_of("new"), 8224, NULL) == 0);
    povundiri_file_close(&file);
    cut_on_full_device();
    folder = before;
    HOLDS(umount(path_of("small")) == 0);
}

static int full_device_where_it_can_be_mounted(void) {
    if (mkdir(path_of("small"), 0700) != 0 || mount("none", path_of("small"), "tmpfs", 0, "size=1m") != 0) {
        return left_out("full_device", "no small device can be mounted here");
    }
    return group("full_device", full_device);
}

int main(int count, char **words) {
    int failed;
    if (count != 2) return 2;
    folder = words[1];
    failed = group("second_open", second_open);
    failed += group("other_descriptors", other_descriptors);
    failed += group("all_descriptors_closed", all_descriptors_closed);
    failed += group("readers_that_probe", readers_that_probe);
    failed += group("other_file_of_the_name", other_file_of_the_name);
    failed += group("other_file_before_the_lock", other_file_before_the_lock);
    failed += group("signal_storm", signal_storm);
    failed += group("interrupted_calls", interrupted_calls);
    failed += group("limit_of_length", limit_of_length);
    failed += full_device_where_it_can_be_mounted();
    return failed != 0;
}
