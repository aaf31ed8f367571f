/* What children of a process have of its files: file_forks FOLDER */
#include "files.h"

#include <pthread.h>
#include <sys/mman.h>
#include <sys/syscall.h>

/* A pipe by which processes wait for one another. */
struct gate {
    int ends[2];
};

static struct gate new_gate(void) {
    struct gate gate = {{-1, -1}};
    HOLDS(pipe(gate.ends) == 0);
    return gate;
}

static void open_gate(const struct gate *gate) {
    HOLDS(write(gate->ends[1], "g", 1) == 1);
}

/* Waits until somebody opens it. */
static void pass(const struct gate *gate) {
    char byte;
    HOLDS(read(gate->ends[0], &byte, 1) == 1);
}

/* Waits until no other process has its other end. */
static void wait_for_ends(struct gate *gate) {
    char byte;
    close(gate->ends[1]);
    HOLDS(read(gate->ends[0], &byte, 1) == 0);
    close(gate->ends[0]);
}

static void close_gate(struct gate *gate) {
    close(gate->ends[0]);
    close(gate->ends[1]);
}

static const struct povundiri_file_options KEPT = {sizeof KEPT, POVUNDIRI_FILE_KEEP_ON_FORK, 0};

/* ---- A child without the file ---- */

/* A child that only ends, by exit or _exit: its parent continues. */
static void child_that_ends(void) {
    struct povundiri_file file = {0};
    struct povundiri_handle segment = {0};
    struct povundiri_opened opened = POVUNDIRI_OPENED;
    int by_exit;
    unlink(path_of("ends"));
    DONE(povundiri_open(path_of("ends"), shape_of(WORDS), POVUNDIRI_ADOPT_OR_FAIL, NULL, &file, &segment, &opened));
    for (by_exit = 0; by_exit < 2; by_exit += 1) {
        const pid_t child = fork();
        if (child == 0) {
            if (by_exit) exit(0);
            _exit(0);
        }
        HOLDS(end_of(child) == 0);
        count_units(&segment, 5);
        HOLDS(opened_by_another("ends") == EBUSY);
    }
    DONE(povundiri_drop(&segment));
    povundiri_file_close(&file);
    HOLDS(units_in(path_of("ends")) == 10);
}

/* Whether an address is mapped here. */
static int is_mapped(void *at) {
    unsigned char in_memory;
    return mincore((void *)((uintptr_t)at / 4096 * 4096), 1, &in_memory) == 0;
}

static int descriptor_is_open(int descriptor) {
    return fcntl(descriptor, F_GETFD) >= 0;
}

/* In a child the file is not open; the child may close it, and open others. */
static void child_has_no_file(void) {
    struct povundiri_file file = {0}, other = {0};
    int descriptor;
    void *at;
    pid_t child;
    HOLDS(open_file(&file, "parents") == 0 && is_mapped(povundiri_file_room(&file).at));
    descriptor = povundiri_file_descriptor(&file);
    at = povundiri_file_room(&file).at;
    child = fork();
    if (child == 0) {
        size_t count;
        int wrong = povundiri_file_is_open(&file) || povundiri_file_room(&file).at != NULL || povundiri_file_descriptor(&file) != -1;
        wrong = wrong || povundiri_file_words(&file, &count) != NULL || povundiri_file_keep_on_fork(&file, true) != EINVAL;
        wrong = wrong || is_mapped(at) || descriptor_is_open(descriptor);
        povundiri_file_close(&file);
        wrong = wrong || open_file(&file, "childs") != 0 || !povundiri_file_is_open(&file);
        povundiri_file_close(&file);
        _exit(wrong);
    }
    HOLDS(end_of(child) == 0 && povundiri_file_is_open(&file) && is_mapped(at) && opened_by_another("parents") == EBUSY);
    HOLDS(open_file(&other, "others") == 0);
    povundiri_file_close(&other);
    povundiri_file_close(&file);
    HOLDS(opened_by_another("parents") == 0);
}

/* Counts in a segment that the parent opened, in a child of its own: there is no memory for it, so it ends, and nothing was counted. */
static void count_in_child(struct povundiri_handle *segment) {
    const pid_t child = fork();
    if (child == 0) {
        signal(SIGSEGV, SIG_DFL);
        count_units(segment, 1);
        _exit(0);
    }
    HOLDS(end_of(child) == 1000 + SIGSEGV);
}

/* The parent ends, by a kill, and a child of it lives on: it spends no units, and the file can be opened. */
static void child_that_lives_on(void) {
    struct gate ready = new_gate(), stop = new_gate();
    struct povundiri_opened opened = POVUNDIRI_OPENED;
    pid_t parent;
    make_segment("lives_on", 5);
    parent = fork();
    if (parent == 0) {
        struct povundiri_file file = {0};
        struct povundiri_handle segment = {0};
        DONE(povundiri_open(path_of("lives_on"), shape_of(WORDS), POVUNDIRI_ADOPT_OR_FAIL, NULL, &file, &segment, &opened));
        count_units(&segment, 1);
        if (fork() == 0) {
            count_in_child(&segment);
            open_gate(&ready);
            pass(&stop);
            _exit(0);
        }
        for (;;) pause();
    }
    pass(&ready);
    HOLDS(kill(parent, SIGKILL) == 0 && end_of(parent) == 1000 + SIGKILL);
    DONE(open_and_count("lives_on", POVUNDIRI_ADOPT_OR_FAIL, 1, &opened));
    HOLDS(opened.outcome == POVUNDIRI_ADOPTED && units_in(path_of("lives_on")) == 7);
    open_gate(&stop);
    close_gate(&ready);
    close_gate(&stop);
}

/* ---- A pre-fork server ---- */

enum { WORKERS = 4, ROUNDS = 200 };

/* A worker counts in a file of its own. */
static void serve(int number, const struct povundiri_file *of_parent, uint64_t parents_generation) {
    char name[32];
    struct povundiri_file file = {0};
    struct povundiri_handle segment = {0};
    struct povundiri_opened opened = POVUNDIRI_OPENED;
    int i;
    snprintf(name, sizeof name, "worker_%d", number);
    HOLDS(!povundiri_file_is_open(of_parent) && povundiri_fork_generation() != parents_generation);
    DONE(povundiri_open(path_of(name), shape_of(WORDS), POVUNDIRI_ADOPT_OR_SET_ASIDE, NULL, &file, &segment, &opened));
    for (i = 0; i < ROUNDS; i += 1) count_units(&segment, (uint32_t)number + 1);
    DONE(povundiri_drop(&segment));
    povundiri_file_close(&file);
    _exit(failed_here != 0);
}

static void pre_fork_server(void) {
    struct povundiri_file file = {0};
    struct povundiri_handle segment = {0};
    struct povundiri_opened opened = POVUNDIRI_OPENED;
    const uint64_t generation = povundiri_fork_generation();
    pid_t children[WORKERS];
    char name[32];
    int i;
    unlink(path_of("server"));
    DONE(povundiri_open(path_of("server"), shape_of(WORDS), POVUNDIRI_ADOPT_OR_FAIL, NULL, &file, &segment, &opened));
    for (i = 0; i < WORKERS; i += 1) {
        children[i] = fork();
        if (children[i] == 0) serve(i, &file, generation);
    }
    for (i = 0; i < ROUNDS; i += 1) count_units(&segment, 1);
    for (i = 0; i < WORKERS; i += 1) {
        HOLDS(end_of(children[i]) == 0);
        snprintf(name, sizeof name, "worker_%d", i);
        HOLDS(units_in(path_of(name)) == ROUNDS * (i + 1));
    }
    HOLDS(povundiri_fork_generation() == generation && units_in(path_of("server")) == ROUNDS);
    DONE(povundiri_drop(&segment));
    povundiri_file_close(&file);
}

/* ---- A daemon ---- */

/* Opens the file, becomes a daemon, and counts. With `leaves` the daemon no longer passes the file on to its children, and has a child that
 * lives on. */
static void become_daemon(const struct gate *ready, const struct gate *stop, const struct gate *last, bool leaves) {
    struct povundiri_file file = {0};
    struct povundiri_handle segment = {0};
    struct povundiri_opened opened = POVUNDIRI_OPENED;
    DONE(povundiri_open(path_of("daemon"), shape_of(WORDS), POVUNDIRI_ADOPT_OR_FAIL, &KEPT, &file, &segment, &opened));
    count_units(&segment, 2);
    HOLDS(daemon(1, 1) == 0);
    HOLDS(povundiri_file_is_open(&file));
    if (leaves) HOLDS(povundiri_file_keep_on_fork(&file, false) == 0);
    count_units(&segment, 3);
    if (leaves && fork() == 0) {
        const bool has_it = povundiri_file_is_open(&file);
        pass(last);
        _exit(has_it);
    }
    open_gate(ready);
    pass(stop);
    count_units(&segment, 4);
    DONE(povundiri_drop(&segment));
    povundiri_file_close(&file);
    open_gate(ready);
    _exit(failed_here != 0);
}

static void run_daemon(bool leaves) {
    struct gate ready = new_gate(), stop = new_gate(), last = new_gate(), alive = new_gate();
    struct povundiri_opened opened = POVUNDIRI_OPENED;
    pid_t child;
    unlink(path_of("daemon"));
    child = fork();
    if (child == 0) {
        close(alive.ends[0]);
        become_daemon(&ready, &stop, &last, leaves);
    }
    HOLDS(end_of(child) == 0);
    pass(&ready);
    HOLDS(opened_by_another("daemon") == EBUSY && units_in(path_of("daemon")) == 5);
    open_gate(&stop);
    pass(&ready);
    DONE(open_and_count("daemon", POVUNDIRI_ADOPT_OR_FAIL, 1, &opened));
    HOLDS(opened.outcome == POVUNDIRI_ADOPTED && units_in(path_of("daemon")) == 10);
    open_gate(&last);
    wait_for_ends(&alive);
    close_gate(&ready);
    close_gate(&stop);
    close_gate(&last);
}

static void a_daemon(void) {
    run_daemon(false);
}

static void a_daemon_that_forks(void) {
    run_daemon(true);
}

/* Where both have the file, the lock ends when both have closed it. */
static void kept_by_both(void) {
    struct povundiri_file file = {0};
    struct gate stop = new_gate();
    pid_t child;
    HOLDS(povundiri_file_open(&file, path_of("both"), 8224, &KEPT) == 0);
    child = fork();
    if (child == 0) {
        pass(&stop);
        povundiri_file_close(&file);
        _exit(povundiri_file_is_open(&file));
    }
    povundiri_file_close(&file);
    HOLDS(opened_by_another("both") == EBUSY);
    open_gate(&stop);
    HOLDS(end_of(child) == 0 && opened_by_another("both") == 0);
    close_gate(&stop);
}

/* ---- What calls no handlers ---- */

/* A child that clone makes has no memory of the file; it has the lock until it closes the file or ends. */
static void raw_clone(void) {
    struct povundiri_file file = {0};
    struct gate closes = new_gate(), closed = new_gate();
    void *at;
    pid_t child;
    HOLDS(open_file(&file, "clone") == 0);
    at = povundiri_file_room(&file).at;
    child = (pid_t)syscall(SYS_clone, SIGCHLD, NULL, NULL, NULL, NULL);
    if (child == 0) {
        void *other;
        int wrong = is_mapped(at) || povundiri_file_is_open(&file);
        pass(&closes);
        other = mmap(at, 4096, PROT_READ | PROT_WRITE, MAP_PRIVATE | MAP_ANONYMOUS | MAP_FIXED, -1, 0);
        povundiri_file_close(&file);
        wrong = wrong || other != at || !is_mapped(at);
        open_gate(&closed);
        pass(&closes);
        _exit(wrong);
    }
    povundiri_file_close(&file);
    HOLDS(opened_by_another("clone") == EBUSY);
    open_gate(&closes);
    pass(&closed);
    HOLDS(opened_by_another("clone") == 0);
    open_gate(&closes);
    HOLDS(end_of(child) == 0);
    close_gate(&closes);
    close_gate(&closed);
}

/* ---- Generations ---- */

static void generations(void) {
    const uint64_t own = povundiri_fork_generation();
    pid_t child;
    HOLDS(own != 0 && povundiri_fork_generation() == own);
    child = fork();
    if (child == 0) {
        const uint64_t childs = povundiri_fork_generation();
        const pid_t grandchild = fork();
        if (grandchild == 0) {
            const uint64_t grandchilds = povundiri_fork_generation();
            _exit(grandchilds == 0 || grandchilds == own || grandchilds == childs);
        }
        _exit(childs == 0 || childs == own || childs != povundiri_fork_generation() || end_of(grandchild) != 0);
    }
    HOLDS(end_of(child) == 0 && povundiri_fork_generation() == own);
}

/* ---- Forks while other threads open and close ---- */

static volatile int is_over;
static volatile int other_faults;

/* EBUSY comes if a child has the lock, for as long as a busy machine does not let it run. */
static void *open_and_close(void *name) {
    while (!is_over) {
        struct povundiri_file file = {0};
        const int fault = open_file(&file, (const char *)name);
        if (fault != 0 && fault != EBUSY) other_faults += 1;
        povundiri_file_close(&file);
    }
    return NULL;
}

/* Whether some descriptor here is that of a file. */
static int has_descriptor_of(const char *name) {
    struct stat named, about;
    int descriptor;
    if (stat(path_of(name), &named) != 0) return 0;
    for (descriptor = 0; descriptor < 256; descriptor += 1) {
        if (fstat(descriptor, &about) == 0 && about.st_dev == named.st_dev && about.st_ino == named.st_ino) return 1;
    }
    return 0;
}

/* No child keeps what another thread was just opening, or had open, though it lives for a second; and none comes to a stop by a mutex that
 * another thread held. */
static void forks_amid_opens(void) {
    static char names[2][8] = {"amid_0", "amid_1"};
    pthread_t threads[2];
    pid_t children[100];
    int i;
    for (i = 0; i < 2; i += 1) HOLDS(pthread_create(&threads[i], NULL, open_and_close, names[i]) == 0);
    for (i = 0; i < 100; i += 1) {
        children[i] = fork();
        if (children[i] == 0) {
            struct povundiri_file file = {0};
            char name[32];
            if (has_descriptor_of(names[0]) || has_descriptor_of(names[1])) _exit(2);
            snprintf(name, sizeof name, "amid_child_%d", i);
            if (open_file(&file, name) != 0) _exit(1);
            povundiri_file_close(&file);
            sleep_for(1000);
            _exit(0);
        }
        sleep_for(1);
    }
    is_over = 1;
    for (i = 0; i < 2; i += 1) HOLDS(pthread_join(threads[i], NULL) == 0);
    HOLDS(other_faults == 0);
    for (i = 0; i < 100; i += 1) HOLDS(end_of(children[i]) == 0);
}

int main(int count, char **words) {
    int failed;
    if (count != 2) return 2;
    folder = words[1];
    failed = group("child_that_ends", child_that_ends);
    failed += group("child_has_no_file", child_has_no_file);
    failed += group("child_that_lives_on", child_that_lives_on);
    failed += group("pre_fork_server", pre_fork_server);
    failed += group("a_daemon", a_daemon);
    failed += group("a_daemon_that_forks", a_daemon_that_forks);
    failed += group("kept_by_both", kept_by_both);
    failed += group("raw_clone", raw_clone);
    failed += group("generations", generations);
    failed += group("forks_amid_opens", forks_amid_opens);
    return failed != 0;
}
