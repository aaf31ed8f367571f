/* Segments in memory that a parent makes and children record into (povundiri_shared.h): shared FOLDER
 *
 * A child is this program again, with the words child, its task and the number of a descriptor. It is linked with files of c/ whose calls to
 * the system come here (shared_calls.h): -Dmmap=test_mmap and so on. */
#include "files.h"

#include <dirent.h>
#include <sys/mman.h>
#include <sys/socket.h>

#include "povundiri_shared.h"
#include "shared_calls.h"

/* Where the children have their memory. How a child ends that may not open it: by a fault of the system, whose number is added; or because
 * its words are no segment's. */
enum { PASSED = 9, REFUSED = 100, NO_SEGMENT = 80 };

/* How long a child lives at most that waits to be killed. */
enum { MOST_SECONDS = 20 };

enum { SEALED = F_SEAL_SHRINK | F_SEAL_GROW | F_SEAL_SEAL };

/* What has to be there in the memory of small segments. */
enum { BYTES = (1 + WORDS + CURSORS + 1) / 2 * 16 };

/* ---- What a process has open ---- */

static int count_descriptors(void) {
    DIR *all = opendir("/proc/self/fd");
    int count = -3; /* its own, and two names that are none */
    while (all != NULL && readdir(all) != NULL) count += 1;
    closedir(all);
    return count;
}

/* How many mappings of such memory there are with these permissions, such as "r--s". */
static int count_mappings(const char *permissions) {
    FILE *maps = fopen("/proc/self/maps", "re");
    char line[512], found[8];
    int count = 0;
    while (maps != NULL && fgets(line, sizeof line, maps) != NULL) {
        const int is_one = strstr(line, "/memfd:povundiri") != NULL && sscanf(line, "%*s %7s", found) == 1;
        count += is_one && strcmp(found, permissions) == 0;
    }
    if (maps != NULL) fclose(maps);
    return count;
}

static const struct povundiri_shared nothing;

static int is_nothing(const struct povundiri_shared *shared) {
    struct povundiri_shared copy = *shared;
    copy.fault = 0;
    return memcmp(&copy, &nothing, sizeof copy) == 0;
}

/* ---- Children ---- */

/* Starts this program as a child with a task, which has the memory under the number PASSED. It may read from the descriptor `input`. */
static pid_t start(const char *task, int descriptor) {
    char number[16];
    const pid_t child = fork();
    if (child != 0) return child;
    snprintf(number, sizeof number, "%d", descriptor == PASSED ? -1 : PASSED);
    if (descriptor == PASSED || dup2(descriptor, PASSED) != PASSED) _exit(90);
    execl("/proc/self/exe", "shared", "child", task, number, (char *)NULL);
    _exit(91);
}

static int run(const char *task, int descriptor) {
    return end_of(start(task, descriptor));
}

/* Starts a child that says on its standard output when it has counted, and waits for that. */
static pid_t start_counting(const char *task, int descriptor) {
    const int output = fcntl(STDOUT_FILENO, F_DUPFD_CLOEXEC, 0);
    int ready[2];
    char byte = 0;
    pid_t child;
    HOLDS(pipe2(ready, O_CLOEXEC) == 0 && dup2(ready[1], STDOUT_FILENO) == STDOUT_FILENO && close(ready[1]) == 0);
    child = start(task, descriptor);
    HOLDS(dup2(output, STDOUT_FILENO) == STDOUT_FILENO && close(output) == 0);
    HOLDS(read(ready[0], &byte, 1) == 1 && byte == 'r' && close(ready[0]) == 0);
    return child;
}

/* ---- What children do ---- */

/* Opens the memory, counts `count` units of 3, and lives on or ends. */
static int open_and_add(int descriptor, uint32_t count, struct povundiri_shared *shared, struct povundiri_handle *segment) {
    const uint32_t status = povundiri_shared_open(descriptor, CURSORS, shared, segment);
    if (status == POVUNDIRI_SYSTEM) return REFUSED + shared->fault;
    if (status != POVUNDIRI_DONE) return status == POVUNDIRI_IMAGE_BAD_COOKIE ? NO_SEGMENT : 3;
    count_units(segment, count);
    return failed_here != 0;
}

static int child_adds(int descriptor) {
    struct povundiri_shared shared = {0};
    struct povundiri_handle segment = {0};
    const int end = open_and_add(descriptor, 5, &shared, &segment);
    if (end != 0) return end;
    HOLDS(povundiri_shared_descriptor(&shared) == -1 && shared.shape.size == WORDS && shared.shape.cursors == CURSORS);
    DONE(povundiri_drop(&segment));
    povundiri_shared_close(&shared);
    HOLDS(is_nothing(&shared));
    return failed_here != 0;
}

/* As adds, but it closes the descriptor first, and is killed amid its life. */
static int child_dies(int descriptor) {
    struct povundiri_shared shared = {0};
    struct povundiri_handle segment = {0};
    const int end = open_and_add(descriptor, 5, &shared, &segment);
    if (end != 0) return end;
    HOLDS(close(descriptor) == 0);
    count_units(&segment, 2);
    if (failed_here != 0) return 1;
    raise(SIGKILL);
    return 2;
}

/* Lives until it is killed. It says when it has counted, by a byte on its standard output. */
static int child_waits(int descriptor) {
    struct povundiri_shared shared = {0};
    struct povundiri_handle segment = {0};
    const int end = open_and_add(descriptor, 5, &shared, &segment);
    if (end != 0) return end;
    if (write(STDOUT_FILENO, "r", 1) != 1) return 3;
    alarm(MOST_SECONDS);
    for (;;) pause();
}

/* As waits, but it forks a child of its own first, which outlives it and does not have what it opened. */
static int child_forks(int descriptor) {
    struct povundiri_shared shared = {0};
    struct povundiri_handle segment = {0};
    const int end = open_and_add(descriptor, 5, &shared, &segment);
    pid_t child;
    if (end != 0) return end;
    alarm(MOST_SECONDS);
    child = fork();
    if (child == 0) {
        uint64_t image[WORDS];
        ANSWERS(EMPTY, povundiri_shared_look(&shared, image, WORDS, NULL));
        HOLDS(count_mappings("rw-s") == 0);
        povundiri_shared_close(&shared);
        HOLDS(is_nothing(&shared));
        alarm(MOST_SECONDS);
        if (failed_here != 0 || write(STDOUT_FILENO, "r", 1) != 1) _exit(1);
        for (;;) pause();
    }
    for (;;) pause();
}

/* A call on a segment of which a child of fork has no memory. */
static int child_forks_and_counts(int descriptor) {
    struct povundiri_shared shared = {0};
    struct povundiri_handle segment = {0};
    const struct rlimit none = {0, 0};
    const int end = open_and_add(descriptor, 5, &shared, &segment);
    pid_t child;
    if (end != 0) return end;
    child = fork();
    if (child == 0) {
        signal(SIGSEGV, SIG_DFL);
        setrlimit(RLIMIT_CORE, &none);
        count_units(&segment, 1);
        _exit(0);
    }
    HOLDS(end_of(child) == 1000 + SIGSEGV);
    DONE(povundiri_drop(&segment));
    povundiri_shared_close(&shared);
    return failed_here != 0;
}

/* What a child tries that wants to take memory from its parent, or forbid its successors to write. */
static int child_truncates(int descriptor) {
    HOLDS(ftruncate(descriptor, 0) == -1 && errno == EPERM);
    HOLDS(ftruncate(descriptor, BYTES - 16) == -1 && errno == EPERM);
    HOLDS(ftruncate(descriptor, BYTES + 16) == -1 && errno == EPERM);
    HOLDS(fallocate(descriptor, 0, BYTES, 4096) == -1 && errno == EPERM);
    HOLDS(fcntl(descriptor, F_ADD_SEALS, F_SEAL_WRITE) == -1 && errno == EPERM);
    HOLDS(fcntl(descriptor, F_ADD_SEALS, 0x10 /* F_SEAL_FUTURE_WRITE */) == -1 && errno == EPERM);
    return failed_here != 0;
}

/* Takes all pages out of the memory, which then reads as zeros. */
static int child_punches(int descriptor) {
    return fallocate(descriptor, FALLOC_FL_PUNCH_HOLE | FALLOC_FL_KEEP_SIZE, 0, BYTES) == 0 ? 0 : 5;
}

/* A word that may mean something where it is written: a small number, a cookie, a type of block, or any. */
static uint64_t any_word(uint64_t *chance) {
    static const uint64_t words[] = {0, 1, 2, 3, 4, 12, 16, WORDS, UINT64_MAX, 0xC8799269, 0x408305DC};
    *chance ^= *chance << 13;
    *chance ^= *chance >> 7;
    *chance ^= *chance << 17;
    if (*chance % 4 == 0) return *chance;
    return *chance % 4 == 1 ? *chance / 4 % (WORDS + 8) : words[*chance / 4 % (sizeof words / sizeof words[0])];
}

/* Writes words at random, and again and again the header as it was, until it is killed. */
static int child_scribbles(int descriptor) {
    uint64_t *image = mmap(NULL, BYTES, PROT_READ | PROT_WRITE, MAP_SHARED, descriptor, 0);
    uint64_t header[16], chance = 88172645463325252;
    size_t turn;
    if (image == MAP_FAILED) return 6;
    image += 1;
    memcpy(header, image, sizeof header);
    alarm(MOST_SECONDS);
    if (write(STDOUT_FILENO, "r", 1) != 1) return 3;
    for (turn = 0;; turn += 1) {
        const size_t at = (size_t)(any_word(&chance) % WORDS);
        const uint64_t word = any_word(&chance);
        __atomic_store_n(image + at, word, __ATOMIC_RELAXED);
        __atomic_store_n(image + turn % 16, header[turn % 16], __ATOMIC_RELAXED);
    }
}

/* Which descriptors an exec left: the streams, and that of the memory. */
static int child_lists(int descriptor) {
    HOLDS(count_descriptors() == 3 + 1 && fcntl(descriptor, F_GETFD) == 0 && count_mappings("r--s") == 0);
    return failed_here != 0;
}

static const struct task {
    const char *name;
    int (*does)(int descriptor);
} TASKS[] = {
    {"adds", child_adds},           {"dies", child_dies},
    {"waits", child_waits},         {"forks", child_forks},
    {"counts", child_forks_and_counts}, {"truncates", child_truncates},
    {"punches", child_punches},     {"lists", child_lists},
    {"scribbles", child_scribbles},
};

static int do_task(const char *name, int descriptor) {
    size_t i;
    for (i = 0; i < sizeof TASKS / sizeof TASKS[0]; i += 1) {
        if (strcmp(TASKS[i].name, name) == 0) return TASKS[i].does(descriptor);
    }
    return 92;
}

/* ---- Looks ---- */

static struct povundiri_shared made(void) {
    struct povundiri_shared shared = {0};
    DONE(povundiri_shared_create(shape_of(WORDS), &shared));
    return shared;
}

/* Whether a look has this report. */
static int has_report(const struct povundiri_shared *shared, const char *wanted) {
    uint64_t image[WORDS];
    char text[4096];
    size_t length = 0, needed = 0;
    DONE(povundiri_shared_look(shared, image, WORDS, &length));
    HOLDS(length == WORDS);
    DONE(povundiri_report_bounded(image, length, text, sizeof text - 1, &needed, 100));
    text[needed] = 0;
    if (strcmp(text, wanted) == 0) return 1;
    printf("wanted %s, came %s\n", wanted, text);
    return 0;
}

static const char FIVE[] = "s,sparse,3,4,5\ns,total,5,15\n", SEVEN[] = "s,sparse,3,4,7\ns,total,7,21\n";
static const char FOURTEEN[] = "s,sparse,3,4,14\ns,total,14,42\n", NONE[] = "";

/* ---- The parent ---- */

/* Whether the system knows memory that nobody may execute. */
static int knows_noexec(void) {
    const int descriptor = memfd_create("probe", MFD_CLOEXEC | 8 /* MFD_NOEXEC_SEAL */);
    return descriptor >= 0 && close(descriptor) == 0;
}

static void what_is_made(void) {
    struct povundiri_shared shared = made(), other = made();
    const int descriptor = povundiri_shared_descriptor(&shared);
    uint64_t image[WORDS + 1] = {0};
    struct stat about;
    size_t needed = 0;
    HOLDS(descriptor >= 0 && descriptor != povundiri_shared_descriptor(&other));
    HOLDS(fcntl(descriptor, F_GETFD) == FD_CLOEXEC && (fcntl(descriptor, F_GET_SEALS) & SEALED) == SEALED);
    HOLDS(fstat(descriptor, &about) == 0 && about.st_size == BYTES && about.st_blocks * 512 >= BYTES);
    HOLDS((about.st_mode & 0111) == 0 || !knows_noexec());
    HOLDS(count_mappings("r--s") == 2 && count_mappings("rw-s") == 0);
    HOLDS(shared.shape.id != other.shape.id && shared.shape.id != 7 && shared.shape.size == WORDS && shared.shape.page == PAGE);
    HOLDS(shared.shape.version == 2 && shared.shape.cursors == CURSORS && shared.fault == 0);
    image[WORDS] = 17;
    DONE(povundiri_shared_look(&shared, image, WORDS + 1, &needed));
    HOLDS(needed == WORDS && image[0] == 0x408305DC && image[1] == 2 && image[2] == WORDS && image[3] == PAGE);
    HOLDS(image[4] == shared.shape.id && image[7] == 16 && image[WORDS] == 17 && has_report(&shared, NONE));
    povundiri_shared_close(&shared);
    povundiri_shared_close(&other);
    HOLDS(is_nothing(&shared) && count_mappings("r--s") == 0 && povundiri_shared_descriptor(&shared) == -1);
    HOLDS(fcntl(descriptor, F_GETFD) == -1);
    povundiri_shared_close(&shared);
    povundiri_shared_close(NULL);
    HOLDS(povundiri_shared_descriptor(NULL) == -1);
}

/* Each size of a segment, with all cursors: the largest of 8 MiB too. */
static void sizes(void) {
    static const struct povundiri_shape shapes[] = {{64, 64, 0, 8, 2}, {1024, 256, 0, 0, 2}, {1048576, 65536, 0, 8, 2}};
    size_t i, length;
    for (i = 0; i < 3; i += 1) {
        struct povundiri_shared shared = {0}, own = {0};
        struct povundiri_handle segment = {0};
        uint64_t *image = malloc((size_t)shapes[i].size * 8);
        DONE(povundiri_shared_create(shapes[i], &shared));
        DONE(povundiri_shared_open(povundiri_shared_descriptor(&shared), shapes[i].cursors, &own, &segment));
        HOLDS(own.shape.id == shared.shape.id && own.shape.size == shapes[i].size && own.shape.page == shapes[i].page);
        DONE(povundiri_shared_look(&own, image, (size_t)shapes[i].size, &length));
        HOLDS(length == shapes[i].size);
        DONE(povundiri_drop(&segment));
        povundiri_shared_close(&own);
        povundiri_shared_close(&shared);
        free(image);
    }
}

static void refused_shapes(void) {
    static const struct povundiri_shape shapes[] = {
        {WORDS, PAGE, 7, 0, 1}, {WORDS, PAGE, 7, 0, 3},  {WORDS, 65, 7, 0, 2},       {WORDS + 1, PAGE, 7, 0, 2},
        {0, PAGE, 7, 0, 2},     {2097152, 64, 7, 0, 2}, {UINT64_MAX, PAGE, 7, 0, 2}, {WORDS, 0, 7, 0, 2},
    };
    const int before = count_descriptors();
    struct povundiri_shared shared = {0};
    struct povundiri_shape many = shape_of(WORDS);
    size_t i;
    for (i = 0; i < sizeof shapes / sizeof shapes[0]; i += 1) {
        ANSWERS(OPEN_BAD_SHAPE, povundiri_shared_create(shapes[i], &shared));
        HOLDS(is_nothing(&shared) && shared.fault == 0);
    }
    many.cursors = 9;
    ANSWERS(OPEN_BAD_CURSORS, povundiri_shared_create(many, &shared));
    ANSWERS(NULL, povundiri_shared_create(shape_of(WORDS), NULL));
    HOLDS(count_descriptors() == before && count_mappings("r--s") == 0 && count_mappings("rw-s") == 0);
    shared = made();
    ANSWERS(NOT_EMPTY, povundiri_shared_create(shape_of(WORDS), &shared));
    HOLDS(has_report(&shared, NONE));
    povundiri_shared_close(&shared);
}

/* A limit of this process while memory is made: the fault. */
static int fault_below(int which, rlim_t limit) {
    struct povundiri_shared shared = {0};
    struct rlimit was, now;
    HOLDS(getrlimit((__rlimit_resource_t)which, &was) == 0);
    now = was;
    now.rlim_cur = limit;
    HOLDS(setrlimit((__rlimit_resource_t)which, &now) == 0);
    ANSWERS(SYSTEM, povundiri_shared_create(shape_of(WORDS), &shared));
    HOLDS(setrlimit((__rlimit_resource_t)which, &was) == 0 && is_nothing(&shared));
    return shared.fault;
}

static void limits(void) {
    HOLDS(fault_below(RLIMIT_FSIZE, BYTES - 1) == EFBIG); /* no SIGXFSZ, which would end this */
    HOLDS(fault_below(RLIMIT_NOFILE, 3) == EMFILE);
}

/* A kernel that does not know MFD_NOEXEC_SEAL, and calls that are interrupted. */
static void old_and_interrupted(void) {
    struct povundiri_shared shared;
    is_old = 1;
    interruptions = 3;
    shared = made();
    HOLDS((fcntl(povundiri_shared_descriptor(&shared), F_GET_SEALS) & SEALED) == SEALED);
    HOLDS(run("adds", povundiri_shared_descriptor(&shared)) == 0 && has_report(&shared, FIVE));
    is_old = interruptions = 0;
    povundiri_shared_close(&shared);
}

/* ---- Parent and child ---- */

static void first_and_successors(void) {
    struct povundiri_shared shared = made();
    const int descriptor = povundiri_shared_descriptor(&shared);
    HOLDS(run("adds", descriptor) == 0 && has_report(&shared, FIVE));
    povundiri_shared_close(&shared);
    shared = made();
    HOLDS(run("dies", povundiri_shared_descriptor(&shared)) == 1000 + SIGKILL && has_report(&shared, SEVEN));
    HOLDS(run("dies", povundiri_shared_descriptor(&shared)) == 1000 + SIGKILL && has_report(&shared, FOURTEEN));
    povundiri_shared_close(&shared);
}

/* While it lives, nobody else opens its memory; when it was killed, the next one does. */
static void one_at_a_time(void) {
    struct povundiri_shared shared = made();
    const int descriptor = povundiri_shared_descriptor(&shared);
    const pid_t child = start_counting("waits", descriptor);
    HOLDS(run("adds", descriptor) == REFUSED + EBUSY && has_report(&shared, FIVE));
    HOLDS(kill(child, SIGKILL) == 0 && end_of(child) == 1000 + SIGKILL && has_report(&shared, FIVE));
    HOLDS(run("dies", descriptor) == 1000 + SIGKILL && has_report(&shared, "s,sparse,3,4,12\ns,total,12,36\n"));
    povundiri_shared_close(&shared);
}

/* A child that forks and is killed does not hold its memory by a child of its own. */
static void children_of_children(void) {
    struct povundiri_shared shared = made();
    const int descriptor = povundiri_shared_descriptor(&shared);
    const pid_t child = start_counting("forks", descriptor);
    HOLDS(kill(child, SIGKILL) == 0 && end_of(child) == 1000 + SIGKILL);
    HOLDS(run("counts", descriptor) == 0 && has_report(&shared, "s,sparse,3,4,10\ns,total,10,30\n"));
    povundiri_shared_close(&shared);
}

/* Two opens in one process; and the segment's handle is moved meanwhile. */
static void two_opens(void) {
    struct povundiri_shared shared = made(), own = {0}, again = {0}, moved;
    struct povundiri_handle segment = {0}, other = {0};
    const int descriptor = povundiri_shared_descriptor(&shared);
    const int before = count_descriptors();
    DONE(povundiri_shared_open(descriptor, CURSORS, &own, &segment));
    ANSWERS(SYSTEM, povundiri_shared_open(descriptor, CURSORS, &again, &other));
    HOLDS(again.fault == EBUSY && is_nothing(&again) && !other.held && count_descriptors() == before + 1);
    ANSWERS(NOT_EMPTY, povundiri_shared_open(descriptor, CURSORS, &own, &other));
    ANSWERS(NOT_EMPTY, povundiri_shared_open(descriptor, CURSORS, &again, &segment));
    ANSWERS(NOT_EMPTY, povundiri_shared_open(descriptor, CURSORS, &shared, &other));
    ANSWERS(NOT_EMPTY, povundiri_shared_create(shape_of(WORDS), &own));
    ANSWERS(NULL, povundiri_shared_open(descriptor, CURSORS, NULL, &other));
    ANSWERS(NULL, povundiri_shared_open(descriptor, CURSORS, &again, NULL));
    moved = own;
    memset(&own, 0, sizeof own);
    count_units(&segment, 5);
    HOLDS(has_report(&moved, FIVE) && has_report(&shared, FIVE));
    DONE(povundiri_drop(&segment));
    povundiri_shared_close(&moved);
    HOLDS(count_descriptors() == before);
    DONE(povundiri_shared_open(descriptor, CURSORS, &again, &other));
    HOLDS(again.fault == 0);
    DONE(povundiri_drop(&other));
    povundiri_shared_close(&again);
    povundiri_shared_close(&shared);
}

/* No child but the one that is passed the memory has it, and that one has nothing else. */
static void no_leaks(void) {
    struct povundiri_shared shared = made(), other = made();
    HOLDS(run("lists", povundiri_shared_descriptor(&shared)) == 0);
    HOLDS(run("lists", povundiri_shared_descriptor(&other)) == 0);
    povundiri_shared_close(&other);
    povundiri_shared_close(&shared);
}

/* A child of fork that does not exec has what its parent made, and may open it. */
static void workers(void) {
    struct povundiri_shared shared = made();
    const pid_t child = fork();
    if (child == 0) {
        struct povundiri_shared own = {0};
        struct povundiri_handle segment = {0};
        HOLDS(open_and_add(povundiri_shared_descriptor(&shared), 5, &own, &segment) == 0);
        HOLDS(has_report(&shared, FIVE) && has_report(&own, FIVE));
        povundiri_shared_close(&shared);
        count_units(&segment, 2);
        HOLDS(has_report(&own, SEVEN));
        _exit(failed_here != 0);
    }
    HOLDS(end_of(child) == 0 && has_report(&shared, SEVEN));
    povundiri_shared_close(&shared);
}

/* A hostile child does not end its parent, nor keep it from looking. */
static void hostile(void) {
    struct povundiri_shared shared = made();
    uint64_t image[WORDS];
    HOLDS(run("truncates", povundiri_shared_descriptor(&shared)) == 0 && has_report(&shared, NONE));
    HOLDS(run("adds", povundiri_shared_descriptor(&shared)) == 0 && has_report(&shared, FIVE));
    HOLDS(run("punches", povundiri_shared_descriptor(&shared)) == 0);
    ANSWERS(IMAGE_BAD_COOKIE, povundiri_shared_look(&shared, image, WORDS, NULL));
    HOLDS(run("adds", povundiri_shared_descriptor(&shared)) == NO_SEGMENT);
    povundiri_shared_close(&shared);
}

/* Looks while a child writes any words: each has a status, and each that is an image has a report, or too many keys. There are more of them
 * where few find a header that is whole. */
static void scribbled(void) {
    enum { LOOKS = 500, MOST_LOOKS = 500000, ENOUGH = 50, DAMAGED = 10 };
    static char text[1 << 20];
    const struct timespec nap = {0, 50000};
    struct povundiri_shared shared = made();
    uint64_t image[WORDS];
    int i, done = 0, damaged = 0;
    pid_t child;
    HOLDS(run("adds", povundiri_shared_descriptor(&shared)) == 0);
    child = start_counting("scribbles", povundiri_shared_descriptor(&shared));
    for (i = 0; i < LOOKS || (i < MOST_LOOKS && (done < ENOUGH || damaged < DAMAGED)); i += 1) {
        size_t length = 0, needed = 0;
        const uint32_t status = povundiri_shared_look(&shared, image, WORDS, &length);
        const bool is_fault = status >= POVUNDIRI_IMAGE_TOO_SHORT && status <= POVUNDIRI_IMAGE_BAD_QUEUE;
        HOLDS(status == POVUNDIRI_DONE || is_fault || status == POVUNDIRI_ADOPT_OLD_VERSION);
        if (i % 10 == 0) nanosleep(&nap, NULL);
        if (status != POVUNDIRI_DONE) continue;
        HOLDS(length <= WORDS);
        done += 1;
        if (povundiri_report_bounded(image, length, text, sizeof text - 1, &needed, 1000) != POVUNDIRI_DONE) continue;
        text[needed] = 0;
        damaged += strstr(text, "!bad") != NULL || strstr(text, "!stopped") != NULL;
    }
    HOLDS(kill(child, SIGKILL) == 0 && end_of(child) == 1000 + SIGKILL && done >= ENOUGH && damaged >= DAMAGED);
    if (failed_here != 0) printf("%d looks, %d of them damaged\n", done, damaged);
    povundiri_shared_close(&shared);
}

/* ---- Descriptors that are refused ---- */

/* Memory with these bytes and seals. */
static int memory_of(const void *bytes, size_t length, int seals) {
    const int descriptor = memfd_create("povundiri_forged", MFD_CLOEXEC | MFD_ALLOW_SEALING);
    HOLDS(descriptor >= 0 && write(descriptor, bytes, length) == (ssize_t)length);
    HOLDS(seals == 0 || fcntl(descriptor, F_ADD_SEALS, seals) == 0);
    return descriptor;
}

/* That it is refused, and nothing is open or written by that; the status. The descriptor is closed then. */
static uint32_t refusal_of(int descriptor, size_t cursors, int *fault) {
    static unsigned char before[2 * BYTES], after[2 * BYTES];
    const ssize_t length = pread(descriptor, before, sizeof before, 0);
    const int open_before = count_descriptors();
    struct povundiri_shared shared = {0};
    struct povundiri_handle segment = {0};
    const uint32_t status = povundiri_shared_open(descriptor, cursors, &shared, &segment);
    HOLDS(status != POVUNDIRI_DONE && is_nothing(&shared) && !segment.held && count_descriptors() == open_before);
    HOLDS(pread(descriptor, after, sizeof after, 0) == length && (length <= 0 || memcmp(before, after, (size_t)length) == 0));
    HOLDS(count_mappings("rw-s") == 0 && (status == POVUNDIRI_SYSTEM) == (shared.fault != 0));
    if (descriptor >= 0) close(descriptor);
    *fault = shared.fault;
    return status;
}

static void refused_with(int line, int wanted, int descriptor) {
    int fault = 0;
    const uint32_t status = refusal_of(descriptor, CURSORS, &fault);
    check_status(line, "open", POVUNDIRI_SYSTEM, status);
    if (fault == wanted) return;
    printf("line %d: wanted %s", line, strerror(wanted));
    printf(", came %s\n", strerror(fault));
    failed_here += 1;
}

#define REFUSED_WITH(fault, descriptor) refused_with(__LINE__, fault, descriptor)

/* What is no memory, or no memory that may be written. */
static void other_descriptors(void) {
    struct povundiri_shared shared = made();
    char path[64];
    int ends[2], sockets[2];
    snprintf(path, sizeof path, "/proc/self/fd/%d", povundiri_shared_descriptor(&shared));
    store("file", "", 0);
    make_segment("segment", 5);
    HOLDS(pipe2(ends, O_CLOEXEC) == 0 && socketpair(AF_UNIX, SOCK_STREAM | SOCK_CLOEXEC, 0, sockets) == 0);
    REFUSED_WITH(EBADF, -1);
    REFUSED_WITH(EBADF, 1000000);
    REFUSED_WITH(EINVAL, open(path_of("file"), O_RDWR | O_CLOEXEC));
    REFUSED_WITH(EINVAL, open(path_of("segment"), O_RDWR | O_CLOEXEC));
    REFUSED_WITH(EINVAL, open(folder, O_RDONLY | O_CLOEXEC | O_DIRECTORY));
    REFUSED_WITH(EINVAL, open("/dev/null", O_RDWR | O_CLOEXEC));
    if (access("/dev/shm", W_OK) == 0) REFUSED_WITH(EPERM, open("/dev/shm", O_RDWR | O_CLOEXEC | O_TMPFILE, 0600));
    REFUSED_WITH(EINVAL, ends[0]);
    REFUSED_WITH(EINVAL, ends[1]);
    REFUSED_WITH(EINVAL, sockets[0]);
    REFUSED_WITH(EINVAL, sockets[1]);
    REFUSED_WITH(EACCES, open(path, O_RDONLY | O_CLOEXEC));
    REFUSED_WITH(EBADF, open(path, O_PATH | O_CLOEXEC));
    HOLDS(run("adds", povundiri_shared_descriptor(&shared)) == 0 && units_in(path_of("segment")) == 5);
    povundiri_shared_close(&shared);
}

/* The bytes of memory in which 's' has five units. */
static const uint64_t *counted(void) {
    static uint64_t bytes[BYTES / 8];
    struct povundiri_shared shared = made();
    HOLDS(run("adds", povundiri_shared_descriptor(&shared)) == 0);
    HOLDS(pread(povundiri_shared_descriptor(&shared), bytes, BYTES, 0) == BYTES);
    povundiri_shared_close(&shared);
    return bytes;
}

static void missing_seals(void) {
    const uint64_t *bytes = counted();
    const int without = memfd_create("povundiri_forged", MFD_CLOEXEC);
    HOLDS(without >= 0 && write(without, bytes, BYTES) == BYTES);
    REFUSED_WITH(EPERM, without);
    REFUSED_WITH(EPERM, memory_of(bytes, BYTES, 0));
    REFUSED_WITH(EPERM, memory_of(bytes, BYTES, F_SEAL_SHRINK | F_SEAL_GROW));
    REFUSED_WITH(EPERM, memory_of(bytes, BYTES, F_SEAL_SHRINK | F_SEAL_SEAL));
    REFUSED_WITH(EPERM, memory_of(bytes, BYTES, F_SEAL_GROW | F_SEAL_SEAL));
    REFUSED_WITH(EPERM, memory_of(bytes, BYTES, SEALED | F_SEAL_WRITE));
    REFUSED_WITH(EPERM, memory_of(bytes, BYTES, SEALED | 0x10 /* F_SEAL_FUTURE_WRITE */));
}

static uint32_t refused_words(const void *bytes, size_t length, size_t cursors) {
    int fault;
    return refusal_of(memory_of(bytes, length, SEALED), cursors, &fault);
}

/* Lengths that no memory of this segment has; and whole memory, which is opened. */
static void other_lengths(void) {
    const uint64_t *bytes = counted();
    static uint64_t longest[LARGEST / 8 + 2];
    struct povundiri_shared shared = {0};
    struct povundiri_handle segment = {0};
    const int whole = memory_of(bytes, BYTES, SEALED);
    REFUSED_WITH(EINVAL, memory_of(bytes, 0, SEALED));
    REFUSED_WITH(EINVAL, memory_of(bytes, 8, SEALED));
    REFUSED_WITH(EINVAL, memory_of(bytes, BYTES - 8, SEALED));
    REFUSED_WITH(EFBIG, memory_of(longest, sizeof longest, SEALED));
    ANSWERS(IMAGE_BAD_COOKIE, refused_words(longest, LARGEST, CURSORS));
    ANSWERS(IMAGE_TOO_SHORT, refused_words(bytes, 16, CURSORS));
    ANSWERS(IMAGE_TOO_SHORT, refused_words(bytes, 128, CURSORS));
    ANSWERS(IMAGE_BAD_SIZE, refused_words(bytes, 144, CURSORS));
    ANSWERS(IMAGE_BAD_SIZE, refused_words(bytes, 8 * WORDS, CURSORS));
    ANSWERS(ADOPT_NO_MEMORY, refused_words(bytes, 8 * WORDS + 16, CURSORS));
    ANSWERS(ADOPT_NO_MEMORY, refused_words(bytes, BYTES, 8));
    ANSWERS(ADOPT_BAD_CURSORS, refused_words(bytes, BYTES, 9));
    DONE(povundiri_shared_open(whole, CURSORS, &shared, &segment));
    count_units(&segment, 2);
    HOLDS(has_report(&shared, SEVEN));
    DONE(povundiri_drop(&segment));
    povundiri_shared_close(&shared);
    close(whole);
}

/* Words that no segment has, and those of another version. */
static void other_words(void) {
    static const struct damage {
        size_t word;
        uint64_t value;
        uint32_t status;
    } damages[] = {
        {0, 0, POVUNDIRI_IMAGE_BAD_COOKIE},   {1, 1, POVUNDIRI_ADOPT_OLD_VERSION},  {1, 3, POVUNDIRI_IMAGE_BAD_VERSION},
        {2, 3, POVUNDIRI_IMAGE_TOO_SHORT},    {2, 1025, POVUNDIRI_IMAGE_BAD_SIZE},  {3, 65, POVUNDIRI_IMAGE_BAD_PAGE},
        {5, 3, POVUNDIRI_IMAGE_NOT_READY},    {5, 2, POVUNDIRI_IMAGE_DELETED},      {6, 1, POVUNDIRI_ADOPT_CORRUPT},
        {7, 5, POVUNDIRI_IMAGE_BAD_FREE},     {7, 16, POVUNDIRI_ADOPT_DAMAGED},     {12, 5, POVUNDIRI_IMAGE_BAD_QUEUE},
        {2, UINT64_MAX, POVUNDIRI_IMAGE_BAD_SIZE}, {7, WORDS + 1, POVUNDIRI_IMAGE_BAD_FREE},
    };
    uint64_t forged[BYTES / 8];
    size_t i;
    for (i = 0; i < sizeof damages / sizeof damages[0]; i += 1) {
        memcpy(forged, counted(), BYTES);
        forged[1 + damages[i].word] = damages[i].value;
        check_status(__LINE__, "open", damages[i].status, refused_words(forged, BYTES, CURSORS));
    }
    memset(forged, 0, sizeof forged);
    ANSWERS(IMAGE_BAD_COOKIE, refused_words(forged, BYTES, CURSORS));
    memset(forged, 255, sizeof forged);
    ANSWERS(IMAGE_BAD_COOKIE, refused_words(forged, BYTES, CURSORS));
}

/* Looks at none, and with arrays that are too short. */
static void looks(void) {
    struct povundiri_shared shared = made();
    uint64_t image[WORDS];
    size_t needed = 0;
    ANSWERS(NULL, povundiri_shared_look(NULL, image, WORDS, &needed));
    ANSWERS(NULL, povundiri_shared_look(&shared, NULL, WORDS, &needed));
    ANSWERS(EMPTY, povundiri_shared_look(&nothing, image, WORDS, &needed));
    ANSWERS(SHORT, povundiri_shared_look(&shared, image, WORDS - 1, &needed));
    HOLDS(needed == WORDS);
    ANSWERS(SHORT, povundiri_shared_look(&shared, NULL, 0, NULL));
    povundiri_shared_close(&shared);
}

/* ---- Faults and kills at each call to the system ---- */

/* Lets each call of one that makes memory, and of one that opens it, fail in turn; returns how many did so. */
static int fail_at_each_call(bool opens) {
    uint32_t status = POVUNDIRI_SYSTEM;
    int at, failed = 0;
    for (at = 1; at < 1000; at += 1) {
        struct povundiri_shared shared = {0}, own = {0};
        struct povundiri_handle segment = {0};
        const int before = count_descriptors();
        if (opens) shared = made();
        calls = 0;
        failing_at = at;
        status = opens ? povundiri_shared_open(povundiri_shared_descriptor(&shared), CURSORS, &own, &segment)
                       : povundiri_shared_create(shape_of(WORDS), &own);
        failing_at = 0;
        if (calls < at) at = 1000;
        HOLDS(status == POVUNDIRI_DONE || (status == POVUNDIRI_SYSTEM && own.fault == failing_with && is_nothing(&own) && !segment.held));
        failed += status == POVUNDIRI_SYSTEM;
        if (status != POVUNDIRI_DONE && opens) HOLDS(run("adds", povundiri_shared_descriptor(&shared)) == 0 && has_report(&shared, FIVE));
        if (segment.held) DONE(povundiri_drop(&segment));
        povundiri_shared_close(&own);
        povundiri_shared_close(&shared);
        HOLDS(count_descriptors() == before && count_mappings("r--s") == 0 && count_mappings("rw-s") == 0);
    }
    HOLDS(status == POVUNDIRI_DONE);
    return failed;
}

static void faults_at_calls(void) {
    const int made_calls = fail_at_each_call(false), opened_calls = fail_at_each_call(true);
    HOLDS(made_calls >= 6 && opened_calls >= 9);
    failing_with = ENOMEM;
    HOLDS(fail_at_each_call(false) == made_calls && fail_at_each_call(true) == opened_calls);
    failing_with = EIO;
}

/* Kills a child at each of its calls when it opens memory in which five units are: its successor finds them. */
static void kills_at_calls(void) {
    struct povundiri_shared shared = made();
    int at, end = 1000 + SIGKILL;
    HOLDS(run("adds", povundiri_shared_descriptor(&shared)) == 0);
    for (at = 1; end == 1000 + SIGKILL && at < 1000; at += 1) {
        const pid_t child = fork();
        if (child == 0) {
            struct povundiri_shared own = {0};
            struct povundiri_handle segment = {0};
            calls = 0;
            killed_at = at;
            _exit(povundiri_shared_open(povundiri_shared_descriptor(&shared), CURSORS, &own, &segment) != POVUNDIRI_DONE);
        }
        end = end_of(child);
        HOLDS(has_report(&shared, FIVE));
    }
    HOLDS(end == 0 && at > 9);
    HOLDS(run("dies", povundiri_shared_descriptor(&shared)) == 1000 + SIGKILL);
    HOLDS(has_report(&shared, "s,sparse,3,4,12\ns,total,12,36\n"));
    povundiri_shared_close(&shared);
}

static int is_no_memory(uint32_t status, int fault) {
    return (status == POVUNDIRI_SYSTEM && fault == ENOMEM) || status == POVUNDIRI_NO_MEMORY || status == POVUNDIRI_OPEN_NO_MEMORY ||
           status == POVUNDIRI_ADOPT_NO_MEMORY;
}

/* Refuses each allocation in turn, of one that makes memory, opens it, or looks; returns how many were refused. */
static int refuse_each_allocation(int which) {
    uint32_t status = POVUNDIRI_NO_MEMORY;
    int at, refused = 0;
    for (at = 1; at < 1000; at += 1) {
        struct povundiri_shared shared = made(), own = {0};
        struct povundiri_handle segment = {0};
        uint64_t image[WORDS];
        allocations = 0;
        refused_at = at;
        if (which == 0) status = povundiri_shared_create(shape_of(WORDS), &own);
        if (which == 1) status = povundiri_shared_open(povundiri_shared_descriptor(&shared), CURSORS, &own, &segment);
        if (which == 2) status = povundiri_shared_look(&shared, image, WORDS, NULL);
        refused_at = 0;
        if (allocations < at) at = 1000;
        HOLDS(status == POVUNDIRI_DONE || (is_no_memory(status, own.fault) && is_nothing(&own) && !segment.held));
        refused += status != POVUNDIRI_DONE;
        if (segment.held) DONE(povundiri_drop(&segment));
        povundiri_shared_close(&own);
        if (which == 1) HOLDS(run("adds", povundiri_shared_descriptor(&shared)) == 0 && has_report(&shared, FIVE));
        povundiri_shared_close(&shared);
    }
    HOLDS(status == POVUNDIRI_DONE);
    return refused;
}

static void refused_memory(void) {
    int which;
    for (which = 0; which < 3; which += 1) HOLDS(refuse_each_allocation(which) >= 2);
    HOLDS(blocks == 0);
}

/* What it was started with besides its streams, if anything, does not go to children. */
static void keep_for_itself(void) {
    int descriptor;
    for (descriptor = 3; descriptor < 256; descriptor += 1) (void)fcntl(descriptor, F_SETFD, FD_CLOEXEC);
}

int main(int count, char **words) {
    int failed;
    if (count == 4 && strcmp(words[1], "child") == 0) return do_task(words[2], atoi(words[3]));
    if (count != 2) return 2;
    folder = words[1];
    keep_for_itself();
    failed = group("what is made", what_is_made);
    failed += group("sizes", sizes);
    failed += group("shapes that are refused", refused_shapes);
    failed += group("limits", limits);
    failed += group("an old kernel, and interrupted calls", old_and_interrupted);
    failed += group("a first child and its successors", first_and_successors);
    failed += group("one at a time", one_at_a_time);
    failed += group("children of children", children_of_children);
    failed += group("two opens", two_opens);
    failed += group("no leaks over exec", no_leaks);
    failed += group("workers", workers);
    failed += group("hostile children", hostile);
    failed += group("any words", scribbled);
    failed += group("other descriptors", other_descriptors);
    failed += group("missing seals", missing_seals);
    failed += group("other lengths", other_lengths);
    failed += group("other words", other_words);
    failed += group("looks", looks);
    failed += group("faults at each call", faults_at_calls);
    failed += group("kills at each call", kills_at_calls);
    failed += group("refused memory", refused_memory);
    return failed != 0;
}
