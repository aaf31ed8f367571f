#define _GNU_SOURCE /* renameat2, MADV_DONTFORK, O_TMPFILE */

#include "povundiri_file_parts.h"

#include <errno.h>
#include <fcntl.h>
#include <pthread.h>
#include <stdio.h>
#include <stdlib.h>
#include <string.h>
#include <sys/file.h>
#include <sys/mman.h>
#include <sys/resource.h>
#include <sys/stat.h>
#include <time.h>
#include <unistd.h>

#include "povundiri_file_parts.h"
#include "povundiri_layout.h"

/* A segment's file has whole units of 16 bytes. */
enum { UNIT = 16, MOST_CURSORS = 8 };

/* For how long a lock is tried, and how often; how many bytes are reserved or read by one call; how many names are tried. */
enum { MOST_MILLISECONDS = 100, NAP_NANOSECONDS = 2000000, PIECE = 1 << 18, BLOCK = 4096, MOST_NAMES = 100000 };

enum {
    ALL_FLAGS = POVUNDIRI_FILE_GROUP_WRITES | POVUNDIRI_FILE_ANY_OWNER | POVUNDIRI_FILE_FOLLOW | POVUNDIRI_FILE_KEEP_ON_FORK |
                POVUNDIRI_FILE_EXISTING
};

/* A flag of requests alone: the path leads to memory that povundiri_shared.c has judged. */
enum { IS_MEMORY = 1 << 16 };

/* The words of a header that are never 0 once it is made. */
static const size_t NEVER_ZERO[] = {0, 1, 2, 3, 5, 7, 8, 12, 13, 15};

static size_t rounded_up(size_t bytes) {
    return (bytes + UNIT - 1) / UNIT * UNIT;
}

static size_t larger(size_t one, size_t other) {
    return one > other ? one : other;
}

size_t povundiri_file_bytes(uint64_t words, size_t cursors) {
    if (words > MOST_WORDS || cursors > MOST_CURSORS) return 0;
    return rounded_up((1 + (size_t)words + cursors) * WORD);
}

static size_t most_bytes(void) {
    return povundiri_file_bytes(MOST_WORDS, MOST_CURSORS);
}

/* ---- What is open in this process ---- */

struct povundiri_mapping {
    struct povundiri_mapping *next;
    int descriptor; /* -1 if there is none */
    dev_t device;   /* with the inode the file that the descriptor was opened for */
    ino_t inode;
    void *at;      /* null if nothing is mapped */
    size_t bytes;  /* that are mapped */
    off_t was;     /* how long the file was before it was opened */
    bool is_kept;  /* in children of fork */
    pid_t process; /* that opened it, or was forked and keeps it */
};

/* Held while a descriptor or a mapping is made or ends, and while the process forks: so a child knows each that it has. */
static pthread_mutex_t mutex = PTHREAD_MUTEX_INITIALIZER;
static struct povundiri_mapping *all;
static pthread_once_t once = PTHREAD_ONCE_INIT;

/* Changes only in a child, while it has one thread. */
uint64_t povundiri_fork_number = 0;

/* Whether the descriptor is still that of the file: a daemon may have closed all of its own, and the number be another file's by now. */
static bool has_descriptor(const struct povundiri_mapping *mapping) {
    struct stat about;
    if (mapping->descriptor < 0) return false;
    if (fstat(mapping->descriptor, &about) != 0) return errno != EBADF;
    return mapping->inode == 0 || (about.st_dev == mapping->device && about.st_ino == mapping->inode);
}

/* Closes the descriptor, and so ends the lock unless another process has it as well. The mutex is held. */
static void give_up_descriptor(struct povundiri_mapping *mapping) {
    if (has_descriptor(mapping)) close(mapping->descriptor);
    mapping->descriptor = -1;
    mapping->inode = 0;
}

static void before_fork(void) {
    pthread_mutex_lock(&mutex);
}

static void in_parent(void) {
    pthread_mutex_unlock(&mutex);
}

/* The memory of those that are not kept is not mapped in a child. */
static void in_child(void) {
    struct povundiri_mapping *mapping;
    for (mapping = all; mapping != NULL; mapping = mapping->next) {
        if (mapping->is_kept) {
            mapping->process = getpid();
        } else {
            give_up_descriptor(mapping);
            mapping->at = NULL;
        }
    }
    povundiri_fork_number += 1;
    pthread_mutex_unlock(&mutex);
}

static void watch_forks(void) {
    if (pthread_atfork(before_fork, in_parent, in_child) == 0) povundiri_fork_number = 1;
}

uint64_t povundiri_fork_generation(void) {
    pthread_once(&once, watch_forks);
    return povundiri_fork_number;
}

/* One of which nothing is open yet. Null if there is no memory. */
static struct povundiri_mapping *new_mapping(bool is_kept) {
    struct povundiri_mapping *mapping = povundiri_fork_generation() == 0 ? NULL : calloc(1, sizeof *mapping);
    if (mapping == NULL) return NULL;
    mapping->descriptor = -1;
    mapping->is_kept = is_kept;
    mapping->process = getpid();
    pthread_mutex_lock(&mutex);
    mapping->next = all;
    all = mapping;
    pthread_mutex_unlock(&mutex);
    return mapping;
}

/* Whether it is open in this process: not in a child that _Fork or clone made, whose memory has other things there, if any. */
static bool is_here(const struct povundiri_mapping *mapping) {
    return mapping != NULL && mapping->at != NULL && (mapping->is_kept || mapping->process == getpid());
}

/* Unmaps and closes what is open of it. */
static void give_up(struct povundiri_mapping *mapping) {
    pthread_mutex_lock(&mutex);
    if (is_here(mapping)) munmap(mapping->at, mapping->bytes);
    mapping->at = NULL;
    give_up_descriptor(mapping);
    pthread_mutex_unlock(&mutex);
}

static void forget(struct povundiri_mapping *mapping) {
    struct povundiri_mapping **link = &all;
    int state;
    pthread_setcancelstate(PTHREAD_CANCEL_DISABLE, &state);
    give_up(mapping);
    pthread_mutex_lock(&mutex);
    while (*link != mapping) link = &(*link)->next;
    *link = mapping->next;
    pthread_mutex_unlock(&mutex);
    pthread_setcancelstate(state, NULL);
    free(mapping);
}

/* ---- What a file has ---- */

int povundiri_parts_read(int descriptor, void *to, size_t bytes, off_t at, size_t *got) {
    *got = 0;
    while (*got < bytes) {
        const ssize_t more = pread(descriptor, (char *)to + *got, bytes - *got, at + (off_t)*got);
        if (more < 0 && errno != EINTR) return errno;
        if (more == 0) break;
        if (more > 0) *got += (size_t)more;
    }
    return 0;
}

static bool are_zeros(const void *at, size_t bytes) {
    const unsigned char *each = (const unsigned char *)at;
    return bytes == 0 || (each[0] == 0 && memcmp(each, each + 1, bytes - 1) == 0);
}

/* Whether the file has only zeros from there to its end. */
static int look_for_zeros(int descriptor, off_t at, bool *only_zeros) {
    unsigned char block[BLOCK];
    size_t got = BLOCK;
    *only_zeros = true;
    while (got == BLOCK && *only_zeros) {
        const int fault = povundiri_parts_read(descriptor, block, BLOCK, at, &got);
        if (fault != 0) return fault;
        *only_zeros = are_zeros(block, got);
        at += (off_t)got;
    }
    return 0;
}

/* Whether the header is complete: its words that are never 0 are not 0. */
static bool is_made(const uint64_t *image) {
    size_t i;
    for (i = 0; i < sizeof NEVER_ZERO / sizeof NEVER_ZERO[0]; i += 1) {
        if (image[NEVER_ZERO[i]] == 0) return false;
    }
    return true;
}

/* Whether a segment of this many words is valid, and a file of this length has all of them. */
static bool has_all_words(uint64_t words, off_t length) {
    return words >= HEADER_WORDS && words <= MOST_WORDS && words < (uint64_t)length / WORD;
}

/* What is known of a file by its bytes. */
struct content {
    bool is_new;  /* nothing was counted there */
    size_t words; /* of a segment whose words are all there; else 0 */
};

/* EEXIST if a file of this length is neither new nor begins as a segment's. */
static int inspect(int descriptor, off_t length, struct content *content) {
    uint64_t first[1 + HEADER_WORDS] = {0};
    const uint64_t *image = first + 1;
    size_t got;
    bool begins, only_zeros;
    int fault;
    if (length > (off_t)most_bytes()) return EEXIST;
    fault = povundiri_parts_read(descriptor, first, sizeof first, 0, &got);
    if (fault == 0) fault = look_for_zeros(descriptor, (off_t)sizeof first, &only_zeros);
    if (fault != 0) return fault;
    begins = got >= 2 * WORD && first[0] == 0 && image[COOKIE_AT] == SEGMENT_COOKIE;
    if (!begins && !(only_zeros && are_zeros(first, sizeof first))) return EEXIST;
    content->is_new = only_zeros && !is_made(image);
    content->words = is_made(image) && has_all_words(image[SIZE_AT], length) ? (size_t)image[SIZE_AT] : 0;
    return 0;
}

/* ---- Opening ---- */

/* What is asked for. */
struct request {
    int folder; /* from which on the path is */
    const char *path;
    size_t bytes;
    size_t cursors; /* for which there has to be room after the words of a segment in the file */
    unsigned flags;
    mode_t mode;
    bool is_unnamed; /* a new file without a name, in the folder at the path */
};

bool povundiri_parts_are_known(const void *options, size_t first, size_t known) {
    size_t size;
    memcpy(&size, options, sizeof size);
    if (size == 0) return true;
    return size >= first && (size <= known || are_zeros((const char *)options + known, size - known));
}

bool povundiri_parts_is_mode(mode_t mode, unsigned flags) {
    if (mode == 0) return true;
    if ((mode & ~(mode_t)0775) != 0 || (mode & 0600) != 0600) return false;
    return (mode & S_IWGRP) == 0 || (flags & POVUNDIRI_FILE_GROUP_WRITES) != 0;
}

static int request_of(struct request *request, const char *path, const struct povundiri_file_options *options) {
    const mode_t mode = options == NULL ? 0 : options->mode;
    request->folder = AT_FDCWD;
    request->path = path;
    request->is_unnamed = false;
    request->flags = options == NULL ? 0 : options->flags;
    request->mode = mode == 0 ? 0600 : mode;
    if (options != NULL && !povundiri_parts_are_known(options, sizeof *options, sizeof *options)) return EINVAL;
    if (path == NULL || (request->flags & ~(unsigned)ALL_FLAGS) != 0) return EINVAL;
    return povundiri_parts_is_mode(mode, request->flags) ? 0 : EINVAL;
}

static int status_at(const struct request *request, struct stat *about) {
    const int flags = (request->flags & POVUNDIRI_FILE_FOLLOW) != 0 ? 0 : AT_SYMLINK_NOFOLLOW;
    return fstatat(request->folder, request->path, about, flags) == 0 ? 0 : errno;
}

/* What is no file is not even opened: opening alone may make a device do something. */
static int look_for_file(const struct request *request) {
    struct stat about;
    const int fault = status_at(request, &about);
    if (fault != 0) return fault == ENOENT ? 0 : fault;
    if (S_ISLNK(about.st_mode)) return ELOOP;
    return S_ISREG(about.st_mode) ? 0 : EINVAL;
}

static int open_descriptor(const struct request *request, struct povundiri_mapping *mapping) {
    const int no_link = (request->flags & POVUNDIRI_FILE_FOLLOW) != 0 ? 0 : O_NOFOLLOW;
    const int makes = (request->flags & POVUNDIRI_FILE_EXISTING) != 0 ? 0 : O_CREAT;
    const int how = request->is_unnamed ? O_TMPFILE : makes | no_link;
    int fault = request->is_unnamed ? 0 : look_for_file(request);
    if (fault != 0) return fault;
    do {
        pthread_mutex_lock(&mutex);
        mapping->descriptor = openat(request->folder, request->path, O_RDWR | O_CLOEXEC | O_NOCTTY | O_NONBLOCK | how, request->mode);
        fault = mapping->descriptor < 0 ? errno : 0;
        pthread_mutex_unlock(&mutex);
    } while (fault == EINTR);
    return fault == EWOULDBLOCK ? EBUSY : fault;
}

static int judge(const struct request *request, const struct stat *about) {
    if (!S_ISREG(about->st_mode)) return EINVAL;
    if ((request->flags & IS_MEMORY) != 0) return 0;
    if (about->st_uid != geteuid() && (request->flags & POVUNDIRI_FILE_ANY_OWNER) == 0) return EPERM;
    if ((about->st_mode & S_IWGRP) != 0 && (request->flags & POVUNDIRI_FILE_GROUP_WRITES) == 0) return EPERM;
    return (about->st_mode & S_IWOTH) != 0 ? EPERM : 0;
}

/* EBUSY if somebody else has the lock. */
static int lock(int descriptor) {
    while (flock(descriptor, LOCK_EX | LOCK_NB) != 0) {
        if (errno != EINTR) return errno == EWOULDBLOCK ? EBUSY : errno;
    }
    return 0;
}

/* EBUSY if the path leads to another file by now, or to none: somebody has set this one aside. */
static int look_for_name(const struct request *request, const struct stat *about) {
    struct stat named;
    const int fault = status_at(request, &named);
    if (fault != 0) return fault == ENOENT ? EBUSY : fault;
    return named.st_dev == about->st_dev && named.st_ino == about->st_ino ? 0 : EBUSY;
}

static void cut(int descriptor, off_t length) {
    while (ftruncate(descriptor, length) != 0 && errno == EINTR) continue;
}

/* The blocks are reserved in pieces, so that repeated signals do not keep one long call from its end. */
int povundiri_parts_reserve(int descriptor, off_t length, off_t bytes) {
    struct rlimit limit;
    off_t at;
    int fault = 0;
    if (getrlimit(RLIMIT_FSIZE, &limit) == 0 && limit.rlim_cur != RLIM_INFINITY && (rlim_t)bytes > limit.rlim_cur) return EFBIG;
    for (at = 0; at < bytes && fault == 0; at += PIECE) {
        do fault = posix_fallocate(descriptor, at, bytes - at < PIECE ? bytes - at : PIECE);
        while (fault == EINTR);
    }
    if (fault != 0 && length < bytes) cut(descriptor, length);
    return fault;
}

/* How many bytes to map: for a file whose words are not all there, all that it has; it keeps its length. */
static int give_length(const struct request *request, struct povundiri_mapping *mapping, size_t *bytes) {
    const size_t length = (size_t)mapping->was;
    struct content content;
    int fault;
    *bytes = length;
    if ((request->flags & IS_MEMORY) != 0) return 0;
    fault = inspect(mapping->descriptor, mapping->was, &content);
    if (fault != 0) return fault;
    if (!content.is_new && content.words == 0) return 0;
    *bytes = larger(rounded_up(length), request->bytes);
    if (!content.is_new) *bytes = larger(*bytes, povundiri_file_bytes(content.words, request->cursors));
    return povundiri_parts_reserve(mapping->descriptor, mapping->was, (off_t)*bytes);
}

static int map(struct povundiri_mapping *mapping, size_t bytes) {
    int fault = 0;
    void *at;
    pthread_mutex_lock(&mutex);
    at = mmap(NULL, bytes, PROT_READ | PROT_WRITE, MAP_SHARED, mapping->descriptor, 0);
    if (at == MAP_FAILED) {
        fault = errno;
    } else if (!mapping->is_kept && madvise(at, bytes, MADV_DONTFORK) != 0) {
        fault = errno;
        munmap(at, bytes);
    } else {
        mapping->at = at;
        mapping->bytes = bytes;
    }
    pthread_mutex_unlock(&mutex);
    return fault;
}

/* Gives the locked file its length, and maps it. */
static int prepare(const struct request *request, struct povundiri_mapping *mapping) {
    struct stat about;
    size_t bytes = 0;
    int fault = fstat(mapping->descriptor, &about) == 0 ? 0 : errno;
    if (fault != 0) return fault;
    mapping->was = about.st_size;
    fault = give_length(request, mapping, &bytes);
    if (fault != 0) return fault;
    fault = map(mapping, bytes);
    if (fault != 0 && mapping->was < (off_t)bytes) cut(mapping->descriptor, mapping->was);
    return fault;
}

static int open_once(const struct request *request, struct povundiri_mapping *mapping) {
    struct stat about;
    int fault = open_descriptor(request, mapping);
    if (fault != 0) return fault;
    fault = fstat(mapping->descriptor, &about) == 0 ? judge(request, &about) : errno;
    if (fault == 0) {
        mapping->device = about.st_dev;
        mapping->inode = about.st_ino;
        fault = lock(mapping->descriptor);
    }
    if (fault == 0 && !request->is_unnamed) fault = look_for_name(request, &about);
    if (fault == 0) fault = prepare(request, mapping);
    if (fault != 0) give_up(mapping);
    return fault;
}

static int64_t milliseconds(void) {
    struct timespec now;
    clock_gettime(CLOCK_MONOTONIC, &now);
    return (int64_t)now.tv_sec * 1000 + now.tv_nsec / 1000000;
}

/* Tries until nobody else has the lock, or for as long as it is tried. */
static int open_in_time(const struct request *request, struct povundiri_mapping *mapping) {
    const struct timespec nap = {0, NAP_NANOSECONDS};
    const int64_t ends = milliseconds() + MOST_MILLISECONDS;
    for (;;) {
        const int fault = open_once(request, mapping);
        if (fault != EBUSY || milliseconds() >= ends) return fault;
        nanosleep(&nap, NULL);
    }
}

/* A thread that is cancelled meanwhile ends after it: what it had open would stay open, and locked. */
static int open_request(struct povundiri_file *file, const struct request *request) {
    struct povundiri_mapping *mapping = new_mapping((request->flags & POVUNDIRI_FILE_KEEP_ON_FORK) != 0);
    int state, fault;
    if (mapping == NULL) return ENOMEM;
    pthread_setcancelstate(PTHREAD_CANCEL_DISABLE, &state);
    fault = open_in_time(request, mapping);
    pthread_setcancelstate(state, NULL);
    if (fault == 0) {
        file->mapping = mapping;
    } else {
        forget(mapping);
    }
    return fault;
}

int povundiri_file_open(struct povundiri_file *file, const char *path, size_t bytes, const struct povundiri_file_options *options) {
    struct request request;
    const int fault = request_of(&request, path, options);
    if (fault != 0 || file == NULL || file->mapping != NULL || bytes == 0 || bytes > most_bytes()) return EINVAL;
    request.bytes = rounded_up(bytes);
    request.cursors = 0;
    return open_request(file, &request);
}

int povundiri_parts_open_memory(struct povundiri_file *file, int descriptor) {
    struct request request = {AT_FDCWD, NULL, 0, 0, POVUNDIRI_FILE_FOLLOW | POVUNDIRI_FILE_EXISTING | IS_MEMORY, 0, false};
    char path[32];
    snprintf(path, sizeof path, "/proc/self/fd/%d", descriptor);
    request.path = path;
    return open_request(file, &request);
}

/* ---- Open files ---- */

bool povundiri_file_is_open(const struct povundiri_file *file) {
    return file != NULL && is_here(file->mapping);
}

int povundiri_file_descriptor(const struct povundiri_file *file) {
    return povundiri_file_is_open(file) ? file->mapping->descriptor : -1;
}

void povundiri_parts_close_descriptor(struct povundiri_file *file) {
    pthread_mutex_lock(&mutex);
    if (is_here(file->mapping)) {
        if (has_descriptor(file->mapping)) close(file->mapping->descriptor);
        file->mapping->descriptor = -1;
    }
    pthread_mutex_unlock(&mutex);
}

int povundiri_parts_name(const struct povundiri_file *file, int folder, const char *name) {
    const struct povundiri_mapping *const mapping = file->mapping;
    char open_file[64];
    if (!is_here(mapping) || !has_descriptor(mapping)) return EBADF;
    snprintf(open_file, sizeof open_file, "/proc/self/fd/%d", mapping->descriptor);
    return linkat(AT_FDCWD, open_file, folder, name, AT_SYMLINK_FOLLOW) == 0 ? 0 : errno;
}

bool povundiri_parts_stands(const struct povundiri_file *file, int folder, const char *name) {
    const struct povundiri_mapping *const mapping = file->mapping;
    struct stat about;
    if (fstatat(folder, name, &about, AT_SYMLINK_NOFOLLOW) != 0) return errno != ENOENT && errno != ENOTDIR;
    return about.st_dev == mapping->device && about.st_ino == mapping->inode;
}

struct povundiri_room povundiri_file_room(const struct povundiri_file *file) {
    struct povundiri_room room = {NULL, 0};
    if (!povundiri_file_is_open(file)) return room;
    room.at = file->mapping->at;
    room.bytes = file->mapping->bytes / UNIT * UNIT;
    return room;
}

/* Whether nothing was counted in these bytes, which are all that the file has. */
static bool is_unfinished(const unsigned char *bytes, size_t count) {
    uint64_t first[1 + HEADER_WORDS] = {0};
    const size_t known = count < sizeof first ? count : sizeof first;
    memcpy(first, bytes, known);
    return !is_made(first + 1) && are_zeros(bytes + known, count - known);
}

uint64_t *povundiri_file_words(const struct povundiri_file *file, size_t *count) {
    const uint64_t *image;
    uint64_t *words;
    size_t there;
    *count = 0;
    if (!povundiri_file_is_open(file)) return NULL;
    if (is_unfinished((const unsigned char *)file->mapping->at, file->mapping->bytes)) return NULL;
    image = (const uint64_t *)file->mapping->at + 1;
    there = file->mapping->bytes / WORD - 1;
    *count = image[SIZE_AT] != 0 && image[SIZE_AT] < there ? (size_t)image[SIZE_AT] : there;
    words = (uint64_t *)malloc(*count * WORD);
    if (words != NULL) memcpy(words, image, *count * WORD);
    return words;
}

int povundiri_file_keep_on_fork(struct povundiri_file *file, bool keep) {
    int fault = 0;
    if (!povundiri_file_is_open(file)) return EINVAL;
    pthread_mutex_lock(&mutex);
    if (madvise(file->mapping->at, file->mapping->bytes, keep ? MADV_DOFORK : MADV_DONTFORK) != 0) fault = errno;
    if (fault == 0) {
        file->mapping->is_kept = keep;
        file->mapping->process = getpid();
    }
    pthread_mutex_unlock(&mutex);
    return fault;
}

void povundiri_file_close(struct povundiri_file *file) {
    if (file == NULL || file->mapping == NULL) return;
    forget(file->mapping);
    file->mapping = NULL;
}

/* ---- Setting aside ---- */

/* Never over another file. If the system cannot do it in one step, the file has both names for a moment. */
static int rename_to_free(const char *from, const char *to) {
    do {
        if (renameat2(AT_FDCWD, from, AT_FDCWD, to, RENAME_NOREPLACE) == 0) return 0;
    } while (errno == EINTR);
    if (errno != EINVAL && errno != ENOSYS) return errno;
    return link(from, to) == 0 && unlink(from) == 0 ? 0 : errno;
}

/* Gives the file the first name PATH.KIND-YYYYMMDDThhmmssZ-N that is free. */
static int rename_aside(const char *path, const char *kind, char *name) {
    const time_t now = time(NULL);
    struct tm parts;
    char stamp[32];
    int number, fault = EEXIST;
    if (gmtime_r(&now, &parts) == NULL || strftime(stamp, sizeof stamp, "%Y%m%dT%H%M%SZ", &parts) == 0) return EOVERFLOW;
    for (number = 1; fault == EEXIST && number <= MOST_NAMES; number += 1) {
        const int length = snprintf(name, POVUNDIRI_PATH_BYTES, "%s.%s-%s-%d", path, kind, stamp, number);
        fault = length < 0 || length >= POVUNDIRI_PATH_BYTES ? ENAMETOOLONG : rename_to_free(path, name);
    }
    if (fault != 0) name[0] = 0;
    return fault;
}

/* The open file gets another name; if the path is that of a link, the file that it leads to. */
static int set_aside(const struct request *request, const struct povundiri_file *file, const char *kind, char *name) {
    const bool follows = (request->flags & POVUNDIRI_FILE_FOLLOW) != 0;
    char *real = follows ? realpath(request->path, NULL) : NULL;
    struct request at_its_place = *request;
    struct stat about;
    int fault = follows && real == NULL ? errno : 0;
    if (follows) at_its_place.path = real;
    if (fault == 0 && fstat(file->mapping->descriptor, &about) != 0) fault = errno;
    if (fault == 0) fault = look_for_name(&at_its_place, &about);
    if (fault == 0) fault = rename_aside(at_its_place.path, kind, name);
    free(real);
    return fault;
}

/* ---- Segments in files ---- */

/* A call of povundiri_open. */
struct task {
    struct request request;
    struct povundiri_shape shape;
    enum povundiri_policy policy;
    struct povundiri_file *file;
    struct povundiri_handle *segment;
    struct povundiri_opened *opened;
};

static uint32_t system_fault(struct povundiri_opened *opened, int fault) {
    opened->fault = fault;
    return POVUNDIRI_SYSTEM;
}

/* An image of which no later call will say anything else. */
static bool is_refused_for_good(uint32_t status) {
    return (status >= POVUNDIRI_ADOPT_OLD_VERSION && status <= POVUNDIRI_ADOPT_NO_UNITS) ||
           (status >= POVUNDIRI_IMAGE_TOO_SHORT && status <= POVUNDIRI_IMAGE_BAD_QUEUE);
}

/* A new segment. Zeros come before it, so that what a killed process had begun is not taken for a part of its header. */
static uint32_t make(const struct task *task) {
    const struct povundiri_room room = povundiri_file_room(task->file);
    struct povundiri_opened *opened = task->opened;
    uint32_t status;
    if (room.bytes < task->request.bytes) return POVUNDIRI_OPEN_NO_MEMORY;
    memset(room.at, 0, (1 + HEADER_WORDS) * WORD);
    status = povundiri_create_in(room, task->shape, task->segment);
    if (status != POVUNDIRI_DONE) return status;
    opened->outcome = opened->set_aside[0] == 0 ? POVUNDIRI_MADE : POVUNDIRI_MADE_ANEW;
    opened->shape = task->shape;
    return povundiri_units(task->segment, &opened->units);
}

/* What is reported of an adopted segment with this header. */
static void describe(struct povundiri_opened *opened, const uint64_t *image, const struct povundiri_shape *asked) {
    const struct povundiri_shape shape = {image[SIZE_AT], image[PAGE_AT], image[ID_AT], asked->cursors, image[VERSION_AT]};
    opened->outcome = POVUNDIRI_ADOPTED;
    opened->shape = shape;
    opened->other_shape =
        shape.size != asked->size || shape.page != asked->page || shape.id != asked->id || shape.version != asked->version;
    opened->spent = (image[FLAGS_AT] & FLAG_FULL) != 0;
}

static uint32_t adopt(const struct task *task, const uint64_t *words, size_t count) {
    const struct povundiri_room room = povundiri_file_room(task->file);
    const uint32_t status = povundiri_adopt_in(room, words, count, task->shape.cursors, task->segment);
    if (status != POVUNDIRI_DONE) return status;
    describe(task->opened, words, &task->shape);
    return povundiri_units(task->segment, &task->opened->units);
}

static uint32_t adopt_or_make(const struct task *task) {
    size_t count;
    uint64_t *words = povundiri_file_words(task->file, &count);
    uint32_t status;
    if (count == 0) return make(task);
    if (words == NULL) return POVUNDIRI_NO_MEMORY;
    status = adopt(task, words, count);
    free(words);
    return status;
}

/* The kind under which the file has to be set aside, or null. That is done once in a call. */
static const char *kind_of(const struct task *task, uint32_t status) {
    if (task->policy == POVUNDIRI_ADOPT_OR_FAIL || task->opened->set_aside[0] != 0) return NULL;
    if (is_refused_for_good(status)) return "damaged";
    return status == POVUNDIRI_DONE && task->opened->spent && task->policy == POVUNDIRI_ADOPT_OR_BEGIN_ANEW ? "full" : NULL;
}

/* Closes the file, which gets its old length again. */
static void close_as_it_was(struct povundiri_file *file) {
    struct povundiri_mapping *mapping = file->mapping;
    munmap(mapping->at, mapping->bytes);
    mapping->at = NULL;
    if (mapping->was < (off_t)mapping->bytes) cut(mapping->descriptor, mapping->was);
    povundiri_file_close(file);
}

/* Gives up what was opened, and what was reported of it. */
static void take_back(const struct task *task) {
    const struct povundiri_shape none = {0, 0, 0, 0, 0};
    struct povundiri_opened *opened = task->opened;
    if (task->segment->held) povundiri_drop(task->segment);
    close_as_it_was(task->file);
    opened->outcome = POVUNDIRI_NOTHING;
    opened->shape = none;
    opened->other_shape = opened->spent = false;
    opened->units = 0;
}

/* Opens the file at the path, if any. `again` if it was set aside. */
static uint32_t open_one(const struct task *task, bool *again) {
    struct povundiri_opened *opened = task->opened;
    int fault = open_request(task->file, &task->request);
    const char *kind;
    uint32_t status;
    *again = false;
    if (fault != 0) return system_fault(opened, fault);
    status = adopt_or_make(task);
    if (status == POVUNDIRI_DONE && opened->units == 0) opened->spent = true;
    kind = kind_of(task, status);
    if (status == POVUNDIRI_DONE && kind == NULL) return status;
    if (is_refused_for_good(status)) opened->refused = status;
    if (kind != NULL) fault = set_aside(&task->request, task->file, kind, opened->set_aside);
    take_back(task);
    *again = kind != NULL && fault == 0;
    return fault == 0 ? status : system_fault(opened, fault);
}

static bool is_policy(enum povundiri_policy policy) {
    return policy == POVUNDIRI_ADOPT_OR_FAIL || policy == POVUNDIRI_ADOPT_OR_SET_ASIDE || policy == POVUNDIRI_ADOPT_OR_BEGIN_ANEW;
}

/* Whether a segment of this shape may be made, before any file is touched. */
static uint32_t check_shape(struct povundiri_shape shape) {
    struct povundiri_handle segment = {false, NULL};
    const uint32_t status = povundiri_create(shape, &segment);
    return status == POVUNDIRI_DONE ? povundiri_drop(&segment) : status;
}

/* Opens what the task has, in which `request`, `policy` and `opened` are set. */
static uint32_t open_segment(struct task *task, struct povundiri_shape shape, struct povundiri_file *file,
                             struct povundiri_handle *segment) {
    uint32_t status = check_shape(shape);
    bool again;
    if (status != POVUNDIRI_DONE) return status;
    task->request.bytes = povundiri_file_bytes(shape.size, shape.cursors);
    task->request.cursors = shape.cursors;
    task->shape = shape;
    task->file = file;
    task->segment = segment;
    do {
        status = open_one(task, &again);
    } while (again);
    return status;
}

/* Whether the caller has room for the first layout, which ends where the struct does, since there is no other yet. Nothing is told in it. */
static bool begins(struct povundiri_opened *opened) {
    const size_t size = opened->size;
    if (size != 0 && size < sizeof *opened) return false;
    memset(opened, 0, sizeof *opened);
    opened->size = size;
    return true;
}

uint32_t povundiri_open(const char *path, struct povundiri_shape shape, enum povundiri_policy policy,
                        const struct povundiri_file_options *options, struct povundiri_file *file, struct povundiri_handle *segment,
                        struct povundiri_opened *opened) {
    struct task task;
    if (path == NULL || file == NULL || segment == NULL || opened == NULL) return POVUNDIRI_NULL;
    if (!begins(opened)) return POVUNDIRI_SHORT;
    if (file->mapping != NULL || segment->held) return POVUNDIRI_NOT_EMPTY;
    if (!is_policy(policy)) return POVUNDIRI_BAD_KIND;
    if (request_of(&task.request, path, options) != 0) return POVUNDIRI_BAD_OPTIONS;
    task.policy = policy;
    task.opened = opened;
    return open_segment(&task, shape, file, segment);
}

uint32_t povundiri_parts_open_in(int folder, const char *name, struct povundiri_shape shape, unsigned flags, mode_t mode,
                                 struct povundiri_file *file, struct povundiri_handle *segment, struct povundiri_opened *opened) {
    const struct povundiri_file_options options = {sizeof options, flags, mode};
    struct task task;
    memset(opened, 0, sizeof *opened);
    if (request_of(&task.request, name != NULL ? name : ".", &options) != 0) return POVUNDIRI_BAD_OPTIONS;
    task.request.folder = folder;
    task.request.is_unnamed = name == NULL;
    task.policy = POVUNDIRI_ADOPT_OR_FAIL;
    task.opened = opened;
    return open_segment(&task, shape, file, segment);
}
