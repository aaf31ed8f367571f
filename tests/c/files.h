/* What the tests of povundiri_file.h share: files in a folder, segments in them, and children. */
#ifndef FILES_H
#define FILES_H

#ifndef _GNU_SOURCE
#define _GNU_SOURCE
#endif

#include <errno.h>
#include <fcntl.h>
#include <signal.h>
#include <stdio.h>
#include <stdlib.h>
#include <sys/file.h>
#include <sys/resource.h>
#include <sys/stat.h>
#include <sys/time.h>
#include <sys/wait.h>
#include <time.h>
#include <unistd.h>

#include "checks.h"
#include "povundiri_file.h"

#define UNUSED __attribute__((unused))

/* The shape of small segments. */
enum { WORDS = 1024, PAGE = 256, CURSORS = 2 };

/* The longest file of a segment: 1,048,576 words, a word before them, eight cursors. */
enum { LARGEST = 8388688 };

static const char *folder;

/* The path of a name in the folder. It is valid until this thread's fourth call after this one. */
static const char *path_of(const char *name) {
    static __thread char paths[4][4096];
    static __thread int turn;
    turn = (turn + 1) % 4;
    snprintf(paths[turn], sizeof paths[turn], "%s/%s", folder, name);
    return paths[turn];
}

static UNUSED struct povundiri_shape shape_of(uint64_t size) {
    const struct povundiri_shape shape = {size, PAGE, 7, CURSORS, 2};
    return shape;
}

/* A child that was forked, and how it ends: its status, or 1000 and its signal. */
static UNUSED int end_of(pid_t child) {
    int status = 0;
    while (waitpid(child, &status, 0) < 0 && errno == EINTR) continue;
    return WIFEXITED(status) ? WEXITSTATUS(status) : 1000 + WTERMSIG(status);
}

static UNUSED void sleep_for(int milliseconds) {
    struct timespec left = {milliseconds / 1000, (long)(milliseconds % 1000) * 1000000};
    while (nanosleep(&left, &left) != 0) continue;
}

static UNUSED int64_t milliseconds_now(void) {
    struct timespec now;
    clock_gettime(CLOCK_MONOTONIC, &now);
    return (int64_t)now.tv_sec * 1000 + now.tv_nsec / 1000000;
}

/* ---- The bytes of files ---- */

static UNUSED void store(const char *name, const void *bytes, size_t length) {
    const int descriptor = open(path_of(name), O_WRONLY | O_CREAT | O_TRUNC | O_CLOEXEC, 0600);
    HOLDS(write(descriptor, bytes, length) == (ssize_t)length && fchmod(descriptor, 0600) == 0 && close(descriptor) == 0);
}

/* A file of zeros that has no blocks. */
static UNUSED void store_hole(const char *name, off_t length) {
    store(name, "", 0);
    HOLDS(truncate(path_of(name), length) == 0);
}

static UNUSED void store_at(const char *name, off_t at, const void *bytes, size_t length) {
    const int descriptor = open(path_of(name), O_WRONLY | O_CREAT, 0600);
    HOLDS(pwrite(descriptor, bytes, length, at) == (ssize_t)length && close(descriptor) == 0);
}

static UNUSED off_t length_of(const char *name) {
    struct stat about;
    return stat(path_of(name), &about) == 0 ? about.st_size : -1;
}

static UNUSED off_t blocks_of(const char *name) {
    struct stat about;
    return stat(path_of(name), &about) == 0 ? (off_t)about.st_blocks * 512 : -1;
}

static UNUSED int mode_of(const char *name) {
    struct stat about;
    return stat(path_of(name), &about) == 0 ? (int)(about.st_mode & 07777) : -1;
}

/* The bytes of the file at a path, to be freed by free(). */
static UNUSED unsigned char *bytes_at(const char *path, size_t *length) {
    const int descriptor = open(path, O_RDONLY | O_CLOEXEC);
    struct stat about;
    unsigned char *bytes;
    ssize_t got;
    *length = 0;
    if (descriptor < 0 || fstat(descriptor, &about) != 0) return NULL;
    bytes = malloc((size_t)about.st_size + 1);
    got = bytes == NULL ? 0 : read(descriptor, bytes, (size_t)about.st_size);
    if (got > 0) *length = (size_t)got;
    close(descriptor);
    return bytes;
}

static UNUSED int has_bytes(const char *path, const void *wanted, size_t length) {
    size_t there;
    unsigned char *bytes = bytes_at(path, &there);
    const int same = bytes != NULL && there == length && memcmp(bytes, wanted, length) == 0;
    free(bytes);
    return same;
}

static UNUSED int is_there(const char *path) {
    struct stat about;
    return lstat(path, &about) == 0;
}

/* ---- Segments in files ---- */

static UNUSED int open_file(struct povundiri_file *file, const char *name) {
    return povundiri_file_open(file, path_of(name), povundiri_file_bytes(WORDS, CURSORS), NULL);
}

/* Adds `count` units of 3 to the histogram 's'. */
static UNUSED void count_units(struct povundiri_handle *segment, uint32_t count) {
    struct povundiri_handle recorder = {0};
    size_t hist = 0;
    DONE(povundiri_recorder(segment, count, &recorder));
    DONE(povundiri_hist_sparse(&recorder, "s", &hist));
    DONE(povundiri_add(&recorder, hist, 3, count));
    DONE(povundiri_join(segment, &recorder));
}

/* Opens the file by a policy, and adds units if that succeeds. */
static UNUSED uint32_t open_and_count(const char *name, enum povundiri_policy policy, uint32_t count, struct povundiri_opened *opened) {
    struct povundiri_file file = {0};
    struct povundiri_handle segment = {0};
    const uint32_t status = povundiri_open(path_of(name), shape_of(WORDS), policy, NULL, &file, &segment, opened);
    HOLDS((status == POVUNDIRI_DONE) == segment.held && segment.held == povundiri_file_is_open(&file));
    if (status != POVUNDIRI_DONE) return status;
    if (count > 0) count_units(&segment, count);
    DONE(povundiri_drop(&segment));
    povundiri_file_close(&file);
    return status;
}

/* Makes a file with a segment in which 's' has `count` units of 3, in place of any other file of the name. */
static UNUSED void make_segment(const char *name, uint32_t count) {
    struct povundiri_opened opened = POVUNDIRI_OPENED;
    unlink(path_of(name));
    DONE(open_and_count(name, POVUNDIRI_ADOPT_OR_FAIL, count, &opened));
    HOLDS(opened.outcome == POVUNDIRI_MADE);
}

/* How many units of 3 's' has in the segment in a file; -1 if there is no segment. The file is only read. */
static UNUSED long units_in(const char *path) {
    size_t length, needed = 0;
    unsigned char *bytes = bytes_at(path, &length);
    uint64_t size = 0;
    uint64_t *words = NULL;
    char text[4096];
    unsigned units = 0;
    long found = -1;
    if (length >= 32) memcpy(&size, bytes + 24, 8);
    if (size <= length / 8 && size > 0) words = malloc((size_t)size * 8);
    if (words != NULL && 8 + size * 8 <= length) {
        memcpy(words, bytes + 8, (size_t)size * 8);
        if (povundiri_report(words, (size_t)size, text, sizeof text - 1, &needed) == POVUNDIRI_DONE) {
            text[needed] = 0;
            found = sscanf(text, "s,sparse,3,4,%u", &units) == 1 ? (long)units : 0;
        }
    }
    free(words);
    free(bytes);
    return found;
}

/* What another process gets if it opens the file, as a segment of one word. */
static UNUSED int opened_by_another(const char *name) {
    const pid_t child = fork();
    if (child == 0) {
        struct povundiri_file file = {0};
        _exit(povundiri_file_open(&file, path_of(name), 16, NULL));
    }
    return end_of(child);
}

#endif
