/* The calls to the system, and the heap, that shared.c has in place of the library's: each of them may fail, or kill the process. */
#ifndef SHARED_CALLS_H
#define SHARED_CALLS_H

#include "files.h"

#include <stdarg.h>
#include <sys/mman.h>
#include <sys/random.h>

/* ---- The system's calls ---- */

/* Which of the next calls, from 1 on, the process is killed at, or which fails, and how; 0 for none. */
static int calls, killed_at, failing_at, failing_with = EIO;

/* How often the next calls are interrupted before they are made; whether MFD_NOEXEC_SEAL is unknown. */
static int interruptions, interrupted, is_old;

static int fails(void) {
    calls += 1;
    if (calls == killed_at) raise(SIGKILL);
    errno = failing_with;
    return calls == failing_at;
}

static int is_interrupted(void) {
    if (interrupted >= interruptions) {
        interrupted = 0;
        return 0;
    }
    interrupted += 1;
    errno = EINTR;
    return 1;
}

int test_memfd_create(const char *name, unsigned flags);
int test_memfd_create(const char *name, unsigned flags) {
    if (fails()) return -1;
    if (!is_old || (flags & 8) == 0) return memfd_create(name, flags);
    errno = EINVAL;
    return -1;
}

ssize_t test_getrandom(void *to, size_t bytes, unsigned flags);
ssize_t test_getrandom(void *to, size_t bytes, unsigned flags) {
    return is_interrupted() || fails() ? -1 : getrandom(to, bytes, flags);
}

int test_fcntl(int descriptor, int command, ...);
int test_fcntl(int descriptor, int command, ...) {
    va_list more;
    long argument;
    va_start(more, command);
    argument = va_arg(more, long);
    va_end(more);
    return fails() ? -1 : fcntl(descriptor, command, argument);
}

int test_open(const char *path, int flags, ...);
int test_open(const char *path, int flags, ...) {
    return is_interrupted() || fails() ? -1 : open(path, flags);
}

int test_fstat(int descriptor, struct stat *about);
int test_fstat(int descriptor, struct stat *about) {
    return fails() ? -1 : fstat(descriptor, about);
}

int test_fstatat(int directory, const char *path, struct stat *about, int flags);
int test_fstatat(int directory, const char *path, struct stat *about, int flags) {
    return fails() ? -1 : fstatat(directory, path, about, flags);
}

int test_flock(int descriptor, int how);
int test_flock(int descriptor, int how) {
    return is_interrupted() || fails() ? -1 : flock(descriptor, how);
}

int test_posix_fallocate(int descriptor, off_t at, off_t bytes);
int test_posix_fallocate(int descriptor, off_t at, off_t bytes) {
    if (is_interrupted()) return EINTR;
    return fails() ? failing_with : posix_fallocate(descriptor, at, bytes);
}

void *test_mmap(void *at, size_t bytes, int protection, int flags, int descriptor, off_t offset);
void *test_mmap(void *at, size_t bytes, int protection, int flags, int descriptor, off_t offset) {
    return fails() ? MAP_FAILED : mmap(at, bytes, protection, flags, descriptor, offset);
}

int test_madvise(void *at, size_t bytes, int advice);
int test_madvise(void *at, size_t bytes, int advice) {
    return fails() ? -1 : madvise(at, bytes, advice);
}

/* ---- Memory ---- */

/* Which of the next allocations, from 1 on, is refused; 0 for none. Those of the library go through heap.h. */
static int allocations, refused_at;

static bool is_refused(size_t size) {
    (void)size;
    allocations += 1;
    return allocations == refused_at;
}

#include "heap.h"

void *test_malloc(size_t size);
void *test_malloc(size_t size) {
    return is_refused(size) ? NULL : malloc(size);
}

void *test_calloc(size_t count, size_t size);
void *test_calloc(size_t count, size_t size) {
    return is_refused(count * size) ? NULL : calloc(count, size);
}

#endif
