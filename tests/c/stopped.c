/* Linked into a program with the words of `wrapped` (tests/parts/recordings.py): those of its calls to the system that others can see come
 * here first. If the environment has STOP_AT, a number from 1 on, the process kills itself before that one of these calls. If it has
 * STOP_TELLS, the process prints at its end how many there were. If it has NO_UNNAMED, the system makes no files without a name. */
#define _GNU_SOURCE

#include <errno.h>
#include <fcntl.h>
#include <signal.h>
#include <stdarg.h>
#include <stdio.h>
#include <stdlib.h>
#include <sys/mman.h>
#include <sys/types.h>
#include <unistd.h>

int __real_openat(int folder, const char *path, int flags, ...);
int __real_close(int descriptor);
int __real_flock(int descriptor, int how);
int __real_fsync(int descriptor);
int __real_ftruncate(int descriptor, off_t length);
int __real_linkat(int from_folder, const char *from, int to_folder, const char *to, int flags);
void *__real_mmap(void *at, size_t length, int protection, int flags, int descriptor, off_t offset);
int __real_posix_fallocate(int descriptor, off_t from, off_t length);
ssize_t __real_pread(int descriptor, void *to, size_t bytes, off_t at);
int __real_renameat(int from_folder, const char *from, int to_folder, const char *to);
int __real_unlinkat(int folder, const char *path, int flags);
ssize_t __real_write(int descriptor, const void *from, size_t bytes);

static long number_of(const char *name) {
    const char *const text = getenv(name);
    return text == NULL ? 0 : atol(text);
}

static long calls;

static void step(void) {
    if (__atomic_add_fetch(&calls, 1, __ATOMIC_RELAXED) == number_of("STOP_AT")) kill(getpid(), SIGKILL);
}

static __attribute__((destructor)) void tell(void) {
    if (getenv("STOP_TELLS") != NULL) fprintf(stderr, "%ld calls\n", __atomic_load_n(&calls, __ATOMIC_RELAXED));
}

int __wrap_openat(int folder, const char *path, int flags, ...) {
    va_list more;
    int mode = 0;
    va_start(more, flags);
    if ((flags & O_CREAT) != 0 || (flags & O_TMPFILE) == O_TMPFILE) mode = va_arg(more, int);
    va_end(more);
    step();
    if ((flags & O_TMPFILE) == O_TMPFILE && getenv("NO_UNNAMED") != NULL) {
        errno = EOPNOTSUPP;
        return -1;
    }
    return __real_openat(folder, path, flags, mode);
}

int __wrap_close(int descriptor) {
    step();
    return __real_close(descriptor);
}

int __wrap_flock(int descriptor, int how) {
    step();
    return __real_flock(descriptor, how);
}

int __wrap_fsync(int descriptor) {
    step();
    return __real_fsync(descriptor);
}

int __wrap_ftruncate(int descriptor, off_t length) {
    step();
    return __real_ftruncate(descriptor, length);
}

int __wrap_linkat(int from_folder, const char *from, int to_folder, const char *to, int flags) {
    step();
    return __real_linkat(from_folder, from, to_folder, to, flags);
}

void *__wrap_mmap(void *at, size_t length, int protection, int flags, int descriptor, off_t offset) {
    step();
    return __real_mmap(at, length, protection, flags, descriptor, offset);
}

int __wrap_posix_fallocate(int descriptor, off_t from, off_t length) {
    step();
    return __real_posix_fallocate(descriptor, from, length);
}

ssize_t __wrap_pread(int descriptor, void *to, size_t bytes, off_t at) {
    step();
    return __real_pread(descriptor, to, bytes, at);
}

int __wrap_renameat(int from_folder, const char *from, int to_folder, const char *to) {
    step();
    return __real_renameat(from_folder, from, to_folder, to);
}

int __wrap_unlinkat(int folder, const char *path, int flags) {
    step();
    return __real_unlinkat(folder, path, flags);
}

/* Half of the bytes come first, so that a text is cut off. */
ssize_t __wrap_write(int descriptor, const void *from, size_t bytes) {
    step();
    return __real_write(descriptor, from, bytes > 1 ? bytes / 2 : bytes);
}
