/* Loaded before a program (LD_PRELOAD): the device of each file is full. */
#define _GNU_SOURCE

#include <errno.h>
#include <fcntl.h>

int posix_fallocate(int descriptor, off_t from, off_t length) {
    (void)descriptor;
    (void)from;
    (void)length;
    return ENOSPC;
}

int fallocate(int descriptor, int mode, off_t from, off_t length) {
    (void)mode;
    errno = posix_fallocate(descriptor, from, length);
    return -1;
}
