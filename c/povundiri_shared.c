#define _GNU_SOURCE /* memfd_create, F_ADD_SEALS */

#include "povundiri_shared.h"

#include <errno.h>
#include <fcntl.h>
#include <pthread.h>
#include <stdlib.h>
#include <string.h>
#include <sys/mman.h>
#include <sys/random.h>
#include <sys/stat.h>
#include <unistd.h>

#include "povundiri_file_parts.h"
#include "povundiri_layout.h"

/* Whole units of 16 bytes; the most cursors of a segment; the only version that can be adopted; the seals that memory has at least. */
enum { UNIT = 16, MOST_CURSORS = 8, VERSION = 2, SEALS = F_SEAL_SHRINK | F_SEAL_GROW | F_SEAL_SEAL };

/* MFD_NOEXEC_SEAL, which older headers do not have. */
static const unsigned NOEXEC_SEAL = 8;

static bool holds_nothing(const struct povundiri_shared *shared) {
    return shared->at == NULL && shared->file.mapping == NULL;
}

static uint32_t system_fault(struct povundiri_shared *shared, int fault) {
    shared->fault = fault;
    return POVUNDIRI_SYSTEM;
}

/* ---- In the parent ---- */

/* Memory without bytes, which nobody may execute, if the system knows that. */
static int new_descriptor(void) {
    const int descriptor = memfd_create("povundiri", MFD_CLOEXEC | MFD_ALLOW_SEALING | NOEXEC_SEAL);
    return descriptor >= 0 || errno != EINVAL ? descriptor : memfd_create("povundiri", MFD_CLOEXEC | MFD_ALLOW_SEALING);
}

static int random_number(uint64_t *number) {
    ssize_t got;
    do {
        got = getrandom(number, sizeof *number, 0);
    } while (got < 0 && errno == EINTR);
    return got < 0 ? errno : got == (ssize_t)sizeof *number ? 0 : EIO;
}

/* Makes the empty segment in the memory, of which nothing stays mapped. */
static uint32_t make_segment(struct povundiri_shared *made, int descriptor) {
    const struct povundiri_room room = {mmap(NULL, made->bytes, PROT_READ | PROT_WRITE, MAP_SHARED, descriptor, 0), made->bytes};
    struct povundiri_handle segment = {false, NULL};
    uint32_t status;
    if (room.at == MAP_FAILED) return system_fault(made, errno);
    status = povundiri_create_in(room, made->shape, &segment);
    if (status == POVUNDIRI_DONE) status = povundiri_drop(&segment);
    munmap(room.at, room.bytes);
    return status;
}

/* Seals the memory, and maps it to look at. */
static int seal_and_map(struct povundiri_shared *made, int descriptor) {
    void *at;
    if (fcntl(descriptor, F_ADD_SEALS, SEALS) != 0) return errno;
    at = mmap(NULL, made->bytes, PROT_READ, MAP_SHARED, descriptor, 0);
    if (at == MAP_FAILED) return errno;
    made->at = at;
    return 0;
}

/* Fills memory that has no bytes yet. */
static uint32_t fill(struct povundiri_shared *made, int descriptor) {
    int fault = povundiri_parts_reserve(descriptor, 0, (off_t)made->bytes);
    uint32_t status;
    if (fault == 0) fault = random_number(&made->shape.id);
    if (fault != 0) return system_fault(made, fault);
    status = make_segment(made, descriptor);
    if (status != POVUNDIRI_DONE) return status;
    fault = seal_and_map(made, descriptor);
    return fault == 0 ? status : system_fault(made, fault);
}

/* A thread that is cancelled meanwhile ends after it: what it had open would stay open. */
static uint32_t make(struct povundiri_shared *made) {
    uint32_t status;
    int state;
    pthread_setcancelstate(PTHREAD_CANCEL_DISABLE, &state);
    made->descriptor = new_descriptor();
    status = made->descriptor < 0 ? system_fault(made, errno) : fill(made, made->descriptor);
    if (status != POVUNDIRI_DONE && made->descriptor >= 0) close(made->descriptor);
    pthread_setcancelstate(state, NULL);
    return status;
}

uint32_t povundiri_shared_create(struct povundiri_shape shape, struct povundiri_shared *shared) {
    struct povundiri_shared made;
    uint32_t status;
    if (shared == NULL) return POVUNDIRI_NULL;
    if (!holds_nothing(shared)) return POVUNDIRI_NOT_EMPTY;
    memset(&made, 0, sizeof made);
    made.shape = shape;
    made.bytes = povundiri_file_bytes(shape.size, shape.cursors);
    shared->fault = 0;
    if (shape.version != VERSION || shape.size > MOST_WORDS) return POVUNDIRI_OPEN_BAD_SHAPE;
    if (made.bytes == 0) return POVUNDIRI_OPEN_BAD_CURSORS;
    status = make(&made);
    if (status == POVUNDIRI_DONE) {
        *shared = made;
    } else {
        shared->fault = made.fault;
    }
    return status;
}

int povundiri_shared_descriptor(const struct povundiri_shared *shared) {
    return shared != NULL && shared->at != NULL ? shared->descriptor : -1;
}

/* ---- In the child ---- */

/* Whether a descriptor is of memory that may be opened: 0, or why not. */
static int judge(int descriptor) {
    const int seals = fcntl(descriptor, F_GET_SEALS);
    struct stat about;
    int flags;
    if (seals < 0) return errno;
    if ((seals & SEALS) != SEALS) return EPERM;
    flags = fcntl(descriptor, F_GETFL);
    if (flags < 0 || fstat(descriptor, &about) != 0) return errno;
    if ((flags & O_ACCMODE) != O_RDWR) return EACCES;
    if (about.st_size > (off_t)povundiri_file_bytes(MOST_WORDS, MOST_CURSORS)) return EFBIG;
    return about.st_size <= 0 || about.st_size % UNIT != 0 ? EINVAL : 0;
}

/* A copy of the words of the image in a room, as many as its header says, or all that are there. Null if there is no memory. */
static uint64_t *copy_of(struct povundiri_room room, size_t *count) {
    const uint64_t *image = (const uint64_t *)room.at + 1;
    const size_t there = room.bytes / WORD - 1;
    const uint64_t size = there > SIZE_AT ? image[SIZE_AT] : 0;
    uint64_t *words;
    *count = size != 0 && size < there ? (size_t)size : there;
    words = (uint64_t *)malloc(*count * WORD);
    if (words != NULL) memcpy(words, image, *count * WORD);
    return words;
}

/* Goes on with the segment in memory that is open. */
static uint32_t adopt(struct povundiri_shared *shared, size_t cursors, struct povundiri_handle *segment) {
    const struct povundiri_room room = povundiri_file_room(&shared->file);
    size_t count;
    uint64_t *words = copy_of(room, &count);
    uint32_t status;
    if (words == NULL) return POVUNDIRI_NO_MEMORY;
    status = povundiri_adopt_in(room, words, count, cursors, segment);
    if (status == POVUNDIRI_DONE) {
        const struct povundiri_shape shape = {words[SIZE_AT], words[PAGE_AT], words[ID_AT], cursors, words[VERSION_AT]};
        shared->shape = shape;
    }
    free(words);
    return status;
}

uint32_t povundiri_shared_open(int descriptor, size_t cursors, struct povundiri_shared *shared, struct povundiri_handle *segment) {
    uint32_t status;
    int fault;
    if (shared == NULL || segment == NULL) return POVUNDIRI_NULL;
    if (!holds_nothing(shared) || segment->held) return POVUNDIRI_NOT_EMPTY;
    shared->fault = 0;
    fault = judge(descriptor);
    if (fault == 0) fault = povundiri_parts_open_memory(&shared->file, descriptor);
    if (fault != 0) return system_fault(shared, fault);
    status = adopt(shared, cursors, segment);
    if (status != POVUNDIRI_DONE) povundiri_file_close(&shared->file);
    return status;
}

/* ---- In both ---- */

uint32_t povundiri_shared_look(const struct povundiri_shared *shared, uint64_t *image, size_t image_length, size_t *needed) {
    const void *at;
    if (shared == NULL) return POVUNDIRI_NULL;
    at = shared->at != NULL ? shared->at : povundiri_file_room(&shared->file).at;
    if (at == NULL) return POVUNDIRI_EMPTY;
    return povundiri_look((const uint64_t *)at + 1, (size_t)shared->shape.size, image, image_length, needed);
}

void povundiri_shared_close(struct povundiri_shared *shared) {
    int state;
    if (shared == NULL || holds_nothing(shared)) return;
    pthread_setcancelstate(PTHREAD_CANCEL_DISABLE, &state);
    povundiri_file_close(&shared->file);
    if (shared->at != NULL) {
        munmap((void *)(uintptr_t)shared->at, shared->bytes);
        close(shared->descriptor);
    }
    memset(shared, 0, sizeof *shared);
    pthread_setcancelstate(state, NULL);
}
