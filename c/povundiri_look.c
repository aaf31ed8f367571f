/* Looks at segments that are in use, in memory and in files: three copies of their words, which are put together. */
#define _GNU_SOURCE

#include <errno.h>
#include <fcntl.h>
#include <pthread.h>
#include <stdlib.h>
#include <sys/stat.h>
#include <unistd.h>

#include "povundiri_file_parts.h"
#include "povundiri_layout.h"

/* Three copies, one after the other. */
enum { COPIES = 3 };

/* ---- Memory ---- */

/* How many words the segment has, as its header says, if that many may be read; else all that may be. */
static size_t words_of(const uint64_t *words, size_t length) {
    const uint64_t size = length <= SIZE_AT ? 0 : __atomic_load_n(words + SIZE_AT, __ATOMIC_RELAXED);
    return size != 0 && size < length ? (size_t)size : length;
}

/* Loads each word once, in one order with all steps of recorders: each of those is sequentially consistent too. */
static void copy(uint64_t *to, const uint64_t *words, size_t length) {
    size_t i;
    for (i = 0; i < length; i += 1) to[i] = __atomic_load_n(words + i, __ATOMIC_SEQ_CST);
}

uint32_t povundiri_look(const uint64_t *words, size_t length, uint64_t *image, size_t image_length, size_t *needed) {
    size_t own = 0, count, i;
    uint64_t *copies;
    uint32_t status;
    if (!povundiri_is_array(words, length) || !povundiri_is_array(image, image_length)) return POVUNDIRI_NULL;
    count = words_of(words, length);
    needed = needed != NULL ? needed : &own;
    *needed = count;
    if (image_length < count) return POVUNDIRI_SHORT;
    copies = count > SIZE_MAX / (COPIES * sizeof *copies) ? NULL : (uint64_t *)malloc(count * COPIES * sizeof *copies + sizeof *copies);
    if (copies == NULL) return POVUNDIRI_NO_MEMORY;
    for (i = 0; i < COPIES; i += 1) copy(copies + i * count, words, count);
    status = povundiri_proved_compose(copies, count, copies + count, count, copies + 2 * count, count,
                                      (uint64_t *)povundiri_address(image), image_length);
    free(copies);
    return status;
}

/* ---- Files ---- */

/* Three reads of a file, one after the other: at which byte the image begins, how many words are read each time, and how many came. */
struct reads {
    off_t at;
    size_t count;
    uint64_t *words; /* the words of each read, after those of the read before */
    size_t got[COPIES];
};

/* Where the image is, and how many words it has by its header; if the file has fewer, or the header is not valid, all that it has, and one
 * more than the largest image has at most. */
static int find_image(int descriptor, struct reads *reads) {
    uint64_t first[1 + HEADER_WORDS] = {0};
    struct stat about;
    size_t got, there;
    uint64_t size;
    int fault = fstat(descriptor, &about) == 0 ? 0 : errno;
    if (fault == 0 && !S_ISREG(about.st_mode)) fault = EINVAL;
    if (fault == 0) fault = povundiri_parts_read(descriptor, first, sizeof first, 0, &got);
    if (fault != 0) return fault;
    reads->at = first[0] == 0 && first[1 + COOKIE_AT] == SEGMENT_COOKIE ? WORD : 0;
    size = first[(size_t)reads->at / WORD + SIZE_AT];
    there = about.st_size < reads->at ? 0 : (size_t)(about.st_size - reads->at) / WORD;
    if (there > MOST_WORDS + 1) there = MOST_WORDS + 1;
    reads->count = size != 0 && size < there ? (size_t)size : there;
    return 0;
}

static int read_thrice(int descriptor, struct reads *reads) {
    int fault = 0;
    size_t i;
    for (i = 0; i < COPIES && fault == 0; i += 1) {
        fault = povundiri_parts_read(descriptor, reads->words + i * reads->count, reads->count * WORD, reads->at, &reads->got[i]);
    }
    return fault;
}

/* The image that three reads give, whose words are at most as many as one read has. */
static uint32_t composed(const struct reads *reads, uint64_t *image, size_t *length) {
    const uint64_t *words = reads->words;
    *length = reads->got[2] / WORD;
    return povundiri_proved_compose(words, reads->got[0] / WORD, words + reads->count, reads->got[1] / WORD, words + 2 * reads->count,
                                    reads->got[2] / WORD, image, reads->count);
}

/* Reads the open file three times, into memory that is freed here, and puts the reads together. */
static uint32_t look_at(int descriptor, uint64_t **image, size_t *length, int *fault) {
    struct reads reads = {0, 0, NULL, {0, 0, 0}};
    uint32_t status = POVUNDIRI_SYSTEM;
    *fault = find_image(descriptor, &reads);
    if (*fault != 0) return status;
    reads.words = (uint64_t *)malloc((COPIES * reads.count + 1) * WORD);
    *image = (uint64_t *)malloc((reads.count + 1) * WORD);
    if (reads.words == NULL || *image == NULL) {
        status = POVUNDIRI_NO_MEMORY;
    } else {
        *fault = read_thrice(descriptor, &reads);
        if (*fault == 0) status = composed(&reads, *image, length);
    }
    free(reads.words);
    return status;
}

uint32_t povundiri_parts_look(int folder, const char *name, uint64_t **image, size_t *length, int *fault) {
    uint32_t status = POVUNDIRI_SYSTEM;
    int descriptor, state;
    *image = NULL;
    *length = 0;
    pthread_setcancelstate(PTHREAD_CANCEL_DISABLE, &state);
    do {
        descriptor = openat(folder, name, O_RDONLY | O_CLOEXEC | O_NOCTTY | O_NONBLOCK);
    } while (descriptor < 0 && errno == EINTR);
    *fault = descriptor < 0 ? errno : 0;
    if (descriptor >= 0) {
        status = look_at(descriptor, image, length, fault);
        close(descriptor);
    }
    pthread_setcancelstate(state, NULL);
    if (status != POVUNDIRI_DONE) {
        free(*image);
        *image = NULL;
        *length = 0;
    }
    return status;
}

uint32_t povundiri_file_look(const char *path, uint64_t **image, size_t *length, int *fault) {
    if (path == NULL || image == NULL || length == NULL || fault == NULL) return POVUNDIRI_NULL;
    return povundiri_parts_look(AT_FDCWD, path, image, length, fault);
}
