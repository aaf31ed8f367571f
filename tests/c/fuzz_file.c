/* Opens files of any bytes, for libFuzzer: clang -fsanitize=fuzzer,address,undefined. FUZZ_FOLDER names the folder in which it works.
 *
 * A file that is neither new nor begins as a segment's is refused and untouched; one whose image is refused is unchanged, under its name or
 * the one that it was given; and what is adopted or made can be recorded into and opened again. The run ends if one of these does not
 * hold. */
#include "files.h"

int LLVMFuzzerInitialize(int *count, char ***words);
int LLVMFuzzerTestOneInput(const uint8_t *data, size_t size);

enum { MOST = 1 << 17, COOKIE = 0x408305DC };

/* The bytes of a file with a segment in which something was counted. */
static unsigned char *segment_file;
static size_t segment_length;

static void need(const char *what, int holds) {
    if (holds) return;
    fprintf(stderr, "does not hold: %s\n", what);
    abort();
}

int LLVMFuzzerInitialize(int *count, char ***words) {
    (void)count;
    (void)words;
    folder = getenv("FUZZ_FOLDER");
    need("FUZZ_FOLDER is set", folder != NULL);
    make_segment("segment", 5);
    segment_file = bytes_at(path_of("segment"), &segment_length);
    need("a segment was made", segment_length == povundiri_file_bytes(WORDS, CURSORS) && failed_here == 0);
    return 0;
}

/* What is left of the input. */
struct input {
    const uint8_t *data;
    size_t size;
};

static uint64_t take(struct input *input, size_t bytes) {
    uint64_t value = 0;
    if (bytes > input->size) bytes = input->size;
    memcpy(&value, input->data, bytes);
    input->data += bytes;
    input->size -= bytes;
    return value;
}

/* The bytes of a file: those of the input, or a segment's in which words are changed and which is cut or longer. */
static size_t content_of(struct input *input, unsigned char *content) {
    const uint64_t cookie[2] = {0, COOKIE};
    const uint64_t kind = take(input, 1) % 4;
    const size_t zeros = (size_t)take(input, 2);
    size_t length = 0;
    if (kind == 0) length = zeros;
    memset(content, 0, MOST);
    if (kind == 1) memcpy(content, cookie, length = sizeof cookie);
    if (kind <= 1) {
        memcpy(content + length, input->data, input->size);
        return length + input->size;
    }
    memcpy(content, segment_file, segment_length);
    length = kind == 2 ? segment_length : zeros;
    if (length < segment_length) memset(content + length, 0, segment_length - length);
    while (input->size > 0) {
        const size_t at = 8 * (size_t)(take(input, 1) % 64);
        const uint64_t value = take(input, 8);
        if (at + 8 <= length) memcpy(content + at, &value, 8);
    }
    return length;
}

static int is_blank(const unsigned char *content, size_t length) {
    size_t i;
    for (i = 0; i < length; i += 1) {
        if (content[i] != 0) return 0;
    }
    return 1;
}

static int begins_as_a_segment(const unsigned char *content, size_t length) {
    const uint64_t cookie[2] = {0, COOKIE};
    return length >= 16 && memcmp(content, cookie, 16) == 0;
}

/* Whether the file has these bytes, and after them at most zeros. */
static int is_longer_by_zeros(const unsigned char *content, size_t length) {
    size_t there;
    unsigned char *bytes = bytes_at(path_of("fuzz"), &there);
    const int same = there >= length && memcmp(bytes, content, length) == 0 && is_blank(bytes + length, there - length);
    free(bytes);
    return same;
}

/* Whether a file has these bytes; if it `is_full`, the shared cursors, which come after the image, may differ. */
static int has_image(const char *path, const unsigned char *content, size_t length, int is_full) {
    size_t there, known = length;
    unsigned char *bytes = bytes_at(path, &there);
    uint64_t words;
    int same;
    memcpy(&words, content + 24, 8);
    if (is_full && words < length / 8) known = 8 + 8 * (size_t)words;
    same = there == length && memcmp(bytes, content, known) == 0;
    free(bytes);
    return same;
}

/* Opens the file alone, and makes a segment in it or adopts its image. */
static void try_file(const unsigned char *content, size_t length, struct povundiri_shape shape) {
    struct povundiri_file file = {0};
    struct povundiri_handle segment = {0};
    const int is_ours = is_blank(content, length) || begins_as_a_segment(content, length);
    uint32_t status;
    uint64_t *words;
    size_t count;
    const int fault = povundiri_file_open(&file, path_of("fuzz"), povundiri_file_bytes(shape.size, 0), NULL);
    need("EEXIST for what is no segment's", fault == (is_ours ? 0 : EEXIST));
    if (fault != 0) {
        need("untouched", has_bytes(path_of("fuzz"), content, length));
        return;
    }
    need("longer by zeros at most", is_longer_by_zeros(content, length));
    words = povundiri_file_words(&file, &count);
    need("words or none", (words == NULL) == (count == 0));
    if (words == NULL) {
        need("nothing after the header", length < 136 || is_blank(content + 136, length - 136));
        status = povundiri_create_in(povundiri_file_room(&file), shape, &segment);
    } else {
        status = povundiri_adopt_in(povundiri_file_room(&file), words, count, 0, &segment);
        need("as it was", status == POVUNDIRI_DONE || is_longer_by_zeros(content, length));
    }
    free(words);
    if (status == POVUNDIRI_DONE) status = povundiri_drop(&segment);
    povundiri_file_close(&file);
}

/* Opened again, the file is adopted with the same number of units. */
static void open_again(struct povundiri_shape shape, uint32_t units) {
    struct povundiri_file file = {0};
    struct povundiri_handle segment = {0};
    struct povundiri_opened opened = POVUNDIRI_OPENED;
    const uint32_t status = povundiri_open(path_of("fuzz"), shape, POVUNDIRI_ADOPT_OR_FAIL, NULL, &file, &segment, &opened);
    need("adopted again", status == POVUNDIRI_DONE && opened.outcome == POVUNDIRI_ADOPTED && opened.units == units);
    need("dropped", povundiri_drop(&segment) == POVUNDIRI_DONE);
    povundiri_file_close(&file);
}

/* A segment in the file, by a policy. */
static void try_segment(const unsigned char *content, size_t length, struct povundiri_shape shape, enum povundiri_policy policy) {
    struct povundiri_file file = {0};
    struct povundiri_handle segment = {0}, recorder = {0};
    struct povundiri_opened opened = POVUNDIRI_OPENED;
    size_t hist;
    uint32_t units = 0;
    const uint32_t status = povundiri_open(path_of("fuzz"), shape, policy, NULL, &file, &segment, &opened);
    if (opened.set_aside[0] != 0) {
        need("set aside as it was", has_image(opened.set_aside, content, length, opened.refused == POVUNDIRI_DONE));
        need("removed", unlink(opened.set_aside) == 0);
    }
    if (status != POVUNDIRI_DONE) {
        need("nothing was set aside", opened.set_aside[0] == 0);
        need("a policy that fails", policy == POVUNDIRI_ADOPT_OR_FAIL || status < 302 || opened.refused == POVUNDIRI_DONE);
        need("refused as it was", has_bytes(path_of("fuzz"), content, length));
        return;
    }
    if (povundiri_recorder(&segment, 1, &recorder) == POVUNDIRI_DONE) {
        if (povundiri_hist_sparse(&recorder, "fuzz", &hist) == POVUNDIRI_DONE) {
            const uint32_t added = povundiri_add(&recorder, hist, 1, 1);
            need("added", added == POVUNDIRI_DONE || added == POVUNDIRI_REFUSED_FULL || added == POVUNDIRI_REFUSED_CORRUPT);
        }
        need("joined", povundiri_join(&segment, &recorder) == POVUNDIRI_DONE);
    }
    need("units", povundiri_units(&segment, &units) == POVUNDIRI_DONE);
    need("dropped", povundiri_drop(&segment) == POVUNDIRI_DONE);
    povundiri_file_close(&file);
    if (opened.shape.version == 2) open_again(shape, units);
}

int LLVMFuzzerTestOneInput(const uint8_t *data, size_t size) {
    static const uint64_t sizes[] = {64, 512, WORDS, 4096, 0, 8192, UINT64_MAX, 1000};
    static unsigned char content[MOST];
    struct input input = {data, size < 4096 ? size : 4096};
    struct povundiri_shape shape = {0, 64, 7, 0, 2};
    const enum povundiri_policy policy = (enum povundiri_policy)(1 + take(&input, 1) % 3);
    size_t length;
    shape.size = sizes[take(&input, 1) % 8];
    shape.cursors = (size_t)(take(&input, 1) % 10);
    shape.version = 2 - (take(&input, 1) & 1);
    length = content_of(&input, content);
    store("fuzz", content, length);
    if (povundiri_file_bytes(shape.size, 0) != 0) try_file(content, length, shape);
    unlink(path_of("fuzz"));
    store("fuzz", content, length);
    try_segment(content, length, shape, policy);
    unlink(path_of("fuzz"));
    return 0;
}
