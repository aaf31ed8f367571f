/* Adopts the image in the file FILE, and then asks for its report under a limit of no keys. For each call it prints the status, and the
 * most bytes that the library had from its heap at a time. */
#include <povundiri.h>
#include <stdbool.h>
#include <stdio.h>
#include <stdlib.h>

static bool is_refused(size_t size) {
    (void)size;
    return false;
}

#include "heap.h"

static void show(uint32_t status) {
    printf("%s %zu\n", povundiri_status_text(status), most_kept);
    most_kept = kept;
}

int main(int argc, char **argv) {
    enum { MOST_WORDS = 1048576 };
    struct povundiri_handle segment = {0};
    uint64_t *words = calloc(MOST_WORDS, sizeof *words);
    FILE *file = argc == 2 ? fopen(argv[1], "rb") : NULL;
    size_t length;
    if (words == NULL || file == NULL) return 2;
    length = fread(words, sizeof *words, MOST_WORDS, file);
    fclose(file);
    show(povundiri_adopt(words, length, 0, &segment));
    if (segment.held && povundiri_drop(&segment) != POVUNDIRI_DONE) return 3;
    show(povundiri_report_bounded(words, length, NULL, 0, NULL, 0));
    free(words);
    return kept == 0 && blocks == 0 ? 0 : 1;
}
