/* Prints a text of an image, as a program does that has no more than its words: 'texts WHAT FILE [PREFIX or WIDTH]', where WHAT is report,
 * export or show. If the image has a fault it prints that on the error stream, and its status is 3. An array that is one byte too short is
 * not written to. 'texts sum FILE..' prints the report of the sum of images in their order, which have the numbers from 0 on; that of each
 * is added by its totals. */
#include <stdio.h>
#include <stdlib.h>
#include <string.h>

#include "povundiri.h"

enum { MOST_WORDS = 1 << 20 };

struct asked {
    const char *what;
    const char *more;
    const uint64_t *words;
    size_t length;
};

static uint32_t text_of(const struct asked *asked, char *text, size_t room, size_t *needed) {
    if (strcmp(asked->what, "export") == 0) return povundiri_export(asked->words, asked->length, asked->more, text, room, needed);
    if (strcmp(asked->what, "show") == 0) {
        const unsigned long width = asked->more != NULL ? strtoul(asked->more, NULL, 10) : 0;
        return povundiri_show(asked->words, asked->length, (uint16_t)width, text, room, needed);
    }
    return povundiri_report(asked->words, asked->length, text, room, needed);
}

/* The text in an array of exactly its length, or none if an array that is a byte shorter was written to. */
static char *text_in_room(const struct asked *asked, size_t length) {
    char *const text = malloc(length + 1);
    size_t needed = 0, i;
    if (text == NULL) return NULL;
    memset(text, '?', length + 1);
    if (length > 0 && (text_of(asked, text, length - 1, &needed) != POVUNDIRI_SHORT || needed != length)) return NULL;
    for (i = 0; i <= length; i += 1) {
        if (text[i] != '?') return NULL;
    }
    if (text_of(asked, text, length, &needed) != POVUNDIRI_DONE || needed != length || text[length] != '?') return NULL;
    return text;
}

/* The sum of one image, as totals say it, is added to others. */
static uint32_t add_one(struct povundiri_handle *sums, uint64_t number, const uint64_t *words, size_t length) {
    struct povundiri_handle one = {0}, again = {0};
    char *totals = NULL;
    size_t needed = 0;
    uint32_t status = povundiri_sums_new(&one);
    if (status == POVUNDIRI_DONE) status = povundiri_sums_new(&again);
    if (status == POVUNDIRI_DONE) status = povundiri_sums_add(&one, number, words, length);
    if (status == POVUNDIRI_DONE) {
        (void)!povundiri_sums_totals(&one, NULL, 0, &needed);
        totals = malloc(needed);
        status = totals == NULL ? (uint32_t)POVUNDIRI_NO_MEMORY : povundiri_sums_totals(&one, totals, needed, NULL);
    }
    if (status == POVUNDIRI_DONE) status = povundiri_sums_add_totals(&again, totals, needed, NULL);
    if (status == POVUNDIRI_DONE) status = povundiri_sums_append(sums, &again);
    free(totals);
    povundiri_sums_drop(&one);
    povundiri_sums_drop(&again);
    return status;
}

/* The images are added one after the other, and their report is printed. */
static int sum(char **files, int count, uint64_t *words) {
    struct povundiri_handle sums = {0};
    char *text;
    size_t needed = 0;
    uint32_t status = povundiri_sums_new(&sums);
    int i;
    for (i = 0; i < count && status == POVUNDIRI_DONE; i += 1) {
        FILE *const file = fopen(files[i], "rb");
        size_t length;
        if (file == NULL) return 2;
        length = fread(words, sizeof *words, MOST_WORDS, file);
        fclose(file);
        status = add_one(&sums, (uint64_t)i, words, length);
    }
    free(words);
    (void)!povundiri_sums_report(&sums, NULL, 0, &needed);
    text = malloc(needed + 1);
    if (text == NULL) return 2;
    if (status == POVUNDIRI_DONE) status = povundiri_sums_report(&sums, text, needed, NULL);
    if (status == POVUNDIRI_DONE) fwrite(text, 1, needed, stdout);
    if (status != POVUNDIRI_DONE) fprintf(stderr, "persist_report: %s%s\n", status > 500 ? "Image " : "", povundiri_status_text(status));
    free(text);
    povundiri_sums_drop(&sums);
    return status == POVUNDIRI_DONE ? 0 : 3;
}

int main(int count, char **arguments) {
    uint64_t *const words = malloc(MOST_WORDS * sizeof *words);
    struct asked asked = {count > 1 ? arguments[1] : "", count > 3 ? arguments[3] : NULL, words, 0};
    FILE *const file = count > 2 ? fopen(arguments[2], "rb") : NULL;
    char *text;
    size_t needed = 0;
    uint32_t status;
    if (words == NULL || file == NULL) return 2;
    if (strcmp(asked.what, "sum") == 0) {
        fclose(file);
        return sum(arguments + 2, count - 2, words);
    }
    asked.length = fread(words, sizeof *words, MOST_WORDS, file);
    fclose(file);
    status = text_of(&asked, NULL, 0, &needed);
    /* A report may be empty. */
    if (status != POVUNDIRI_SHORT && (status != POVUNDIRI_DONE || needed != 0)) {
        fprintf(stderr, "persist_report: %s%s\n", status > 500 ? "Image " : "", povundiri_status_text(status));
        free(words);
        return 3;
    }
    text = text_in_room(&asked, needed);
    if (text == NULL) return 1;
    fwrite(text, 1, needed, stdout);
    free(text);
    free(words);
    return 0;
}
