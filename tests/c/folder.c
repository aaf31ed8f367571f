/* 'folder report FOLDER' prints the report of what a folder has, 'folder fold FOLDER' folds it and prints how many segments were added, and
 * 'folder count FOLDER' prints how many segments there are. On a fault its status is 3. */
#include <stdio.h>
#include <stdlib.h>
#include <string.h>

#include "povundiri_folder.h"

static int told(uint32_t status, int fault) {
    fprintf(stderr, "%s\n", status == POVUNDIRI_SYSTEM ? strerror(fault) : povundiri_status_text(status));
    return 3;
}

static int report(const char *folder) {
    struct povundiri_handle sums = {0};
    uint64_t left = 0;
    size_t needed = 0;
    int fault = 0;
    char *text;
    uint32_t status = povundiri_folder_sums(folder, &sums, &left, &fault);
    if (status != POVUNDIRI_DONE) return told(status, fault);
    status = povundiri_sums_report(&sums, NULL, 0, &needed);
    text = malloc(needed + 1);
    if (text == NULL) return 2;
    if (status == POVUNDIRI_SHORT) status = povundiri_sums_report(&sums, text, needed, NULL);
    povundiri_sums_drop(&sums);
    if (status == POVUNDIRI_DONE) fwrite(text, 1, needed, stdout);
    if (left > 0) printf("!left,%llu\n", (unsigned long long)left);
    free(text);
    return status == POVUNDIRI_DONE ? 0 : told(status, 0);
}

int main(int count, char **words) {
    uint64_t number = 0;
    uint32_t status = POVUNDIRI_NULL;
    int fault = 0;
    if (count != 3) return 2;
    if (strcmp(words[1], "report") == 0) return report(words[2]);
    if (strcmp(words[1], "fold") == 0) status = povundiri_folder_fold(words[2], &number, &fault);
    if (strcmp(words[1], "count") == 0) {
        fault = povundiri_folder_count(words[2], &number);
        status = fault == 0 ? POVUNDIRI_DONE : POVUNDIRI_SYSTEM;
    }
    if (status != POVUNDIRI_DONE) return told(status, fault);
    printf("%llu\n", (unsigned long long)number);
    return 0;
}
