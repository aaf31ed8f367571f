/* Counts a thousand samples in the recording of a folder, and prints how long its report is: what packaging/check.sh compiles. */
#include <povundiri_recording.h>

#include <stdio.h>
#include <stdlib.h>

static int failed(const char *what, uint32_t status) {
    fprintf(stderr, "%s: %s\n", what, povundiri_status_text(status));
    return 1;
}

int main(int count, char **words) {
    struct povundiri_recording *recording = NULL;
    size_t latency = 0, length = 0;
    char *text = NULL;
    int fault = 0, value;
    uint32_t status;
    if (count != 2) return 2;
    status = povundiri_recording_open(words[1], NULL, &recording, &fault);
    if (status != POVUNDIRI_DONE) return failed("open", status);
    status = povundiri_recording_scale(recording, "request_us", 1, 10000000, 5, &latency);
    if (status != POVUNDIRI_DONE) return failed("scale", status);
    for (value = 0; value < 1000; value += 1) {
        if (!povundiri_recording_add(recording, latency, value, 1)) return failed("add", povundiri_recording_began(recording)->refused);
    }
    status = povundiri_recording_report(recording, &text, &length, &fault);
    if (status != POVUNDIRI_DONE) return failed("report", status);
    printf("%s: %zu bytes\n", povundiri_version(), length);
    free(text);
    povundiri_recording_end(recording);
    return 0;
}
