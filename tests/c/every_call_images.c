/* Every call of povundiri.h for images and sums, and each of its statuses but those of refused memory (refused_memory.c): reports, exports,
 * texts for people, sums, looks and adoptions. */
#include "every_call.h"

enum { REPORT = 4096 };

static void nulls_of_images(void) {
    struct povundiri_handle out = {0};
    uint64_t words[16] = {0};
    ANSWERS(NULL, povundiri_report(NULL, 1, NULL, 0, NULL));
    ANSWERS(NULL, povundiri_report(words, 16, NULL, 1, NULL));
    ANSWERS(NULL, povundiri_report_bounded(NULL, 1, NULL, 0, NULL, 1));
    ANSWERS(NULL, povundiri_report_bounded(words, 16, NULL, 1, NULL, 1));
    ANSWERS(NULL, povundiri_export(NULL, 1, NULL, NULL, 0, NULL));
    ANSWERS(NULL, povundiri_export(words, 16, NULL, NULL, 1, NULL));
    ANSWERS(NULL, povundiri_show(NULL, 1, 0, NULL, 0, NULL));
    ANSWERS(NULL, povundiri_show(words, 16, 0, NULL, 1, NULL));
    ANSWERS(NULL, povundiri_look(NULL, 1, words, 16, NULL));
    ANSWERS(NULL, povundiri_look(words, 16, NULL, 1, NULL));
    ANSWERS(NULL, povundiri_segment_look(NULL, words, 16, NULL));
    ANSWERS(NULL, povundiri_segment_look(&out, NULL, 16, NULL));
}

static void nulls_of_sums(void) {
    struct povundiri_handle sums = {0};
    uint64_t words[16] = {0};
    char text[16];
    ANSWERS(NULL, povundiri_sums_new(NULL));
    DONE(povundiri_sums_new(&sums));
    ANSWERS(NULL, povundiri_sums_add(NULL, 0, words, 16));
    ANSWERS(NULL, povundiri_sums_add(&sums, 0, NULL, 1));
    ANSWERS(IMAGE_TOO_SHORT, povundiri_sums_add(&sums, 0, NULL, 0));
    ANSWERS(NULL, povundiri_sums_add_totals(NULL, text, 0, NULL));
    ANSWERS(NULL, povundiri_sums_add_totals(&sums, NULL, 1, NULL));
    ANSWERS(BAD_TOTALS, povundiri_sums_add_totals(&sums, NULL, 0, NULL));
    ANSWERS(NULL, povundiri_sums_append(NULL, &sums));
    ANSWERS(NULL, povundiri_sums_append(&sums, NULL));
    ANSWERS(NULL, povundiri_sums_report(NULL, text, 16, NULL));
    ANSWERS(NULL, povundiri_sums_report(&sums, NULL, 1, NULL));
    ANSWERS(NULL, povundiri_sums_totals(NULL, text, 16, NULL));
    ANSWERS(NULL, povundiri_sums_totals(&sums, NULL, 1, NULL));
    ANSWERS(NULL, povundiri_sums_export(NULL, NULL, text, 16, NULL));
    ANSWERS(NULL, povundiri_sums_export(&sums, NULL, NULL, 1, NULL));
    ANSWERS(NULL, povundiri_sums_show(NULL, 0, text, 16, NULL));
    ANSWERS(NULL, povundiri_sums_show(&sums, 0, NULL, 1, NULL));
    ANSWERS(NULL, povundiri_sums_drop(NULL));
    DONE(povundiri_sums_drop(&sums));
}

/* The image of a segment with a few samples, and what its report is. */
static void image_of(uint64_t *words, uint64_t version) {
    struct povundiri_handle segment = {0}, recorder;
    struct povundiri_shape shape = {WORDS, PAGE, 7, 0, version};
    size_t hist, needed = 0;
    DONE(povundiri_create(shape, &segment));
    recorder = recorder_of(&segment, 100);
    DONE(povundiri_hist_boolean(&recorder, "b", &hist));
    DONE(povundiri_add(&recorder, hist, 1, 5));
    DONE(povundiri_hist_sparse(&recorder, "s", &hist));
    DONE(povundiri_add(&recorder, hist, -3, 2));
    DONE(povundiri_join(&segment, &recorder));
    ANSWERS(SHORT, povundiri_close(&segment, words, WORDS - 1, &needed));
    HOLDS(needed == WORDS && segment.held);
    DONE(povundiri_close(&segment, words, WORDS, &needed));
    HOLDS(needed == WORDS && !segment.held);
}

static const char EXPECTED[] = "b,boolean,1,2,5\nb,total,5,5\ns,sparse,-3,-2,2\ns,total,2,-6\n";

static void reports(void) {
    uint64_t words[WORDS];
    char text[REPORT];
    size_t needed = 0, length = sizeof EXPECTED - 1;
    image_of(words, 1);
    ANSWERS(SHORT, povundiri_report(words, WORDS, text, length - 1, &needed));
    HOLDS(needed == length);
    DONE(povundiri_report(words, WORDS, text, length, &needed));
    HOLDS(needed == length && memcmp(text, EXPECTED, length) == 0);
    ANSWERS(IMAGE_BAD_SIZE, povundiri_report(words, WORDS - 1, text, REPORT, &needed));
    ANSWERS(IMAGE_TOO_SHORT, povundiri_report(words, 15, text, REPORT, &needed));
}

/* The boolean histogram has three buckets, and the sparse one a value: four keys. */
static void bounded_reports(void) {
    uint64_t words[WORDS];
    char text[REPORT];
    size_t needed = 1, length = sizeof EXPECTED - 1;
    image_of(words, 2);
    memset(text, '?', sizeof text);
    ANSWERS(TOO_MANY_KEYS, povundiri_report_bounded(words, WORDS, text, REPORT, &needed, 0));
    ANSWERS(TOO_MANY_KEYS, povundiri_report_bounded(words, WORDS, text, REPORT, &needed, 3));
    HOLDS(needed == 1 && text[0] == '?');
    ANSWERS(SHORT, povundiri_report_bounded(words, WORDS, text, length - 1, &needed, 4));
    HOLDS(needed == length && text[0] == '?');
    DONE(povundiri_report_bounded(words, WORDS, text, length, NULL, 4));
    HOLDS(memcmp(text, EXPECTED, length) == 0);
    DONE(povundiri_report_bounded(words, WORDS, text, length, &needed, UINT64_MAX));
    ANSWERS(IMAGE_BAD_SIZE, povundiri_report_bounded(words, WORDS - 1, text, REPORT, &needed, 0));
}

/* The metrics of the same image, by hand; their names begin with PREFIX. */
#define METRICS(PREFIX)                                                                                          \
    "# HELP " PREFIX "_units Units of a histogram up to the greatest value of each bucket.\n"                    \
    "# TYPE " PREFIX "_units histogram\n"                                                                        \
    PREFIX "_units_bucket{histogram=\"b\",le=\"0\"} 0\n"                                                         \
    PREFIX "_units_bucket{histogram=\"b\",le=\"1\"} 5\n"                                                         \
    PREFIX "_units_bucket{histogram=\"b\",le=\"2147483646\"} 5\n"                                                \
    PREFIX "_units_bucket{histogram=\"b\",le=\"+Inf\"} 5\n"                                                      \
    PREFIX "_units_sum{histogram=\"b\"} 5\n"                                                                     \
    PREFIX "_units_count{histogram=\"b\"} 5\n"                                                                   \
    "# HELP " PREFIX "_sparse_total Units of each value of a sparse histogram.\n"                                \
    "# TYPE " PREFIX "_sparse_total counter\n"                                                                   \
    PREFIX "_sparse_total{histogram=\"s\",value=\"-3\"} 2\n"                                                     \
    "# HELP " PREFIX "_bad_records Records that could not be read, and one more where their list stops early.\n" \
    "# TYPE " PREFIX "_bad_records gauge\n"                                                                      \
    PREFIX "_bad_records 0\n"                                                                                    \
    "# HELP " PREFIX "_segment_flag Whether a flag of the segment is set.\n"                                     \
    "# TYPE " PREFIX "_segment_flag gauge\n"                                                                     \
    PREFIX "_segment_flag{flag=\"corrupt\"} 0\n"                                                                 \
    PREFIX "_segment_flag{flag=\"full\"} 0\n"

static void exports(void) {
    static const char usual[] = METRICS("povundiri"), own[] = METRICS("_my9");
    static const char *const BAD[] = {"", "9a", "a-b", "a b", "a:b", "\303\244", "a\n"};
    uint64_t words[WORDS];
    char text[REPORT];
    size_t needed = 1, length = sizeof usual - 1, i;
    image_of(words, 2);
    memset(text, '?', sizeof text);
    for (i = 0; i < sizeof BAD / sizeof BAD[0]; i += 1) {
        ANSWERS(BAD_PREFIX, povundiri_export(words, WORDS, BAD[i], text, REPORT, &needed));
        ANSWERS(BAD_PREFIX, povundiri_export(words, 15, BAD[i], text, REPORT, &needed));
    }
    HOLDS(needed == 1 && text[0] == '?');
    ANSWERS(SHORT, povundiri_export(words, WORDS, NULL, text, length - 1, &needed));
    HOLDS(needed == length && text[0] == '?');
    DONE(povundiri_export(words, WORDS, NULL, text, length, NULL));
    HOLDS(memcmp(text, usual, length) == 0 && text[length] == '?');
    DONE(povundiri_export(words, WORDS, "_my9", text, REPORT, &needed));
    HOLDS(needed == sizeof own - 1 && memcmp(text, own, needed) == 0);
    ANSWERS(IMAGE_BAD_SIZE, povundiri_export(words, WORDS - 1, NULL, text, REPORT, &needed));
    ANSWERS(IMAGE_TOO_SHORT, povundiri_export(words, 15, NULL, text, REPORT, &needed));
}

/* The text of the same image for people, by hand, with 40 and with 80 cells in a line: the bars are 9 and 49 cells wide. */
#define BLOCKS_9 "\342\226\210\342\226\210\342\226\210\342\226\210\342\226\210\342\226\210\342\226\210\342\226\210\342\226\210"
#define BLOCKS_10 BLOCKS_9 "\342\226\210"
#define BLOCKS_49 BLOCKS_10 BLOCKS_10 BLOCKS_10 BLOCKS_10 BLOCKS_9
#define BLANKS_9 "         "
#define BLANKS_10 BLANKS_9 " "
#define BLANKS_49 BLANKS_10 BLANKS_10 BLANKS_10 BLANKS_10 BLANKS_9
#define SHOWN(BLANKS, BLOCKS)                                    \
    "b\n"                                                        \
    "  boolean, units 5, sum 5, mean 1.00\n"                     \
    "  values  " BLANKS "units percent   up to\n"                \
    "   false " BLANKS "     0    0.0%    0.0%\n"                \
    "    true " BLOCKS "     5  100.0%  100.0%\n"                \
    "\n"                                                         \
    "s\n"                                                        \
    "  sparse, units 2, sum -6, mean -3.00\n"                    \
    "  50%: -3, 90%: -3, 99%: -3, 99.9%: -3\n"                   \
    "  least: -3, greatest: -3\n"                                \
    "  values  " BLANKS "units percent   up to\n"                \
    "      -3 " BLOCKS "     2  100.0%  100.0%\n"                \
    "\n"

static void shows(void) {
    static const char usual[] = SHOWN(BLANKS_49, BLOCKS_49), narrow[] = SHOWN(BLANKS_9, BLOCKS_9);
    uint64_t words[WORDS];
    char text[REPORT];
    size_t needed = 1, length = sizeof usual - 1;
    image_of(words, 2);
    memset(text, '?', sizeof text);
    ANSWERS(SHORT, povundiri_show(words, WORDS, 0, text, length - 1, &needed));
    HOLDS(needed == length && text[0] == '?');
    DONE(povundiri_show(words, WORDS, 0, text, length, NULL));
    HOLDS(memcmp(text, usual, length) == 0 && text[length] == '?');
    DONE(povundiri_show(words, WORDS, 80, text, REPORT, &needed));
    HOLDS(needed == length && memcmp(text, usual, length) == 0);
    DONE(povundiri_show(words, WORDS, 40, text, REPORT, &needed));
    HOLDS(needed == sizeof narrow - 1 && memcmp(text, narrow, needed) == 0);
    ANSWERS(IMAGE_BAD_SIZE, povundiri_show(words, WORDS - 1, 0, text, REPORT, &needed));
    ANSWERS(IMAGE_TOO_SHORT, povundiri_show(words, 15, 0, text, REPORT, &needed));
}

/* The totals of the same image under the number 4, of itself twice, and its report then, by hand. */
static const char TOTALS[] =
    "totals,1\nimages,1,0,0,0,0\nhist,b,1,4,5,0,5,boolean\nkey,0,0,0\nkey,1,5,0\nkey,2,0,0\nhist,s,1,4,-6,0,2,sparse\nkey,-3,2,0\nend,2\n";
static const char TWICE[] =
    "totals,1\nimages,2,0,0,0,0\nhist,b,2,4,10,0,10,boolean\nkey,0,0,0\nkey,1,10,0\nkey,2,0,0\nhist,s,2,4,-12,0,4,sparse\nkey,-3,4,0\n"
    "end,2\n";
static const char REPORTED_TWICE[] = "b,boolean,1,2,10\nb,total,10,10\ns,sparse,-3,-2,4\ns,total,4,-12\n!images,2\n";
static const char NO_IMAGES[] = "totals,1\nimages,0,0,0,0,0\nend,0\n";

/* Each call of a text. */
typedef uint32_t text_call(struct povundiri_handle *sums, char *text, size_t room, size_t *needed);

static uint32_t usual_export(struct povundiri_handle *sums, char *text, size_t room, size_t *needed) {
    return povundiri_sums_export(sums, NULL, text, room, needed);
}

static uint32_t usual_show(struct povundiri_handle *sums, char *text, size_t room, size_t *needed) {
    return povundiri_sums_show(sums, 0, text, room, needed);
}

/* A sum has this text; an array that is a byte too short for it is not written to. */
static void says(int line, struct povundiri_handle *sums, text_call *call, const char *wanted) {
    const size_t length = strlen(wanted);
    char text[REPORT];
    size_t needed = 9;
    memset(text, '?', sizeof text);
    if (length > 0) {
        check_status(line, "too short", POVUNDIRI_SHORT, call(sums, text, length - 1, &needed));
        check(line, "too short", needed == length && text[0] == '?');
    }
    check_status(line, "a text", POVUNDIRI_DONE, call(sums, text, length, &needed));
    check(line, "a text", needed == length && memcmp(text, wanted, length) == 0 && text[length] == '?');
    check_status(line, "a text", POVUNDIRI_DONE, call(sums, text, REPORT, NULL));
}

#define SAYS(sums, call, wanted) says(__LINE__, sums, call, wanted)

/* The sum of an image has the texts of the image; of the image twice it has twice as much, whether it was added twice, or appended. */
static void sums_of_images(void) {
    struct povundiri_handle sums = {0}, other = {0};
    uint64_t words[WORDS];
    image_of(words, 2);
    DONE(povundiri_sums_new(&sums));
    SAYS(&sums, povundiri_sums_report, "");
    SAYS(&sums, povundiri_sums_totals, NO_IMAGES);
    DONE(povundiri_sums_add(&sums, 4, words, WORDS));
    SAYS(&sums, povundiri_sums_report, EXPECTED);
    SAYS(&sums, povundiri_sums_totals, TOTALS);
    SAYS(&sums, usual_export, METRICS("povundiri"));
    SAYS(&sums, usual_show, SHOWN(BLANKS_49, BLOCKS_49));
    DONE(povundiri_sums_new(&other));
    DONE(povundiri_sums_append(&other, &sums));
    DONE(povundiri_sums_append(&other, &other));
    SAYS(&sums, povundiri_sums_totals, TOTALS);
    SAYS(&other, povundiri_sums_totals, TWICE);
    DONE(povundiri_sums_add(&sums, 9, words, WORDS));
    SAYS(&sums, povundiri_sums_totals, TWICE);
    SAYS(&sums, povundiri_sums_report, REPORTED_TWICE);
    DONE(povundiri_sums_drop(&other));
    SAYS(&sums, povundiri_sums_totals, TWICE);
    DONE(povundiri_sums_drop(&sums));
}

static void texts_of_sums(void) {
    static const char *const BAD[] = {"", "9a", "a-b", "a b", "a:b", "\303\244", "a\n"};
    struct povundiri_handle sums = {0};
    uint64_t words[WORDS];
    char text[REPORT];
    size_t needed = 9, i;
    image_of(words, 2);
    DONE(povundiri_sums_new(&sums));
    DONE(povundiri_sums_add(&sums, 0, words, WORDS));
    memset(text, '?', sizeof text);
    for (i = 0; i < sizeof BAD / sizeof BAD[0]; i += 1) ANSWERS(BAD_PREFIX, povundiri_sums_export(&sums, BAD[i], text, REPORT, &needed));
    HOLDS(needed == 9 && text[0] == '?');
    DONE(povundiri_sums_export(&sums, "_my9", text, REPORT, &needed));
    HOLDS(needed == sizeof METRICS("_my9") - 1 && memcmp(text, METRICS("_my9"), needed) == 0);
    DONE(povundiri_sums_show(&sums, 40, text, REPORT, &needed));
    HOLDS(needed == sizeof SHOWN(BLANKS_9, BLOCKS_9) - 1 && memcmp(text, SHOWN(BLANKS_9, BLOCKS_9), needed) == 0);
    DONE(povundiri_sums_drop(&sums));
}

/* What is refused leaves the sum unchanged. */
static void refused_images(void) {
    static const uint32_t AT[] = {0, 1, 3, 2, 5, 5, 7, 13}, WORD[] = {1, 3, 65, 2048, 0, 2, 15, 0};
    static const uint32_t FAULT[] = {POVUNDIRI_IMAGE_BAD_COOKIE, POVUNDIRI_IMAGE_BAD_VERSION, POVUNDIRI_IMAGE_BAD_PAGE,
                                     POVUNDIRI_IMAGE_BAD_SIZE,   POVUNDIRI_IMAGE_NOT_READY,   POVUNDIRI_IMAGE_DELETED,
                                     POVUNDIRI_IMAGE_BAD_FREE,   POVUNDIRI_IMAGE_BAD_QUEUE};
    struct povundiri_handle sums = {0};
    uint64_t words[WORDS], changed[WORDS];
    size_t i;
    image_of(words, 1);
    DONE(povundiri_sums_new(&sums));
    DONE(povundiri_sums_add(&sums, 4, words, WORDS));
    for (i = 0; i < sizeof AT / sizeof AT[0]; i += 1) {
        memcpy(changed, words, sizeof words);
        changed[AT[i]] = WORD[i];
        check_status((int)AT[i], "povundiri_sums_add", FAULT[i], povundiri_sums_add(&sums, 5, changed, WORDS));
    }
    ANSWERS(IMAGE_TOO_SHORT, povundiri_sums_add(&sums, 5, words, 15));
    SAYS(&sums, povundiri_sums_totals, TOTALS);
    DONE(povundiri_sums_drop(&sums));
}

/* What a sum writes is read back as the same, and what is no totals is refused, with the number of a line. */
static void totals_again(void) {
    static const char *const BAD[] = {"", "totals,2\n", "totals,1\n", "totals,1\nimages,1,0,0,0,0\nend,1\n",
                                      "totals,1\nimages,01,0,0,0,0\nend,0\n", "totals,1\nimages,1,0,0,0,0\nend,0"};
    static const size_t LINES[] = {1, 1, 2, 3, 2, 4};
    static const char OUT_OF_ORDER[] =
        "totals,1\nimages,1,0,0,0,0\nhist,s,1,4,-6,0,2,sparse\nkey,-3,2,0\nhist,b,1,4,5,0,5,boolean\nkey,0,0,0\nkey,1,5,0\nkey,2,0,0\n"
        "end,2\n";
    static const char FOLDED[] = "totals,1\nimages,0,0,0,0,0\nof,3,77\nof,4,18446744073709551615\nfold,4\nend,0\n";
    struct povundiri_handle sums = {0};
    size_t line = 9, i;
    DONE(povundiri_sums_new(&sums));
    DONE(povundiri_sums_add_totals(&sums, TOTALS, sizeof TOTALS - 1, &line));
    HOLDS(line == 0);
    SAYS(&sums, povundiri_sums_totals, TOTALS);
    for (i = 0; i < sizeof BAD / sizeof BAD[0]; i += 1) {
        line = 0;
        ANSWERS(BAD_TOTALS, povundiri_sums_add_totals(&sums, BAD[i], strlen(BAD[i]), &line));
        HOLDS(line == LINES[i]);
    }
    ANSWERS(BAD_TOTALS, povundiri_sums_add_totals(&sums, OUT_OF_ORDER, sizeof OUT_OF_ORDER - 1, NULL));
    SAYS(&sums, povundiri_sums_totals, TOTALS);
    DONE(povundiri_sums_add_totals(&sums, FOLDED, sizeof FOLDED - 1, &line));
    SAYS(&sums, povundiri_sums_totals, TOTALS);
    DONE(povundiri_sums_add_totals(&sums, TOTALS, sizeof TOTALS - 1, &line));
    SAYS(&sums, povundiri_sums_totals, TWICE);
    DONE(povundiri_sums_drop(&sums));
}

/* Totals that would not fit are refused, and the sum is unchanged: by the units of a histogram together, and by the number of images. */
static void too_many(void) {
    static const char UNITS[] =
        "totals,1\nimages,1,0,0,0,0\nhist,n,1,0,0,0,0,boolean\nkey,0,18446744073709551614,0\nkey,1,1,0\nkey,2,0,0\nend,1\n";
    static const char ONE[] = "totals,1\nimages,1,0,0,0,0\nhist,n,1,0,0,0,0,boolean\nkey,0,0,0\nkey,1,0,0\nkey,2,1,0\nend,1\n";
    static const char IMAGES[] = "totals,1\nimages,18446744073709551615,0,0,0,0\nend,0\n";
    struct povundiri_handle sums = {0}, other = {0};
    uint64_t words[WORDS];
    size_t line = 9;
    image_of(words, 2);
    DONE(povundiri_sums_new(&sums));
    DONE(povundiri_sums_new(&other));
    DONE(povundiri_sums_add_totals(&sums, UNITS, sizeof UNITS - 1, NULL));
    ANSWERS(TOO_MANY, povundiri_sums_add_totals(&sums, ONE, sizeof ONE - 1, &line));
    HOLDS(line == 0);
    ANSWERS(TOO_MANY, povundiri_sums_append(&sums, &sums));
    SAYS(&sums, povundiri_sums_totals, UNITS);
    DONE(povundiri_sums_add_totals(&other, IMAGES, sizeof IMAGES - 1, NULL));
    ANSWERS(TOO_MANY, povundiri_sums_append(&sums, &other));
    ANSWERS(TOO_MANY, povundiri_sums_add(&other, 0, words, WORDS));
    SAYS(&sums, povundiri_sums_totals, UNITS);
    SAYS(&other, povundiri_sums_totals, IMAGES);
    DONE(povundiri_sums_drop(&sums));
    DONE(povundiri_sums_drop(&other));
}

/* A look at a segment that nobody changes is its image. */
static void looks(void) {
    struct povundiri_shape moving = {WORDS, PAGE, 7, 0, 1};
    struct povundiri_handle segment = {0};
    uint64_t words[WORDS + 1], image[WORDS + 1], old[WORDS];
    size_t needed = 0;
    image_of(words, 2);
    words[WORDS] = 8;
    image[WORDS] = 9;
    ANSWERS(SHORT, povundiri_look(words, WORDS + 1, image, WORDS - 1, &needed));
    HOLDS(needed == WORDS);
    needed = 0;
    DONE(povundiri_look(words, WORDS + 1, image, WORDS + 1, &needed));
    HOLDS(needed == WORDS && memcmp(image, words, WORDS * sizeof *words) == 0 && image[WORDS] == 9);
    ANSWERS(IMAGE_TOO_SHORT, povundiri_look(words, 15, image, WORDS, NULL));
    ANSWERS(IMAGE_TOO_SHORT, povundiri_look(NULL, 0, image, WORDS, NULL));
    ANSWERS(IMAGE_BAD_SIZE, povundiri_look(words, WORDS - 1, image, WORDS, NULL));
    image_of(old, 1);
    ANSWERS(ADOPT_OLD_VERSION, povundiri_look(old, WORDS, image, WORDS, NULL));
    DONE(povundiri_adopt(words, WORDS, 0, &segment));
    ANSWERS(SHORT, povundiri_segment_look(&segment, image, WORDS - 1, &needed));
    HOLDS(needed == WORDS);
    memset(image, 0, WORDS * sizeof *image);
    DONE(povundiri_segment_look(&segment, image, WORDS + 1, &needed));
    HOLDS(needed == WORDS && memcmp(image, words, WORDS * sizeof *words) == 0 && image[WORDS] == 9);
    DONE(povundiri_drop(&segment));
    DONE(povundiri_create(moving, &segment));
    ANSWERS(ADOPT_OLD_VERSION, povundiri_segment_look(&segment, image, WORDS, NULL));
    DONE(povundiri_drop(&segment));
}

/* A header, a word that is stored in it, and the fault that it has then. */
struct header_fault {
    size_t at;
    uint64_t word;
    uint32_t status;
};

static void adopted(void) {
    static const struct header_fault FAULTS[] = {
        {0, 1, POVUNDIRI_IMAGE_BAD_COOKIE},   {1, 3, POVUNDIRI_IMAGE_BAD_VERSION}, {3, 65, POVUNDIRI_IMAGE_BAD_PAGE},
        {2, 2048, POVUNDIRI_IMAGE_BAD_SIZE},  {5, 0, POVUNDIRI_IMAGE_NOT_READY},   {5, 2, POVUNDIRI_IMAGE_DELETED},
        {7, 15, POVUNDIRI_IMAGE_BAD_FREE},    {13, 0, POVUNDIRI_IMAGE_BAD_QUEUE},  {6, 1, POVUNDIRI_ADOPT_CORRUPT},
        {15, 17, POVUNDIRI_ADOPT_DAMAGED},    {1, 1, POVUNDIRI_ADOPT_OLD_VERSION}, {16 + 13, UINT32_MAX, POVUNDIRI_ADOPT_NO_UNITS},
    };
    struct povundiri_handle segment = {0}, recorder;
    uint64_t words[WORDS], changed[WORDS];
    char text[REPORT];
    size_t i, hist = 0, needed = 0;
    uint32_t left = 0;
    image_of(words, 2);
    for (i = 0; i < sizeof FAULTS / sizeof FAULTS[0]; i += 1) {
        memcpy(changed, words, sizeof words);
        changed[FAULTS[i].at] = FAULTS[i].word;
        check_status((int)FAULTS[i].at, "povundiri_adopt", FAULTS[i].status, povundiri_adopt(changed, WORDS, 0, &segment));
    }
    ANSWERS(IMAGE_TOO_SHORT, povundiri_adopt(words, 15, 0, &segment));
    ANSWERS(ADOPT_BAD_CURSORS, povundiri_adopt(words, WORDS, 9, &segment));
    DONE(povundiri_adopt(words, WORDS, 8, &segment));
    DONE(povundiri_units(&segment, &left));
    HOLDS(left == UINT32_MAX - 7);
    recorder = recorder_of(&segment, 100);
    DONE(povundiri_hist_sparse(&recorder, "s", &hist));
    DONE(povundiri_add(&recorder, hist, -3, 1));
    DONE(povundiri_join(&segment, &recorder));
    DONE(povundiri_close(&segment, words, WORDS, NULL));
    DONE(povundiri_report(words, WORDS, text, REPORT, &needed));
    text[needed] = 0;
    HOLDS(strcmp(text, "b,boolean,1,2,5\nb,total,5,5\ns,sparse,-3,-2,3\ns,total,3,-9\n") == 0);
}

static const struct test TESTS[] = {
    {"nulls_of_images", nulls_of_images},
    {"nulls_of_sums", nulls_of_sums},
    {"reports", reports},
    {"bounded_reports", bounded_reports},
    {"exports", exports},
    {"shows", shows},
    {"sums_of_images", sums_of_images},
    {"texts_of_sums", texts_of_sums},
    {"refused_images", refused_images},
    {"totals_again", totals_again},
    {"too_many", too_many},
    {"looks", looks},
    {"adopted", adopted},
};

int main(void) {
    return run(TESTS, sizeof TESTS / sizeof TESTS[0]);
}
