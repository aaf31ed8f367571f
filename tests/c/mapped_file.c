/* What povundiri_file_open takes and what it refuses, and what it leaves unchanged: mapped_file FOLDER */
#include "files.h"

#include <sys/socket.h>
#include <sys/un.h>

enum { HEADER = 16, COOKIE = 0x408305DC };

static void lengths(void) {
    struct povundiri_file file = {0};
    HOLDS(povundiri_file_bytes(1024, 0) == 8208 && povundiri_file_bytes(1024, 1) == 8208 && povundiri_file_bytes(1024, 2) == 8224);
    HOLDS(povundiri_file_bytes(1048576, 8) == LARGEST);
    HOLDS(povundiri_file_bytes(1048577, 0) == 0 && povundiri_file_bytes(UINT64_MAX, 0) == 0 && povundiri_file_bytes(1024, 9) == 0);
    HOLDS(povundiri_file_open(&file, path_of("lengths"), 0, NULL) == EINVAL);
    HOLDS(povundiri_file_open(&file, path_of("lengths"), LARGEST + 1, NULL) == EINVAL);
    HOLDS(povundiri_file_open(&file, path_of("lengths"), SIZE_MAX, NULL) == EINVAL);
    HOLDS(povundiri_file_open(&file, NULL, 16, NULL) == EINVAL && povundiri_file_open(NULL, path_of("lengths"), 16, NULL) == EINVAL);
    HOLDS(length_of("lengths") == -1);
    HOLDS(povundiri_file_open(&file, path_of("lengths"), 40, NULL) == 0);
    HOLDS(povundiri_file_room(&file).bytes == 48 && length_of("lengths") == 48);
    HOLDS(povundiri_file_open(&file, path_of("other"), 40, NULL) == EINVAL && length_of("other") == -1);
    povundiri_file_close(&file);
    HOLDS(povundiri_file_open(&file, path_of("lengths"), 16, NULL) == 0);
    HOLDS(povundiri_file_room(&file).bytes == 48 && length_of("lengths") == 48);
    povundiri_file_close(&file);
}

/* A file that is not open has no memory, no descriptor, and nothing to close. */
static void not_open(void) {
    struct povundiri_file file = {0};
    size_t count = 9;
    HOLDS(open_file(&file, "not_open") == 0 && povundiri_file_is_open(&file));
    HOLDS(fcntl(povundiri_file_descriptor(&file), F_GETFD) == FD_CLOEXEC);
    povundiri_file_close(&file);
    HOLDS(!povundiri_file_is_open(&file) && !povundiri_file_is_open(NULL) && povundiri_file_descriptor(&file) == -1);
    HOLDS(povundiri_file_room(&file).at == NULL && povundiri_file_room(&file).bytes == 0);
    HOLDS(povundiri_file_words(&file, &count) == NULL && count == 0);
    HOLDS(povundiri_file_keep_on_fork(&file, true) == EINVAL);
    povundiri_file_close(&file);
    povundiri_file_close(NULL);
}

/* A file is new if it is empty, or has zeros alone and is no longer than the largest segment's file. Once it is open, all its blocks are
 * there. */
static void new_files(void) {
    static const off_t zeros[] = {0, 1, 8, 15, 16, 17, 4096, 8224, 65536, LARGEST};
    struct povundiri_file file = {0};
    size_t i, count;
    for (i = 0; i < sizeof zeros / sizeof zeros[0]; i += 1) {
        const off_t wanted = zeros[i] <= 8224 ? 8224 : zeros[i];
        store_hole("zeros", zeros[i]);
        HOLDS(open_file(&file, "zeros") == 0);
        HOLDS(length_of("zeros") == wanted && blocks_of("zeros") >= wanted);
        HOLDS(povundiri_file_words(&file, &count) == NULL && count == 0);
        povundiri_file_close(&file);
    }
}

/* Opens a file that is not a segment's: it keeps its bytes and its length, and gets no more blocks. */
static void refuse(int line, const char *name, const void *bytes, size_t length) {
    struct povundiri_file file = {0};
    const off_t blocks = blocks_of(name);
    struct povundiri_opened opened = POVUNDIRI_OPENED;
    int policy;
    check(line, "EEXIST", open_file(&file, name) == EEXIST && !povundiri_file_is_open(&file));
    for (policy = POVUNDIRI_ADOPT_OR_FAIL; policy <= POVUNDIRI_ADOPT_OR_BEGIN_ANEW; policy += 1) {
        check(line, "system", open_and_count(name, (enum povundiri_policy)policy, 1, &opened) == POVUNDIRI_SYSTEM);
        check(line, "no segment's", opened.fault == EEXIST && opened.outcome == POVUNDIRI_NOTHING && opened.set_aside[0] == 0);
    }
    check(line, "untouched", bytes != NULL ? has_bytes(path_of(name), bytes, length) : length_of(name) == (off_t)length);
    check(line, "no more blocks", blocks_of(name) == blocks);
}

static void others_files(void) {
    static const char text[] = "what somebody else has written\n";
    static const uint64_t cookie[2] = {0, COOKIE};
    static unsigned char image[65536];
    memset(image, 0, sizeof image);
    image[1024 + 56] = 0x53; /* the magic number of ext4, after a kilobyte of zeros */
    image[1024 + 57] = 0xEF;
    memset(image + 4096, 0x5A, 8192);
    store("ext4", image, sizeof image);
    refuse(__LINE__, "ext4", image, sizeof image);
    memset(image, 0, sizeof image);
    image[sizeof image - 1] = 1;
    store("last", image, sizeof image);
    refuse(__LINE__, "last", image, sizeof image);
    store("text", text, sizeof text);
    refuse(__LINE__, "text", text, sizeof text);
    store("short", text, 15);
    refuse(__LINE__, "short", text, 15);
    store("half_a_cookie", cookie, 12);
    refuse(__LINE__, "half_a_cookie", cookie, 12);
    store_hole("sparse", (off_t)1 << 30);
    refuse(__LINE__, "sparse", NULL, (size_t)1 << 30);
    store_hole("longer", LARGEST + 1);
    refuse(__LINE__, "longer", NULL, LARGEST + 1);
    store_hole("sparse_header", (off_t)1 << 30);
    store_at("sparse_header", 0, cookie, sizeof cookie);
    refuse(__LINE__, "sparse_header", NULL, (size_t)1 << 30);
}

/* A header of which some words are still 0, with zeros after it, was not finished. */
static void unfinished(void) {
    static const uint64_t header[18] = {0, COOKIE, 2, 64, 64, 7, 1, 0, 16, 12, 0, 0, 0, 4, 1, 0, 12, 0};
    uint64_t changed[18];
    struct povundiri_file file = {0};
    struct povundiri_opened opened = POVUNDIRI_OPENED;
    size_t length = 9, end;
    for (end = 1; end < 17; end += 1) {
        memset(changed, 0, sizeof changed);
        memcpy(changed, header, 8 * end);
        store("unfinished", changed, sizeof changed);
        HOLDS(povundiri_file_open(&file, path_of("unfinished"), 16, NULL) == 0);
        HOLDS(povundiri_file_words(&file, &length) == NULL && length == 0);
        povundiri_file_close(&file);
        DONE(open_and_count("unfinished", POVUNDIRI_ADOPT_OR_FAIL, 5, &opened));
        HOLDS(opened.outcome == POVUNDIRI_MADE && units_in(path_of("unfinished")) == 5);
    }
    store("unfinished", header, sizeof header);
    HOLDS(povundiri_file_open(&file, path_of("unfinished"), 8224, NULL) == 0);
    free(povundiri_file_words(&file, &length));
    HOLDS(length == 17 && length_of("unfinished") == sizeof header);
    povundiri_file_close(&file);
}

/* One of the words that are never 0 is 0, and data comes after: adopt names the fault, and the file is unchanged. The cookie is what
 * makes the file one of a segment. */
static void one_zero(void) {
    static const struct {
        size_t word;
        uint32_t fault;
    } zeroed[] = {{1, POVUNDIRI_IMAGE_BAD_VERSION}, {2, POVUNDIRI_IMAGE_BAD_SIZE},   {3, POVUNDIRI_IMAGE_BAD_PAGE},
                  {5, POVUNDIRI_IMAGE_NOT_READY},   {7, POVUNDIRI_IMAGE_BAD_FREE},   {8, POVUNDIRI_ADOPT_DAMAGED},
                  {12, POVUNDIRI_IMAGE_BAD_QUEUE},  {13, POVUNDIRI_IMAGE_BAD_QUEUE}, {15, POVUNDIRI_ADOPT_DAMAGED}};
    const uint64_t zero = 0;
    struct povundiri_opened opened = POVUNDIRI_OPENED;
    size_t i, length;
    for (i = 0; i < sizeof zeroed / sizeof zeroed[0]; i += 1) {
        struct povundiri_file file = {0};
        struct povundiri_handle segment = {0};
        unsigned char *before;
        uint64_t *words;
        size_t count;
        make_segment("one_zero", 502600);
        store_at("one_zero", 8 + 8 * (off_t)zeroed[i].word, &zero, 8);
        before = bytes_at(path_of("one_zero"), &length);
        HOLDS(open_file(&file, "one_zero") == 0);
        words = povundiri_file_words(&file, &count);
        HOLDS(words != NULL && count != 0);
        check_status(__LINE__, "adopt", zeroed[i].fault, povundiri_adopt_in(povundiri_file_room(&file), words, count, 0, &segment));
        free(words);
        povundiri_file_close(&file);
        check_status(__LINE__, "open", zeroed[i].fault, open_and_count("one_zero", POVUNDIRI_ADOPT_OR_FAIL, 1, &opened));
        HOLDS(opened.refused == zeroed[i].fault && opened.set_aside[0] == 0);
        HOLDS(has_bytes(path_of("one_zero"), before, length));
        free(before);
    }
    make_segment("one_zero", 502600);
    store_at("one_zero", 8, &zero, 8);
    HOLDS(open_and_count("one_zero", POVUNDIRI_ADOPT_OR_FAIL, 1, &opened) == POVUNDIRI_SYSTEM && opened.fault == EEXIST);
}

/* Opens a segment's file that was cut off at a length, which stays unchanged; returns the status. */
static uint32_t status_where_cut(off_t at) {
    struct povundiri_opened opened = POVUNDIRI_OPENED;
    size_t length;
    unsigned char *before;
    uint32_t status;
    make_segment("cut", 5);
    HOLDS(truncate(path_of("cut"), at) == 0);
    before = bytes_at(path_of("cut"), &length);
    status = open_and_count("cut", POVUNDIRI_ADOPT_OR_FAIL, 1, &opened);
    HOLDS(length == (size_t)at && has_bytes(path_of("cut"), before, length));
    free(before);
    return status;
}

/* A segment's file of which the end is missing keeps its length, and adopt says BadSize; one that has all words of its own grows. */
static void cut_files(void) {
    static const off_t cut[] = {136, 137, 1000, 4096, 8192, 8199};
    struct povundiri_opened opened = POVUNDIRI_OPENED;
    size_t i;
    for (i = 0; i < sizeof cut / sizeof cut[0]; i += 1) ANSWERS(IMAGE_BAD_SIZE, status_where_cut(cut[i]));
    make_segment("cut", 5);
    HOLDS(truncate(path_of("cut"), 8200) == 0);
    DONE(open_and_count("cut", POVUNDIRI_ADOPT_OR_FAIL, 1, &opened));
    HOLDS(length_of("cut") == 8224 && units_in(path_of("cut")) == 6);
}

/* A header that breaks off in its last word is none, and no segment is made over it. */
static void cut_headers(void) {
    static const off_t cut[] = {129, 133, 135};
    struct povundiri_opened opened = POVUNDIRI_OPENED;
    size_t i;
    for (i = 0; i < sizeof cut / sizeof cut[0]; i += 1) ANSWERS(IMAGE_TOO_SHORT, status_where_cut(cut[i]));
    make_segment("cut", 5);
    HOLDS(truncate(path_of("cut"), 128) == 0);
    DONE(open_and_count("cut", POVUNDIRI_ADOPT_OR_FAIL, 1, &opened));
    HOLDS(opened.outcome == POVUNDIRI_MADE && units_in(path_of("cut")) == 1);
}

/* A file that is refused keeps its length, even if room for more cursors would have been made. */
static void refused_as_it_was(void) {
    const uint64_t wrong = 16; /* the free pointer, before the record */
    struct povundiri_opened opened = POVUNDIRI_OPENED;
    unsigned char *before;
    size_t length;
    make_segment("as_it_was", 5);
    HOLDS(truncate(path_of("as_it_was"), 8200) == 0);
    store_at("as_it_was", 8 + 8 * 7, &wrong, 8);
    before = bytes_at(path_of("as_it_was"), &length);
    ANSWERS(ADOPT_DAMAGED, open_and_count("as_it_was", POVUNDIRI_ADOPT_OR_FAIL, 1, &opened));
    HOLDS(length == 8200 && has_bytes(path_of("as_it_was"), before, length));
    free(before);
}

/* How the file is made, and whose may be opened. */
static int with(const char *name, unsigned flags, mode_t mode) {
    const struct povundiri_file_options options = {sizeof options, flags, mode};
    struct povundiri_file file = {0};
    const int fault = povundiri_file_open(&file, path_of(name), 8224, &options);
    HOLDS(povundiri_file_is_open(&file) == (fault == 0));
    povundiri_file_close(&file);
    return fault;
}

static void modes(void) {
    static const mode_t invalid[] = {0400, 0200, 0060, 0602, 0620, 0666, 0777, 04600, 01600};
    static const mode_t masks[] = {0, 002, 022, 077};
    size_t i;
    for (i = 0; i < sizeof masks / sizeof masks[0]; i += 1) {
        umask(masks[i]);
        unlink(path_of("mode"));
        HOLDS(with("mode", 0, 0) == 0 && mode_of("mode") == 0600);
        unlink(path_of("mode"));
        HOLDS(with("mode", 0, 0644) == 0 && mode_of("mode") == (int)(0644 & ~masks[i]));
        unlink(path_of("mode"));
        HOLDS(with("mode", POVUNDIRI_FILE_GROUP_WRITES, 0660) == 0 && mode_of("mode") == (int)(0660 & ~masks[i]));
    }
    umask(022);
    unlink(path_of("mode"));
    for (i = 0; i < sizeof invalid / sizeof invalid[0]; i += 1) HOLDS(with("mode", 0, invalid[i]) == EINVAL);
    HOLDS(with("mode", POVUNDIRI_FILE_GROUP_WRITES, 0662) == EINVAL && with("mode", 32, 0) == EINVAL);
    HOLDS(!is_there(path_of("mode")));
}

static void writers(void) {
    enum { ALL = POVUNDIRI_FILE_GROUP_WRITES | POVUNDIRI_FILE_ANY_OWNER | POVUNDIRI_FILE_FOLLOW };
    make_segment("writers", 5);
    HOLDS(chmod(path_of("writers"), 0644) == 0 && with("writers", 0, 0) == 0);
    HOLDS(chmod(path_of("writers"), 0620) == 0 && with("writers", 0, 0) == EPERM && with("writers", ALL, 0) == 0);
    HOLDS(with("writers", POVUNDIRI_FILE_ANY_OWNER, 0) == EPERM && with("writers", POVUNDIRI_FILE_GROUP_WRITES, 0) == 0);
    HOLDS(chmod(path_of("writers"), 0602) == 0 && with("writers", 0, 0) == EPERM && with("writers", ALL, 0) == EPERM);
    HOLDS(chmod(path_of("writers"), 0600) == 0 && units_in(path_of("writers")) == 5);
}

static void foreign_owner(void) {
    make_segment("foreign", 5);
    HOLDS(chown(path_of("foreign"), 12345, (gid_t)-1) == 0);
    HOLDS(with("foreign", 0, 0) == EPERM && with("foreign", POVUNDIRI_FILE_GROUP_WRITES, 0) == EPERM);
    HOLDS(with("foreign", POVUNDIRI_FILE_ANY_OWNER, 0) == 0 && units_in(path_of("foreign")) == 5);
}

static void links(void) {
    make_segment("target", 5);
    unlink(path_of("link"));
    unlink(path_of("dangling"));
    HOLDS(symlink("target", path_of("link")) == 0 && symlink("made_by_link", path_of("dangling")) == 0);
    HOLDS(with("link", 0, 0) == ELOOP && with("dangling", 0, 0) == ELOOP && !is_there(path_of("made_by_link")));
    HOLDS(with("link", POVUNDIRI_FILE_FOLLOW, 0) == 0 && with("dangling", POVUNDIRI_FILE_FOLLOW, 0) == 0);
    HOLDS(length_of("made_by_link") == 8224 && units_in(path_of("target")) == 5);
}

/* A file that has to be there: none is made, even if the last one was set aside. */
static void existing(void) {
    static const struct povundiri_file_options options = {sizeof options, POVUNDIRI_FILE_EXISTING, 0};
    const uint64_t wrong = 16; /* the free pointer, before the record */
    struct povundiri_file file = {0};
    struct povundiri_handle segment = {0};
    struct povundiri_opened opened = POVUNDIRI_OPENED;
    HOLDS(with("existing", POVUNDIRI_FILE_EXISTING, 0) == ENOENT && !is_there(path_of("existing")));
    store("existing", "", 0);
    HOLDS(with("existing", POVUNDIRI_FILE_EXISTING, 0) == 0 && length_of("existing") == 8224);
    make_segment("existing", 5);
    HOLDS(with("existing", POVUNDIRI_FILE_EXISTING, 0) == 0 && units_in(path_of("existing")) == 5);
    store_at("existing", 8 + 8 * 7, &wrong, 8);
    ANSWERS(SYSTEM, povundiri_open(path_of("existing"), shape_of(WORDS), POVUNDIRI_ADOPT_OR_SET_ASIDE, &options, &file, &segment, &opened));
    HOLDS(opened.fault == ENOENT && opened.outcome == POVUNDIRI_NOTHING && !is_there(path_of("existing")) && is_there(opened.set_aside));
}

static void no_files(void) {
    struct sockaddr_un name = {AF_UNIX, {0}};
    const int listening = socket(AF_UNIX, SOCK_STREAM, 0);
    HOLDS(mkfifo(path_of("pipe"), 0600) == 0 && mkdir(path_of("directory"), 0700) == 0);
    HOLDS(symlink("/dev/null", path_of("null")) == 0);
    snprintf(name.sun_path, sizeof name.sun_path, "%s/socket", folder);
    HOLDS(bind(listening, (struct sockaddr *)&name, sizeof name) == 0);
    HOLDS(with("pipe", 0, 0) == EINVAL && with("directory", 0, 0) == EINVAL && with("socket", 0, 0) == EINVAL);
    HOLDS(with("null", POVUNDIRI_FILE_FOLLOW, 0) == EINVAL && with("none/file", 0, 0) == ENOENT);
    close(listening);
}

/* Segments of the same file, one after the other. */
static uint32_t record(struct povundiri_file *file, uint32_t count) {
    struct povundiri_handle segment = {0};
    size_t length = 9;
    uint32_t units = 0;
    uint64_t *words = povundiri_file_words(file, &length);
    HOLDS((words == NULL) == (length == 0));
    if (words == NULL) DONE(povundiri_create_in(povundiri_file_room(file), shape_of(WORDS), &segment));
    if (words != NULL) DONE(povundiri_adopt_in(povundiri_file_room(file), words, length, CURSORS, &segment));
    free(words);
    count_units(&segment, count);
    DONE(povundiri_units(&segment, &units));
    DONE(povundiri_drop(&segment));
    return units;
}

static void goes_on(void) {
    static const char expected[] = "s,sparse,3,4,15\ns,total,15,45\n";
    struct povundiri_file file = {0};
    size_t length = 0, needed = 0;
    uint64_t *words;
    char text[64];
    HOLDS(open_file(&file, "segment") == 0);
    HOLDS(record(&file, 5) == UINT32_MAX - 5);
    HOLDS(record(&file, 4) == UINT32_MAX - 9);
    povundiri_file_close(&file);
    HOLDS(open_file(&file, "segment") == 0);
    HOLDS(record(&file, 6) == UINT32_MAX - 15);
    words = povundiri_file_words(&file, &length);
    HOLDS(length == WORDS && memcmp((char *)povundiri_file_room(&file).at + 8, words, 8 * WORDS) == 0);
    DONE(povundiri_report(words, length, text, sizeof text, &needed));
    HOLDS(needed == sizeof expected - 1 && memcmp(text, expected, needed) == 0);
    free(words);
    povundiri_file_close(&file);
}

int main(int count, char **words) {
    int failed;
    if (count != 2) return 2;
    folder = words[1];
    failed = group("lengths", lengths);
    failed += group("not_open", not_open);
    failed += group("new_files", new_files);
    failed += group("others_files", others_files);
    failed += group("unfinished", unfinished);
    failed += group("one_zero", one_zero);
    failed += group("cut_files", cut_files);
    failed += group("cut_headers", cut_headers);
    failed += group("refused_as_it_was", refused_as_it_was);
    failed += group("modes", modes);
    failed += group("writers", writers);
    failed += geteuid() == 0 ? group("foreign_owner", foreign_owner) : left_out("foreign_owner", "only root can give a file away");
    failed += group("links", links);
    failed += group("existing", existing);
    failed += group("no_files", no_files);
    failed += group("goes_on", goes_on);
    return failed != 0;
}
