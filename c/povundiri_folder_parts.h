/* What povundiri_folder.c has in common with the files of folds and of recordings. It is not installed. */
#ifndef POVUNDIRI_FOLDER_PARTS_H
#define POVUNDIRI_FOLDER_PARTS_H

#include <sys/stat.h>

#include "povundiri_file_parts.h"
#include "povundiri_folder.h"
#include "povundiri_layout.h"

/* The most bytes of a segment's file: its words, the one before them and those of eight cursors, in whole units of 16 bytes. */
enum { MOST_BYTES = WORD * MOST_WORDS + 80, LONGEST_NAME = 64 };

/* The least number with more than 18 digits, which is no segment's. */
#define NUMBERS_END UINT64_C(1000000000000000000)

/* Faults of this library, beside those of the system, which are above 0. */
enum { FAULT_FOLDER_IN_USE = -1, FAULT_NO_RECORDING = -2, FAULT_NOT_OWNER = -3 };

/* The status of a fault. On any but POVUNDIRI_SYSTEM *fault is 0 then. */
uint32_t povundiri_parts_status(int *fault);

/* A descriptor, which a child of fork does not keep: with it, it would keep a lock. */
struct povundiri_held {
    struct povundiri_held *next;
    int descriptor;
};

/* What is in a folder. */
struct povundiri_listing {
    uint64_t *numbers; /* of segments, ascending */
    size_t count, room;
    uint64_t last;     /* the greatest number below NUMBERS_END of a segment or of a damaged file; 0: there is none */
    bool is_marked;    /* as a recording's: `recording` is a whole mark or an empty one */
    bool is_empty;     /* but for marks that have not got their name */
    bool has_any;    /* a segment, a damaged file, or totals */
    bool has_others; /* a name that no recording gives, or a `recording` of another kind */
};

/* What is done with each name. A fault ends it. */
typedef int povundiri_each_name(void *context, const char *name);

/* A segment that is in the totals. */
struct povundiri_named {
    uint64_t number, id;
};

/* The file `totals`, or nothing. */
struct povundiri_totals_file {
    char *text;
    size_t length;
    struct povundiri_named *of;
    size_t count;
    uint64_t serial; /* 0: no fold made it */
};

/* The words of the image in a file, and how many; the words begin after the first one. */
struct povundiri_image {
    uint64_t *bytes;
    const uint64_t *words;
    size_t count;
};

/* ---- Files and names ---- */

/* Opens a file of a folder, which is closed in a child of fork, and no link, or one. 0, or the system's fault. */
int povundiri_parts_open(struct povundiri_held *held, int folder, const char *name, int flags);
int povundiri_parts_open_link(struct povundiri_held *held, int folder, const char *name, int flags);
int povundiri_parts_open_folder(struct povundiri_held *held, const char *path);

/* Makes a file in a folder, and hands it over as povundiri_parts_hand_over does. EEXIST if there is one. */
int povundiri_parts_make(struct povundiri_held *held, int folder, const char *name, int flags, mode_t mode);

/* Hands a file that this process has made over to the owner of the folder, if this is uid 0, and to the folder's group, if this user may. 0, or the
 * system's fault. */
int povundiri_parts_hand_over(int descriptor, int folder);

/* The same file by another descriptor. */
int povundiri_parts_copy(struct povundiri_held *held, int descriptor);

/* Closes it; or forgets it, since its number is another file's by now. */
void povundiri_parts_close(struct povundiri_held *held);
void povundiri_parts_forget(struct povundiri_held *held);

/* Takes the lock of a file. 0; EBUSY if somebody has it; or the system's fault. */
int povundiri_parts_lock(int descriptor);

/* Opens a regular file and takes its lock: EBUSY if somebody has it; ENOENT if the name leads to another file by now, or to none. */
int povundiri_parts_open_locked(struct povundiri_held *held, int folder, const char *name, struct stat *about);

/* A name by number and kind; that of a spare, and whether it is one, as it is spelled. */
void povundiri_parts_name_of(char *name, uint64_t number, const char *kind);
void povundiri_parts_name_spare(char *name, long process, uint64_t random);
bool povundiri_parts_is_spare(const char *name);

/* The path of a name. ENAMETOOLONG if it is too long. */
int povundiri_parts_join(char *path, const char *folder, const char *name);

int povundiri_parts_each(int folder, povundiri_each_name *call, void *context);

/* `numbers` are for free(), also after a fault. */
int povundiri_parts_list(int folder, struct povundiri_listing *listing);

/* Whether it is a recording's folder: it is marked, or has something of one and nothing else. */
bool povundiri_parts_is_recordings(const struct povundiri_listing *listing);

/* How many bytes its files have, all together. */
int povundiri_parts_bytes(int folder, uint64_t *bytes);

/* Writes all bytes. 0, or the system's fault; EFBIG, and nothing is written, if the process may not write a file of that length. */
int povundiri_parts_write(int descriptor, const void *from, size_t bytes);

int povundiri_parts_sync(int descriptor);

/* Opens the file whose lock a fold has, or makes it with this mode, and takes the lock. 0, EBUSY, or the system's fault. */
int povundiri_parts_lock_folds(struct povundiri_held *held, int folder, mode_t mode);

/* povundiri_folder_count, _sums and _fold of an open folder. A fold of one that has lost its mark marks it with the id `known`, if that is not
 * 0. */
int povundiri_parts_count(int folder, uint64_t *segments);
uint32_t povundiri_parts_sums(int folder, struct povundiri_handle *sums, uint64_t *left, int *fault);
uint32_t povundiri_parts_fold(int folder, uint64_t known, uint64_t *folded, int *fault);

/* The file `totals`, for povundiri_parts_free. No file is a totals without text. */
int povundiri_parts_totals(int folder, struct povundiri_totals_file *totals);
void povundiri_parts_free(struct povundiri_totals_file *totals);
bool povundiri_parts_names(const struct povundiri_totals_file *totals, uint64_t number, uint64_t id);

/* The greatest number below NUMBERS_END that the totals name; 0 if they name none, or there are none. The lines that name segments are at
 * their end: only that is read. 0, or the system's fault. */
int povundiri_parts_greatest_named(int folder, uint64_t *number);

/* The sum of the totals, in an empty handle. */
uint32_t povundiri_parts_begin_sums(const struct povundiri_totals_file *totals, struct povundiri_handle *sums);

/* Reads the image of a final segment. `bytes` are for free(), also after a fault. */
int povundiri_parts_image(int descriptor, off_t length, struct povundiri_image *image);

/* Whether a status is that of a header's fault. */
bool povundiri_parts_is_fault(uint32_t status);

/* ---- The mark ---- */

/* The words of `recording` (docs/FORMAT.md). */
enum { MARK_WORDS = 512, MARK_BYTES = WORD * MARK_WORDS, MARK_ID_AT = 2, MARK_MISSED_AT = 16 };

/* What has the name `recording`: nothing; a mark without words, or of zeros, by an earlier version or on a full device; a mark with its
 * words; or what is no mark. */
enum povundiri_mark { NO_MARK, EMPTY_MARK, WHOLE_MARK, OTHER_FILE };

/* Says it of a folder, and the mode of what a fold makes there, if there is a mark. 0, or the system's fault. */
int povundiri_mark_look(int folder, enum povundiri_mark *mark, mode_t *mode);

/* Opens it, and reads its words. 0, or the system's fault, and then it is not open. */
int povundiri_mark_open(struct povundiri_held *held, int folder, int flags, struct stat *about, uint64_t *words, enum povundiri_mark *mark);

/* Marks a folder by a file of this mode, if it is empty or a recording's. One that is marked already by an empty file gets a mark with
 * words, if nobody folds, and it can be made. FAULT_FOLDER_IN_USE if it is another one. Its id is `known`, if that is not 0 and something
 * is there that was recorded; else a new one. */
int povundiri_mark_make(int folder, mode_t mode, uint64_t known);

/* Whether it is the name of a mark that has not got its own. */
bool povundiri_mark_is_new(const char *name);

/* A random number, by the system. */
uint64_t povundiri_parts_random(void);

/* ---- Segments that this process records into ---- */

/* A recording's folder. */
struct povundiri_place {
    char *path;                 /* absolute, for free() */
    struct povundiri_held held; /* the folder, if it is open; the process may have closed it since */
    bool is_open;
    unsigned flags; /* of povundiri_file_flag: whom it may belong to, and who may write there */
    mode_t mode;    /* of its files */
    dev_t device;   /* with the inode, of the folder */
    ino_t inode;
    uint64_t id;       /* of the folder; 0: it is not known */
    uint64_t last;     /* the greatest number, below NUMBERS_END, that was found or begun there, or named by the totals; 0: none was */
    bool keeps_locks;  /* the mapping of a file there keeps its lock, without a descriptor */
    bool names_spares; /* a spare has a name, since the system has no others, or does not name them later */
};

/* A segment in a folder that this process records into. */
struct povundiri_owned {
    struct povundiri_owned *next;
    uint64_t number; /* 0 of a spare */
    struct povundiri_file file;
    struct povundiri_handle segment;
    uint32_t recorders;
    bool is_gone;            /* its folder is */
    char name[LONGEST_NAME]; /* empty: it has none yet */
};

/* What is found in a folder. */
struct povundiri_found {
    struct povundiri_owned *newest;       /* a segment that is continued, or begun because nothing was begun in its file before; else null */
    bool is_adopted;                      /* it is continued */
    uint32_t refused;                     /* what is wrong with the image of the newest; else POVUNDIRI_DONE */
    char set_aside[POVUNDIRI_PATH_BYTES]; /* the new name of one whose header has a fault; else empty */
};

/* Watches for forks. False if there is no memory for it. */
bool povundiri_folder_watch(void);

/* With the flags and the mode of `place`, makes the folder, if it is not there, marks it as a recording's, if it is empty or is one without a mark, opens it, and removes old spares
 * that nobody holds; FAULT_FOLDER_IN_USE if it is neither empty nor a recording's, FAULT_NOT_OWNER or EPERM if it is another user's or others
 * may write there, and then nothing is changed. 0, or a fault, and then
 * `place` has no path. */
int povundiri_place_enter(struct povundiri_place *place, const char *folder);

/* Opens the folder anew, if its descriptor was closed; if the folder was removed, or another one has its path and the descriptor was closed, it
 * is made and marked again: *is_another. 0, or the system's fault, and then it is not open. */
int povundiri_place_look(struct povundiri_place *place, bool *is_another);

/* Whether it is open, and was not removed. */
bool povundiri_place_stands(const struct povundiri_place *place);

/* The folder by another descriptor, or what its path leads to by now. */
int povundiri_place_copy(const struct povundiri_place *place, struct povundiri_held *held);

/* The same place, with such a descriptor of its own; the path stays that of the first one. 0, or the system's fault: then it is not open. */
int povundiri_place_share(const struct povundiri_place *place, struct povundiri_place *other);

void povundiri_place_leave(struct povundiri_place *place);

/* Adopts the segment of the greatest number that is final, has this shape, units and room, and that the totals do not name. At a start of a
 * recording, if nothing was begun in the file of the newest, a segment is made there; and if the header of the newest has a fault, that gets
 * another name. No file is made. POVUNDIRI_DONE also if none is adopted; POVUNDIRI_NO_MEMORY; POVUNDIRI_SYSTEM and *fault: the folder could not
 * be listed. */
uint32_t povundiri_folder_adopt(struct povundiri_place *place, struct povundiri_shape shape, bool is_start,
                                struct povundiri_found *found, int *fault);

/* A spare of this shape. On any but POVUNDIRI_DONE *spare is null; on POVUNDIRI_SYSTEM *fault is the system's. */
uint32_t povundiri_folder_spare(struct povundiri_place *place, struct povundiri_shape shape, uint64_t random,
                                struct povundiri_owned **spare, int *fault);

/* Whether the device has as much left as a fold may need for new totals: what those that are there have, and what a segment of this shape has.
 * Looked at after a spare was made, so that two threads do not both take the last of it. So too where the system does not say. */
bool povundiri_folder_leaves_room(const struct povundiri_place *place, struct povundiri_shape shape);

/* Gives a spare the next number: the first free one above those that are known of the folder and those that its totals name, also where a
 * fold names some meanwhile. The folder is only looked through where none is known, or many have been taken by others. 0, or the system's
 * fault; then it is a spare still. EAGAIN: another spare may get it. EOVERFLOW: there is no number below NUMBERS_END. */
int povundiri_folder_commit(struct povundiri_place *place, struct povundiri_owned *spare);

/* Whether the segment has its name still. So too where the system does not say. */
bool povundiri_folder_stands(const struct povundiri_place *place, const struct povundiri_owned *owned);

/* The units that are in it. */
uint64_t povundiri_folder_units(struct povundiri_owned *owned);

/* Ends what this process has of it. A spare is removed. No recorder is left. */
void povundiri_folder_release(const struct povundiri_place *place, struct povundiri_owned *owned);

#endif
