/* A segment in a file: what it counted is in the file also after the process was killed, and the next process continues from it.
 *
 * TRUST. From the moment it is adopted, the file is trusted like the program's own heap: anyone who may write it while the program runs can
 * change any of the program's memory. Anyone who may open the file, even to read it, can hold its lock: then it cannot be opened here
 * (EBUSY). So a file is made with mode 0600, and one that others own or may write is refused (EPERM), unless the options say otherwise.
 *
 *     struct povundiri_file file = {0};
 *     struct povundiri_handle segment = {0};
 *     struct povundiri_opened opened = POVUNDIRI_OPENED;
 *     uint32_t status = povundiri_open("latency.seg", shape, POVUNDIRI_ADOPT_OR_SET_ASIDE, NULL, &file, &segment, &opened);
 *     if (status == POVUNDIRI_SYSTEM) ..                  the system's fault: opened.fault is its number (errno.h)
 *     else if (status != POVUNDIRI_DONE) ..               the library's: povundiri_status_text(status)
 *     if (opened.set_aside[0] != 0) ..                    the file that was there is damaged and has this name now: log it
 *     ..
 *     povundiri_drop(&segment);                           when all recorders are joined
 *     povundiri_file_close(&file);
 *
 * THE FILE holds the segment's table: 8 bytes of zeros, the image, and the shared cursors. So the image begins at byte 8, and others may
 * look at it at any time (persist_report look). It does not shrink here, and nobody else may truncate it: a store beyond its end raises
 * SIGBUS. Its blocks are reserved, so no store finds the device full.
 *
 * THE LOCK is flock(2), exclusive, on the whole file, from open to close or to the end of the process, however it ends. It excludes other
 * processes, other threads, and a second open in this process. It is not lost if another descriptor of the file is closed, nor if a
 * daemon closes all its descriptors, since the mapping keeps it; but on overlayfs, as in most containers, a mapping does not, and the lock
 * ends with the descriptor. It works among the processes of one machine that take it.
 *
 * FORK. A child of fork(2) does not have the file: its descriptor is closed there and its memory is not mapped, so the lock ends with the
 * parent, however long the child lives. In the child povundiri_file_is_open is false, povundiri_file_close only forgets the
 * file, and it can be opened again once the parent has closed it. A child makes no call on a segment or a recorder that the parent made: in
 * C that raises SIGSEGV if the segment is in a file. POVUNDIRI_FILE_KEEP_ON_FORK is for daemon(3) and the like: the child has the memory
 * and the lock, and the parent makes no call any more. _Fork(3) and a raw clone(2) call no handlers: such a child has no memory, but it
 * holds the lock until it calls exec or ends. vfork(2) and posix_spawn(3) harm nothing.
 *
 * A KILL at any moment loses no unit that was counted, and the next open succeeds: a file that was being made or extended is new or
 * unchanged, and one that was being set aside has its old name, or the new one, or both. A crash of the machine is another matter: then some
 * pages may be older than others.
 *
 * For Linux with glibc. Nothing here is proved. */
#ifndef POVUNDIRI_FILE_H
#define POVUNDIRI_FILE_H

#include <stdbool.h>
#include <stddef.h>
#include <stdint.h>
#include <sys/types.h>

#include "povundiri.h"

#ifdef __cplusplus
extern "C" {
#endif

/* ---- Files ---- */

/* What a process knows of an open file. */
struct povundiri_mapping;

/* A file that is open here, or none. It begins as zeros, and only the functions below change it. It may be moved: copied, and the old one
 * zeroed. Calls on one file come one at a time; calls on different files, also of one path, may come from any threads. */
struct povundiri_file {
    struct povundiri_mapping *mapping;
};

/* What else may be opened, and how. */
enum povundiri_file_flag {
    POVUNDIRI_FILE_GROUP_WRITES = 1, /* the group may write the file: it is trusted as well. Others may not in any case */
    POVUNDIRI_FILE_ANY_OWNER = 2,    /* the file may be another user's, who is trusted as well */
    POVUNDIRI_FILE_FOLLOW = 4,       /* the last part of the path may be a symbolic link */
    POVUNDIRI_FILE_KEEP_ON_FORK = 8, /* children of fork have the file, as povundiri_file_keep_on_fork says */
    POVUNDIRI_FILE_EXISTING = 16     /* no file is made: ENOENT if there is none, also after one was set aside */
};

/* How a file is opened. It begins as POVUNDIRI_FILE_OPTIONS, which is what is usual, as is a null in its place.
 *   size    of this struct, as the caller knows it; 0: as it was first. If it is less than that, or a member that is not known here is not 0,
 *           the options are refused: povundiri_open returns POVUNDIRI_BAD_OPTIONS, and povundiri_file_open EINVAL
 *   flags   some of povundiri_file_flag
 *   mode    of a file that is made, less the umask: 0600 and more of 0777, or 0 for 0600. Write for the group asks for
 *           POVUNDIRI_FILE_GROUP_WRITES; write for others may not be. */
struct povundiri_file_options {
    size_t size;
    unsigned flags;
    mode_t mode;
};

#define POVUNDIRI_FILE_OPTIONS {sizeof(struct povundiri_file_options), 0, 0}

/* The bytes of a file for a segment with this many words and shared cursors: a multiple of 16. 0 if no segment is so large. */
size_t povundiri_file_bytes(uint64_t words, size_t cursors);

/* Opens the file or makes it, locks it, and maps it.
 *
 * The file may be new: empty, or zeros to its end and no longer than that of the largest segment. Then it gets `bytes` bytes, or keeps its
 * length if that is more. Or it begins as a segment's file. Then it is extended to `bytes` if it is shorter and has all words that its
 * header promises; if some of these are missing, its length stays, and povundiri_adopt says what is wrong with them. Its bytes are never
 * changed. The length is rounded up to a multiple of 16.
 *
 * Returns 0, or the number of the system's fault (errno.h). Then nothing is open, and the bytes and the length of the file are unchanged. A
 * file that was made stays, empty: the next open takes it as new.
 *   EINVAL      bytes are 0, or more than of the largest segment; a flag or mode is not valid; `file` is open; the path leads to
 *               something that is no regular file, such as a directory, a pipe or a device
 *   EEXIST      the file is neither new nor a segment's: it is not touched
 *   EBUSY       somebody held its lock for 100 ms, during which it was tried again and again: a reader may probe for a moment
 *   ELOOP       the last part of the path is a symbolic link
 *   EPERM       another user owns the file, or the group or others may write it
 *   EFBIG       the process may not write files of this length (RLIMIT_FSIZE)
 *   ENOSPC, EDQUOT, ENOMEM, EACCES, ENOENT, EROFS and others, as the system calls say
 * A signal interrupts nothing: the system calls are made again. */
int povundiri_file_open(struct povundiri_file *file, const char *path, size_t bytes,
                        const struct povundiri_file_options *options) POVUNDIRI_CHECKED;

/* Whether the file is open in this process. */
bool povundiri_file_is_open(const struct povundiri_file *file);

/* The file's descriptor, for fstat or fsync. Do not close, unlock, truncate or write it. -1 if the file is not open. */
int povundiri_file_descriptor(const struct povundiri_file *file);

/* The file's memory as a room, for one segment at a time. Until that is gone, with all its recorders, nobody else writes to it. All zeros,
 * which is no room, if the file is not open. */
struct povundiri_room povundiri_file_room(const struct povundiri_file *file);

/* A copy of the words of the image in the file, for povundiri_adopt and free(), and how many there are. NULL and 0 if no segment was begun
 * there, or it was not completed: one of the words of the header that are never 0 is 0, and all words after the header are zeros. Then
 * povundiri_create_in loses nothing. NULL and a number if there was no memory. No segment is in the room. */
uint64_t *povundiri_file_words(const struct povundiri_file *file, size_t *count) POVUNDIRI_CHECKED;

/* From now on children of fork have the file, its memory and its lock, or do not have it. With `keep`, one of parent and child continues with
 * the segment in it, and the other makes no call on it or its recorders, and ends or calls povundiri_file_close. They share the lock: it
 * ends when both have closed the file. So a daemon opens with POVUNDIRI_FILE_KEEP_ON_FORK, calls daemon(3), and then this with
 * false: what it forks later does not hold the lock.
 *
 * 0, or the number of the system's fault; EINVAL if the file is not open. */
int povundiri_file_keep_on_fork(struct povundiri_file *file, bool keep) POVUNDIRI_CHECKED;

/* Unmaps the file, and lets others open it. No segment is in the room. If the file is not open, as in a forked child, and for a null,
 * nothing happens. */
void povundiri_file_close(struct povundiri_file *file);

/* ---- Segments in files ---- */

/* What to do with a file whose image cannot be adopted, or has no more room. */
enum povundiri_policy {
    POVUNDIRI_ADOPT_OR_FAIL = 1,      /* it stays, and the call is refused: for tools, or if somebody has to look first */
    POVUNDIRI_ADOPT_OR_SET_ASIDE = 2, /* a refused one gets another name, and a new one is made: for services */
    POVUNDIRI_ADOPT_OR_BEGIN_ANEW = 3 /* so does one that is spent */
};

/* What happened. */
enum povundiri_outcome {
    POVUNDIRI_NOTHING = 0,  /* the call was refused */
    POVUNDIRI_MADE = 1,     /* there was no segment: a new one was made, of the shape that was asked for */
    POVUNDIRI_ADOPTED = 2,  /* the segment in the file was adopted, and keeps its shape */
    POVUNDIRI_MADE_ANEW = 3 /* the file was set aside, and a new segment was made in a new file */
};

/* The bytes of the longest path, with its zero byte. */
#define POVUNDIRI_PATH_BYTES 4096

/* What povundiri_open has done. It begins as POVUNDIRI_OPENED.
 *   size         set by the caller: how many bytes the struct has; 0 means the first layout, which ends with `set_aside`. More than the
 *                library knows are left as they are
 *   outcome      what happened
 *   fault        the system's fault (errno.h) if the status is POVUNDIRI_SYSTEM, else 0
 *   refused      why the image in the file was not adopted, as povundiri_adopt says; else POVUNDIRI_DONE
 *   shape        the shape of the segment, with the cursors that were asked for
 *   other_shape  whether size, page, id or version are not what was asked for, because the segment is an older one
 *   spent        no units are left, or an allocation found no room (the flag 'full'): some samples, if not all, will be refused
 *   units        the units that are left
 *   set_aside    the new name of the file that was set aside; else empty. It is set also if a later step of the call failed, such as on a
 *                full device: then the next call finds no file, or a new one. */
struct povundiri_opened {
    size_t size;
    enum povundiri_outcome outcome;
    int fault;
    uint32_t refused;
    struct povundiri_shape shape;
    bool other_shape;
    bool spent;
    uint32_t units;
    char set_aside[POVUNDIRI_PATH_BYTES];
};

#define POVUNDIRI_OPENED {sizeof(struct povundiri_opened), POVUNDIRI_NOTHING, 0, 0, {0, 0, 0, 0, 0}, false, false, 0, {0}}

/* Opens a file for a segment of this shape, and adopts the segment in it, or makes one. An older segment keeps its own size, page, id and
 * version, whatever was asked for. `options` may be null.
 *
 * A file is set aside by renaming it to PATH.damaged-YYYYMMDDThhmmssZ-N, in UTC and with the first N from 1 on that is free, and never over
 * another file; one that is spent to PATH.full-... Only an image that is refused for good is set aside: POVUNDIRI_ADOPT_OLD_VERSION,
 * _CORRUPT, _DAMAGED, _NO_UNITS and POVUNDIRI_IMAGE_TOO_SHORT to _BAD_QUEUE. With POVUNDIRI_FILE_FOLLOW that is the file to which the link
 * leads. A damaged file has its bytes and its length under the new name, and a spent one its image. Both stay until somebody removes
 * them: a service that damages its file at each start fills the device. A segment of version 1 cannot be adopted, so it is set aside each
 * time.
 *
 * POVUNDIRI_DONE: `file` is open and has `segment` in it. Else both are unchanged, and so is the file, unless `set_aside` has a name.
 *   POVUNDIRI_SYSTEM   opened->fault says what: as for povundiri_file_open, of renaming, or ENAMETOOLONG: no name for what is set aside
 *                      fits. EBUSY also if another process was faster to make the new file.
 *   POVUNDIRI_NULL, POVUNDIRI_NOT_EMPTY (`segment` or `file`), POVUNDIRI_BAD_KIND (no such policy)
 *   POVUNDIRI_SHORT         opened->size is not 0, and less than that of the first layout: then `opened` is unchanged as well
 *   POVUNDIRI_BAD_OPTIONS   a size, a flag or a mode of the options is not valid
 *   POVUNDIRI_OPEN_.., POVUNDIRI_NO_MEMORY   as for povundiri_create_in
 *   POVUNDIRI_ADOPT_.., POVUNDIRI_IMAGE_..   as for povundiri_adopt_in: refused, and not set aside: one file is set aside in a call, and
 *                                            another process was faster with the next
 * Keep: pointers; handles: `file` and `segment` begin as zeros; process. */
uint32_t povundiri_open(const char *path, struct povundiri_shape shape, enum povundiri_policy policy,
                        const struct povundiri_file_options *options, struct povundiri_file *file, struct povundiri_handle *segment,
                        struct povundiri_opened *opened) POVUNDIRI_CHECKED;

/* ---- Looks ---- */

/* A look at the segment in a file that is in use, of this process or of another: povundiri_look, by three reads of the file. It takes no lock,
 * and the file has to be readable, no more. The file holds a segment as povundiri_open makes it, or it is an image.
 *
 * POVUNDIRI_DONE: *image are the words of an image, for free(), and *length is how many. Else these are NULL and 0.
 *   POVUNDIRI_SYSTEM   *fault is the system's (errno.h): of opening or reading; EINVAL if the path leads to no regular file. Else *fault is 0
 *   POVUNDIRI_NULL, POVUNDIRI_NO_MEMORY
 *   POVUNDIRI_IMAGE_..   the header has this fault; IMAGE_BAD_SIZE also if the file became shorter meanwhile
 *   POVUNDIRI_ADOPT_OLD_VERSION   the segment is of version 1
 * Keep: pointers; process. */
uint32_t povundiri_file_look(const char *path, uint64_t **image, size_t *length, int *fault) POVUNDIRI_CHECKED;

/* ---- Forks ---- */

/* A number of this process: the same until fork, and in a child of fork another one than in all its ancestors. So a program that keeps the
 * number sees that it is in a child. Any thread may call it, and only the first call allocates. 0, always, if there was no memory to watch
 * for forks. _Fork(3) and a raw clone(2) are not seen. */
uint64_t povundiri_fork_generation(void);

/* The same number, for callers that read it often: 0 until the first call of povundiri_fork_generation. Only read it. */
extern uint64_t povundiri_fork_number;

#ifdef __cplusplus
}
#endif

#endif
