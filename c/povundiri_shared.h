/* A segment in memory that a parent makes and hands to a child: the child opens no file, may be sandboxed, and may be killed at any moment.
 * The parent looks at what it counted, while it lives and after it died.
 *
 *     struct povundiri_shared shared = {0};                                     in the parent
 *     struct povundiri_shape shape = {65536, 4096, 0, 0, 2};
 *     uint32_t status = povundiri_shared_create(shape, &shared);
 *     pid_t child = fork();
 *     if (child == 0) {
 *         dup2(povundiri_shared_descriptor(&shared), 9);                        the only one that exec leaves open
 *         execv(..);
 *     }
 *     povundiri_shared_look(&shared, image, length, &needed);                   at any time: an image for povundiri_report and so on
 *
 *     struct povundiri_shared own = {0};                                        in the child, before its sandbox
 *     struct povundiri_handle segment = {0};
 *     status = povundiri_shared_open(9, 0, &own, &segment);
 *     povundiri_recorder(&segment, 1000000, &recorder);                         as of any segment
 *
 * THE MEMORY is a memfd with the table of a segment: 8 bytes of zeros, the image, and the shared cursors. The parent makes it with an empty
 * segment, and reserves all of it, so no store finds the system without memory. It is sealed: nobody can shorten it or make it longer, so
 * that neither side ends the other by SIGBUS, and nobody can seal it further. It is never in a file system, and is gone when nobody has
 * it open or mapped any more.
 *
 * TRUST. A child can write anything into its memory, and reaches no other memory by that. The parent trusts no word: it never records
 * there, and copies each word by one atomic load before it reads it. So what a look returns is like any image of unknown origin, and
 * povundiri_report_bounded limits what a text of it costs. The child trusts the memory like its own heap: whoever has its descriptor or
 * a mapping of it can change the child's memory. So the parent gives it to one child.
 *
 * THE DESCRIPTOR is closed on exec, so no other child that the parent starts has it. In the child of fork that is to have it, make it stay
 * open: by dup2 to another number, or by fcntl(descriptor, F_SETFD, 0); dup2 to its own number does nothing. It is not passed to others.
 *
 * A SUCCESSOR. The memory of a child that has ended may go to the next one, which opens it in the same way, and goes on from what is there.
 * Pass it on only when waitpid has returned the child before, and only if that one was trusted: who has a mapping can write for as long as
 * it has that. A child that takes foreign code into itself has fresh memory each time. Two that have it open at once are refused (EBUSY).
 *
 * SYSTEM CALLS. Once a thread has its recorder with units, and the number of a histogram with buckets, povundiri_add makes no call to the
 * system and asks for no memory: a sandbox may then allow none. For a new value of a sparse histogram it may ask for memory.
 *
 * FORK. In a child of fork, what the parent made is there as in the parent: the descriptor, and looks. What a process has opened is not in
 * its own children of fork (povundiri_file.h, FORK): there each call on the segment or a recorder raises SIGSEGV.
 *
 * For Linux with glibc, and /proc, where a child opens the memory. Nothing here is proved; what it is built on is (povundiri.h). */
#ifndef POVUNDIRI_SHARED_H
#define POVUNDIRI_SHARED_H

#include <stddef.h>
#include <stdint.h>

#include "povundiri.h"
#include "povundiri_file.h"

#ifdef __cplusplus
extern "C" {
#endif

/* Memory that this process made or opened, or none. It begins as zeros, and only the functions below change it. It may be moved: copied, and
 * the old one zeroed. Calls on one come one at a time, except looks, which may come from any threads until it is closed.
 *   at, bytes    of one that was made: where its table is mapped, read-only; else null and 0
 *   descriptor   of one that was made
 *   fault        the number of the system's fault (errno.h), if the last call on it returned POVUNDIRI_SYSTEM; else 0
 *   shape        of the segment in it: its own size, page, id and version, and the cursors that were asked for
 *   file         of one that was opened: its mapping */
struct povundiri_shared {
    const void *at;
    size_t bytes;
    int descriptor;
    int fault;
    struct povundiri_shape shape;
    struct povundiri_file file;
};

/* Makes memory with an empty segment of this shape. Its version has to be 2. Its id is ignored: each memory gets a random one.
 *
 * POVUNDIRI_DONE: the memory is made, sealed, and mapped here to look at. On any other status nothing is made.
 *   POVUNDIRI_NULL, POVUNDIRI_NOT_EMPTY
 *   POVUNDIRI_SYSTEM     shared->fault says what: EMFILE, ENFILE, ENOMEM, ENOSPC and others as memfd_create, posix_fallocate, mmap and
 *                        getrandom say; EFBIG: the process may not write files of this length (RLIMIT_FSIZE)
 *   POVUNDIRI_OPEN_BAD_SHAPE (also: version 1), POVUNDIRI_OPEN_BAD_CURSORS, POVUNDIRI_OPEN_NO_MEMORY, POVUNDIRI_NO_MEMORY
 * Keep: pointers; `shared` begins as zeros; process. */
uint32_t povundiri_shared_create(struct povundiri_shape shape, struct povundiri_shared *shared) POVUNDIRI_CHECKED;

/* The descriptor of memory that this process, or the one that it was forked from, made; -1 of none, and of memory that was opened. */
int povundiri_shared_descriptor(const struct povundiri_shared *shared);

/* In the child: opens the memory of a descriptor that it was passed, and goes on with the segment in it: with the empty one, or with all that
 * an earlier child left there. The descriptor stays the caller's, who may close it: the memory is opened and mapped by itself. Later calls on
 * the segment need no descriptor. Until the memory is closed, or the process ends, however it ends, nobody else can open it.
 *
 * The descriptor has to be of memory that cannot change its length: at least the seals F_SEAL_SHRINK, F_SEAL_GROW and F_SEAL_SEAL. The words
 * are checked as those of any image.
 *
 * POVUNDIRI_DONE: `shared` has the memory and `segment` the segment in it. Else both hold nothing, and the memory is unchanged.
 *   POVUNDIRI_NULL, POVUNDIRI_NOT_EMPTY (`shared` or `segment`), POVUNDIRI_NO_MEMORY
 *   POVUNDIRI_SYSTEM     shared->fault says what: EBADF: it is no open descriptor; EINVAL: it is of something that has no seals, such as a
 *                        socket or a file on a device, or its length is 0 or no multiple of 16; EPERM: a seal is missing, or one forbids
 *                        to write; EACCES: it was opened for reading alone; EFBIG: it is longer than the memory of the largest segment;
 *                        EBUSY: a process has it open, for 100 ms, in which it was tried again and again; ENOENT: /proc is not mounted;
 *                        EMFILE, ENOMEM and others as the system's calls say
 *   POVUNDIRI_IMAGE_.., POVUNDIRI_ADOPT_..   as for povundiri_adopt_in; POVUNDIRI_ADOPT_NO_MEMORY also: it was made for fewer cursors
 * Keep: pointers; handles: `shared` and `segment` begin as zeros; process. */
uint32_t povundiri_shared_open(int descriptor, size_t cursors, struct povundiri_shared *shared,
                               struct povundiri_handle *segment) POVUNDIRI_CHECKED;

/* A look at the segment in the memory (povundiri_look), of which no word is trusted: an image, while the child records, and after it died. An
 * array of shared->shape.size words is always long enough. `needed`, which may be null, is how many words the image has, also on SHORT: as
 * many as the segment's header says at that moment.
 * Statuses: NULL; EMPTY: there is no memory, or it was opened by the process from which this one was forked; and as for povundiri_look.
 * Keep: pointers, except that others may store to the memory meanwhile; process. */
uint32_t povundiri_shared_look(const struct povundiri_shared *shared, uint64_t *image, size_t image_length,
                               size_t *needed) POVUNDIRI_CHECKED;

/* Gives up the memory here: it is unmapped, and its descriptor closed; others keep it. If it was opened, its segment and all recorders of that
 * are gone before. Of none, of a null, and of memory that the process opened from which this one was forked, nothing is closed. */
void povundiri_shared_close(struct povundiri_shared *shared);

#ifdef __cplusplus
}
#endif

#endif
