/* The folder of recordings (povundiri_recording.h), for programs that read it or keep it small. Any process of its owner may do that, also
 * while others record; root may fold it, and who may read its files may read it.
 *
 *     recording           the mark: it says what the folder is, with an id, and what processes have missed there. An empty file is one too.
 *                         Where it is missing, a folder is a recording's all the same if it has a segment, a damaged file or totals, and
 *                         nothing but these files and those of `history`. What else has that name makes it none
 *     recording-RANDOM    a mark that is made, or was when its process was killed, by 16 hexadecimal digits
 *     0000000001.seg ..   segments in files (povundiri_file.h), each with an id of its own
 *     0000000004.damaged  what was segment 4, whose header has a fault: for you to look at, and to remove
 *     spare-PID-RANDOM    a segment that is not in use yet, by the process that made it and 16 hexadecimal digits; only where the system has
 *                         no files without a name (O_TMPFILE), or no /proc
 *     totals              the sum of segments that were removed (docs/FORMAT.md)
 *     totals.new          totals that a fold writes, or was writing when it was killed
 *     fold.lock           an empty file, whose lock a fold holds
 *
 * THE FOLDER ITSELF HAS NO LOCK. Each process records into segments of its own, whose locks it holds from their making on until its last
 * recorder there has ended. A segment whose lock nobody holds is final. A process begins its next segment by a link from a spare, which
 * mostly
 * has no name, to the next number, and never replaces a file; so several processes share a folder, and a new release starts while the old
 * one ends.
 *
 * PATHS. `folder` is the path of the folder itself: a symbolic link to it is refused with ENOTDIR, unless a slash follows the name.
 *
 * THREADS. Any threads and processes may make these calls at any time, also a child of fork, but no signal handler.
 *
 * For Linux with glibc. Nothing here is proved; the sums are (povundiri.h). */
#ifndef POVUNDIRI_FOLDER_H
#define POVUNDIRI_FOLDER_H

#include <stdbool.h>
#include <stddef.h>
#include <stdint.h>

#include "povundiri_file.h"

#ifdef __cplusplus
extern "C" {
#endif

/* The sum of all that a folder has: of its totals, and of a look at each segment that these do not name, under its number. `sums` is filled
 * with it, for povundiri_sums_report and its like, and ends by povundiri_sums_drop. What was counted before the call is in it, once, whatever
 * is begun or folded meanwhile: if a fold has ended, or a segment is gone, the folder is read again, sixteen times in all.
 * `left`, which may be null, is how many segments were left out because their headers have a fault or they are of version 1.
 *
 *   POVUNDIRI_NULL, POVUNDIRI_NOT_EMPTY (`sums`), POVUNDIRI_NO_MEMORY, POVUNDIRI_IMAGE_NO_MEMORY, POVUNDIRI_TOO_MANY
 *   POVUNDIRI_NO_RECORDING   the folder is no recording's
 *   POVUNDIRI_BAD_TOTALS     the file `totals` is damaged
 *   POVUNDIRI_BUSY           all sixteen times a fold ended or a segment went away meanwhile: try again
 *   POVUNDIRI_SYSTEM         *fault is the system's (errno.h); else *fault is 0
 * On any but DONE `sums` holds nothing.
 * Keep: pointers; handles: `sums` begins as zeros; process. */
uint32_t povundiri_folder_sums(const char *folder, struct povundiri_handle *sums, uint64_t *left, int *fault) POVUNDIRI_CHECKED;

/* Adds the segments that are final to the totals, and removes them. It waits for the device, and for nobody: a segment whose lock somebody
 * holds stays. The totals are written whole and synced before any is removed, so a kill at any moment, or a crash of the machine, loses
 * nothing that is in them, and nothing is counted twice. `folded`, which may be null, is how many were added, also on a fault, if some were
 * before it: 256 are added at once, or as many as the process may open, each of them open until it is removed, and then the next ones. So
 * if the process may open fewer, its other threads can open nothing meanwhile.
 * What it makes belongs to the owner and the group of the folder, and has the mode of `recording`, whoever of the two folds.
 * A segment whose header has a fault, that may not be read, or with which a total would not fit, stays. Of one whose list of records is
 * damaged, what can be read is added, as in a report.
 *
 *   POVUNDIRI_NULL, POVUNDIRI_NO_MEMORY, POVUNDIRI_IMAGE_NO_MEMORY
 *   POVUNDIRI_NOT_OWNER      the folder is another user's, and this is not root: nothing was done
 *   POVUNDIRI_NO_RECORDING   the folder is no recording's
 *   POVUNDIRI_BAD_TOTALS     the file `totals` is damaged: nothing was done
 *   POVUNDIRI_BUSY           somebody else folds
 *   POVUNDIRI_SYSTEM         *fault is the system's (errno.h), EMFILE if the process may not open four files, EFBIG if it may not write
 *                            totals of that length; else *fault is 0
 * Keep: pointers; process. */
uint32_t povundiri_folder_fold(const char *folder, uint64_t *folded, int *fault) POVUNDIRI_CHECKED;

/* How many segments are in a folder, whatever folder it is: files whose names are those of segments. Returns 0, or the system's fault
 * (errno.h), which is EINVAL for a null; then *segments is of no use.
 * Keep: pointers; process. */
int povundiri_folder_count(const char *folder, uint64_t *segments) POVUNDIRI_CHECKED;

#ifdef __cplusplus
}
#endif

#endif
