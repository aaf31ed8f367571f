/* What povundiri_file.c has for the files beside it. It is not installed. */
#ifndef POVUNDIRI_FILE_PARTS_H
#define POVUNDIRI_FILE_PARTS_H

#include <stddef.h>
#include <sys/types.h>

#include "povundiri_file.h"

/* Whether options that begin with their size are known here: the size is 0 or at least that of the first ones, and of those that are larger than
 * the known ones the rest is zeros. */
bool povundiri_parts_are_known(const void *options, size_t first, size_t known);

/* Whether a file may be made with this mode, 0 for the usual one, where the options have these flags. */
bool povundiri_parts_is_mode(mode_t mode, unsigned flags);

/* Reads `bytes` bytes from there on, or those up to the end of the file, and says how many. 0, or the system's fault. */
int povundiri_parts_read(int descriptor, void *to, size_t bytes, off_t at, size_t *got);

/* Closes the descriptor of an open file. Its memory stays, and so does its lock where a mapping keeps that (`keeps_locks` of a place). */
void povundiri_parts_close_descriptor(struct povundiri_file *file);

/* povundiri_open of a name in a folder, with these flags, this mode and POVUNDIRI_ADOPT_OR_FAIL. With a null a new segment is made in a file that has no
 * name yet (O_TMPFILE): it has its lock from its first moment on. */
uint32_t povundiri_parts_open_in(int folder, const char *name, struct povundiri_shape shape, unsigned flags, mode_t mode,
                                 struct povundiri_file *file, struct povundiri_handle *segment,
                                 struct povundiri_opened *opened) POVUNDIRI_CHECKED;

/* Gives it a name. 0, or the system's fault; EBADF: its descriptor is not open any more. */
int povundiri_parts_name(const struct povundiri_file *file, int folder, const char *name) POVUNDIRI_CHECKED;

/* Whether it has this name. So too where the system does not say. */
bool povundiri_parts_stands(const struct povundiri_file *file, int folder, const char *name);

/* povundiri_file_look of a name in a folder. */
uint32_t povundiri_parts_look(int folder, const char *name, uint64_t **image, size_t *length, int *fault) POVUNDIRI_CHECKED;

/* Reserves blocks for all bytes of a file of this length, and so extends it; if there are none, its length is unchanged. 0, or the system's
 * fault; EFBIG: the process may not write files of this length. */
int povundiri_parts_reserve(int descriptor, off_t length, off_t bytes);

/* Opens the memory of a descriptor once more, by its name in /proc, and locks and maps it as a file; it keeps its length, whoever it
 * belongs to. 0, or the system's fault; EBUSY: somebody has it open. */
int povundiri_parts_open_memory(struct povundiri_file *file, int descriptor);

#endif
