/* Loaded before a program (LD_PRELOAD), it refuses chosen allocations of the calls that the program names, and writes all of them down.
 *
 * The program names a call by a line "try CALL" of its standard output, up to the next line. REFUSE_LOG is a file: after a run it has a
 * line "TRY SIZE" for each allocation that the calls asked for, where TRY counts the calls from 0. REFUSE_AT is the allocation that gets a
 * null pointer, from 0; with REFUSE_LASTING set, all later ones of the same call do too. Programs of one thread alone. */
#include <fcntl.h>
#include <stdbool.h>
#include <stdio.h>
#include <stdlib.h>
#include <string.h>
#include <sys/syscall.h>
#include <unistd.h>

extern void *__libc_malloc(size_t size);
extern void *__libc_realloc(void *block, size_t size);

static int log_file = -1;
static long refused_at = -1, refused_try = -1;
static bool lasting;
static long allocations, tries;
static bool in_call, begins_line = true;

__attribute__((constructor)) static void begin(void)
{
    const char *at = getenv("REFUSE_AT");
    refused_at = at ? strtol(at, NULL, 10) : -1;
    lasting = getenv("REFUSE_LASTING") != NULL;
    log_file = open(getenv("REFUSE_LOG"), O_WRONLY | O_CREAT | O_TRUNC | O_CLOEXEC, 0600);
    if (log_file < 0) _exit(126);
}

static bool is_refused(size_t size)
{
    if (!in_call) return false;
    char line[64];
    int length = snprintf(line, sizeof line, "%ld %zu\n", tries - 1, size);
    if (syscall(SYS_write, log_file, line, (size_t)length) != length) _exit(126);
    bool meant = allocations++ == refused_at;
    if (meant) refused_try = tries - 1;
    return meant || (lasting && refused_try == tries - 1);
}

void *malloc(size_t size) { return is_refused(size) ? NULL : __libc_malloc(size); }

void *realloc(void *block, size_t size) { return is_refused(size) ? NULL : __libc_realloc(block, size); }

ssize_t write(int file, const void *bytes, size_t size)
{
    if (file == STDOUT_FILENO && size > 0) {
        const char *text = bytes;
        bool ends_line = text[size - 1] == '\n';
        in_call = begins_line && ends_line && size > 4 && memcmp(text, "try ", 4) == 0;
        tries += in_call;
        begins_line = ends_line;
    }
    return syscall(SYS_write, file, bytes, size);
}
