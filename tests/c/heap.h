/* A heap for the library, in place of its own. Before it includes this, a test defines which requests are refused: is_refused(size). */
#ifndef HEAP_H
#define HEAP_H

#include <stdbool.h>
#include <stdlib.h>
#include <string.h>

/* What is in front of each block: its size. */
enum { FRONT = 16 };

/* How many blocks the library has, how many bytes, and the most bytes that it had at a time; a test may lower that. */
static long blocks;
static size_t kept, most_kept;

/* What the heap returns. */
struct tried {
    bool ok;
    void *at;
};

struct tried rattle_alloc(size_t size, size_t align);
struct tried rattle_realloc(void *at, size_t had, size_t size, size_t align);
void rattle_dealloc(void *at);

static struct tried with_size(void *block, size_t size) {
    struct tried given = {true, (char *)block + FRONT};
    memcpy(block, &size, sizeof size);
    kept += size;
    if (kept > most_kept) most_kept = kept;
    return given;
}

static size_t size_of(void *at) {
    size_t size;
    memcpy(&size, (char *)at - FRONT, sizeof size);
    return size;
}

struct tried rattle_alloc(size_t size, size_t align) {
    const struct tried none = {false, (void *)16};
    void *block;
    (void)align;
    if (is_refused(size)) return none;
    block = malloc(FRONT + size);
    if (block == NULL) return none;
    blocks += 1;
    return with_size(block, size);
}

struct tried rattle_realloc(void *at, size_t had, size_t size, size_t align) {
    const struct tried none = {false, at};
    const size_t before = size_of(at);
    void *moved;
    (void)had;
    (void)align;
    if (is_refused(size)) return none;
    moved = realloc((char *)at - FRONT, FRONT + size);
    if (moved == NULL) return none;
    kept -= before;
    return with_size(moved, size);
}

void rattle_dealloc(void *at) {
    blocks -= 1;
    kept -= size_of(at);
    free((char *)at - FRONT);
}

#endif
