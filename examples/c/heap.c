/*
 * The three functions for memory that the library asks for (the end of include/spdm.h): over malloc, or with
 * -DSPDM_POOL=N over a pool of N bytes, which needs no C library. The pool only grows: what is given back is used
 * again only after all of it was given back. So it has to hold, beside the ends, the copies that opening a responder
 * takes for a moment.
 */
#include "spdm.h"

/* What is told of a request that is refused; the pointer is never followed, and is not null. */
static struct rattle_block refused(void) {
    static uint64_t nothing;
    struct rattle_block block;
    block.is_some = 0;
    block.at = &nothing;
    return block;
}

static struct rattle_block granted(void *at) {
    struct rattle_block block;
    block.is_some = 1;
    block.at = at;
    return block;
}

#ifdef SPDM_POOL

/* Enough for the alignment of each block, which is at most 16. */
static union {
    uint8_t bytes[SPDM_POOL];
    uint64_t words[2];
    long double widest;
} pool;
static size_t used;
static size_t blocks;

struct rattle_block rattle_alloc(size_t size, size_t align) {
    size_t at = (used + align - 1) / align * align;
    if (at > sizeof pool.bytes || size > sizeof pool.bytes - at) {
        return refused();
    }
    used = at + size;
    blocks++;
    return granted(pool.bytes + at);
}

void rattle_dealloc(void *block) {
    (void)block;
    blocks--;
    if (blocks == 0) {
        used = 0;
    }
}

struct rattle_block rattle_realloc(void *block, size_t old_size, size_t size, size_t align) {
    struct rattle_block moved = rattle_alloc(size, align);
    const uint8_t *from = (const uint8_t *)block;
    uint8_t *to = (uint8_t *)moved.at;
    size_t i;
    if (!moved.is_some) {
        return moved;
    }
    for (i = 0; i < old_size && i < size; i++) {
        to[i] = from[i];
    }
    rattle_dealloc(block);
    return moved;
}

#else

#include <stdlib.h>

struct rattle_block rattle_alloc(size_t size, size_t align) {
    void *at = malloc(size ? size : align);
    return at ? granted(at) : refused();
}

struct rattle_block rattle_realloc(void *block, size_t old_size, size_t size, size_t align) {
    void *at = realloc(block, size ? size : align);
    (void)old_size;
    return at ? granted(at) : refused();
}

void rattle_dealloc(void *block) {
    free(block);
}

#endif
