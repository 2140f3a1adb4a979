/*
 * The pools of pools.h. They give out the first free block that is long enough, and join free
 * neighbours. A pool has no lock: one thread at a time uses it.
 */
#include "pools.h"

#include "lpt_end.h"

#include <string.h>

/* The head of a block; its units, of 16 octets each, follow it. */
typedef struct LptBlock {
    size_t units;
    LptPool *user; /* the pool, if the block is given out */
} LptBlock;

enum { UNIT = 16 };

_Static_assert(sizeof(LptBlock) == UNIT, "a head has another size");

static _Thread_local LptPool *pool;

void lpt_pool_begin(LptPool *begun, void *octets, size_t len) {
    begun->blocks = (LptBlock *)octets;
    begun->units = len / UNIT;
    if (begun->units > 1) {
        begun->blocks[0] = (LptBlock){begun->units - 1, NULL};
    } else {
        begun->units = 0;
    }
}

void lpt_pool_use(LptPool *used) { pool = used; }

size_t lpt_pool_used(const LptPool *of) {
    size_t at, used = 0;
    for (at = 0; at < of->units; at += 1 + of->blocks[at].units) {
        used += of->blocks[at].user != NULL ? (of->blocks[at].units + 1) * UNIT : 0;
    }
    return used;
}

/* Joins the free neighbours behind a free block with it. */
static void join(LptBlock *blocks, size_t at) {
    size_t next = at + 1 + blocks[at].units;
    while (next < pool->units && blocks[next].user == NULL) {
        blocks[at].units += 1 + blocks[next].units;
        next = at + 1 + blocks[at].units;
    }
}

/* Takes the front of a free block that has at least as many units. */
static void *taken(LptBlock *blocks, size_t at, size_t units) {
    if (blocks[at].units > units + 1) {
        blocks[at + 1 + units] = (LptBlock){blocks[at].units - units - 1, NULL};
        blocks[at].units = units;
    }
    blocks[at].user = pool;
    return &blocks[at + 1];
}

LptTried rattle_alloc(size_t n, size_t align) {
    static LptBlock nowhere;
    LptTried it = {false, &nowhere};
    size_t at, units = n / UNIT + (n % UNIT > 0 || n == 0);
    (void)align;
    for (at = 0; pool != NULL && at < pool->units; at += 1 + pool->blocks[at].units) {
        if (pool->blocks[at].user == NULL) {
            join(pool->blocks, at);
            if (pool->blocks[at].units >= units) {
                return (LptTried){true, taken(pool->blocks, at, units)};
            }
        }
    }
    return it;
}

LptTried rattle_realloc(void *block, size_t kept, size_t n, size_t align) {
    LptPool *used = pool;
    LptTried it;
    pool = ((LptBlock *)block - 1)->user;
    it = rattle_alloc(n, align);
    if (it.ok) {
        memcpy(it.at, block, kept < n ? kept : n);
        rattle_dealloc(block);
    }
    pool = used;
    return it;
}

void rattle_dealloc(void *block) { ((LptBlock *)block - 1)->user = NULL; }
