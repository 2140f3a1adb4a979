/*
 * Pools of memory for ends of a link, one for each end, made from arrays of the program. So no end
 * takes another's memory, and ends with pools of their own may run at the same time on different
 * threads. Use it in place of heap.c or pool.c:
 *
 *   cc -Iinclude -Iexamples/c/memory program.c examples/c/memory/pools.c \
 *       build/liblpt_end.a build/liblpt.a
 *
 * The library's functions for memory have no argument that names a pool. So the program chooses it
 * before, by lpt_pool_use(&pool), for all calls that this thread makes from then on. A block goes
 * back to the pool from which it was taken, whichever is in use.
 */
#ifndef LPT_POOLS_H
#define LPT_POOLS_H

#include <stddef.h>

#ifdef __cplusplus
extern "C" {
#endif

struct LptBlock;

/* A pool: where its blocks begin, and how many units of 16 octets it has. */
typedef struct LptPool {
    struct LptBlock *blocks;
    size_t units;
} LptPool;

/* Makes a pool from octets of the program, at a multiple of 16. They belong to the pool until every
   end that uses it was freed. A pool of fewer than 32 octets is always full. */
void lpt_pool_begin(LptPool *pool, void *octets, size_t len);

/* From now on the calls of this thread take memory from this pool; with NULL there is none. */
void lpt_pool_use(LptPool *pool);

/* Returns how many octets of a pool are given out, with 16 for the head of each block. */
size_t lpt_pool_used(const LptPool *pool);

#ifdef __cplusplus
}
#endif

#endif
