/*
 * Two ends over two pools of examples/c/memory/pools.c: one that is full doesn't hinder the other, a
 * block goes back to the pool from which it came, and all goes back. An end goes to another thread
 * and back. Three threads use an end each, at once, over a pool each.
 *
 * It prints how many cases passed and failed. tests/c compiles it with the pools.
 */
#include "lpt_end.h"
#include "pools.h"

#include <pthread.h>
#include <stdio.h>

static unsigned passed, failed;

static void look(int is_right, int line, const char *what) {
    if (is_right) {
        passed++;
        return;
    }
    failed++;
    printf("pools.c:%d: %s\n", line, what);
}

#define EXPECT(what) look((what), __LINE__, #what)

enum { LARGE = 65536, SMALL = 2048 };

static const LptConfig CONFIG = {100, 64, 10, 4, 4, 0, LPT_MODE_ANY};
static _Alignas(16) uint8_t octets[3][LARGE];
static uint8_t message[4000];

static uint32_t make(LptEnd **end, LptPool *pool) {
    lpt_pool_use(pool);
    return lpt_end_new(end, LPT_SIDE_GROUND, &CONFIG, NULL, 0, NULL, 0);
}

static void two_pools(void) {
    static LptPool large, small;
    LptEnd *first = NULL, *second = NULL;
    LptName name = {1, 7}, other = {1, 8};
    size_t before, needed;

    lpt_pool_begin(&large, octets[0], LARGE);
    lpt_pool_begin(&small, octets[1], SMALL);
    EXPECT(lpt_pool_used(&large) == 0 && lpt_pool_used(&small) == 0);
    EXPECT(make(&first, &large) == LPT_DONE && make(&second, &small) == LPT_DONE);
    before = lpt_pool_used(&large);
    EXPECT(before > 0 && lpt_pool_used(&small) > 0);
    EXPECT(lpt_end_open(second, &name, message, sizeof message) == LPT_E_ALLOCATION);
    EXPECT(lpt_end_name(second, LPT_DIRECTION_UP, &name, &(uint32_t){9}) == LPT_DONE);
    lpt_pool_use(&large);
    EXPECT(lpt_end_open(first, &name, message, sizeof message) == LPT_DONE);
    EXPECT(lpt_pool_used(&large) >= before + sizeof message);
    /* What the first end holds goes back to its pool, whichever is in use. */
    lpt_pool_use(&small);
    EXPECT(lpt_end_finish(first, &name) == LPT_DONE);
    EXPECT(lpt_pool_used(&large) < before + sizeof message);
    EXPECT(lpt_end_open(second, &other, message, 65) == LPT_DONE);
    EXPECT(lpt_end_part(second, &other, 1) == LPT_DONE);
    EXPECT(lpt_end_outgoing(second, NULL, 0, &needed) == LPT_E_ROOM && needed == 64 + 17);
    lpt_pool_use(NULL);
    EXPECT(lpt_end_part(second, &other, 2) == LPT_E_ALLOCATION);
    lpt_end_free(first);
    lpt_end_free(second);
    EXPECT(lpt_pool_used(&large) == 0 && lpt_pool_used(&small) == 0);
    lpt_pool_begin(&small, octets[1], 31);
    EXPECT(make(&first, &small) == LPT_E_ALLOCATION && lpt_pool_used(&small) == 0);
}

/* A thread with an end and a pool of its own: how many parts it made. */
static void *send(void *at) {
    LptPool pool;
    LptEnd *end = NULL;
    LptName name = {1, 0};
    size_t made = 0;
    lpt_pool_begin(&pool, at, LARGE);
    if (make(&end, &pool) != LPT_DONE) {
        return NULL;
    }
    for (name.id = 0; name.id < 300; name.id++) {
        made += lpt_end_open(end, &name, message, sizeof message) == LPT_DONE &&
                lpt_end_part(end, &name, 1) == LPT_DONE && lpt_end_sent(end) == LPT_DONE &&
                lpt_end_finish(end, &name) == LPT_DONE;
    }
    lpt_end_free(end);
    return made == 300 && lpt_pool_used(&pool) == 0 ? at : NULL;
}

/* An end that another thread made is used, and is freed where it was made. */
static LptEnd *handed = NULL;
static LptPool of_handed;

static void *use(void *name) {
    uint32_t done;
    lpt_pool_use(&of_handed);
    done = lpt_end_open(handed, (const LptName *)name, message, sizeof message);
    return done == LPT_DONE && lpt_end_part(handed, (const LptName *)name, 2) == LPT_DONE ? name : NULL;
}

static void other_thread(void) {
    LptName name = {1, 9};
    pthread_t thread;
    void *came = NULL;
    lpt_pool_begin(&of_handed, octets[0], LARGE);
    EXPECT(make(&handed, &of_handed) == LPT_DONE);
    EXPECT(pthread_create(&thread, NULL, use, &name) == 0);
    EXPECT(pthread_join(thread, &came) == 0 && came == &name);
    EXPECT(lpt_end_finish(handed, &name) == LPT_DONE && lpt_end_sent(handed) == LPT_DONE);
    lpt_end_free(handed);
    EXPECT(lpt_pool_used(&of_handed) == 0);
}

int main(void) {
    pthread_t threads[3];
    void *came[3] = {NULL, NULL, NULL};
    size_t at;
    two_pools();
    other_thread();
    for (at = 0; at < 3; at++) {
        EXPECT(pthread_create(&threads[at], NULL, send, octets[at]) == 0);
    }
    for (at = 0; at < 3; at++) {
        EXPECT(pthread_join(threads[at], &came[at]) == 0 && came[at] == octets[at]);
    }
    printf("%u passed, %u failed\n", passed, failed);
    return failed != 0;
}
