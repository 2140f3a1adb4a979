/*
 * Names are used again and again over a channel that loses a fifth of what goes over it, reorders
 * all of it, and gives half of it once more, mostly long after, by the turns of
 * examples/c/bus/freeing.c: each message that is released is the one that was opened last under its
 * name, and none is released twice. Then the same without the turns, where a line that says that a
 * name is finished frees it whenever it comes: the promise is broken, so the channel is bad enough.
 *
 * It prints how many cases passed and failed.
 */
#include "freeing.h"

#include <stdio.h>
#include <string.h>

enum { APID = 100, PART_SIZE = 8, LONGEST = PART_SIZE + 23, OCTETS = 20, PARTS = 3, NAMES = 3 };
enum { ROOM = 4096, LATEST = 3000, STEPS = 40000, TIMEOUT = 60 };
enum { PART, FINISHED, FREED };

/* What is on its way, and when it comes. */
typedef struct Datagram {
    unsigned kind, due;
    LptName name;
    uint32_t turn;
    uint8_t packet[LONGEST];
    size_t len;
} Datagram;

/* What was opened last under a name, and whether it was released since. */
typedef struct Opening {
    uint8_t message[OCTETS];
    bool is_open, is_released;
} Opening;

static const LptConfig config = {APID, PART_SIZE, TIMEOUT, 4, 4, 0, LPT_MODE_ANY};
static const LptMemory memory = {1, 0, 1};
static unsigned passed, failed;

static LptEnd *ground, *spacecraft;
static Freeing at_ground, at_spacecraft;
static Opening openings[NAMES];
static Datagram channel[ROOM];
static size_t on_their_way;
static unsigned now, released, wrong, opened, lost;
static bool has_turns;

static void look(int is_right, int line, const char *what) {
    if (is_right) {
        passed++;
        return;
    }
    failed++;
    printf("freeing.c:%d: %s\n", line, what);
}

#define EXPECT(what) look((what), __LINE__, #what)

/* A number below n. */
static unsigned chance(unsigned n) {
    static uint64_t state = 1;
    state = state * 6364136223846793005u + 1442695040888963407u;
    return (unsigned)(state >> 33) % n;
}

static void put(const Datagram *it, unsigned delay) {
    if (on_their_way < ROOM) {
        channel[on_their_way] = *it;
        channel[on_their_way++].due = now + delay;
    } else {
        lost++;
    }
}

/* The channel takes a datagram. */
static void go(const Datagram *it) {
    if (chance(5) > 0) {
        put(it, 1 + chance(8));
    }
    if (chance(2) == 0) {
        put(it, 1 + chance(chance(4) == 0 ? 8 : LATEST));
    }
}

static void say(unsigned kind, const LptName *name, uint32_t turn) {
    Datagram it = {kind, 0, {0, 0}, 0, {0}, 0};
    it.name = *name;
    it.turn = turn;
    go(&it);
}

/* The sender makes each part of an open message again. */
static void send_parts(const LptName *name) {
    Datagram it = {PART, 0, {0, 0}, 0, {0}, 0};
    uint16_t k;
    it.name = *name;
    it.turn = freeing_turn(&at_spacecraft, LPT_DIRECTION_DOWN, name);
    for (k = 1; k <= PARTS; k++) {
        EXPECT(lpt_end_part(spacecraft, name, k) == LPT_DONE);
        EXPECT(lpt_end_outgoing(spacecraft, it.packet, LONGEST, &it.len) == LPT_DONE);
        EXPECT(lpt_end_sent(spacecraft) == LPT_DONE);
        go(&it);
    }
}

/* The sender opens a message under a name that is free, closes an open one, or says that one is
   finished. */
static void send(uint16_t id) {
    const LptName name = {0, id};
    Opening *it = &openings[id];
    uint32_t state = LPT_NAME_FREE;
    size_t i;
    EXPECT(lpt_end_name(spacecraft, LPT_DIRECTION_DOWN, &name, &state) == LPT_DONE);
    if (state == LPT_NAME_FREE) {
        opened++;
        for (i = 0; i < OCTETS; i++) {
            it->message[i] = (uint8_t)(chance(256));
        }
        it->is_released = false;
        EXPECT(lpt_end_open(spacecraft, &name, it->message, OCTETS) == LPT_DONE);
        send_parts(&name);
    } else if (state == LPT_NAME_OPEN && chance(3) > 0) {
        send_parts(&name);
    } else if (state == LPT_NAME_OPEN) {
        EXPECT(lpt_end_finish(spacecraft, &name) == LPT_DONE);
    } else {
        say(FINISHED, &name, freeing_turn(&at_spacecraft, LPT_DIRECTION_DOWN, &name));
    }
}

/* A part came to the receiver: what it releases is compared with what was opened. */
static void take_part(const Datagram *it) {
    LptOutcome outcome = {0, {0, 0}, 0, 0};
    uint8_t message[OCTETS] = {0};
    size_t len = 0;
    Opening *of = &openings[it->name.id];
    if (has_turns && it->turn != freeing_turn(&at_ground, LPT_DIRECTION_DOWN, &it->name)) {
        return;
    }
    EXPECT(lpt_end_packet(ground, it->packet, it->len, &outcome) == LPT_DONE);
    if (outcome.kind == LPT_OUTCOME_RELEASED) {
        EXPECT(lpt_end_released(ground, message, OCTETS, &len) == LPT_DONE && len == OCTETS);
        released++;
        wrong += of->is_released || memcmp(message, of->message, OCTETS) != 0;
        of->is_released = true;
    }
}

static void take(const Datagram *it) {
    const uint32_t down = LPT_DIRECTION_DOWN;
    if (it->kind == PART) {
        take_part(it);
    } else if (it->kind == FINISHED) {
        if (has_turns ? freeing_finished(&at_ground, ground, down, &it->name, it->turn)
                      : lpt_end_retire(ground, down, &it->name) == LPT_DONE) {
            say(FREED, &it->name, it->turn);
        }
    } else if (has_turns) {
        freeing_freed(&at_spacecraft, spacecraft, down, &it->name, it->turn);
    } else {
        passed += lpt_end_retire(spacecraft, down, &it->name) == LPT_DONE;
    }
}

/* A tick: what is due comes, and the sender does something. */
static void step(void) {
    LptName name = {0, 0};
    size_t i;
    now++;
    for (i = 0; i < on_their_way;) {
        if (channel[i].due == now) {
            const Datagram it = channel[i];
            channel[i] = channel[--on_their_way];
            take(&it);
        } else {
            i++;
        }
    }
    send((uint16_t)chance(NAMES));
    EXPECT(lpt_end_tick(ground) == LPT_DONE);
    while (lpt_end_expire(ground, &name) == LPT_DONE) {
    }
}

/* A run of so many steps. */
static void run(bool turns, unsigned steps) {
    const uint8_t content = 0;
    has_turns = turns;
    on_their_way = now = released = wrong = opened = lost = 0;
    memset(openings, 0, sizeof openings);
    memset(&at_ground, 0, sizeof at_ground);
    memset(&at_spacecraft, 0, sizeof at_spacecraft);
    EXPECT(lpt_end_new(&ground, LPT_SIDE_GROUND, &config, NULL, 0, NULL, 0) == LPT_DONE);
    EXPECT(lpt_end_new(&spacecraft, LPT_SIDE_SPACECRAFT, &config, &memory, 1, &content, 1) ==
           LPT_DONE);
    while (now < steps) {
        step();
    }
    lpt_end_free(ground);
    lpt_end_free(spacecraft);
}

int main(void) {
    run(true, STEPS);
    EXPECT(wrong == 0 && released > 1000 && lost == 0);
    printf("with turns: %u opened, %u released, %u of these wrong, %u lost\n", opened, released,
           wrong, lost);
    run(false, STEPS);
    EXPECT(wrong > 0);
    printf("without: %u opened, %u released, %u of these wrong, %u lost\n", opened, released, wrong,
           lost);
    printf("%u passed, %u failed\n", passed, failed);
    return failed != 0;
}
