#define _DEFAULT_SOURCE 1

#include "bus.h"

#include <arpa/inet.h>
#include <fcntl.h>
#include <signal.h>
#include <stdio.h>
#include <stdlib.h>
#include <string.h>
#include <sys/socket.h>
#include <time.h>
#include <unistd.h>

enum { CYCLE_NS = 1000000 };

static volatile sig_atomic_t asked; /* the last signal, but SIGTERM stays */

static void note_signal(int which) { asked = asked == SIGTERM ? SIGTERM : which; }

bool is_over(void) { return asked != 0; }

/* Saves what has to outlast this cycle. */
static void keep(Node *it) {
    size_t len = 0;
    must(lpt_end_state(it->end, it->kept.state, sizeof it->kept.state, &len) == LPT_DONE,
         "no state");
    it->kept.state_len = (uint32_t)len;
    write_kept(it->copies, &it->kept);
    it->has_changed = false;
}

/* ---- the link and the journal ---- */

static struct sockaddr_in address_of(const char *port) {
    struct sockaddr_in it;
    memset(&it, 0, sizeof it);
    it.sin_family = AF_INET;
    it.sin_addr.s_addr = htonl(INADDR_LOOPBACK);
    it.sin_port = htons((uint16_t)strtoul(port, NULL, 10));
    return it;
}

bool node_begin(Node *it, uint32_t side, char **words) {
    const struct sockaddr_in mine = address_of(words[1]), its = address_of(words[2]);
    struct sigaction action;
    char path[512] = {0};
    memset(&action, 0, sizeof action);
    action.sa_handler = note_signal;
    memset(it, 0, sizeof *it);
    it->sends = side == LPT_SIDE_GROUND ? LPT_DIRECTION_UP : LPT_DIRECTION_DOWN;
    it->receives = LPT_DIRECTION_UP + LPT_DIRECTION_DOWN - it->sends;
    stop_at((unsigned)strtoul(words[3], NULL, 10));
    must(sigaction(SIGTERM, &action, NULL) == 0 && sigaction(SIGUSR1, &action, NULL) == 0,
         "no signals");
    must(snprintf(path, sizeof path, "%s/journal", words[0]) < (int)sizeof path, "a long path");
    it->journal = open(path, O_WRONLY | O_CREAT | O_APPEND, 0600);
    it->link = socket(AF_INET, SOCK_DGRAM | SOCK_NONBLOCK, 0);
    must(it->journal >= 0 && it->link >= 0, "no journal, or no link");
    must(bind(it->link, (const struct sockaddr *)&mine, sizeof mine) == 0 &&
             connect(it->link, (const struct sockaddr *)&its, sizeof its) == 0,
         "the ports aren't free");
    it->copies = mapped_copies(words[0]);
    return read_kept(it->copies, &it->kept);
}

void node_note(Node *it, const char *line) {
    char text[256] = {0};
    const int len =
        snprintf(text, sizeof text, "%llu %s.\n", (unsigned long long)it->kept.count + 1, line);
    must(len > 0 && write(it->journal, text, (size_t)len) == len, "nothing is noted");
    it->has_changed = true;
}

void node_note_name(Node *it, const char *what, uint32_t direction, const LptName *name,
                    const uint8_t *octets, size_t len, const char *more) {
    char line[192] = {0};
    (void)snprintf(line, sizeof line, "%s %08lx %lu %lu %08lx%s", what,
                   (unsigned long)name->source << 16 | name->id,
                   (unsigned long)freeing_turn(&it->kept.freeing, direction, name),
                   (unsigned long)len, (unsigned long)sum_of(octets, len), more);
    node_note(it, line);
}

static size_t put(uint8_t *to, uint32_t value, size_t octets) {
    size_t i;
    for (i = 0; i < octets; i++) {
        to[i] = (uint8_t)(value >> (8 * (octets - 1 - i)));
    }
    return octets;
}

static uint32_t number(const uint8_t *from, size_t octets) {
    uint32_t value = 0;
    while (octets-- > 0) {
        value = value << 8 | *from++;
    }
    return value;
}

void node_say(Node *it, const Head *head, const uint8_t *octets, size_t len) {
    uint8_t all[MOST_OCTETS] = {0};
    all[0] = head->kind;
    all[1] = head->direction;
    put(all + 2, head->name.source, 2);
    put(all + 4, head->name.id, 2);
    put(all + 6, head->turn, 4);
    if (len > 0) {
        memcpy(all + HEAD, octets, len);
    }
    len += HEAD;
    len += put(all + len, sum_of(all, len), SUM);
    (void)send(it->link, all, len, 0); /* what isn't sent is lost */
    pass_place();
}

/* Reads a datagram that came whole. Returns false if there is none. */
static bool hear(Node *it, Head *head, uint8_t *octets, size_t *len) {
    uint8_t all[MOST_OCTETS + 1] = {0};
    const ssize_t got = recv(it->link, all, sizeof all, 0);
    if (got < 0) {
        return false;
    }
    *len = 0;
    memset(head, 0, sizeof *head);
    if (got >= HEAD + SUM && got <= MOST_OCTETS &&
        number(all + got - SUM, SUM) == sum_of(all, (size_t)got - SUM)) {
        head->kind = all[0];
        head->direction = all[1];
        head->name.source = (uint16_t)number(all + 2, 2);
        head->name.id = (uint16_t)number(all + 4, 2);
        head->turn = number(all + 6, 4);
        *len = (size_t)got - HEAD - SUM;
        memcpy(octets, all + HEAD, *len);
    }
    return true;
}

/* ---- lines ---- */

/* Says a line once this cycle is saved. */
static void say_later(Node *it, const Head *head, uint8_t kind) {
    if (it->lines_len < MOST_LINES) {
        it->lines[it->lines_len] = *head;
        it->lines[it->lines_len++].kind = kind;
    }
}

static Sending *sending_of(Node *it, const LptName *name) {
    uint32_t k;
    for (k = 0; k < it->sendings_len; k++) {
        if (it->sendings[k].name.source == name->source && it->sendings[k].name.id == name->id) {
            return &it->sendings[k];
        }
    }
    return NULL;
}

/* The receiver says which parts of a message are missing. Writes their numbers, and returns how
   many octets these have. */
static size_t missing(Node *it, const Head *head, uint8_t *octets) {
    uint32_t state = LPT_NAME_FREE, from = 1;
    uint16_t part = 0;
    size_t len = 0;
    must(lpt_end_name(it->end, it->receives, &head->name, &state) == LPT_DONE, "no name");
    while (len < (size_t)2 * MOST_MISSING) {
        part = (uint16_t)from;
        if (state == LPT_NAME_OPEN &&
            lpt_end_missing(it->end, &head->name, (uint16_t)from, &part) != LPT_DONE) {
            break;
        }
        len += put(octets + len, part, 2);
        from = (uint32_t)part + 1u;
    }
    return len;
}

/* The sender hears that parts are missing, and wants to make them again. */
static void want(Node *it, const Head *head, const uint8_t *octets, size_t len) {
    Sending *of = sending_of(it, &head->name);
    size_t at;
    if (of == NULL) {
        return;
    }
    of->quiet = 0;
    for (at = 0; at + 2 <= len && it->wanted_len < MOST_WANTED; at += 2) {
        const uint32_t part = number(octets + at, 2);
        if (part > 0 && part <= of->parts) {
            it->wanted[it->wanted_len].name = head->name;
            it->wanted[it->wanted_len++].number = (uint16_t)part;
        }
    }
}

/* A line from the sender of a message. */
static void take_of_sender(Node *it, const Head *head) {
    const uint32_t turn = freeing_turn(&it->kept.freeing, it->receives, &head->name);
    uint32_t state = LPT_NAME_FREE;
    if (head->kind == FINISHED) {
        if (freeing_finished(&it->kept.freeing, it->end, it->receives, &head->name, head->turn)) {
            it->has_changed = it->has_changed || head->turn == turn;
            say_later(it, head, FREED);
        }
    } else if (head->kind == ASKS && head->turn <= turn) {
        must(lpt_end_name(it->end, it->receives, &head->name, &state) == LPT_DONE, "no name");
        say_later(it, head, head->turn < turn || state == LPT_NAME_CLOSED ? ENDED : MISSING);
    } else {
        /* no line of a sender */
    }
}

/* A line from the receiver of a message. */
static void take_of_receiver(Node *it, const Head *head, const uint8_t *octets, size_t len) {
    if (head->turn != freeing_turn(&it->kept.freeing, it->sends, &head->name)) {
        return;
    }
    if (head->kind == MISSING) {
        want(it, head, octets, len);
    } else if (head->kind == ENDED && sending_of(it, &head->name) != NULL) {
        const uint32_t fault = lpt_end_finish(it->end, &head->name);
        must(fault == LPT_DONE || fault == LPT_E_NOT_OPEN, "a message stays open");
    } else if (head->kind == FREED &&
               freeing_freed(&it->kept.freeing, it->end, it->sends, &head->name, head->turn)) {
        it->has_changed = true;
    } else {
        /* no line of a receiver, or it comes too late */
    }
}

bool node_take(Node *it, Head *head, LptOutcome *outcome, uint8_t *packet, size_t *packet_len) {
    memset(outcome, 0, sizeof *outcome);
    if (!hear(it, head, packet, packet_len)) {
        return false;
    }
    if (head->kind == PACKET ||
        (head->kind == PART &&
         head->turn == freeing_turn(&it->kept.freeing, it->receives, &head->name))) {
        must(lpt_end_packet(it->end, packet, *packet_len, outcome) == LPT_DONE, "no memory");
        it->has_changed = it->has_changed || outcome->kind != LPT_OUTCOME_IGNORED;
        if (outcome->kind == LPT_OUTCOME_BROKEN) {
            node_note_name(it, "break", it->receives, &outcome->name, NULL, 0, "");
        }
    } else if (head->direction == it->receives) {
        take_of_sender(it, head);
    } else if (head->direction == it->sends) {
        take_of_receiver(it, head, packet, *packet_len);
    } else {
        /* it was damaged */
    }
    return true;
}

/* ---- the rest of a cycle ---- */

void node_opened(Node *it, const LptName *name) {
    LptSender sender = {{0, 0}, 0, 0};
    size_t k;
    must(it->sendings_len < 2U * OUTGOING, "too many are open");
    for (k = 0; lpt_end_sender(it->end, k, &sender) == LPT_DONE; k++) {
        if (sender.name.source == name->source && sender.name.id == name->id) {
            Sending *of = &it->sendings[it->sendings_len++];
            of->name = sender.name;
            of->parts = sender.parts;
            of->next = 1;
            of->quiet = 0;
        }
    }
    it->has_changed = true;
}

void node_tick(Node *it) {
    LptName name = {0, 0};
    must(lpt_end_tick(it->end) == LPT_DONE, "the clock has ended");
    if (lpt_end_expire(it->end, &name) == LPT_DONE) {
        node_note_name(it, "expire", it->receives, &name, NULL, 0, "");
    }
}

void node_keep(Node *it) {
    LptView view = {0, 0, 0, 0, 0, 0};
    must(lpt_end_view(it->end, &view) == LPT_DONE, "no view");
    if (it->has_changed || view.outgoing > 0 || it->sendings_len > 0) {
        keep(it);
    }
}

/* Sends the packets that wait: those of parts with the name and its turn. */
static void flush(Node *it, uint8_t kind, const LptName *name) {
    Head head = {kind, (uint8_t)it->sends, {0, 0}, 0};
    uint8_t packet[LONGEST] = {0};
    size_t len = 0;
    if (kind == PART) {
        head.name = *name;
        head.turn = freeing_turn(&it->kept.freeing, it->sends, name);
    }
    while (lpt_end_outgoing(it->end, packet, sizeof packet, &len) == LPT_DONE) {
        node_say(it, &head, packet, len);
        must(lpt_end_sent(it->end) == LPT_DONE, "a packet stays");
    }
}

/* Makes a part and sends it. Returns false if its message isn't open any more. */
static bool send_part(Node *it, const LptName *name, uint16_t part) {
    if (lpt_end_part(it->end, name, part) != LPT_DONE) {
        return false;
    }
    flush(it, PART, name);
    return true;
}

/* Sends some of the parts that weren't sent yet. If all were, asks from time to time what is
   missing. */
static void send_more(Node *it, Sending *of) {
    Head head = {ASKS, (uint8_t)it->sends, {0, 0}, 0};
    uint32_t k;
    for (k = 0; k < MOST_PARTS && of->next <= of->parts; k++) {
        must(send_part(it, &of->name, (uint16_t)of->next++), "no part");
    }
    if (of->next > of->parts && ++of->quiet % EACH == 1) {
        head.name = of->name;
        head.turn = freeing_turn(&it->kept.freeing, it->sends, &of->name);
        node_say(it, &head, NULL, 0);
    }
}

/* Says FINISHED for some closed names, one after the other. */
static void tell_finished(Node *it) {
    Head head = {FINISHED, (uint8_t)it->sends, {0, 0}, 0};
    uint32_t k;
    for (k = 0; k < MOST_TOLD; k++) {
        const LptName from = {it->told.source, (uint16_t)(it->told.id + 1u)};
        if (lpt_end_closed(it->end, it->sends, &from, &it->told) != LPT_DONE) {
            it->told.source = 0;
            it->told.id = UINT16_MAX; /* then from the first name on */
        } else {
            head.name = it->told;
            head.turn = freeing_turn(&it->kept.freeing, it->sends, &it->told);
            node_say(it, &head, NULL, 0);
        }
    }
}

void node_send(Node *it) {
    uint8_t octets[2 * MOST_MISSING] = {0};
    uint32_t k, state = LPT_NAME_FREE;
    flush(it, PACKET, NULL);
    for (k = 0; k < it->lines_len; k++) {
        const Head *head = &it->lines[k];
        node_say(it, head, octets, head->kind == MISSING ? missing(it, head, octets) : 0);
    }
    for (k = 0; k < it->wanted_len; k++) {
        (void)send_part(it, &it->wanted[k].name, it->wanted[k].number);
    }
    it->lines_len = it->wanted_len = 0;
    k = 0;
    while (k < it->sendings_len) {
        must(lpt_end_name(it->end, it->sends, &it->sendings[k].name, &state) == LPT_DONE,
             "no name");
        if (state == LPT_NAME_OPEN) {
            send_more(it, &it->sendings[k++]);
        } else {
            it->sendings[k] = it->sendings[--it->sendings_len];
        }
    }
    if (it->cycles % EACH == 0) {
        tell_finished(it);
    }
}

bool node_wait(Node *it) {
    const struct timespec cycle = {0, CYCLE_NS};
    it->cycles++;
    (void)nanosleep(&cycle, NULL);
    return asked != SIGTERM;
}
