/*
 * The two ends of the link in two processes: ground in the parent, the spacecraft in the child, and
 * a pipe each way. Ground loads 60,000 octets in parts and asks for them by a dump, whose report
 * comes down in parts. The link loses the third part of each message, repeats the fifth, and
 * delivers the seventh after the eighth. Then both ends free the load's name, and a shorter load
 * uses it.
 *
 * A pipe carries packets and this program's own lines, one after the other. A packet says how long
 * it is. A line is a letter, with which no packet begins, and a name. By 'F' the sender says that
 * it has finished and no part comes any more; by 'R' the receiver says that it freed the name.
 *
 *   cc -Iinclude examples/c/processes.c examples/c/memory/heap.c build/liblpt_end.a \
 *       build/liblpt.a -o processes && ./processes
 */
#define _POSIX_C_SOURCE 200809L

#include "lpt_end.h"

#include <errno.h>
#include <fcntl.h>
#include <poll.h>
#include <signal.h>
#include <stdio.h>
#include <stdlib.h>
#include <string.h>
#include <sys/wait.h>
#include <unistd.h>

enum { APID = 100, SOURCE = 1, PART_SIZE = 256, LONGEST = PART_SIZE + 23 };
enum { MEMORY = 1, SIZE = 65536, ADDRESS = 16, OCTETS = 60000, FEWER = 2500 };
enum { LOST = 3, REPEATED = 5, DELAYED = 7, PATIENCE_MS = 60000, LINE = 1 + sizeof(LptName) };

static const LptName load_name = {SOURCE, 7};
static uint8_t image[OCTETS];

/* Each process has its own of these: its end and its ends of the pipes; how many packets of each
   outcome came; how many names both ends have freed; the name for which it still has to send an
   'R', and whether there is one. */
static LptEnd *end = NULL;
static uint32_t side = LPT_SIDE_GROUND;
static int in = -1, out = -1;
static unsigned seen[LPT_OUTCOME_IGNORED + 1], freed;
static LptName owed;
static bool is_owed;

/* Ends the process if something isn't so. The other process then finds its pipe closed. */
static void must(bool is_so, const char *what) {
    if (!is_so) {
        fprintf(stderr, "%s: %s\n", side == LPT_SIDE_GROUND ? "ground" : "spacecraft", what);
        exit(EXIT_FAILURE);
    }
}

/* Takes a line. The receiver frees the name when the sender's line has come, after all parts; the
   sender frees it when the receiver's line has come. */
static void take_line(const uint8_t *line) {
    LptName name = {0, 0};
    bool is_receiver = line[0] == 'F';
    uint32_t direction =
        (side == LPT_SIDE_GROUND) != is_receiver ? LPT_DIRECTION_UP : LPT_DIRECTION_DOWN;
    memcpy(&name, line + 1, sizeof name);
    must(lpt_end_retire(end, direction, &name) == LPT_DONE, "a name isn't freed");
    if (is_receiver) {
        must(!is_owed, "two lines are owed");
        is_owed = true;
        owed = name;
    } else {
        freed++;
    }
}

/* Prints what telemetry says: a verification report that ground noted, or the dump that it joined.
   */
static void print(const uint8_t *packet, size_t len) {
    LptTm tm = {{0, 0, 0, 0, 0, 0, 0, 0}, 0, 0};
    LptReport report = {0, 0, 0};
    must(lpt_read_tm(packet, len, &tm) == LPT_DONE, "no telemetry");
    if (lpt_read_report(tm.head.subtype, packet + tm.at, tm.len, &report) == LPT_DONE) {
        printf("ground: request %08x: report %u, code %u\n", (unsigned)report.request,
               (unsigned)tm.head.subtype, (unsigned)report.code);
    } else {
        must(tm.head.service == 6 && tm.len == 8 + OCTETS + 2, "no dump");
        printf("ground: dump of %d octets, %s\n", OCTETS,
               memcmp(packet + tm.at + 8, image, OCTETS) == 0 ? "the same" : "others");
    }
}

/* Takes a packet or a line. */
static void take(const uint8_t *octets, size_t len) {
    static uint8_t message[LPT_LONGEST_PACKET];
    LptOutcome outcome = {0, {0, 0}, 0, 0};
    if (octets[0] == 'F' || octets[0] == 'R') {
        take_line(octets);
        return;
    }
    must(lpt_end_packet(end, octets, len, &outcome) == LPT_DONE, "a packet isn't taken");
    seen[outcome.kind]++;
    if (outcome.kind == LPT_OUTCOME_REPORT_NOTED) {
        print(octets, len);
    } else if (outcome.kind == LPT_OUTCOME_RELEASED && side == LPT_SIDE_GROUND) {
        must(lpt_end_released(end, message, sizeof message, &len) == LPT_DONE, "no message");
        print(message, len);
    }
}

/* Returns how long the packet or the line at the front of these octets is; 0 if it isn't whole. */
static size_t whole(const uint8_t *octets, size_t len) {
    size_t length = LINE;
    uint32_t said = LPT_DONE;
    if (len > 0 && octets[0] != 'F' && octets[0] != 'R') {
        said = lpt_packet_length(octets, len, &length);
        must(said == LPT_E_MORE || (said == LPT_DONE && length <= LONGEST),
             "no packet begins here");
    }
    return said == LPT_DONE && length <= len ? length : 0;
}

/* Reads the octets that have come, and takes each packet or line that is whole. */
static void receive(void) {
    static uint8_t came[LONGEST];
    static size_t came_len;
    size_t at = 0, len = 0;
    ssize_t n = read(in, came + came_len, sizeof came - came_len);
    must(n >= 0 || errno == EAGAIN, "a pipe isn't read");
    if (n == 0) {
        must(side == LPT_SIDE_SPACECRAFT && came_len == 0, "the other process has ended");
        must(close(in) == 0, "a pipe isn't closed");
        in = -1;
    }
    came_len += n > 0 ? (size_t)n : 0;
    while ((len = whole(came + at, came_len - at)) > 0) {
        take(came + at, len);
        at += len;
    }
    came_len -= at;
    memmove(came, came + at, came_len);
}

/* Writes all of these octets, or, if there are none, waits until some come. It also takes what
   comes while the other pipe is full, so the two processes never wait for each other. */
static void write_all(const uint8_t *octets, size_t len) {
    size_t at = 0;
    do {
        struct pollfd pipes[] = {{in, POLLIN, 0}, {len > 0 ? out : -1, POLLOUT, 0}};
        ssize_t n = 0;
        must(poll(pipes, 2, PATIENCE_MS) > 0, "nothing happens");
        if (pipes[0].revents != 0) {
            receive();
        }
        if (pipes[1].revents != 0) {
            n = write(out, octets + at, len - at);
            must(n >= 0 || errno == EAGAIN, "a pipe isn't written");
        }
        at += n > 0 ? (size_t)n : 0;
    } while (at < len);
}

static void tell(char letter, const LptName *name) {
    uint8_t line[LINE] = {(uint8_t)letter};
    memcpy(line + 1, name, sizeof *name);
    write_all(line, LINE);
}

/* The link carries a packet, of part k or of no part (0). A packet that it delays comes later. */
static void carry(uint16_t k, const uint8_t *packet, size_t len) {
    static uint8_t delayed[LONGEST];
    static size_t delayed_len;
    if (k == DELAYED) {
        memcpy(delayed, packet, len);
        delayed_len = len;
    } else if (k != LOST) {
        write_all(packet, len);
    }
    if (k == REPEATED) {
        write_all(packet, len);
    } else if (k == DELAYED + 1) {
        write_all(delayed, delayed_len);
    }
}

/* Sends the packets that wait at the end. */
static void flush(uint16_t k) {
    uint8_t packet[LONGEST] = {0};
    size_t len = 0;
    uint32_t fault;
    while ((fault = lpt_end_outgoing(end, packet, sizeof packet, &len)) == LPT_DONE) {
        carry(k, packet, len);
        must(lpt_end_sent(end) == LPT_DONE, "nothing is to be sent");
    }
    must(fault == LPT_E_NOTHING, "a packet is too long");
}

/* Sends an open message, the lost part once more, and closes it. */
static void send_message(const LptName *name) {
    uint32_t fault;
    uint16_t k;
    for (k = 1; (fault = lpt_end_part(end, name, k)) == LPT_DONE; k++) {
        flush(k);
    }
    must(fault == LPT_E_NO_SUCH_PART, "a part isn't made");
    must(lpt_end_part(end, name, LOST) == LPT_DONE, "a part isn't made again");
    flush(0);
    must(lpt_end_finish(end, name) == LPT_DONE, "a message isn't closed");
}

/* Executes a request, if one was released, and returns whether one was. On ground none ever is. */
static bool serve(void) {
    LptApplied applied = {0, {0, 0}, 0};
    uint32_t fault = lpt_end_read(end);
    must(fault == LPT_DONE || fault == LPT_E_NO_JOB, "a request isn't read");
    if (fault == LPT_DONE) {
        flush(0);
        must(lpt_end_execute(end, &applied) == LPT_DONE, "a request isn't executed");
        flush(0);
    }
    if (applied.kind == LPT_APPLIED_OPENED) {
        send_message(&applied.name);
        tell('F', &applied.name);
    }
    return fault == LPT_DONE;
}

/* Does what there is to do, or, if there is nothing, waits for octets. */
static void work(void) {
    static const uint8_t nothing = 0;
    LptName name = owed;
    if (is_owed) {
        is_owed = false;
        tell('R', &name);
    } else if (!serve()) {
        write_all(&nothing, 0);
    }
}

/* The front of a request's body: one area of the memory. */
static size_t put_area(uint8_t *body, uint32_t len) {
    const uint8_t area[] = {MEMORY, 1, 0, 0, 0, ADDRESS, (uint8_t)(len >> 8), (uint8_t)len};
    memcpy(body, area, sizeof area);
    return sizeof area;
}

/* Loads the front of the image in parts. Flags 1 and 8 ask for two reports, for which it waits. */
static void load(uint32_t len, uint16_t count) {
    static uint8_t body[8 + OCTETS + 2], request[sizeof body + 13];
    LptTcHead head = {APID, count, 1 + 8, 6, 2, SOURCE};
    size_t at = put_area(body, len), request_len = 0;
    unsigned reports = seen[LPT_OUTCOME_REPORT_NOTED] + 2;
    memcpy(body + at, image, len);
    at += len;
    body[at++] = (uint8_t)(lpt_crc16(image, len) >> 8);
    body[at++] = (uint8_t)lpt_crc16(image, len);
    must(lpt_write_tc(&head, body, at, request, sizeof request, &request_len) == LPT_DONE &&
             lpt_end_open(end, &load_name, request, request_len) == LPT_DONE,
         "a load isn't opened");
    send_message(&load_name);
    while (seen[LPT_OUTCOME_REPORT_NOTED] < reports) {
        work();
    }
}

static void ground(void) {
    uint8_t body[8] = {0};
    load(OCTETS, 16383); /* no other request has this count */
    must(lpt_end_plain(end, SOURCE, 1 + 8, 6, 5, body, put_area(body, OCTETS)) == LPT_DONE,
         "a dump isn't asked for");
    flush(0);
    while (seen[LPT_OUTCOME_RELEASED] < 1) {
        work();
    }
    tell('F', &load_name);
    while (freed < 1) {
        work();
    }
    printf("ground: the load's name is free at both ends\n");
    load(FEWER, 16382);
}

/* Makes this process's end, runs it, and prints what it has seen. */
static void run(uint32_t which, const int *reads, const int *writes) {
    static const LptConfig config = {APID, PART_SIZE, 10, 4, 4, 0, LPT_MODE_ANY};
    static const LptMemory memory = {MEMORY, 0, SIZE};
    static const uint8_t content[SIZE] = {0};
    size_t memories = which == LPT_SIDE_SPACECRAFT;
    side = which;
    in = reads[0];
    out = writes[1];
    must(close(reads[1]) == 0 && close(writes[0]) == 0, "a pipe isn't closed");
    must(fcntl(in, F_SETFL, O_NONBLOCK) == 0 && fcntl(out, F_SETFL, O_NONBLOCK) == 0, "it blocks");
    must(lpt_end_new(&end, side, &config, &memory, memories, content, memories * SIZE) == LPT_DONE,
         "no end is made");
    if (side == LPT_SIDE_GROUND) {
        ground();
    }
    while (side == LPT_SIDE_SPACECRAFT && in >= 0) {
        work();
    }
    printf("%s: %u parts kept, %u again; %u messages and %u plain requests released\n",
           side == LPT_SIDE_GROUND ? "ground" : "spacecraft", seen[LPT_OUTCOME_KEPT],
           seen[LPT_OUTCOME_AGAIN], seen[LPT_OUTCOME_RELEASED], seen[LPT_OUTCOME_PLAIN_RELEASED]);
    lpt_end_free(end);
    must(fflush(stdout) == 0 && close(out) == 0, "a pipe isn't closed");
}

int main(void) {
    int up[2] = {-1, -1}, down[2] = {-1, -1}, status = 0;
    pid_t child = -1;
    size_t i;
    for (i = 0; i < OCTETS; i++) {
        image[i] = (uint8_t)(i * 7 + i / 251);
    }
    must(signal(SIGPIPE, SIG_IGN) != SIG_ERR && pipe(up) == 0 && pipe(down) == 0, "no pipes");
    child = fork();
    must(child >= 0, "no process");
    if (child == 0) {
        run(LPT_SIDE_SPACECRAFT, up, down);
    } else {
        run(LPT_SIDE_GROUND, down, up);
        must(waitpid(child, &status, 0) == child && status == 0, "the spacecraft has failed");
    }
    return 0;
}
