/*
 * A spacecraft that outlasts its program. It saves what it must know after a reset in a file, in
 * two copies that it writes in turn, each with a number that grows. Ground loads an image in three
 * requests, each sent in parts, and asks for checksums. A copy goes to the file by several writes.
 * In each pass the spacecraft's process is stopped after another of its writes, to the file or to
 * ground, and started again. Each request is executed once, and the image is whole.
 *
 * A copy is a number of 8 octets; the memory; how many requests were executed; how long the state
 * of the end is, and the state; the number again; and a checksum. If the two numbers differ, or the
 * checksum is wrong, the copy was torn, and the other one is used.
 *
 *   cc -Iinclude examples/c/keep.c examples/c/memory/heap.c build/liblpt_end.a build/liblpt.a \
 *       -o keep && ./keep
 */
#define _POSIX_C_SOURCE 200809L

#include "lpt_end.h"

#include <signal.h>
#include <stdio.h>
#include <stdlib.h>
#include <string.h>
#include <sys/socket.h>
#include <sys/wait.h>
#include <unistd.h>

enum { APID = 100, SOURCE = 1, PART_SIZE = 64, LONGEST = PART_SIZE + 23 };
enum { MEMORY = 1, SIZE = 600, REQUESTS = 3, OCTETS = SIZE / REQUESTS };
enum { STATE_ROOM = 512, COPY_ROOM = 8 + SIZE + 4 + 4 + STATE_ROOM + 8 + 2, SLOT = 4096 };
enum { PIECE = 100, STOPPED = 2 };

static const LptConfig config = {APID, PART_SIZE, 10, 4, 4, 0, LPT_MODE_ANY};
static uint8_t image[SIZE];

/* Ends the process if something isn't so. */
static void must(bool is_so, const char *what) {
    if (!is_so) {
        fprintf(stderr, "keep: %s\n", what);
        exit(EXIT_FAILURE);
    }
}

/* The first writes a number, the high octet first, and returns how many octets it has. The second
   reads one. */
static size_t put(uint8_t *to, uint64_t value, size_t octets) {
    size_t i;
    for (i = 0; i < octets; i++) {
        to[i] = (uint8_t)(value >> (8 * (octets - 1 - i)));
    }
    return octets;
}

static uint64_t number(const uint8_t *from, size_t octets) {
    uint64_t value = 0;
    while (octets-- > 0) {
        value = value << 8 | *from++;
    }
    return value;
}

/* ---- the file ---- */

typedef uint8_t Image[SIZE];
typedef uint8_t State[STATE_ROOM];

/* What is saved: the number of the copy, the memory, how many loads were executed, the state. */
typedef struct Kept {
    uint64_t count;
    Image memory;
    uint32_t executed;
    State state;
    size_t state_len;
} Kept;

/* After which write the process stops, counted from 1, and how many there were. */
static unsigned stops_at, writes;

static void count_write(void) {
    if (++writes == stops_at) {
        _exit(STOPPED);
    }
}

static void write_some(int file, off_t at, const uint8_t *octets, size_t len) {
    must(pwrite(file, octets, len, at) == (ssize_t)len, "the file isn't written");
    count_write();
}

/* Writes the next copy in the place of the older one, and waits for the disk. */
static void keep(int file, Kept *kept) {
    uint8_t copy[COPY_ROOM] = {0};
    off_t at;
    size_t len = 0, i;
    kept->count++;
    at = (off_t)(kept->count % 2) * SLOT;
    len += put(copy, kept->count, 8);
    memcpy(copy + len, kept->memory, SIZE);
    len += SIZE;
    len += put(copy + len, kept->executed, 4);
    len += put(copy + len, kept->state_len, 4);
    memcpy(copy + len, kept->state, kept->state_len);
    len += kept->state_len;
    len += put(copy + len, kept->count, 8);
    len += put(copy + len, lpt_crc16(copy, len), 2);
    for (i = 0; i < len; i += PIECE) {
        write_some(file, at + (off_t)i, copy + i, len - i < PIECE ? len - i : PIECE);
    }
    must(fsync(file) == 0, "the file isn't on the disk");
}

/* Reads a copy. Returns false if it was torn, or there is none. */
static bool read_copy(int file, off_t at, Kept *kept) {
    uint8_t copy[COPY_ROOM] = {0};
    const size_t front = 8 + SIZE + 4 + 4;
    ssize_t got = pread(file, copy, sizeof copy, at);
    size_t len = 0;
    if (got < (ssize_t)front) {
        return false;
    }
    kept->count = number(copy, 8);
    memcpy(kept->memory, copy + 8, SIZE);
    kept->executed = (uint32_t)number(copy + 8 + SIZE, 4);
    kept->state_len = (size_t)number(copy + 8 + SIZE + 4, 4);
    if (kept->state_len > STATE_ROOM) {
        return false;
    }
    len = front + kept->state_len;
    memcpy(kept->state, copy + front, kept->state_len);
    return number(copy + len, 8) == kept->count &&
           number(copy + len + 8, 2) == lpt_crc16(copy, len + 8);
}

/* Reads the newer of the copies that are whole. Returns false if none is. */
static bool read_kept(int file, Kept *kept) {
    Kept other = {0, {0}, 0, {0}, 0};
    bool is_one = read_copy(file, 0, kept), is_other = read_copy(file, SLOT, &other);
    if (is_other && (!is_one || other.count > kept->count)) {
        *kept = other;
    }
    return is_one || is_other;
}

/* ---- packets between the processes: two octets say how long one is, 0 that no more come ---- */

static bool pass(int to, const uint8_t *octets, size_t len) {
    uint8_t framed[2 + LONGEST] = {0};
    put(framed, len, 2);
    memcpy(framed + 2, octets, len);
    return write(to, framed, 2 + len) == (ssize_t)(2 + len);
}

static bool read_all(int from, uint8_t *octets, size_t len) {
    while (len > 0) {
        ssize_t got = read(from, octets, len);
        if (got <= 0) {
            return false;
        }
        octets += got;
        len -= (size_t)got;
    }
    return true;
}

static bool take(int from, uint8_t *octets, size_t *len) {
    uint8_t front[2] = {0};
    if (!read_all(from, front, sizeof front)) {
        return false;
    }
    *len = (size_t)number(front, 2);
    return *len <= LONGEST && read_all(from, octets, *len);
}

/* ---- the spacecraft ---- */

/* Restores the end that was saved, or makes a new one if none was. First it waits until what the
   last process wrote is on the disk: otherwise the newest copy might stand in the system's cache
   alone, while the next one is written over the other. */
static void start(LptEnd **end, int file, Kept *kept) {
    static const LptMemory memory = {MEMORY, 0, SIZE};
    uint32_t fault;
    must(fsync(file) == 0, "the file isn't on the disk");
    if (read_kept(file, kept)) {
        fault = lpt_end_resume(end, LPT_SIDE_SPACECRAFT, &config, kept->state, kept->state_len,
                               &memory, 1, kept->memory, SIZE);
    } else {
        memset(kept, 0, sizeof *kept);
        fault = lpt_end_new(end, LPT_SIDE_SPACECRAFT, &config, &memory, 1, kept->memory, SIZE);
    }
    must(fault == LPT_DONE, lpt_fault_name(fault));
}

/* Takes a packet, and executes the request that it released. Saves what changed before anything is
   sent. Here plain requests are checks, which change nothing, so nothing is saved for them. */
static void serve(LptEnd *end, int file, Kept *kept, const uint8_t *packet, size_t len) {
    LptOutcome outcome = {0, {0, 0}, 0, 0};
    LptApplied applied = {0, {0, 0}, 0};
    size_t size = 0;
    must(lpt_end_packet(end, packet, len, &outcome) == LPT_DONE, "a packet isn't taken");
    while (lpt_end_read(end) == LPT_DONE) {
        must(lpt_end_execute(end, &applied) == LPT_DONE, "a request isn't executed");
    }
    if (outcome.kind == LPT_OUTCOME_RELEASED) {
        kept->executed++;
        must(lpt_end_memory(end, MEMORY, kept->memory, SIZE, &size) == LPT_DONE, "no memory");
        must(lpt_end_state(end, kept->state, STATE_ROOM, &kept->state_len) == LPT_DONE, "no state");
        keep(file, kept);
    }
}

/* The spacecraft's process: it takes packets and sends its answers back, until ground is done. */
static void spacecraft(int link, const char *path) {
    static Kept kept;
    LptEnd *end = NULL;
    uint8_t packet[LONGEST] = {0};
    size_t len = 0;
    FILE *file = fopen(path, "r+");
    must(file != NULL, "there is no file");
    start(&end, fileno(file), &kept);
    while (take(link, packet, &len)) {
        serve(end, fileno(file), &kept, packet, len);
        while (lpt_end_outgoing(end, packet, sizeof packet, &len) == LPT_DONE) {
            must(pass(link, packet, len) && lpt_end_sent(end) == LPT_DONE, "a report is lost");
            count_write();
        }
        must(pass(link, packet, 0), "ground is gone");
        count_write();
    }
    lpt_end_free(end);
    fclose(file);
    exit(EXIT_SUCCESS);
}

/* ---- ground ---- */

static LptEnd *ground = NULL;
static pid_t child;
static int to_child = -1;
static bool is_stopped; /* in this pass */
static uint32_t seen; /* the checksum that was reported last, or one that is none */

/* Starts the spacecraft's process. The first one of a pass stops after a write. */
static void launch(const char *path, unsigned stop) {
    int both[2];
    must(socketpair(AF_UNIX, SOCK_STREAM, 0, both) == 0, "there is no link");
    child = fork();
    must(child >= 0, "there is no process");
    if (child == 0) {
        close(both[0]);
        lpt_end_free(ground);
        stops_at = stop;
        spacecraft(both[1], path);
    }
    close(both[1]);
    to_child = both[0];
}

/* Waits for the end of the process. Returns whether it was stopped. */
static bool was_stopped(void) {
    int status = 0;
    close(to_child);
    must(waitpid(child, &status, 0) == child && WIFEXITED(status), "a process is lost");
    must(WEXITSTATUS(status) == EXIT_SUCCESS || WEXITSTATUS(status) == STOPPED, "a process fails");
    return WEXITSTATUS(status) == STOPPED;
}

/* Takes a packet that came down: notes the checksum of a check's report. */
static void note(const uint8_t *packet, size_t len) {
    LptOutcome outcome = {0, {0, 0}, 0, 0};
    LptTm tm = {{0, 0, 0, 0, 0, 0, 0, 0}, 0, 0};
    must(lpt_end_packet(ground, packet, len, &outcome) == LPT_DONE, "a report isn't taken");
    if (outcome.kind == LPT_OUTCOME_REPORT_NOTED && outcome.first == 6 && outcome.second == 10 &&
        lpt_read_tm(packet, len, &tm) == LPT_DONE && tm.len == 10) {
        seen = (uint32_t)number(packet + tm.at + 8, 2);
    }
}

/* Sends up the packets that wait on ground, and takes the answers. A packet is lost if the
   spacecraft's process stops at it; the process is then started again. */
static void send_up(const char *path) {
    uint8_t packet[LONGEST] = {0};
    size_t len = 0;
    while (lpt_end_outgoing(ground, packet, sizeof packet, &len) == LPT_DONE) {
        bool is_there = pass(to_child, packet, len);
        must(lpt_end_sent(ground) == LPT_DONE, "a packet stays");
        while (is_there && (is_there = take(to_child, packet, &len)) && len > 0) {
            note(packet, len);
        }
        if (!is_there) {
            must(was_stopped(), "a process ends");
            is_stopped = true;
            launch(path, 0);
        }
    }
}

/* The front of a request's body: one area of the memory. */
static size_t put_area(uint8_t *body, size_t at) {
    put(body, MEMORY, 1);
    put(body + 1, 1, 1);
    put(body + 2, at, 4);
    return 6 + put(body + 6, OCTETS, 2);
}

/* Loads a third of the image: its parts go up until the spacecraft reports its checksum. */
static void load(const char *path, uint16_t k) {
    const LptTcHead head = {APID, k, 0, 6, 2, SOURCE};
    const LptName name = {SOURCE, k};
    const uint8_t *octets = image + (size_t)k * OCTETS;
    const uint16_t sum = lpt_crc16(octets, OCTETS);
    uint8_t body[8 + OCTETS + 2] = {0}, request[sizeof body + 13] = {0};
    size_t at = put_area(body, (size_t)k * OCTETS), len = 0;
    uint16_t part;
    memcpy(body + at, octets, OCTETS);
    put(body + at + OCTETS, sum, 2);
    must(lpt_write_tc(&head, body, sizeof body, request, sizeof request, &len) == LPT_DONE &&
             lpt_end_open(ground, &name, request, len) == LPT_DONE,
         "a request isn't opened");
    do {
        seen = UINT32_MAX;
        for (part = 1; lpt_end_part(ground, &name, part) == LPT_DONE; part++) {
            send_up(path);
        }
        must(lpt_end_plain(ground, SOURCE, 0, 6, 9, body, 8) == LPT_DONE, "no check is asked");
        send_up(path);
    } while (seen != sum);
    must(lpt_end_finish(ground, &name) == LPT_DONE, "a request isn't finished");
}

/* A pass in which the spacecraft is stopped after a write. At its end the image must be whole.
   Returns whether the spacecraft was stopped. */
static bool run(const char *path, unsigned stop) {
    static Kept kept;
    FILE *file = fopen(path, "w");
    uint16_t k;
    must(file != NULL && fclose(file) == 0, "there is no file");
    must(lpt_end_new(&ground, LPT_SIDE_GROUND, &config, NULL, 0, NULL, 0) == LPT_DONE, "no end");
    is_stopped = false;
    launch(path, stop);
    for (k = 0; k < REQUESTS; k++) {
        load(path, k);
    }
    is_stopped = was_stopped() || is_stopped;
    lpt_end_free(ground);
    file = fopen(path, "r");
    must(file != NULL && read_kept(fileno(file), &kept), "nothing was kept");
    fclose(file);
    must(memcmp(kept.memory, image, SIZE) == 0, "the image isn't whole");
    must(kept.executed == REQUESTS, "a request wasn't executed once");
    return is_stopped;
}

int main(void) {
    char path[] = "/tmp/keep.XXXXXX";
    unsigned stop = 1;
    size_t i;
    int made = mkstemp(path);
    must(made >= 0, "there is no file");
    close(made);
    signal(SIGPIPE, SIG_IGN);
    for (i = 0; i < SIZE; i++) {
        image[i] = (uint8_t)(7 * i + 1);
    }
    while (run(path, stop)) {
        stop++;
    }
    unlink(path);
    printf("stopped behind each of %u writes: each request executed once, the image whole\n",
           stop - 1);
    return 0;
}
