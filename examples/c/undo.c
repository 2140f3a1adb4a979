/*
 * A spacecraft whose memory is the program's own and may refuse a write, and whose machine may be
 * reset at any place. The memory is a file that is written a few octets at a time, as a flash is;
 * its end is locked. Before the program writes a load, it saves the state of the end, in one write
 * with the octets that are there now. Then it writes the load, executes the request, saves the new
 * state alone, and only then sends a report. If the memory refuses, the program puts the old octets
 * back, and refuses the request. At each start it puts back what it saved last. So each load is in
 * the memory whole or not at all, and is executed once.
 *
 * Ground loads an image in requests that overlap, so that their order shows, and asks for a
 * checksum after each. A request that a reset lost goes up again under a new name. The last one
 * reaches into the locked end. The spacecraft's process is stopped after each of its writes, to a
 * file or to ground, in a pass of its own, and once more soon after it was started again. At each
 * start the memory is compared with what the executed requests make of it.
 *
 * It saves in a file, in two copies that it writes in turn. Each has the same number in front and
 * behind, and then a checksum. If one copy was torn, the other one is used.
 *
 *   cc -Iinclude examples/c/undo.c examples/c/memory/heap.c build/liblpt_end.a build/liblpt.a \
 *       -o undo && ./undo
 */
#define _POSIX_C_SOURCE 200809L

#include "lpt_end.h"

#include <fcntl.h>
#include <signal.h>
#include <stdio.h>
#include <stdlib.h>
#include <string.h>
#include <sys/socket.h>
#include <sys/wait.h>
#include <unistd.h>

enum { APID = 100, SOURCE = 1, PART_SIZE = 64, LONGEST = PART_SIZE + 23 };
enum { MEMORY = 1, SIZE = 480, LOCKED = 432, LOADS = 4, STEP = 84, OCTETS = 120 };
enum { OLD_AT = 24, STATE_AT = OLD_AT + OCTETS, STATE_ROOM = 512, SLOT = 4096 };
enum { COPY_ROOM = STATE_AT + STATE_ROOM + 10, PIECE = 16, STOPPED = 2 };

static const LptConfig config = {APID, PART_SIZE, 10, 4, 4, 0, LPT_MODE_ANY};
static const LptSize sizes[] = {{MEMORY, SIZE}};

/* What the loads carry, one after the other; the last one is refused. */
static uint8_t loads[LOADS + 1][OCTETS];

/* Ends the process if something isn't so. */
static void must(bool is_so, const char *what) {
    if (!is_so) {
        fprintf(stderr, "undo: %s\n", what);
        exit(EXIT_FAILURE);
    }
}

/* The first writes a number, the high octet first. The second reads one. */
static void put(uint8_t *to, uint64_t value, size_t octets) {
    size_t i;
    for (i = 0; i < octets; i++) {
        to[i] = (uint8_t)(value >> (8 * (octets - 1 - i)));
    }
}

static uint64_t number(const uint8_t *from, size_t octets) {
    uint64_t value = 0;
    while (octets-- > 0) {
        value = value << 8 | *from++;
    }
    return value;
}

/* ---- what is kept ---- */

typedef uint8_t State[STATE_ROOM];
typedef uint8_t Old[OCTETS];

/* The number of the copy; how many loads were executed; the place of a load that may be written in
   part and wasn't executed, and the octets that were there; the end's state. */
typedef struct Kept {
    uint64_t count;
    uint32_t executed, address;
    size_t old_len, state_len;
    Old old;
    State state;
} Kept;

/* The files: the copies, and the memory. */
typedef struct Files {
    int copies, memory;
} Files;

/* After which write the process stops, counted from 1, and how many there were. */
static unsigned stops_at, writes;

static void count_write(void) {
    if (++writes == stops_at) {
        _exit(STOPPED);
    }
}

/* Writes octets piece by piece, but none from the place `end` of the file on, and waits for the
   disk. Returns false if some are left. */
static bool write_all(int file, size_t end, size_t at, const uint8_t *octets, size_t len) {
    size_t i, size = 0;
    for (i = 0; i < len && at + i + PIECE <= end; i += size) {
        size = len - i < PIECE ? len - i : PIECE;
        must(pwrite(file, octets + i, size, (off_t)(at + i)) == (ssize_t)size, "none is written");
        count_write();
    }
    must(fsync(file) == 0, "nothing is on the disk");
    return i >= len;
}

/* Saves the end's state with what may have to be put back, in the place of the older copy. */
static void keep(LptEnd *end, int file, Kept *kept) {
    uint8_t copy[COPY_ROOM] = {0};
    size_t len = 0;
    must(lpt_end_state(end, kept->state, STATE_ROOM, &kept->state_len) == LPT_DONE, "no state");
    kept->count++;
    put(copy, kept->count, 8);
    put(copy + 8, kept->executed, 4);
    put(copy + 12, kept->address, 4);
    put(copy + 16, kept->old_len, 4);
    put(copy + 20, kept->state_len, 4);
    memcpy(copy + OLD_AT, kept->old, OCTETS);
    memcpy(copy + STATE_AT, kept->state, kept->state_len);
    len = STATE_AT + kept->state_len;
    put(copy + len, kept->count, 8);
    put(copy + len + 8, lpt_crc16(copy, len + 8), 2);
    must(write_all(file, 2 * SLOT, (size_t)(kept->count % 2) * SLOT, copy, len + 10), "no room");
}

/* Reads a copy. Returns false if it was torn, or there is none. */
static bool read_copy(int file, size_t at, Kept *kept) {
    uint8_t copy[COPY_ROOM] = {0};
    size_t len = 0;
    if (pread(file, copy, sizeof copy, (off_t)at) < STATE_AT) {
        return false;
    }
    kept->count = number(copy, 8);
    kept->executed = (uint32_t)number(copy + 8, 4);
    kept->address = (uint32_t)number(copy + 12, 4);
    kept->old_len = (size_t)number(copy + 16, 4);
    kept->state_len = (size_t)number(copy + 20, 4);
    if (kept->old_len > OCTETS || kept->state_len > STATE_ROOM) {
        return false;
    }
    memcpy(kept->old, copy + OLD_AT, OCTETS);
    memcpy(kept->state, copy + STATE_AT, kept->state_len);
    len = STATE_AT + kept->state_len;
    return number(copy + len, 8) == kept->count &&
           number(copy + len + 8, 2) == lpt_crc16(copy, len + 8);
}

/* Reads the newer of the copies that are whole. Returns false if none is. */
static bool read_kept(int file, Kept *kept) {
    Kept other = {0, 0, 0, 0, 0, {0}, {0}};
    bool is_one = read_copy(file, 0, kept), is_other = read_copy(file, SLOT, &other);
    if (is_other && (!is_one || other.count > kept->count)) {
        *kept = other;
    }
    return is_one || is_other;
}

/* Puts the old octets back. Where the memory refuses this, it has changed nothing. */
static void put_back(int memory, const Kept *kept) {
    (void)write_all(memory, LOCKED, kept->address, kept->old, kept->old_len);
}

/* Returns whether the memory is what the executed loads make of zeros, in their order. */
static bool is_exact(int memory, uint32_t executed) {
    uint8_t wanted[SIZE] = {0}, octets[SIZE] = {0};
    uint32_t k;
    for (k = 0; k < executed; k++) {
        memcpy(wanted + (size_t)k * STEP, loads[k], OCTETS);
    }
    return pread(memory, octets, SIZE, 0) == SIZE && memcmp(octets, wanted, SIZE) == 0;
}

/* Takes a packet, or the one octet that says that no more come. Returns false if the process has
   ended. */
static bool take(int from, uint8_t *octets, size_t *len) {
    ssize_t got = read(from, octets, LONGEST);
    *len = got > 0 ? (size_t)got : 0;
    return got > 0;
}

/* ---- the spacecraft ---- */

/* After a reset: waits until the copies are on the disk, since the last process may have ended
   before; puts back what was saved, and restores the end from its state. */
static void start(LptEnd **end, Files files, Kept *kept) {
    uint32_t fault;
    must(fsync(files.copies) == 0, "nothing is on the disk");
    if (read_kept(files.copies, kept)) {
        put_back(files.memory, kept);
        fault = lpt_end_resume_sized(end, &config, kept->state, kept->state_len, sizes, 1);
    } else {
        memset(kept, 0, sizeof *kept);
        fault = lpt_end_new_sized(end, &config, sizes, 1);
    }
    must(fault == LPT_DONE, lpt_fault_name(fault));
    must(is_exact(files.memory, kept->executed), "the memory isn't what was executed");
}

/* Saves the octets that are there, and then writes the oldest request's load. Returns false if the
   memory refuses. */
static bool write_load(LptEnd *end, Files files, Kept *kept, uint32_t address) {
    Old octets = {0};
    size_t len = 0;
    must(lpt_end_access_octets(end, 0, octets, OCTETS, &len) == LPT_DONE, "a load is too long");
    must(pread(files.memory, kept->old, len, address) == (ssize_t)len, "the memory isn't read");
    kept->address = address;
    kept->old_len = len;
    keep(end, files.copies, kept);
    return write_all(files.memory, LOCKED, address, octets, len);
}

/* Writes what the oldest request writes, reads what it reads, and executes it, or refuses it. Then
   saves the new state alone. */
static void execute(LptEnd *end, Files files, Kept *kept) {
    LptApplied applied = {0, {0, 0}, 0};
    LptAccess access = {0, 0, 0, 0};
    uint8_t octets[SIZE] = {0};
    size_t at, read = 0;
    bool is_load = false, is_done = true;
    for (at = 0; lpt_end_access(end, at, &access) == LPT_DONE; at++) {
        if (access.write != 0) {
            must(at == 0, "a load has two areas"); /* ground sends no such load */
            is_load = true;
            is_done = write_load(end, files, kept, access.address);
        } else {
            must(access.len <= SIZE - read && pread(files.memory, octets + read, access.len,
                                                    access.address) == (ssize_t)access.len,
                 "the memory isn't read");
            read += access.len;
        }
    }
    if (is_done) {
        must(lpt_end_execute_given(end, octets, read, &applied) == LPT_DONE, "nothing is executed");
        kept->executed += is_load ? 1U : 0U;
    } else {
        put_back(files.memory, kept);
        must(lpt_end_refuse(end, LPT_FAILURE_OUT_OF_RANGE, &applied) == LPT_DONE, "not refused");
    }
    kept->old_len = 0;
    keep(end, files.copies, kept);
}

/* The spacecraft's process: it takes packets and sends its answers back, until ground is done. */
static void spacecraft(int link, Files files) {
    static Kept kept;
    LptEnd *end = NULL;
    LptOutcome outcome = {0, {0, 0}, 0, 0};
    uint8_t packet[LONGEST] = {0};
    size_t len = 0;
    start(&end, files, &kept);
    while (take(link, packet, &len)) {
        must(lpt_end_packet(end, packet, len, &outcome) == LPT_DONE, "a packet isn't taken");
        while (lpt_end_read(end) == LPT_DONE) {
            execute(end, files, &kept);
        }
        while (lpt_end_outgoing(end, packet, sizeof packet, &len) == LPT_DONE) {
            must(write(link, packet, len) == (ssize_t)len, "ground is gone");
            must(lpt_end_sent(end) == LPT_DONE, "a report stays");
            count_write();
        }
        must(write(link, packet, 1) == 1, "ground is gone");
        count_write();
    }
    lpt_end_free(end);
    exit(EXIT_SUCCESS);
}

/* ---- ground ---- */

static LptEnd *ground = NULL;
static pid_t child;
static int to_child = -1;
static unsigned stops, starts; /* in all; in this pass */
static uint16_t names; /* how many were opened in this pass */
static uint32_t seen; /* the checksum that was reported last, or one that is none */
static bool is_refused; /* whether a load is said to have failed */

/* Starts the spacecraft's process. The first one of a pass stops after a write, and the second one
   after one of its first writes, also while it puts octets back. */
static void launch(Files files, unsigned stop) {
    int both[2];
    must(socketpair(AF_UNIX, SOCK_SEQPACKET, 0, both) == 0, "there is no link");
    starts++;
    child = fork();
    must(child >= 0, "there is no process");
    if (child == 0) {
        close(both[0]);
        lpt_end_free(ground);
        stops_at = starts == 1 ? stop : starts == 2 ? stop % 40 + 1 : 0;
        spacecraft(both[1], files);
    }
    close(both[1]);
    to_child = both[0];
}

/* Waits for the end of the process. Returns whether it was stopped. */
static bool was_stopped(void) {
    int status = 0;
    close(to_child);
    must(waitpid(child, &status, 0) == child && WIFEXITED(status), "a process is lost");
    must(WEXITSTATUS(status) == EXIT_SUCCESS || WEXITSTATUS(status) == STOPPED, "a process fails");
    stops += WEXITSTATUS(status) == STOPPED ? 1U : 0U;
    return WEXITSTATUS(status) == STOPPED;
}

/* Takes a packet that came down: notes the checksum of a check's report, or that a load failed. */
static void note(const uint8_t *packet, size_t len) {
    LptOutcome outcome = {0, {0, 0}, 0, 0};
    LptTm tm = {{0, 0, 0, 0, 0, 0, 0, 0}, 0, 0};
    must(lpt_end_packet(ground, packet, len, &outcome) == LPT_DONE &&
             outcome.kind == LPT_OUTCOME_REPORT_NOTED && lpt_read_tm(packet, len, &tm) == LPT_DONE,
         "a report isn't taken");
    if (outcome.first == 6 && outcome.second == 10 && tm.len == 10) {
        seen = (uint32_t)number(packet + tm.at + 8, 2);
    }
    is_refused = is_refused || (outcome.first == 1 && outcome.second == 4);
}

/* Sends up the packets that wait on ground, and takes the answers. A packet is lost if the
   spacecraft's process stops at it; the process is then started again. */
static void send_up(Files files) {
    uint8_t packet[LONGEST] = {0};
    size_t len = 0;
    while (lpt_end_outgoing(ground, packet, sizeof packet, &len) == LPT_DONE) {
        bool is_there = write(to_child, packet, len) == (ssize_t)len;
        must(lpt_end_sent(ground) == LPT_DONE, "a packet stays");
        while (is_there && (is_there = take(to_child, packet, &len)) && len > 1) {
            note(packet, len);
        }
        if (!is_there) {
            must(was_stopped(), "a process ends");
            launch(files, 0);
        }
    }
}

/* Sends a load's parts, under a name that wasn't used. */
static void open_load(Files files, uint16_t k) {
    const LptTcHead head = {APID, names, 0, 6, 2, SOURCE};
    const LptName name = {SOURCE, names};
    uint8_t body[OCTETS + 10] = {0}, request[sizeof body + 13] = {0};
    size_t len = 0;
    uint16_t part;
    names++;
    must(lpt_write_load(MEMORY, (uint32_t)k * STEP, loads[k], OCTETS, body, sizeof body, &len) ==
                 LPT_DONE &&
             lpt_write_tc(&head, body, len, request, sizeof request, &len) == LPT_DONE &&
             lpt_end_open(ground, &name, request, len) == LPT_DONE,
         "a request isn't opened");
    for (part = 1; lpt_end_part(ground, &name, part) == LPT_DONE; part++) {
        send_up(files);
    }
    must(lpt_end_finish(ground, &name) == LPT_DONE, "a request isn't finished");
}

/* Sends a load again until the spacecraft reports its checksum, or that it failed. */
static void load(Files files, uint16_t k) {
    const LptRange range = {(uint32_t)k * STEP, OCTETS};
    const uint16_t sum = lpt_crc16(loads[k], OCTETS);
    uint8_t check[8] = {0};
    size_t len = 0;
    must(lpt_write_check(MEMORY, &range, 1, check, sizeof check, &len) == LPT_DONE, "no check");
    is_refused = false;
    do {
        open_load(files, k);
        seen = UINT32_MAX;
        while (seen == UINT32_MAX) {
            must(lpt_end_plain(ground, SOURCE, 0, 6, 9, check, len) == LPT_DONE, "no check");
            send_up(files);
        }
    } while (seen != sum && !is_refused);
    must(is_refused == (k == LOADS), "what isn't locked is refused, or what is isn't");
}

/* Makes an empty file, whose name is removed at once. */
static int file(size_t len) {
    char path[] = "/tmp/undo.XXXXXX";
    int made = mkstemp(path);
    must(made >= 0 && unlink(path) == 0 && ftruncate(made, (off_t)len) == 0, "there is no file");
    return made;
}

/* A pass in which the spacecraft is stopped after this write. Returns whether it was stopped. */
static bool run(unsigned stop) {
    static Kept kept;
    const Files files = {file(0), file(SIZE)};
    bool is_stopped;
    uint16_t k;
    must(lpt_end_new(&ground, LPT_SIDE_GROUND, &config, NULL, 0, NULL, 0) == LPT_DONE, "no end");
    starts = 0;
    names = 0;
    launch(files, stop);
    for (k = 0; k <= LOADS; k++) {
        load(files, k);
    }
    is_stopped = was_stopped() || starts > 1;
    lpt_end_free(ground);
    must(read_kept(files.copies, &kept) && kept.executed == LOADS, "a load wasn't executed once");
    must(is_exact(files.memory, LOADS), "the memory isn't exact");
    close(files.copies);
    close(files.memory);
    return is_stopped;
}

int main(void) {
    unsigned stop = 1;
    size_t i, k;
    signal(SIGPIPE, SIG_IGN);
    for (k = 0; k <= LOADS; k++) {
        for (i = 0; i < OCTETS; i++) {
            loads[k][i] = (uint8_t)(7 * i + 31 * k + 1);
        }
    }
    while (run(stop)) {
        stop++;
    }
    printf("stopped %u times, behind each of %u writes: loads done once or refused, all exact\n",
           stops, stop - 1);
    return 0;
}
