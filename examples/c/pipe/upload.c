/*
 * A ground program that loads a file of up to 4 MiB into memory 1 of a spacecraft, at an address,
 * under a source that no job had before. It writes its packets to standard output, reads reports
 * from standard input, and ends with status 0 once each load was reported as completed:
 *
 *   mkfifo down
 *   ./upload image 0 7 < down | lpt link --lose 20% --seed 3 \
 *       | lpt spacecraft --memory 1=flash --save --part-size 256 | lpt link --lose 20% --seed 4 > down
 *
 *   cc -Iinclude examples/c/pipe/upload.c examples/c/memory/heap.c build/liblpt_ground.a \
 *       build/liblpt.a -o upload
 */
#define _POSIX_C_SOURCE 200809L

#include "lpt_ground.h"

#include <errno.h>
#include <fcntl.h>
#include <poll.h>
#include <stdio.h>
#include <stdlib.h>
#include <string.h>
#include <unistd.h>

enum { APID = 100, PART_SIZE = 256, LONGEST = PART_SIZE + 23, MEMORY = 1, TRIES = 20 };
enum { WAIT_MS = 1000, END_MS = 10000, MOST = 16384 * PART_SIZE };

static uint8_t image[MOST + 1]; /* so that a longer file is seen to be too long */
static LptGround *pass = NULL;
static bool hears = true;

/* Ends the program if something isn't so. */
static void must(bool is_so, const char *what) {
    if (!is_so) {
        fprintf(stderr, "upload: %s\n", what);
        exit(EXIT_FAILURE);
    }
}

/* Hands the packet at the front of some octets to the pass; skips it if it is idle. Returns its
   length, or 0 if it hasn't come whole. */
static size_t take(const uint8_t *octets, size_t octets_len) {
    size_t len = 0;
    const uint32_t fault = lpt_packet_length(octets, octets_len, &len);
    const bool is_packet = fault == LPT_DONE, is_idle = fault == LPT_E_IDLE;
    must(is_packet || is_idle || octets_len < 6U, "standard input has no packets");
    if (!(is_packet || is_idle) || len > octets_len) {
        return 0;
    }
    if (is_packet) {
        must(lpt_ground_packet(pass, octets, len) == LPT_DONE, "a packet isn't taken");
    }
    return len;
}

/* Reads the octets that have come, and takes each whole packet. */
static void hear(void) {
    static uint8_t came[LPT_LONGEST_PACKET];
    static size_t came_len;
    size_t at = 0, len = 0;
    ssize_t n = read(STDIN_FILENO, came + came_len, sizeof came - came_len);
    must(n >= 0 || errno == EINTR, "standard input isn't read");
    if (n == 0) {
        hears = false;
        must(lpt_ground_close(pass) == LPT_DONE, "the pass isn't closed");
    }
    came_len += n > 0 ? (size_t)n : 0;
    do {
        len = take(came + at, came_len - at);
        at += len;
    } while (len > 0U);
    came_len -= at;
    memmove(came, came + at, came_len);
}

/* Waits until a packet comes, or for a while. */
static void wait_for_one(void) {
    struct pollfd in = {STDIN_FILENO, POLLIN, 0};
    int ready = poll(&in, 1, WAIT_MS);
    must(ready >= 0, "nothing can be waited for");
    if (ready > 0) {
        hear();
    } else {
        must(lpt_ground_quiet(pass) == LPT_DONE, "no round begins");
    }
}

/* Writes the next packet. It also takes what comes while the pipe is full, so that ground and the
   spacecraft never wait for each other. It notes the packet as sent before it writes it, because
   what comes may change which packet is next. */
static void send_next(void) {
    uint8_t packet[LONGEST] = {0};
    size_t at = 0, len = 0;
    must(lpt_ground_outgoing(pass, packet, sizeof packet, &len) == LPT_DONE, "no packet is sent");
    must(lpt_ground_sent(pass) == LPT_DONE, "no packet was sent");
    while (at < len) {
        struct pollfd pipes[] = {{hears ? STDIN_FILENO : -1, POLLIN, 0}, {STDOUT_FILENO, POLLOUT, 0}};
        ssize_t n = 0;
        must(poll(pipes, 2, -1) > 0, "nothing can be waited for");
        if (pipes[0].revents != 0) {
            hear();
        }
        if (pipes[1].revents != 0) {
            n = write(STDOUT_FILENO, packet + at, len - at);
            must(n >= 0 || errno == EAGAIN, "standard output isn't written");
        }
        at += n > 0 ? (size_t)n : 0;
    }
}

/* Reads a number as C writes it. Ends the program if it is none, or greater than it may be. */
static uint32_t number_of(const char *word, uint32_t most, const char *what) {
    char *end = NULL;
    const unsigned long long value = strtoull(word, &end, 0);
    must(word[0] >= '0' && word[0] <= '9' && end[0] == '\0' && value <= most, what);
    return (uint32_t)value;
}

/* Makes the pass that loads a file. */
static void begin(const char *path, uint32_t address, uint16_t source) {
    static const LptJob load = {LPT_JOB_LOAD, MEMORY, 8, APID, 0, 0, PART_SIZE, TRIES};
    FILE *file = fopen(path, "rb");
    LptPlace place = {address, 0};
    LptJob job = load;
    uint32_t fault;
    must(file != NULL, "the file can't be opened");
    place.len = (uint32_t)fread(image, 1, sizeof image, file);
    must(ferror(file) == 0 && fclose(file) == 0, "the file can't be read");
    job.source = source;
    fault = lpt_ground_new(&pass, &job, &place, 1, image, place.len);
    must(fault == LPT_DONE, lpt_fault_name(fault));
}

int main(int count, char **words) {
    LptProgress progress = {0, 0, 0, 0};
    uint32_t step = LPT_STEP_SEND;
    unsigned long packets = 0;
    struct pollfd in = {STDIN_FILENO, POLLIN, 0};
    must(count == 4, "upload FILE ADDRESS SOURCE");
    begin(words[1], number_of(words[2], UINT32_MAX, "ADDRESS is no number of 32 bits"),
          (uint16_t)number_of(words[3], UINT16_MAX, "SOURCE is no number of 16 bits"));
    must(fcntl(STDOUT_FILENO, F_SETFL, O_NONBLOCK) == 0, "standard output is none");
    while (step < LPT_STEP_COMPLETED) {
        must(lpt_ground_next(pass, &step) == LPT_DONE, "the pass has no step");
        if (step == LPT_STEP_SEND) {
            send_next();
            packets++;
        } else if (step == LPT_STEP_LISTEN) {
            wait_for_one();
        }
    }
    must(lpt_ground_progress(pass, &progress) == LPT_DONE, "the pass has no progress");
    fprintf(stderr, "%s: %u of %u loads, %lu packets\n", lpt_step_name(step),
            (unsigned)progress.completed, (unsigned)progress.requests, packets);
    lpt_ground_free(pass);

    /* Reads the reports that still come, so that their writer doesn't find its pipe closed. */
    must(close(STDOUT_FILENO) == 0, "standard output isn't closed");
    while (hears && poll(&in, 1, END_MS) > 0 && read(STDIN_FILENO, image, MOST) > 0) {
    }
    return step == LPT_STEP_COMPLETED ? EXIT_SUCCESS : EXIT_FAILURE;
}
