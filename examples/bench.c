/*
 * bench.c: the bench program in C, an example for firmware: a reader of 64 pages that takes packets from standard input and
 * writes replies to standard output. On a board, read and write are those of the serial port, and the memory is where
 * the board keeps it. A board adds what include/bystrodol.h says of power-on, silence, another host, the port's speed, and saving.
 *
 *     tools/archives board && cc -I include examples/bench.c target/staticlib/libboard.a -o target/bench-in-c
 */
#define _POSIX_C_SOURCE 200809L /* read, write, ssize_t, dprintf */

#include <stdio.h>
#include <unistd.h>

#include "bystrodol.h"

enum { PAGES = 64, PIECE_BYTES = 60 };

/* The reader's memory, zeroed at the start. The core keeps nothing beside it and the line. */
static uint8_t templates[PAGES * BYSTRODOL_PAGE_BYTES];
static uint8_t stored[BYSTRODOL_INDEX_BYTES];
static uint8_t notepad[BYSTRODOL_PAGE_BYTES];
static uint8_t buffer1[BYSTRODOL_PAGE_BYTES];
static uint8_t buffer2[BYSTRODOL_PAGE_BYTES];

/* No sensor chip is here. With scores and thresholds of 0 a Search finds the lowest stored page of its range, and identifies
 * nobody. */
static const uint16_t scores[PAGES];
static const uint16_t thresholds[BYSTRODOL_THRESHOLDS];

/* The settings and the receiver, which holds nothing at the start. */
static struct bystrodol_line line;

static uint8_t reply[BYSTRODOL_REPLY_BYTES];

/* Writes all of a reply. Returns whether it could. */
static int send_all(const uint8_t *bytes, size_t length) {
    while (length > 0) {
        ssize_t sent = write(STDOUT_FILENO, bytes, length);
        if (sent < 0) return 0;
        bytes += sent;
        length -= (size_t)sent;
    }
    return 1;
}

/* Offers a piece until a call takes nothing and leaves the held count. Returns whether all went well, and says what did not. */
static int take_piece(const uint8_t *piece, size_t length) {
    struct bystrodol_received r;
    size_t held;
    do {
        held = line.receiver.count;
        r = bystrodol_receive(&line, templates, sizeof templates, stored, sizeof stored, notepad, sizeof notepad, buffer1,
                              sizeof buffer1, buffer2, sizeof buffer2, scores, PAGES, thresholds, BYSTRODOL_THRESHOLDS,
                              piece, length, reply, sizeof reply);
        if (!send_all(reply, r.length)) {
            perror("write");
            return 0;
        }
        piece += r.taken, length -= r.taken;
    } while (r.taken != 0 || line.receiver.count != held);
    /* A reader that starts fresh stays legal, so this tells of memory that something else has written to. */
    if (r.refusal != BYSTRODOL_ACCEPTED) dprintf(STDERR_FILENO, "the reader refuses with %d\n", r.refusal);
    return r.refusal == BYSTRODOL_ACCEPTED;
}

int main(void) {
    uint8_t piece[PIECE_BYTES];
    line.settings = bystrodol_fresh();
    for (;;) {
        ssize_t got = read(STDIN_FILENO, piece, sizeof piece);
        if (got < 0) {
            perror("read");
            return 1;
        }
        if (got == 0) return 0;
        if (!take_piece(piece, (size_t)got)) return 1;
    }
}
