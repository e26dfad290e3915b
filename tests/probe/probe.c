/*
 * Single calls of the doors for C on memory that is handed over whole: a frame in by standard input, a frame out by standard output, and nothing is kept between
 * them. docs/EVIDENCE.md has the frames. What is no frame is told by a line, and the program ends.
 */
#include "bystrodol.h"

#include <stdio.h>
#include <string.h>
#include <unistd.h>

enum { TEMPLATES, INDEX, NOTEPAD, BUFFER1, BUFFER2, SCORES, THRESHOLDS, RUN, REPLY, PARTS };
enum { CALL, LINE_SWITCH, RECEIVE, RECEIVER_SWITCH, FRESH, BRING_OVER, CLOSE_GAPS, SALVAGE, CALLS };
enum { MOST_TEMPLATES = 1001 * 512, MOST_WORDS = 1001, MOST_ROOM = 4096, SETTINGS = 24, HEAD = 1 + SETTINGS + 4 * PARTS };

/* The most of each part, and its name; scores and thresholds are numbers of two bytes. */
static const struct {
    size_t most;
    const char *name;
} limits[PARTS] = {
    {MOST_TEMPLATES, "bytes of templates, 1001 pages"}, {256, "bytes of index"}, {1024, "bytes of notepad"}, {1024, "bytes of buffer 1"},
    {1024, "bytes of buffer 2"}, {MOST_WORDS, "scores"}, {10, "thresholds"}, {4096, "bytes of run"}, {MOST_ROOM, "bytes of reply room"},
};
static uint8_t rooms[PARTS][MOST_TEMPLATES];
static uint16_t scores[MOST_WORDS], thresholds[MOST_WORDS], table[MOST_ROOM / 2];
static size_t lengths[PARTS];

/* ---- standard input and output */

/* As many bytes as there are, up to so many. */
static size_t take(uint8_t *to, size_t length) {
    size_t got = 0;
    for (ssize_t n = 1; got < length && n > 0; got += n > 0 ? (size_t)n : 0) n = read(STDIN_FILENO, to + got, length - got);
    return got;
}

/* All of them, or the input ends inside a frame. */
static int fill(uint8_t *to, size_t length) {
    if (take(to, length) == length) return 1;
    dprintf(STDERR_FILENO, "probe: the input ends inside a frame\n");
    return 0;
}

static int send(const uint8_t *from, size_t length) {
    for (ssize_t n; length > 0; from += n, length -= (size_t)n)
        if ((n = write(STDOUT_FILENO, from, length)) <= 0) return perror("probe"), 0;
    return 1;
}

/* ---- numbers, high byte first */

static size_t number(const uint8_t *at, int bytes) {
    size_t n = 0;
    while (bytes--) n = n << 8 | *at++;
    return n;
}

static void put(uint8_t *to, size_t n, int bytes) {
    while (bytes--) *to++ = (uint8_t)(n >> 8 * bytes);
}

/* ---- the settings: the order of the record is that of the frame, and its four numbers of two bytes are the machine's */

static const int words[] = {12, 14, 20, 22};
enum { WORDS = sizeof words / sizeof *words };

static struct bystrodol_settings read_settings(const uint8_t *at) {
    uint8_t bytes[SETTINGS];
    struct bystrodol_settings s;
    memcpy(bytes, at, SETTINGS);
    for (int i = 0; i < WORDS; i++) {
        uint16_t n = (uint16_t)number(at + words[i], 2);
        memcpy(bytes + words[i], &n, 2);
    }
    memcpy(&s, bytes, SETTINGS);
    return s;
}

static void write_settings(uint8_t *to, const struct bystrodol_settings *s) {
    memcpy(to, s, SETTINGS);
    for (int i = 0; i < WORDS; i++) {
        uint16_t n;
        memcpy(&n, to + words[i], 2);
        put(to + words[i], n, 2);
    }
}

/* ---- a frame */

static int read_lengths(const uint8_t *at) {
    for (int i = 0; i < PARTS; i++) {
        lengths[i] = number(at + 4 * i, 4);
        if (lengths[i] <= limits[i].most) continue;
        dprintf(STDERR_FILENO, "probe: more than %zu %s\n", limits[i].most, limits[i].name);
        return 0;
    }
    return 1;
}

static void get_words(uint16_t *to, const uint8_t *at, size_t length) {
    for (size_t i = 0; i < length; i++) to[i] = (uint16_t)number(at + 2 * i, 2);
}

static int read_words(uint16_t *to, int part) {
    if (!fill(rooms[part], 2 * lengths[part])) return 0;
    get_words(to, rooms[part], lengths[part]);
    return 1;
}

static int read_parts(void) {
    for (int i = 0; i < PARTS; i++)
        if (i == SCORES ? !read_words(scores, i) : i == THRESHOLDS ? !read_words(thresholds, i) : !fill(rooms[i], lengths[i])) return 0;
    return 1;
}

#define PART(i) rooms[i], lengths[i]
#define MEMORY PART(TEMPLATES), PART(INDEX), PART(NOTEPAD), PART(BUFFER1), PART(BUFFER2), scores, lengths[SCORES], thresholds, lengths[THRESHOLDS], PART(RUN), PART(REPLY)

/* The table travels in the reply room, two bytes to a number. The last byte of an odd room stays. */
static uint8_t close_gaps(struct bystrodol_settings *settings) {
    const size_t length = lengths[REPLY] / 2;
    get_words(table, rooms[REPLY], length);
    uint8_t refusal = bystrodol_close_gaps(settings, PART(TEMPLATES), PART(INDEX), table, length);
    for (size_t i = 0; i < length; i++) put(rooms[REPLY] + 2 * i, table[i], 2);
    return refusal;
}

static struct bystrodol_answer call(int which, struct bystrodol_line *line) {
    struct bystrodol_answer a = {0, 0, 0};
    struct bystrodol_received r;
    switch (which) {
    case CALL: return bystrodol_step(&line->settings, MEMORY);
    case LINE_SWITCH: a.refusal = bystrodol_line_switch(&line->settings, PART(BUFFER1), PART(BUFFER2)); break;
    case RECEIVE: r = bystrodol_receive(line, MEMORY), a.refusal = r.refusal, a.used = r.taken, a.length = r.length; break;
    case RECEIVER_SWITCH: a.refusal = bystrodol_receiver_switch(line, PART(BUFFER1), PART(BUFFER2)); break;
    case FRESH: line->settings = bystrodol_fresh(); break;
    case BRING_OVER: a.refusal = bystrodol_bring_over(PART(RUN), PART(INDEX)); break;
    case CLOSE_GAPS: a.refusal = close_gaps(&line->settings); break;
    case SALVAGE: a.refusal = bystrodol_salvage(PART(TEMPLATES), PART(INDEX), PART(REPLY)); break;
    }
    return a;
}

/* One frame; 0 where it is the last. */
static int frame(void) {
    static uint8_t head[HEAD], out[9 + SETTINGS], count[2];
    struct bystrodol_line line = {0};
    size_t got = take(head, HEAD);
    if (got == 0) return 0;
    if (got < HEAD) return dprintf(STDERR_FILENO, "probe: the input ends inside a frame\n"), 0;
    if (head[0] >= CALLS) return dprintf(STDERR_FILENO, "probe: a frame starts with 0 to 7\n"), 0;
    int has_receiver = head[0] == RECEIVE || head[0] == RECEIVER_SWITCH;
    line.settings = read_settings(head + 1);
    if (!read_lengths(head + 1 + SETTINGS)) return 0;
    if (has_receiver && (!fill(count, 2) || !fill(line.receiver.held, sizeof line.receiver.held))) return 0;
    line.receiver.count = (uint16_t)number(count, 2);
    if (!read_parts()) return 0;
    struct bystrodol_answer a = call(head[0], &line);
    out[0] = a.refusal;
    put(out + 1, a.used, 4), put(out + 5, a.length, 4), write_settings(out + 9, &line.settings);
    if (!send(out, sizeof out)) return 0;
    put(count, line.receiver.count, 2);
    if (has_receiver && (!send(count, 2) || !send(line.receiver.held, sizeof line.receiver.held))) return 0;
    for (int i = TEMPLATES; i <= BUFFER2; i++)
        if (!send(PART(i))) return 0;
    return send(PART(REPLY));
}

int main(void) {
    while (frame()) {}
    return 0;
}
