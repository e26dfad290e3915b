/*
 * A reader in an area of memory: its line, and each part that is lent, with guard bytes around it. Memory of bytes begins at odd addresses; what has length 0 is
 * lent as NULL. The table is that of closing the gaps, the report that of a salvage or of a comparison. The reader is called through three doors: a receiver that is
 * offered the whole run, one that already holds half of it, and none.
 * What a call may change is changed in a copy of the area as it was, and then every byte of the two is compared.
 */
#ifndef AREA_H
#define AREA_H

#include "bystrodol.h"
#include "check.h"

/* ---- an index */

static inline int is_set(const uint8_t *index, size_t bit) { return index[bit / 8] >> bit % 8 & 1; }

static inline void set_bit(uint8_t *index, size_t bit) { index[bit / 8] |= (uint8_t)(1u << bit % 8); }

/* ---- the area */

enum { TABLE, SCORES, THRESHOLDS, INDEX, NOTEPAD, BUFFER1, BUFFER2, RUN, REPLY, REPORT, TEMPLATES, PARTS };
enum { GUARD = 64, MOST = 1025 * BYSTRODOL_PAGE_BYTES };

/* The room for each part, more than is right. Table, scores and thresholds are numbers of two bytes. */
static const size_t rooms[PARTS] = {1026, 1026, 11, 386, 514, 514, 514, 268, 702, 1026, MOST};
static const char *const names[PARTS] = {"table", "scores", "thresholds", "index", "notepad", "buffer 1", "buffer 2", "run", "reply room", "report", "templates"};

static struct area {
    uint8_t before_line[GUARD];
    struct bystrodol_line line;
    uint8_t before_table[GUARD];
    uint16_t table[1026];
    uint8_t before_scores[GUARD];
    uint16_t scores[1026];
    uint8_t before_thresholds[GUARD];
    uint16_t thresholds[11];
    uint8_t bytes[1 + 386 + 3 * 514 + 268 + 702 + 1026 + MOST + 9 * GUARD];
} area, was, pattern;

static uint8_t *parts[PARTS];
static size_t lengths[PARTS];
static struct bystrodol_answer answer;
static struct bystrodol_received received;

static enum { OFFERED, HELD, STEP, DOORS } door;

/* The found mark and the address of a reader that is set up. */
static uint8_t found;
enum { ADDRESS = 0x1A2B3C4D };

#define TWO(number) (uint8_t)((number) >> 8), (uint8_t)(number)
#define CONTENT(...) (const uint8_t[]){__VA_ARGS__}, sizeof(const uint8_t[]){__VA_ARGS__}

static inline size_t capacity(void) { return lengths[TEMPLATES] / BYSTRODOL_PAGE_BYTES; }

/* How much of the area is used: the templates are its last part, and have a guard behind them. */
static inline size_t extent(void) { return (size_t)(parts[TEMPLATES] - (uint8_t *)&area) + lengths[TEMPLATES] + GUARD; }

static inline void save(void) { memcpy(&was, &area, extent()); }

/* A legal reader of so many bytes of templates: fresh settings but for found mark and address, bytes in all memory, no two halves of pages alike, and no page stored;
 * a reply room, and no run. Its receiver has any bytes, and a count above 267. */
static inline void set_up_bytes(size_t templates) {
    const size_t pages = templates / BYSTRODOL_PAGE_BYTES;
    const size_t right[PARTS] = {pages, pages, BYSTRODOL_THRESHOLDS, BYSTRODOL_INDEX_BYTES, BYSTRODOL_PAGE_BYTES, BYSTRODOL_PAGE_BYTES, BYSTRODOL_PAGE_BYTES, 0,
                                 BYSTRODOL_REPLY_BYTES, BYSTRODOL_REPORT_BYTES, templates};
    memcpy(lengths, right, sizeof right);
    parts[TABLE] = (uint8_t *)area.table, parts[SCORES] = (uint8_t *)area.scores, parts[THRESHOLDS] = (uint8_t *)area.thresholds;
    for (size_t i = INDEX, at = GUARD + 1; i < PARTS; at += rooms[i++] + GUARD) parts[i] = area.bytes + at;
    memcpy(&area, &pattern, extent());
    area.line.settings = bystrodol_fresh();
    area.line.settings.found = found;
    memcpy(area.line.settings.address, CONTENT(TWO(ADDRESS >> 16), TWO(ADDRESS)));
    memset(parts[INDEX], 0, rooms[INDEX]);
}

static inline void set_up(size_t pages) { set_up_bytes(pages * BYSTRODOL_PAGE_BYTES); }

/* The same with both buffers filled and every page stored. */
static inline void set_up_stored(size_t pages) {
    set_up(pages);
    area.line.settings.filled1 = area.line.settings.filled2 = 1;
    for (size_t page = 0; page < pages; page++) set_bit(parts[INDEX], page);
}

static inline void fill_pattern(void) {
    for (size_t i = 0; i < sizeof pattern; i++) ((uint8_t *)&pattern)[i] = (uint8_t)(0xA5 + 7 * i + i / 101 + i / 20011);
}

/* ---- calls */

static inline void *part(int i) { return lengths[i] ? parts[i] : NULL; }

#define LENT(i) part(i), lengths[i]
#define MEMORY LENT(TEMPLATES), LENT(INDEX), LENT(NOTEPAD), LENT(BUFFER1), LENT(BUFFER2), LENT(SCORES), LENT(THRESHOLDS)

static inline void step(const uint8_t *run, size_t length) {
    save();
    answer = bystrodol_step(&area.line.settings, MEMORY, run, length, LENT(REPLY));
    demand("bytes used", answer.used, length), demand("reply length", answer.length, lengths[REPLY]);
}

/* A piece to the receiver as it is. The bytes used are those that are neither held nor left of it. */
static inline void offer(const uint8_t *piece, size_t length) {
    size_t held = area.line.receiver.count;
    save();
    received = bystrodol_receive(&area.line, MEMORY, piece, length, LENT(REPLY));
    demand("bytes taken", received.taken, length), demand("reply length", received.length, lengths[REPLY]);
    answer = (struct bystrodol_answer){received.refusal, held + received.taken - area.line.receiver.count, received.length};
}

static inline void call(void) {
    size_t held = door == HELD ? lengths[RUN] / 2 : 0;
    if (door == STEP) {
        step(LENT(RUN));
        return;
    }
    memcpy(area.line.receiver.held, parts[RUN], held);
    area.line.receiver.count = (uint16_t)held;
    offer(lengths[RUN] ? parts[RUN] + held : NULL, lengths[RUN] - held);
}

static inline uint8_t line_switch(void) {
    save();
    if (door == STEP) return bystrodol_line_switch(&area.line.settings, LENT(BUFFER1), LENT(BUFFER2));
    return bystrodol_receiver_switch(&area.line, LENT(BUFFER1), LENT(BUFFER2));
}

static inline uint32_t address_of(const struct bystrodol_settings *s) {
    return (uint32_t)s->address[0] << 24 | (uint32_t)s->address[1] << 16 | (uint32_t)s->address[2] << 8 | s->address[3];
}

/* A packet to the reader's own address is the run, and is sent. */
static inline void put(uint8_t identifier, const uint8_t *content, size_t length) {
    lengths[RUN] = bystrodol_build(address_of(&area.line.settings), identifier, content, length, parts[RUN], rooms[RUN]);
    check("the length of a packet", lengths[RUN], length + BYSTRODOL_FRAME_BYTES);
}

static inline void send(uint8_t identifier, const uint8_t *content, size_t length) { put(identifier, content, length), call(); }

#define COMMAND(...) send(BYSTRODOL_PACKET_COMMAND, CONTENT(__VA_ARGS__))

/* ---- what a call leaves */

/* Where a part lies in the area as it was, and a page of the templates there. */
static inline uint8_t *part_was(int i) { return was.bytes + (parts[i] - area.bytes); }

static inline uint8_t *page_was(size_t page) { return part_was(TEMPLATES) + BYSTRODOL_PAGE_BYTES * page; }

static inline const char *name_at(const uint8_t *at) {
    for (int i = 0; i < PARTS; i++)
        if (at >= parts[i] && at < parts[i] + lengths[i] * (i <= THRESHOLDS ? 2 : 1)) return names[i];
    return at < (uint8_t *)&area.line || at >= area.before_table ? "guards" : at < (uint8_t *)&area.line.receiver ? "settings" : "receiver";
}

/* Every byte of the area is that of another; of the first that is not, the part is named. */
static inline void is_like(const char *name, size_t which, const struct area *other) {
    const uint8_t *const bytes = (uint8_t *)&area, *const others = (const uint8_t *)other;
    const size_t at = differ(bytes, others, extent());
    if (at == extent()) passed++;
    else check_of(name, which, name_at(bytes + at), bytes[at], others[at]);
}

static inline void is_all(const char *name, size_t which) { is_like(name, which, &was); }

static inline void is_refused(const char *name, size_t which, uint8_t refusal) {
    check_of(name, which, "refusal", answer.refusal, refusal);
    check_of(name, which, "bytes used", answer.used, 0);
    check_of(name, which, "reply length", answer.length, 0);
    is_all(name, which);
}

static inline void refuses(const char *name, size_t which, uint8_t refusal) { call(), is_refused(name, which, refusal); }

/* ---- lengths that are not right */

static uint16_t many[0x10000 + BYSTRODOL_PAGE_BYTES];

/* Every length of a part but the right one; one that differs from it above 16 bits, too. */
static inline void bad_lengths_but(size_t right, int i, void (*refuses_length)(int, size_t)) {
    for (size_t length = 0; length <= rooms[i]; length++)
        if (length != right) refuses_length(i, length);
    parts[i] = (uint8_t *)many;
    refuses_length(i, 0x10000 + right);
}

static inline void bad_lengths(int i, void (*refuses_length)(int, size_t)) { set_up(10), bad_lengths_but(lengths[i], i, refuses_length); }

/* Lengths of templates that are no whole pages, no pages or more than 1000. */
static inline void bad_templates(void (*refuses_length)(int, size_t)) {
    static const size_t wrong[] = {0, 1, 511, 513, 5119, 5121, 1000 * 512 - 1, 1000 * 512 + 1, 1001 * 512, 1024 * 512, MOST - 1, MOST};
    for (size_t i = 0; i < sizeof wrong / sizeof *wrong; i++) set_up_bytes(wrong[i]), refuses_length(TEMPLATES, wrong[i]);
}

/* ---- answers, and what they leave */

/* The whole run is answered with these bytes, and a receiver holds nothing now. */
static inline void is_answered(const char *name, size_t which, const uint8_t *reply, size_t length) {
    check_of(name, which, "refusal", answer.refusal, BYSTRODOL_ACCEPTED);
    check_of(name, which, "bytes used", answer.used, lengths[RUN]);
    check_of(name, which, "reply length", answer.length, length);
    memcpy(part_was(REPLY), reply, length);
    if (door != STEP) memset(&was.line.receiver, 0, sizeof was.line.receiver);
    is_all(name, which);
}

static inline void is_silent(const char *name, size_t which) { is_answered(name, which, parts[REPLY], 0); }

/* The same with an acknowledge of this content, from the address that is in force now; and with a code alone. */
static inline void is_told(const char *name, size_t which, const uint8_t *content, size_t length) {
    uint8_t reply[BYSTRODOL_REPLY_BYTES];
    is_answered(name, which, reply, bystrodol_build(address_of(&was.line.settings), BYSTRODOL_PACKET_ACKNOWLEDGE, content, length, reply, sizeof reply));
}

static inline void is_said(const char *name, size_t which, uint8_t code) { is_told(name, which, &code, 1); }

static inline void is_done(const char *name) { is_said(name, capacity(), BYSTRODOL_CODE_DONE); }

/* A buffer of the area as it was is wiped: zeroed, its mark 0, its origin none. */
static inline void wipe_what_was(int buffer) {
    struct bystrodol_settings *s = &was.line.settings;
    memset(part_was(buffer), 0, BYSTRODOL_PAGE_BYTES);
    *(buffer == BUFFER1 ? &s->filled1 : &s->filled2) = 0;
    *(buffer == BUFFER1 ? &s->origin1 : &s->origin2) = BYSTRODOL_NO_PAGE;
}

static inline void close_what_was(void) { was.line.settings.transfer = 0, was.line.settings.got = 0; }

static inline void is_switched(const char *name, size_t which) {
    check_of(name, which, "a line switch", line_switch(), BYSTRODOL_ACCEPTED);
    was.line.settings.verified = was.line.settings.found = 0;
    wipe_what_was(BUFFER1), wipe_what_was(BUFFER2), close_what_was();
    if (door != STEP) memset(&was.line.receiver, 0, sizeof was.line.receiver);
    is_all(name, which);
}

/* ReadSysPara: it ends a transfer, and tells the settings as they are. */
static inline void is_read(const char *name, size_t which) {
    const struct bystrodol_settings *s = &was.line.settings;
    const uint8_t *p = s->password, *a = s->address;
    COMMAND(BYSTRODOL_COMMAND_READ_SYS_PARA);
    const int is_locked = (p[0] | p[1] | p[2] | p[3]) && !s->verified;
    const uint8_t status = (uint8_t)(BYSTRODOL_STATUS_VERIFIED * s->verified + (is_locked ? 0 : BYSTRODOL_STATUS_FOUND * s->found));
    if (s->transfer) wipe_what_was(s->transfer == 1 ? BUFFER1 : BUFFER2), close_what_was();
    is_told(name, which, CONTENT(BYSTRODOL_CODE_DONE, 0, status, TWO(s->sensor), TWO(capacity()), 0, s->level, a[0], a[1], a[2], a[3], 0, s->size, 0, s->baud));
}

/* ---- random numbers, from a fixed seed */

static uint32_t random_state = 1;

static inline size_t random_below(size_t limit) {
    random_state = random_state * 1664525 + 1013904223;
    return (random_state >> 8) % limit;
}

#endif
