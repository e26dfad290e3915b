/*
 * The receiver from C. Each of its calls is held to a call without a receiver, on what was held and what was taken, joined: every held count with a piece of every
 * length, and old bytes behind those that are held. The header's loop is held to the same run whole, in pieces of every length. Then held counts above 267, and
 * power-on, silence and upgrade as the header tells them.
 * tests/c/run builds and runs it. It writes one line, 'receiver: N checks passed', and ends with 0; or names each failed check and ends with 1.
 */
#include "area.h"

enum { PIECE_MOST = 300, RUN_ROOM = 4096, REPLIES_ROOM = 8192, NOISE = 0x10000 };

/* A reader after some calls, what they replied, and what is left of the run. */
static struct outcome {
    struct area area;
    uint8_t replies[REPLIES_ROOM];
    size_t replied, refusal, left;
} here, whole;

/* ---- runs */

static uint8_t run[NOISE + RUN_ROOM];
static size_t run_length;
static uint32_t to = ADDRESS; /* where packets go */

static void add(const uint8_t *bytes, size_t length) { memcpy(run + run_length, bytes, length), run_length += length; }

static void add_packet(uint8_t identifier, const uint8_t *content, size_t length) {
    run_length += bystrodol_build(to, identifier, content, length, run + run_length, sizeof run - run_length);
}

#define ADD(...) add_packet(BYSTRODOL_PACKET_COMMAND, CONTENT(__VA_ARGS__))

/* The longest packet of an identifier: 267 bytes of a data packet, 265 of a command. */
static void add_longest(uint8_t identifier) {
    add_packet(identifier, pattern.bytes + identifier, identifier == BYSTRODOL_PACKET_COMMAND ? BYSTRODOL_CONTENT_MOST_OTHER : BYSTRODOL_CONTENT_MOST_DATA);
}

/* What a host may send: a template downloaded, stored, loaded, searched for and uploaded, and one in the longest data packets; noise, a lone EF, starts of no packet,
 * a wrong sum and another address between; a password, and parameters before and behind it; at the end a packet that is not all there. */
static void make_dialogue(void) {
    run_length = 0;
    ADD(BYSTRODOL_COMMAND_HAND_SHAKE);
    add(CONTENT(0x00, 0x55, 0xEF, 0xEF, 0x02, 0xEF, 0x01));
    ADD(BYSTRODOL_COMMAND_DOWN_CHAR, 1);
    for (size_t i = 0; i < 4; i++) add_packet(i < 3 ? BYSTRODOL_PACKET_DATA : BYSTRODOL_PACKET_LAST_DATA, pattern.bytes + 128 * i, 128);
    ADD(BYSTRODOL_COMMAND_STORE, 1, 0, 3);
    add(CONTENT(0xEF, 0x01, 1, 2, 3, 4, 1, 0x01, 0x2C, 0xEF));
    ADD(BYSTRODOL_COMMAND_LOAD_CHAR, 2, 0, 3);
    ADD(BYSTRODOL_COMMAND_SEARCH, 2, 0, 0, 0, 3);
    ADD(BYSTRODOL_COMMAND_SEARCH, 2, 0, 0, 0, 4);
    ADD(BYSTRODOL_COMMAND_READ_SYS_PARA);
    ADD(BYSTRODOL_COMMAND_UP_CHAR, 2);
    add_longest(BYSTRODOL_PACKET_COMMAND);
    ADD(BYSTRODOL_COMMAND_SET_SYS_PARA, BYSTRODOL_PARAMETER_SIZE, 3);
    ADD(BYSTRODOL_COMMAND_DOWN_CHAR, 1);
    add_longest(BYSTRODOL_PACKET_DATA);
    add_longest(BYSTRODOL_PACKET_LAST_DATA);
    ADD(BYSTRODOL_COMMAND_UP_CHAR, 1);
    add(CONTENT(0xEF, 0x01, 1, 2, 3, 4, 0x01, 0x00, 0x03, 0x40, 0x00, 0x44));
    ADD(BYSTRODOL_COMMAND_SET_PWD, 1, 2, 3, 4);
    ADD(BYSTRODOL_COMMAND_READ_SYS_PARA);
    ADD(BYSTRODOL_COMMAND_TEMPLETE_NUM), run[run_length - 1] ^= 1;
    ADD(BYSTRODOL_COMMAND_READ_INDEX_TABLE, 0);
    ADD(BYSTRODOL_COMMAND_VFY_PWD, 1, 2, 3, 4);
    ADD(BYSTRODOL_COMMAND_READ_SYS_PARA);
    ADD(BYSTRODOL_COMMAND_READ_INDEX_TABLE, 0);
    add_longest(BYSTRODOL_PACKET_DATA), run_length--;
}

/* A reader of four pages whose scores are at their thresholds, and whose receiver holds the first bytes of the run, with any byte behind them and to spare. */
static void set_up_holding(size_t count) {
    set_up(4);
    memset(area.scores, 0x5A, sizeof area.scores), memset(area.thresholds, 0x5A, sizeof area.thresholds);
    memcpy(area.line.receiver.held, run, count < BYSTRODOL_HELD_MOST ? count : BYSTRODOL_HELD_MOST);
    area.line.receiver.count = (uint16_t)count;
}

/* ---- outcomes */

static void start(struct outcome *o) { o->replied = o->refusal = o->left = 0; }

/* Keeps a call's reply. */
static void send_on(struct outcome *o) {
    demand("reply bytes of a run", o->replied + answer.length, REPLIES_ROOM);
    memcpy(o->replies + o->replied, parts[REPLY], answer.length);
    o->replied += answer.length, o->refusal = answer.refusal;
}

/* What calls without a receiver come to, with the bytes that are left in one. */
static void keep_whole(const uint8_t *left, size_t length) {
    memcpy(&whole.area, &area, extent());
    struct bystrodol_receiver *r = &whole.area.line.receiver;
    demand("bytes left of a run", length, BYSTRODOL_HELD_MOST);
    memset(r, 0, sizeof *r);
    memcpy(r->held, left, length), r->count = (uint16_t)length;
}

/* The same refusal and replies, and every byte of the area the same: cells behind the count and the spare byte are 0. */
static void is_whole(const char *name, size_t which) {
    check_of(name, which, "refusal", here.refusal, whole.refusal);
    check_of(name, which, "bytes left of a piece", here.left, 0);
    check_of(name, which, "reply bytes", here.replied, whole.replied);
    check_of(name, which, "replies", differ(here.replies, whole.replies, whole.replied), whole.replied);
    is_like(name, which, &whole.area);
}

/* ---- a call: every held count, and a piece of every length */

static void is_call(const char *name, size_t count, size_t length) {
    const size_t room = BYSTRODOL_HELD_MOST - count, takes = length < room ? length : room, which = 1000 * count + length;
    set_up_holding(count), start(&whole), start(&here);
    step(run, count + takes), send_on(&whole);
    keep_whole(run + answer.used, count + takes - answer.used);
    set_up_holding(count);
    offer(run + count, length), send_on(&here);
    check_of(name, which, "bytes taken", received.taken, takes);
    is_whole(name, which);
}

static void every_call(const char *name) {
    for (size_t count = 0; count <= BYSTRODOL_HELD_MOST; count++)
        for (size_t length = 0; length <= PIECE_MOST; length++) is_call(name, count, length);
}

static void calls(void) {
    run_length = 0;
    add_longest(BYSTRODOL_PACKET_DATA);
    ADD(BYSTRODOL_COMMAND_READ_SYS_PARA);
    every_call("the longest packet");
    make_dialogue();
    every_call("a dialogue");
}

/* ---- the loop: the same run whole, and in pieces */

/* Calls without a receiver, on all that is left, until one uses nothing. */
static void serve_whole(void) {
    size_t from = 0;
    set_up_holding(0), start(&whole);
    do step(run + from, run_length - from), send_on(&whole), from += answer.used;
    while (answer.used != 0);
    keep_whole(run + from, run_length - from);
}

/* The header's loop. */
static void serve_piece(const uint8_t *piece, size_t length) {
    size_t held;
    do {
        held = area.line.receiver.count;
        offer(piece, length);
        send_on(&here);
        piece += received.taken, length -= received.taken;
    } while (received.taken != 0 || area.line.receiver.count != held);
    here.left += length;
}

/* The run in pieces of one length; of length 0, in pieces of any. */
static void is_served(const char *name, size_t size) {
    set_up_holding(0), start(&here);
    for (size_t at = 0, length; at < run_length; at += length) {
        length = size ? size : random_below(PIECE_MOST);
        if (length > run_length - at) length = run_length - at;
        serve_piece(run + at, length);
    }
    is_whole(name, size);
}

static void loops(void) {
    make_dialogue();
    serve_whole();
    check("an unfinished packet is left of the run", whole.area.line.receiver.count, BYSTRODOL_UNFINISHED_MOST);
    for (size_t size = 1; size <= PIECE_MOST; size++) is_served("pieces", size);
    for (size_t i = 0; i < 200; i++) is_served("pieces of any length", 0);
    is_served("one piece", run_length);
    memset(run, 0x33, NOISE), run_length = NOISE;
    ADD(BYSTRODOL_COMMAND_HAND_SHAKE);
    serve_whole();
    check("a run of more than 65535 bytes", whole.replied, 12);
    is_served("a piece of more than 65535 bytes", run_length);
}

/* ---- held counts, of which those above 267 are refused; the line switch takes them all */

static void counts(void) {
    make_dialogue();
    for (size_t count = 0; count <= 0xFFFF; count += count < 600 ? 1 : 61) {
        set_up_holding(count);
        lengths[BUFFER1]--, lengths[REPLY]--, offer(run, 12), is_refused("a length, the room and a held count", count, BYSTRODOL_BAD_LENGTH);
        check_of("a refused line switch", count, "refusal", line_switch(), BYSTRODOL_BAD_LENGTH);
        is_all("a refused line switch", count);
        lengths[BUFFER1]++, offer(run, 12), is_refused("the room and a held count", count, BYSTRODOL_BAD_ROOM);
        lengths[REPLY]++;
        if (count > BYSTRODOL_HELD_MOST) offer(run, 12), is_refused("a held count", count, BYSTRODOL_BAD_SETTING);
        is_switched("a held count", count);
    }
}

/* ---- power-on, upgrade and silence */

/* The code that a packet is answered with. */
static size_t code_of(const uint8_t *content, size_t length) {
    run_length = 0, start(&here);
    add_packet(BYSTRODOL_PACKET_COMMAND, content, length);
    serve_piece(run, run_length);
    return here.replied > 9 ? here.replies[9] : 0x100;
}

/* An older version stored 20 bytes of settings and an index of 32. The verified mark was stored, too, and where the found mark is now, a byte of the board's. All is
 * loaded as the header says; then the reader is locked, tells its parameters, and has the pages that it had. */
static void power_on(void) {
    static const uint8_t stored[BYSTRODOL_OLD_SETTINGS_BYTES] = {0, 0, 0, 7, 0xFF, 0xFF, 0xFF, 0xFF, 3, 1, 6, 0, 0, 0, 0, 0, 1, 0, 1, 0xAB};
    static const uint8_t switched[] = {0, 0, 0, 7, 0xFF, 0xFF, 0xFF, 0xFF, 3, 1, 6, 0, 0, 0, 0, 0, 0, 0, 0, 0, 0xFF, 0xFF, 0xFF, 0xFF};
    static const uint8_t told[] = {0, 0, 0, 0, 0, 4, 0, 3, 0xFF, 0xFF, 0xFF, 0xFF, 0, 1, 0, 6}, old_index[BYSTRODOL_OLD_INDEX_BYTES] = {0x0B};
    struct bystrodol_settings *const s = &area.line.settings;
    set_up(4), to = 0xFFFFFFFF;
    memset(parts[INDEX], 0xFF, BYSTRODOL_INDEX_BYTES);
    check("upgrade, the index", bystrodol_bring_over(old_index, sizeof old_index, LENT(INDEX)), BYSTRODOL_ACCEPTED);
    check("upgrade, a salvage", bystrodol_salvage(LENT(TEMPLATES), LENT(INDEX), LENT(REPORT)), BYSTRODOL_ACCEPTED);
    memcpy(s, stored, BYSTRODOL_OLD_SETTINGS_BYTES);
    s->origin1 = s->origin2 = BYSTRODOL_NO_PAGE;
    memset(&area.line.receiver, 0, sizeof area.line.receiver);
    check("power-on, the line switch", line_switch(), BYSTRODOL_ACCEPTED);
    check("power-on, the settings", differ(s, switched, sizeof switched), sizeof switched);
    offer(NULL, 0), is_silent("power-on, a piece of 0 bytes", 0);
    check("power-on, a command", code_of(CONTENT(BYSTRODOL_COMMAND_TEMPLETE_NUM)), BYSTRODOL_CODE_PASSWORD_FIRST);
    check("power-on, ReadSysPara", code_of(CONTENT(BYSTRODOL_COMMAND_READ_SYS_PARA)), BYSTRODOL_CODE_DONE);
    check("power-on, what it tells", differ(here.replies + 10, told, sizeof told), sizeof told);
    check("power-on, the password", code_of(CONTENT(BYSTRODOL_COMMAND_VFY_PWD, 0, 0, 0, 7)), BYSTRODOL_CODE_DONE);
    check("power-on, TempleteNum", code_of(CONTENT(BYSTRODOL_COMMAND_TEMPLETE_NUM)), BYSTRODOL_CODE_DONE);
    check("power-on, the pages stored", (size_t)here.replies[10] << 8 | here.replies[11], 3);
    s->level = 0;
    offer(NULL, 0), is_refused("power-on, settings that are not legal", 0, BYSTRODOL_BAD_SETTING);
}

/* Behind a part of a packet a command is taken for the rest of it; with an empty receiver it is answered. */
static void silence(void) {
    make_dialogue();
    for (size_t length = 9; length <= 200; length++) {
        set_up_holding(0), start(&here);
        serve_piece(run + run_length - BYSTRODOL_UNFINISHED_MOST, length);
        serve_piece(run, 12);
        check_of("a command behind a part of a packet", length, "reply bytes", here.replied, 0);
        memset(&area.line.receiver, 0, sizeof area.line.receiver);
        serve_piece(run, 12);
        check_of("a command after silence", length, "reply bytes", here.replied, 12);
        check_of("a command after silence", length, "code", here.replies[9], BYSTRODOL_CODE_DONE);
        check_of("a command after silence", length, "bytes held", area.line.receiver.count, 0);
    }
}

int main(void) {
    fill_pattern();
    counts();
    calls();
    loops();
    silence();
    power_on();
    return report("receiver");
}
