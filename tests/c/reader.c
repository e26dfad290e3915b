/*
 * The whole reader from C, through the three doors of area.h: every refusal, which leaves every byte alone; settings of every kind, taken or refused as the header
 * says; every command and code that the header names, and all that each command changes.
 * tests/c/run builds and runs it. It writes one line, 'reader: N checks passed', and ends with 0; or names each failed check and ends with 1.
 */
#include "settings.h"

/* ---- refusals 1 and 2: lent lengths and the reply room */

static void refuses_length(int i, size_t length) {
    lengths[i] = length;
    refuses(names[i], length, BYSTRODOL_BAD_LENGTH);
    if (i != BUFFER1 && i != BUFFER2) return;
    check_of(names[i], length, "a line switch", line_switch(), BYSTRODOL_BAD_LENGTH);
    is_all("a refused line switch", length);
}

static void bad_pages(void) {
    static const size_t right[] = {1, 8, 9, 64, 255, 256, 257, 999, BYSTRODOL_PAGES_MOST};
    bad_templates(refuses_length);
    for (size_t i = 0; i < sizeof right / sizeof *right; i++) set_up_stored(right[i]), is_read("pages", right[i]);
}

static void bad_rooms(void) {
    set_up(10);
    for (lengths[REPLY] = 0; lengths[REPLY] < BYSTRODOL_REPLY_BYTES; lengths[REPLY]++) refuses(names[REPLY], lengths[REPLY], BYSTRODOL_BAD_ROOM);
    for (; lengths[REPLY] <= rooms[REPLY]; lengths[REPLY]++) is_read(names[REPLY], lengths[REPLY]);
    parts[REPLY] = (uint8_t *)many, lengths[REPLY] = 0x10000;
    call();
    check("a reply room of 65536 bytes", answer.refusal, BYSTRODOL_ACCEPTED);
}

/* In this order: 1, 2, 3. */
static void order(void) {
    for (int i = SCORES; i <= BUFFER2; i++) {
        set_up(10);
        lengths[i] = 0, lengths[REPLY] = 0, area.line.settings.found = 2;
        refuses("everything wrong", (size_t)i, BYSTRODOL_BAD_LENGTH);
    }
    lengths[BUFFER2] = BYSTRODOL_PAGE_BYTES;
    refuses("room and settings wrong", 0, BYSTRODOL_BAD_ROOM);
    lengths[REPLY] = BYSTRODOL_REPLY_BYTES;
    refuses("settings wrong", 0, BYSTRODOL_BAD_SETTING);
}

/* ---- refusal 3: settings and index, as the header says */

/* ReadSysPara tells them, or is refused. The line switch takes them all, and keeps what it does not clear. Whether they are legal is returned. */
static int is_taken(const char *name, size_t which, const struct bystrodol_settings *s) {
    set_up_some(), area.line.settings = *s;
    put(BYSTRODOL_PACKET_COMMAND, CONTENT(BYSTRODOL_COMMAND_READ_SYS_PARA));
    if (is_legal(s)) is_read(name, which);
    else refuses(name, which, BYSTRODOL_BAD_SETTING);
    set_up_some(), area.line.settings = *s;
    is_switched(name, which);
    return is_legal(s);
}

/* Every bit of an index, below the capacity and not. */
static void every_bit(void) {
    for (size_t page = 0; page < 8 * BYSTRODOL_INDEX_BYTES; page++) {
        set_up(300);
        parts[INDEX][page / 8] = (uint8_t)(1u << page % 8);
        if (page < 300) is_read("an index bit", page);
        else refuses("an index bit", page, BYSTRODOL_BAD_SETTING);
    }
}

/* ---- every code of a command, at every length, to a locked reader */

/* Code, length of the content, and whether a locked reader carries it out. */
static const uint8_t commands[][3] = {{0x04, 6, 0}, {0x06, 4, 0}, {0x07, 4, 0}, {0x08, 2, 0}, {0x09, 2, 0}, {0x0C, 5, 0}, {0x0D, 1, 0}, {0x0E, 3, 0}, {0x0F, 1, 1},
                                      {0x12, 5, 0}, {0x13, 5, 1}, {0x15, 5, 0}, {0x18, 34, 0}, {0x19, 2, 0}, {0x1D, 1, 0}, {0x1F, 2, 0}, {0x40, 1, 1}};
enum { COMMANDS = sizeof commands / sizeof *commands };

/* 19h where there is no such command, 01h at another length, and 21h unless it is carried out. VfyPwd's password is a wrong one. */
static void every_code(void) {
    set_up_stored(10);
    area.line.settings.password[0] = 0x80;
    for (unsigned code = 0; code < 256; code++)
        for (size_t length = 1; length <= 35; length++) {
            const uint8_t content[35] = {(uint8_t)code, 1};
            size_t i = 0;
            while (i < COMMANDS && commands[i][0] != code) i++;
            send(BYSTRODOL_PACKET_COMMAND, content, length);
            if (i == COMMANDS) is_said("no command", code, BYSTRODOL_CODE_UNKNOWN_COMMAND);
            else if (length != commands[i][1]) is_said("a command of another length", code, BYSTRODOL_CODE_BAD_PACKET);
            else if (!commands[i][2]) is_said("a command of a locked reader", code, BYSTRODOL_CODE_PASSWORD_FIRST);
            else if (code == BYSTRODOL_COMMAND_VFY_PWD) is_said("VfyPwd of a locked reader", code, BYSTRODOL_CODE_WRONG_PASSWORD);
            else if (code == BYSTRODOL_COMMAND_HAND_SHAKE) is_said("HandShake of a locked reader", code, BYSTRODOL_CODE_DONE);
            else is_read("ReadSysPara of a locked reader", code);
        }
}

/* ---- what each command changes, and nothing else */

static void parameters(size_t pages) {
    struct bystrodol_settings *const s = &was.line.settings;
    set_up(pages);
    COMMAND(BYSTRODOL_COMMAND_SET_SYS_PARA, BYSTRODOL_PARAMETER_BAUD, 12), s->baud = 12, is_done("SetSysPara, baud");
    COMMAND(BYSTRODOL_COMMAND_SET_SYS_PARA, BYSTRODOL_PARAMETER_LEVEL, 5), s->level = 5, is_done("SetSysPara, level");
    COMMAND(BYSTRODOL_COMMAND_SET_SYS_PARA, BYSTRODOL_PARAMETER_SIZE, 1), s->size = 1, is_done("SetSysPara, size");
    COMMAND(BYSTRODOL_COMMAND_SET_ADDER, 1, 2, 3, 4), memcpy(s->address, CONTENT(1, 2, 3, 4)), is_done("SetAdder");
    COMMAND(BYSTRODOL_COMMAND_SET_PWD, 5, 6, 7, 8), memcpy(s->password, CONTENT(5, 6, 7, 8)), is_done("SetPwd");
    is_read("ReadSysPara, locked", pages);
    COMMAND(BYSTRODOL_COMMAND_VFY_PWD, 5, 6, 7, 8), s->verified = 1, is_done("VfyPwd");
    is_read("ReadSysPara, open", pages);
    for (size_t i = 0; i < 4; i++) {
        uint8_t wrong[] = {BYSTRODOL_COMMAND_VFY_PWD, 5, 6, 7, 8};
        wrong[1 + i] ^= 0x80;
        send(BYSTRODOL_PACKET_COMMAND, wrong, sizeof wrong), s->verified = 0, is_said("VfyPwd, wrong", i, BYSTRODOL_CODE_WRONG_PASSWORD);
    }
}

static void notepad(void) {
    uint8_t content[34] = {BYSTRODOL_COMMAND_WRITE_NOTEPAD, 15};
    set_up(10);
    for (uint8_t i = 0; i < 32; i++) content[2 + i] = 0xE0 + i;
    send(BYSTRODOL_PACKET_COMMAND, content, sizeof content);
    memcpy(part_was(NOTEPAD) + 15 * 32, content + 2, 32);
    is_done("WriteNotepad");
    COMMAND(BYSTRODOL_COMMAND_READ_NOTEPAD, 15);
    content[1] = BYSTRODOL_CODE_DONE;
    is_told("ReadNotepad", 15, content + 1, 33);
}

/* The buffer by its number: a template downloaded in data packets of each size, and uploaded. */
static void transfers(uint8_t number) {
    const int buffer = number == 1 ? BUFFER1 : BUFFER2;
    struct bystrodol_settings *const s = &was.line.settings;
    uint8_t reply[BYSTRODOL_REPLY_BYTES], done = BYSTRODOL_CODE_DONE;
    set_up_stored(10);
    for (uint8_t code = 0; code < 4; code++) {
        const uint16_t size = (uint16_t)(32 << code);
        area.line.settings.size = code;
        COMMAND(BYSTRODOL_COMMAND_DOWN_CHAR, number), wipe_what_was(buffer), s->transfer = number, is_done("DownChar");
        size_t length = bystrodol_build(ADDRESS, BYSTRODOL_PACKET_ACKNOWLEDGE, &done, 1, reply, sizeof reply);
        for (uint16_t got = size; got <= BYSTRODOL_PAGE_BYTES; got += size) {
            const int is_last = got == BYSTRODOL_PAGE_BYTES;
            const uint8_t *const data = pattern.bytes + got, identifier = is_last ? BYSTRODOL_PACKET_LAST_DATA : BYSTRODOL_PACKET_DATA;
            send(identifier, data, size);
            memcpy(part_was(buffer) + got - size, data, size);
            s->got = got;
            if (is_last) close_what_was(), *(number == 1 ? &s->filled1 : &s->filled2) = 1;
            is_silent("data", got);
            length += bystrodol_build(ADDRESS, identifier, data, size, reply + length, sizeof reply - length);
        }
        COMMAND(BYSTRODOL_COMMAND_UP_CHAR, number), is_answered("UpChar", code, reply, length);
    }
}

/* Of the buffer by its number and the last page; the other buffer, which was loaded from page 0, stays until that one is deleted. */
static void library(uint8_t number, size_t pages) {
    const int buffer = number == 1 ? BUFFER1 : BUFFER2;
    const size_t last = pages - 1, first = last / 256 * 32;
    const uint8_t bit = (uint8_t)(1u << last % 8);
    uint16_t *const own = number == 1 ? &was.line.settings.origin1 : &was.line.settings.origin2;
    uint16_t *const other = number == 1 ? &was.line.settings.origin2 : &was.line.settings.origin1;
    set_up_stored(pages);
    parts[INDEX][last / 8] &= (uint8_t)~bit;
    COMMAND(BYSTRODOL_COMMAND_LOAD_CHAR, 3 - number, 0, 0), memcpy(part_was(BUFFER1 + BUFFER2 - buffer), page_was(0), BYSTRODOL_PAGE_BYTES), *other = 0;
    is_done("LoadChar");
    COMMAND(BYSTRODOL_COMMAND_STORE, number, TWO(last)), memcpy(page_was(last), part_was(buffer), BYSTRODOL_PAGE_BYTES);
    part_was(INDEX)[last / 8] |= bit, *own = (uint16_t)last, is_done("Store");
    COMMAND(BYSTRODOL_COMMAND_STORE, number, TWO(last)), is_said("Store again", last, BYSTRODOL_CODE_PAGE_TAKEN);
    COMMAND(BYSTRODOL_COMMAND_TEMPLETE_NUM), is_told("TempleteNum", pages, CONTENT(BYSTRODOL_CODE_DONE, TWO(pages)));
    uint8_t told[33] = {BYSTRODOL_CODE_DONE};
    memcpy(told + 1, parts[INDEX] + first, 32);
    COMMAND(BYSTRODOL_COMMAND_READ_INDEX_TABLE, (uint8_t)(first / 32)), is_told("ReadIndexTable", first, told, sizeof told);
    COMMAND(BYSTRODOL_COMMAND_DELET_CHAR, TWO(last), 0, 1), memset(page_was(last), 0, BYSTRODOL_PAGE_BYTES), part_was(INDEX)[last / 8] &= (uint8_t)~bit;
    wipe_what_was(buffer), is_done("DeletChar");
    COMMAND(BYSTRODOL_COMMAND_EMPTY), memset(page_was(0), 0, lengths[TEMPLATES]), memset(part_was(INDEX), 0, BYSTRODOL_INDEX_BYTES);
    wipe_what_was(BUFFER1 + BUFFER2 - buffer), is_done("Empty");
}

/* It finds the lowest of the pages with the highest score, which stands at its threshold. Behind the scores lie higher ones, and behind the thresholds lower. */
static void search(void) {
    set_up_stored(10);
    memset(area.scores, 0xFF, sizeof area.scores), memset(area.thresholds, 0, sizeof area.thresholds);
    for (size_t i = 0; i < 10; i++) area.scores[i] = i % 4 == 3 ? 0x1234 : 0x1133;
    for (size_t i = 0; i < BYSTRODOL_THRESHOLDS; i++) area.thresholds[i] = i < 2 ? 0 : i == 2 ? 0x1234 : 0xFFFF;
    COMMAND(BYSTRODOL_COMMAND_SEARCH, 2, 0, 0, 0, 10), was.line.settings.found = 1;
    is_told("Search", 10, CONTENT(BYSTRODOL_CODE_DONE, 0, 3, 0x12, 0x34));
    COMMAND(BYSTRODOL_COMMAND_SEARCH, 1, 0, 4, 0, 3), was.line.settings.found = 0;
    is_told("Search", 3, CONTENT(BYSTRODOL_CODE_NOT_FOUND, 0, 0, 0, 0));
}

/* ---- HandShake, and the other codes: nothing changes, but that a transfer is ended */

static void codes(void) {
    set_up(10);
    COMMAND(BYSTRODOL_COMMAND_HAND_SHAKE), is_done("HandShake");
    COMMAND(BYSTRODOL_COMMAND_UP_CHAR, 1), is_said("UpChar of an empty buffer", 1, BYSTRODOL_CODE_NOTHING_TO_SEND);
    COMMAND(BYSTRODOL_COMMAND_SEARCH, 1, 0, 9, 0, 1), is_said("Search by an empty buffer", 9, BYSTRODOL_CODE_NOTHING_THERE);
    COMMAND(BYSTRODOL_COMMAND_SEARCH, 1, 0, 10, 0, 1), is_said("Search past the last page", 10, BYSTRODOL_CODE_BAD_PAGE);
    COMMAND(BYSTRODOL_COMMAND_STORE, 1, 0, 9), is_said("Store of an empty buffer", 9, BYSTRODOL_CODE_NOTHING_THERE);
    COMMAND(BYSTRODOL_COMMAND_STORE, 1, 0, 10), is_said("Store past the last page", 10, BYSTRODOL_CODE_BAD_PAGE);
    COMMAND(BYSTRODOL_COMMAND_LOAD_CHAR, 1, 0, 9), is_said("LoadChar of a vacant page", 9, BYSTRODOL_CODE_NOTHING_THERE);
    COMMAND(BYSTRODOL_COMMAND_LOAD_CHAR, 1, 0, 10), is_said("LoadChar past the last page", 10, BYSTRODOL_CODE_BAD_PAGE);
    COMMAND(BYSTRODOL_COMMAND_DELET_CHAR, 0, 9, 0, 2), is_said("DeletChar past the last page", 9, BYSTRODOL_CODE_BAD_RANGE);
    COMMAND(BYSTRODOL_COMMAND_SET_SYS_PARA, BYSTRODOL_PARAMETER_BAUD, 13), is_said("SetSysPara, baud 13", 13, BYSTRODOL_CODE_BAD_VALUE);
    COMMAND(BYSTRODOL_COMMAND_SET_SYS_PARA, BYSTRODOL_PARAMETER_LEVEL, 6), is_said("SetSysPara, level 6", 6, BYSTRODOL_CODE_BAD_VALUE);
    COMMAND(BYSTRODOL_COMMAND_SET_SYS_PARA, BYSTRODOL_PARAMETER_SIZE, 4), is_said("SetSysPara, size 4", 4, BYSTRODOL_CODE_BAD_VALUE);
    COMMAND(BYSTRODOL_COMMAND_SET_SYS_PARA, 7, 1), is_said("SetSysPara, parameter 7", 7, BYSTRODOL_CODE_BAD_PARAMETER);
    COMMAND(BYSTRODOL_COMMAND_READ_NOTEPAD, 16), is_said("ReadNotepad, page 16", 16, BYSTRODOL_CODE_BAD_NOTE_PAGE);
    for (unsigned n = 4; n < 256; n++) COMMAND(BYSTRODOL_COMMAND_READ_INDEX_TABLE, (uint8_t)n), is_said("ReadIndexTable", n, BYSTRODOL_CODE_BAD_PAGE);
    for (unsigned n = 3; n <= 256; n++) {
        COMMAND(BYSTRODOL_COMMAND_SEARCH, (uint8_t)n, 0, 0, 0, 1), is_said("Search by no buffer", n, BYSTRODOL_CODE_BAD_PACKET);
        COMMAND(BYSTRODOL_COMMAND_STORE, (uint8_t)n, 0, 0), is_said("Store of no buffer", n, BYSTRODOL_CODE_BAD_PACKET);
        COMMAND(BYSTRODOL_COMMAND_LOAD_CHAR, (uint8_t)n, 0, 0), is_said("LoadChar to no buffer", n, BYSTRODOL_CODE_BAD_PACKET);
        COMMAND(BYSTRODOL_COMMAND_UP_CHAR, (uint8_t)n), is_said("UpChar of no buffer", n, BYSTRODOL_CODE_BAD_PACKET);
        COMMAND(BYSTRODOL_COMMAND_DOWN_CHAR, (uint8_t)n), is_said("DownChar to no buffer", n, BYSTRODOL_CODE_BAD_PACKET);
    }
    for (unsigned added = 1; added < 256; added++)
        for (size_t byte = 1; byte <= 2; byte++) {
            put(BYSTRODOL_PACKET_COMMAND, CONTENT(BYSTRODOL_COMMAND_HAND_SHAKE)), parts[RUN][lengths[RUN] - byte] += (uint8_t)added, call();
            is_said("a wrong sum", added, BYSTRODOL_CODE_BAD_PACKET);
        }
    send(BYSTRODOL_PACKET_ACKNOWLEDGE, CONTENT(BYSTRODOL_COMMAND_HAND_SHAKE)), is_silent("an acknowledge", 0);
    area.line.settings.transfer = 2;
    send(BYSTRODOL_PACKET_DATA, CONTENT(1, 2, 3)), wipe_what_was(BUFFER2), close_what_was(), is_said("data of another size", 3, BYSTRODOL_CODE_TRANSFER_FAILED);
}

static void fresh(void) {
    static const uint8_t bytes[] = {0, 0, 0, 0, 0xFF, 0xFF, 0xFF, 0xFF, 3, 2, 6, 0, 0, 0, 0, 0, 0, 0, 0, 0, 0xFF, 0xFF, 0xFF, 0xFF};
    const struct bystrodol_settings s = bystrodol_fresh();
    check("fresh settings", differ(&s, bytes, sizeof bytes), sizeof bytes);
}

static void checks(void) {
    fresh();
    for (int i = SCORES; i <= BUFFER2; i++) bad_lengths(i, refuses_length);
    bad_rooms();
    order();
    notepad();
    search();
    codes();
    for (uint8_t number = 1; number <= 2; number++) transfers(number), library(number, 10), library(number, BYSTRODOL_PAGES_MOST);
    parameters(10), parameters(BYSTRODOL_PAGES_MOST);
    bad_pages();
    every_code();
    every_bit();
    every_got(is_taken);
    every_byte(is_taken);
    every_origin(is_taken, door == STEP ? 1 : 251);
    random_settings(is_taken);
}

int main(void) {
    static const char *const doors[DOORS] = {", by bystrodol_receive", ", by bystrodol_receive, half held", ", by bystrodol_step"};
    fill_pattern();
    for (door = OFFERED; door < DOORS; door++)
        for (found = 0, through = doors[door]; found < 2; found++) checks();
    return report("reader");
}
