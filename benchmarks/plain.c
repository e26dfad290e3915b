/*
 * The reader of document 01 and its receiver in plain C: what the counts of the proved ones are held against.
 * It is written as C is usually written: each rule once, memory moved by memcpy, memmove and memset, nothing done for a
 * count.
 */
#include "plain.h"
#include "plain_tests.h"

enum identifier { COMMAND = 1, DATA = 2, ACKNOWLEDGE = 7, LAST_DATA = 8 };

enum command {
    SEARCH = 0x04, STORE = 0x06, LOAD_CHAR = 0x07, UP_CHAR = 0x08, DOWN_CHAR = 0x09, DELET_CHAR = 0x0C, EMPTY = 0x0D,
    SET_SYS_PARA = 0x0E, READ_SYS_PARA = 0x0F, SET_PWD = 0x12, VFY_PWD = 0x13, SET_ADDER = 0x15, WRITE_NOTEPAD = 0x18,
    READ_NOTEPAD = 0x19, TEMPLETE_NUM = 0x1D, READ_INDEX_TABLE = 0x1F, HAND_SHAKE = 0x40
};

enum code {
    DONE = 0x00, BAD_PACKET = 0x01, NOT_FOUND = 0x09, BAD_PAGE = 0x0B, NOT_THERE = 0x0C, NOT_FILLED = 0x0D,
    BAD_DATA = 0x0E, NOT_DELETED = 0x10, WRONG_PASSWORD = 0x13, UNKNOWN_COMMAND = 0x19, BAD_PARAMETER = 0x1A,
    BAD_VALUE = 0x1B, BAD_NOTEPAD_PAGE = 0x1C, PASSWORD_FIRST = 0x21, PAGE_STORED = 0x22
};

/* Where the parts of a packet are. */
enum { ADDRESS = 2, IDENTIFIER = 6, LENGTH = 7, CONTENT = 9, SUM_BYTES = 2 };

enum { NOTEPAD_PAGES = 16, NOTEPAD_PAGE_BYTES = 32, INDEX_PAGES = 4, INDEX_PAGE_BYTES = 32, DATA_MOST = 32 };

struct reader {
    struct bystrodol_settings *settings;
    uint8_t *templates;
    size_t pages;
    uint8_t *index;
    uint8_t *notepad;
    uint8_t *buffer1;
    uint8_t *buffer2;
    const uint16_t *scores;
    const uint16_t *thresholds;
    uint8_t *reply;
};

/* ---- numbers, sums, packets */

static size_t lesser(size_t a, size_t b) { return a < b ? a : b; }

static unsigned get16(const uint8_t *at) { return (unsigned)at[0] << 8 | at[1]; }

static void put16(uint8_t *at, size_t number) {
    at[0] = (uint8_t)(number >> 8);
    at[1] = (uint8_t)number;
}

uint16_t plain_sum(const uint8_t *run, size_t run_length) {
    uint16_t sum = 0;
    for (size_t i = 0; i < run_length; i++) sum += run[i];
    return sum;
}

/* The most content of an identifier's packets; 0 if no packet has it. */
static size_t content_most(uint8_t identifier) {
    if (identifier == DATA || identifier == LAST_DATA) return BYSTRODOL_CONTENT_MOST_DATA;
    return identifier == COMMAND || identifier == ACKNOWLEDGE ? BYSTRODOL_CONTENT_MOST_OTHER : 0;
}

static int is_content(uint8_t identifier, size_t length) { return length >= 1 && length <= content_most(identifier); }

/* The bytes used of a run; *packet is the whole packet that stands at their end, or NULL. */
static size_t find(const uint8_t *run, size_t run_length, const uint8_t **packet) {
    size_t p = 0;
    *packet = NULL;
    while (p + 1 < run_length && !(run[p] == 0xEF && run[p + 1] == 0x01)) p++;
    if (p + 1 >= run_length) return run_length > 0 && run[run_length - 1] == 0xEF ? run_length - 1 : run_length;
    if (run_length - p < CONTENT) return p;
    size_t length = get16(run + p + LENGTH);
    if (length < SUM_BYTES || !is_content(run[p + IDENTIFIER], length - SUM_BYTES)) return p + 2;
    if (run_length - p < CONTENT + length) return p;
    *packet = run + p;
    return p + CONTENT + length;
}

size_t plain_used(const uint8_t *run, size_t run_length) {
    const uint8_t *packet;
    return find(run, run_length, &packet);
}

static size_t put_packet(uint8_t *room, const uint8_t address[4], uint8_t identifier, const uint8_t *content,
                         size_t n) {
    room[0] = 0xEF;
    room[1] = 0x01;
    memcpy(room + ADDRESS, address, 4);
    room[IDENTIFIER] = identifier;
    put16(room + LENGTH, n + SUM_BYTES);
    memcpy(room + CONTENT, content, n);
    put16(room + CONTENT + n, plain_sum(room + IDENTIFIER, CONTENT - IDENTIFIER + n));
    return n + BYSTRODOL_FRAME_BYTES;
}

size_t plain_build(uint32_t address, uint8_t identifier, const uint8_t *content, size_t content_length, uint8_t *room,
                   size_t room_length) {
    if (!is_content(identifier, content_length)) return 0;
    if (room_length < content_length + BYSTRODOL_FRAME_BYTES) return 0;
    uint8_t bytes[4] = {(uint8_t)(address >> 24), (uint8_t)(address >> 16), (uint8_t)(address >> 8), (uint8_t)address};
    return put_packet(room, bytes, identifier, content, content_length);
}

/* ---- the index */

static void set_stored(uint8_t *index, size_t page) { index[page / 8] |= (uint8_t)(1u << page % 8); }

static void clear_stored(uint8_t *index, size_t page) { index[page / 8] &= (uint8_t)~(1u << page % 8); }

static unsigned count_stored(const uint8_t *index) {
    unsigned count = 0;
    for (size_t i = 0; i < BYSTRODOL_INDEX_BYTES; i++) count += (unsigned)__builtin_popcount(index[i]);
    return count;
}

uint16_t plain_count(const uint8_t *index, size_t index_length) {
    return (uint16_t)(index_length == BYSTRODOL_INDEX_BYTES ? count_stored(index) : BYSTRODOL_NO_COUNT);
}

uint8_t plain_bring_over(const uint8_t *old, size_t old_length, uint8_t *index, size_t index_length) {
    if (old_length != BYSTRODOL_OLD_INDEX_BYTES || index_length != BYSTRODOL_INDEX_BYTES) return BYSTRODOL_BAD_LENGTH;
    memcpy(index, old, BYSTRODOL_OLD_INDEX_BYTES);
    memset(index + BYSTRODOL_OLD_INDEX_BYTES, 0, BYSTRODOL_INDEX_BYTES - BYSTRODOL_OLD_INDEX_BYTES);
    return BYSTRODOL_ACCEPTED;
}

/* ---- the settings */

static void set_filled(struct bystrodol_settings *settings, uint8_t buffer, uint8_t mark) {
    if (buffer == 1)
        settings->filled1 = mark;
    else
        settings->filled2 = mark;
}

static void set_origin(struct bystrodol_settings *settings, uint8_t buffer, size_t page) {
    if (buffer == 1)
        settings->origin1 = (uint16_t)page;
    else
        settings->origin2 = (uint16_t)page;
}

/* ---- the commands: parameters in, acknowledge code out */

static uint8_t *buffer_of(struct reader *reader, uint8_t buffer) {
    return buffer == 1 ? reader->buffer1 : reader->buffer2;
}

static uint8_t *page_of(struct reader *reader, size_t page) { return reader->templates + BYSTRODOL_PAGE_BYTES * page; }

static int is_buffer(uint8_t buffer) { return buffer == 1 || buffer == 2; }

static enum code store(struct reader *reader, uint8_t buffer, size_t page) {
    if (!is_buffer(buffer)) return BAD_PACKET;
    if (page >= reader->pages) return BAD_PAGE;
    if (!is_filled(reader->settings, buffer)) return NOT_THERE;
    if (is_stored(reader->index, page)) return PAGE_STORED;
    memcpy(page_of(reader, page), buffer_of(reader, buffer), BYSTRODOL_PAGE_BYTES);
    set_stored(reader->index, page);
    set_origin(reader->settings, buffer, page);
    return DONE;
}

static enum code load(struct reader *reader, uint8_t buffer, size_t page) {
    if (!is_buffer(buffer)) return BAD_PACKET;
    if (page >= reader->pages) return BAD_PAGE;
    if (!is_stored(reader->index, page)) return NOT_THERE;
    memcpy(buffer_of(reader, buffer), page_of(reader, page), BYSTRODOL_PAGE_BYTES);
    set_filled(reader->settings, buffer, 1);
    set_origin(reader->settings, buffer, page);
    return DONE;
}

static void wipe(struct reader *reader, uint8_t buffer) {
    memset(buffer_of(reader, buffer), 0, BYSTRODOL_PAGE_BYTES);
    set_filled(reader->settings, buffer, 0);
    set_origin(reader->settings, buffer, BYSTRODOL_NO_PAGE);
}

static enum code open_transfer(struct reader *reader, uint8_t buffer) {
    if (!is_buffer(buffer)) return BAD_PACKET;
    wipe(reader, buffer);
    reader->settings->transfer = buffer;
    reader->settings->got = 0;
    return DONE;
}

/* Pages are deleted: so are the buffers that hold one of them. */
static void forget(struct reader *reader, size_t page, size_t n) {
    size_t origin1 = reader->settings->origin1, origin2 = reader->settings->origin2;
    if (origin1 >= page && origin1 < page + n) wipe(reader, 1);
    if (origin2 >= page && origin2 < page + n) wipe(reader, 2);
}

static enum code delete_pages(struct reader *reader, size_t page, size_t n) {
    if (page >= reader->pages || page + n > reader->pages) return NOT_DELETED;
    for (size_t i = page; i < page + n; i++) clear_stored(reader->index, i);
    memset(page_of(reader, page), 0, BYSTRODOL_PAGE_BYTES * n);
    forget(reader, page, n);
    return DONE;
}

static enum code empty(struct reader *reader) {
    memset(reader->index, 0, BYSTRODOL_INDEX_BYTES);
    memset(reader->templates, 0, BYSTRODOL_PAGE_BYTES * reader->pages);
    forget(reader, 0, reader->pages);
    return DONE;
}

static enum code set_parameter(struct bystrodol_settings *settings, uint8_t number, uint8_t value) {
    switch (number) {
    case 4:
        if (!is_baud(value)) return BAD_VALUE;
        settings->baud = value;
        return DONE;
    case 5:
        if (!is_level(value)) return BAD_VALUE;
        settings->level = value;
        return DONE;
    case 6:
        if (!is_size(value)) return BAD_VALUE;
        settings->size = value;
        return DONE;
    default:
        return BAD_PARAMETER;
    }
}

/* The found mark is guarded, and shows only where the reader is not locked. */
static void read_parameters(const struct reader *reader, uint8_t data[16]) {
    const struct bystrodol_settings *settings = reader->settings;
    put16(data, (settings->verified ? 4 : 0) | (settings->found && !is_locked(settings) ? 2 : 0));
    put16(data + 2, settings->sensor);
    put16(data + 4, reader->pages);
    put16(data + 6, settings->level);
    memcpy(data + 8, settings->address, 4);
    put16(data + 12, settings->size);
    put16(data + 14, settings->baud);
}

static enum code set_password(struct bystrodol_settings *settings, const uint8_t password[4]) {
    memcpy(settings->password, password, 4);
    settings->verified = 0;
    return DONE;
}

static enum code verify_password(struct bystrodol_settings *settings, const uint8_t password[4]) {
    settings->verified = memcmp(settings->password, password, 4) == 0;
    return settings->verified ? DONE : WRONG_PASSWORD;
}

static enum code write_notepad(struct reader *reader, uint8_t page, const uint8_t *bytes) {
    if (page >= NOTEPAD_PAGES) return BAD_NOTEPAD_PAGE;
    memcpy(reader->notepad + NOTEPAD_PAGE_BYTES * page, bytes, NOTEPAD_PAGE_BYTES);
    return DONE;
}

/* ---- replies: each gives its length */

static size_t reply_data(struct reader *reader, enum code code, const uint8_t *data, size_t n) {
    uint8_t content[1 + DATA_MOST] = {(uint8_t)code};
    memcpy(content + 1, data, n);
    return put_packet(reader->reply, reader->settings->address, ACKNOWLEDGE, content, 1 + n);
}

static size_t reply_code(struct reader *reader, enum code code) {
    uint8_t content = (uint8_t)code;
    return put_packet(reader->reply, reader->settings->address, ACKNOWLEDGE, &content, 1);
}

static size_t upload(struct reader *reader, uint8_t buffer) {
    if (!is_buffer(buffer)) return reply_code(reader, BAD_PACKET);
    if (!is_filled(reader->settings, buffer)) return reply_code(reader, NOT_FILLED);
    const uint8_t *bytes = buffer_of(reader, buffer);
    size_t size = data_size(reader->settings), length = reply_code(reader, DONE);
    for (size_t sent = 0; sent < BYSTRODOL_PAGE_BYTES; sent += size) {
        uint8_t identifier = sent + size < BYSTRODOL_PAGE_BYTES ? DATA : LAST_DATA;
        length += put_packet(reader->reply + length, reader->settings->address, identifier, bytes + sent, size);
    }
    return length;
}

/* The highest score that reaches the threshold, of the stored pages in the range; the lowest page on a tie. */
static size_t search(struct reader *reader, uint8_t buffer, size_t start, size_t count) {
    struct bystrodol_settings *settings = reader->settings;
    if (!is_buffer(buffer)) return reply_code(reader, BAD_PACKET);
    if (start >= reader->pages) return reply_code(reader, BAD_PAGE);
    if (!is_filled(settings, buffer)) return reply_code(reader, NOT_THERE);
    const uint16_t *scores = reader->scores, threshold = reader->thresholds[settings->level - 1];
    size_t end = lesser(start + count, reader->pages), best = end;
    for (size_t page = start; page < end; page++)
        if (is_stored(reader->index, page) && scores[page] >= threshold && (best == end || scores[page] > scores[best]))
            best = page;
    uint8_t data[4] = {0};
    settings->found = best < end;
    if (settings->found) {
        put16(data, best);
        put16(data + 2, scores[best]);
    }
    return reply_data(reader, settings->found ? DONE : NOT_FOUND, data, sizeof data);
}

/* ---- the call */

/* The length field that a command must have, or 0 if there is no such command. */
static size_t length_of(uint8_t command) {
    switch (command) {
    case EMPTY:
    case READ_SYS_PARA:
    case TEMPLETE_NUM:
    case HAND_SHAKE:
        return 3;
    case UP_CHAR:
    case DOWN_CHAR:
    case READ_NOTEPAD:
    case READ_INDEX_TABLE:
        return 4;
    case SET_SYS_PARA:
        return 5;
    case STORE:
    case LOAD_CHAR:
        return 6;
    case DELET_CHAR:
    case SET_PWD:
    case VFY_PWD:
    case SET_ADDER:
        return 7;
    case SEARCH:
        return 8;
    case WRITE_NOTEPAD:
        return 36;
    default:
        return 0;
    }
}

/* The commands that a locked reader carries out, too. */
static int is_open(uint8_t command) {
    return command == READ_SYS_PARA || command == VFY_PWD || command == HAND_SHAKE;
}

static size_t carry_out(struct reader *reader, uint8_t command, const uint8_t *parameters) {
    uint8_t data[16];
    switch (command) {
    case SEARCH:
        return search(reader, parameters[0], get16(parameters + 1), get16(parameters + 3));
    case STORE:
        return reply_code(reader, store(reader, parameters[0], get16(parameters + 1)));
    case LOAD_CHAR:
        return reply_code(reader, load(reader, parameters[0], get16(parameters + 1)));
    case UP_CHAR:
        return upload(reader, parameters[0]);
    case DOWN_CHAR:
        return reply_code(reader, open_transfer(reader, parameters[0]));
    case DELET_CHAR:
        return reply_code(reader, delete_pages(reader, get16(parameters), get16(parameters + 2)));
    case EMPTY:
        return reply_code(reader, empty(reader));
    case SET_SYS_PARA:
        return reply_code(reader, set_parameter(reader->settings, parameters[0], parameters[1]));
    case READ_SYS_PARA:
        read_parameters(reader, data);
        return reply_data(reader, DONE, data, 16);
    case SET_PWD:
        return reply_code(reader, set_password(reader->settings, parameters));
    case VFY_PWD:
        return reply_code(reader, verify_password(reader->settings, parameters));
    case SET_ADDER:
        memcpy(reader->settings->address, parameters, 4);
        return reply_code(reader, DONE);
    case WRITE_NOTEPAD:
        return reply_code(reader, write_notepad(reader, parameters[0], parameters + 1));
    case READ_NOTEPAD:
        if (parameters[0] >= NOTEPAD_PAGES) return reply_code(reader, BAD_NOTEPAD_PAGE);
        return reply_data(reader, DONE, reader->notepad + NOTEPAD_PAGE_BYTES * parameters[0], NOTEPAD_PAGE_BYTES);
    case TEMPLETE_NUM:
        put16(data, count_stored(reader->index));
        return reply_data(reader, DONE, data, 2);
    case READ_INDEX_TABLE:
        if (parameters[0] >= INDEX_PAGES) return reply_code(reader, BAD_PAGE);
        return reply_data(reader, DONE, reader->index + INDEX_PAGE_BYTES * parameters[0], INDEX_PAGE_BYTES);
    default: /* HAND_SHAKE */
        return reply_code(reader, DONE);
    }
}

static int sum_is_right(const uint8_t *packet, size_t n) {
    return plain_sum(packet + IDENTIFIER, CONTENT - IDENTIFIER + n) == get16(packet + CONTENT + n);
}

static void close_transfer(struct bystrodol_settings *settings) {
    settings->transfer = 0;
    settings->got = 0;
}

static void break_transfer(struct reader *reader) {
    wipe(reader, reader->settings->transfer);
    close_transfer(reader->settings);
}

static size_t take_command(struct reader *reader, const uint8_t *packet, size_t n) {
    if (reader->settings->transfer != 0) break_transfer(reader);
    if (!sum_is_right(packet, n)) return reply_code(reader, BAD_PACKET);
    uint8_t command = packet[CONTENT];
    size_t length = length_of(command);
    if (length == 0) return reply_code(reader, UNKNOWN_COMMAND);
    if (length != n + SUM_BYTES) return reply_code(reader, BAD_PACKET);
    if (is_locked(reader->settings) && !is_open(command)) return reply_code(reader, PASSWORD_FIRST);
    return carry_out(reader, command, packet + CONTENT + 1);
}

static size_t take_data(struct reader *reader, const uint8_t *packet, size_t n) {
    struct bystrodol_settings *settings = reader->settings;
    if (settings->transfer == 0) return 0;
    int is_last = packet[IDENTIFIER] == LAST_DATA, ends = settings->got + n == BYSTRODOL_PAGE_BYTES;
    if (!sum_is_right(packet, n) || n != data_size(settings) || is_last != ends) {
        break_transfer(reader);
        return reply_code(reader, BAD_DATA);
    }
    memcpy(buffer_of(reader, settings->transfer) + settings->got, packet + CONTENT, n);
    settings->got = (uint16_t)(settings->got + n);
    if (is_last) {
        set_filled(settings, settings->transfer, 1);
        close_transfer(settings);
    }
    return 0;
}

static size_t take(struct reader *reader, const uint8_t *packet) {
    size_t n = get16(packet + LENGTH) - SUM_BYTES;
    if (memcmp(packet + ADDRESS, reader->settings->address, 4) != 0) return 0;
    switch (packet[IDENTIFIER]) {
    case COMMAND:
        return take_command(reader, packet, n);
    case DATA:
    case LAST_DATA:
        return take_data(reader, packet, n);
    default:
        return 0;
    }
}

struct bystrodol_answer plain_step(struct bystrodol_settings *settings, uint8_t *templates, size_t templates_length,
                                   uint8_t *index, size_t index_length, uint8_t *notepad, size_t notepad_length,
                                   uint8_t *buffer1, size_t buffer1_length, uint8_t *buffer2, size_t buffer2_length,
                                   const uint16_t *scores, size_t scores_length, const uint16_t *thresholds,
                                   size_t thresholds_length, const uint8_t *run, size_t run_length, uint8_t *reply,
                                   size_t reply_length) {
    struct bystrodol_answer answer = {BYSTRODOL_ACCEPTED, 0, 0};
    size_t pages = templates_length / BYSTRODOL_PAGE_BYTES;
    if (templates_length % BYSTRODOL_PAGE_BYTES != 0 || pages < 1 || pages > BYSTRODOL_PAGES_MOST ||
        index_length != BYSTRODOL_INDEX_BYTES || notepad_length != BYSTRODOL_PAGE_BYTES ||
        buffer1_length != BYSTRODOL_PAGE_BYTES || buffer2_length != BYSTRODOL_PAGE_BYTES || scores_length != pages ||
        thresholds_length != BYSTRODOL_THRESHOLDS)
        answer.refusal = BYSTRODOL_BAD_LENGTH;
    else if (reply_length < BYSTRODOL_REPLY_BYTES)
        answer.refusal = BYSTRODOL_BAD_ROOM;
    else if (!is_legal(settings) || !fits(index, pages) || !are_origins(settings, index, pages))
        answer.refusal = BYSTRODOL_BAD_SETTING;
    else {
        struct reader reader = {settings, templates, pages, index, notepad, buffer1, buffer2, scores, thresholds, reply};
        const uint8_t *packet;
        answer.used = find(run, run_length, &packet);
        if (packet != NULL) answer.length = take(&reader, packet);
    }
    return answer;
}

struct bystrodol_settings plain_fresh(void) {
    return (struct bystrodol_settings){.address = {0xFF, 0xFF, 0xFF, 0xFF}, .level = 3, .size = 2, .baud = 6,
                                       .origin1 = BYSTRODOL_NO_PAGE, .origin2 = BYSTRODOL_NO_PAGE};
}

uint8_t plain_line_switch(struct bystrodol_settings *settings, uint8_t *buffer1, size_t buffer1_length,
                          uint8_t *buffer2, size_t buffer2_length) {
    if (buffer1_length != BYSTRODOL_PAGE_BYTES || buffer2_length != BYSTRODOL_PAGE_BYTES) return BYSTRODOL_BAD_LENGTH;
    settings->verified = 0;
    settings->filled1 = 0;
    settings->filled2 = 0;
    settings->found = 0;
    settings->origin1 = BYSTRODOL_NO_PAGE;
    settings->origin2 = BYSTRODOL_NO_PAGE;
    close_transfer(settings);
    memset(buffer1, 0, BYSTRODOL_PAGE_BYTES);
    memset(buffer2, 0, BYSTRODOL_PAGE_BYTES);
    return BYSTRODOL_ACCEPTED;
}

/* ---- the receiver of request [1] */

/*
 * The piece is put behind the held bytes, and the step gets both; a refused call puts the old cells back. Where the
 * count is bad the step gets no bytes, so that it changes nothing: it only has the refusals that come first.
 */
struct bystrodol_received plain_receive(struct bystrodol_line *line, uint8_t *templates, size_t templates_length,
                                        uint8_t *index, size_t index_length, uint8_t *notepad, size_t notepad_length,
                                        uint8_t *buffer1, size_t buffer1_length, uint8_t *buffer2,
                                        size_t buffer2_length, const uint16_t *scores, size_t scores_length,
                                        const uint16_t *thresholds, size_t thresholds_length, const uint8_t *piece,
                                        size_t piece_length, uint8_t *reply, size_t reply_length) {
    struct bystrodol_received received = {BYSTRODOL_ACCEPTED, 0, 0};
    uint8_t *held = line->receiver.held, cells[sizeof line->receiver.held];
    int is_bad = line->receiver.count > sizeof cells;
    size_t count = is_bad ? 0 : line->receiver.count;
    size_t taken = is_bad ? 0 : lesser(piece_length, sizeof cells - count);
    memcpy(cells, held + count, taken);
    memcpy(held + count, piece, taken);
    struct bystrodol_answer answer =
        plain_step(&line->settings, templates, templates_length, index, index_length, notepad, notepad_length, buffer1,
                   buffer1_length, buffer2, buffer2_length, scores, scores_length, thresholds, thresholds_length, held,
                   count + taken, reply, reply_length);
    received.refusal = answer.refusal == BYSTRODOL_ACCEPTED && is_bad ? BYSTRODOL_BAD_SETTING : answer.refusal;
    if (received.refusal != BYSTRODOL_ACCEPTED) {
        memcpy(held + count, cells, taken);
    } else {
        size_t left = count + taken - answer.used;
        memmove(held, held + answer.used, left);
        memset(held + left, 0, sizeof cells - left);
        line->receiver.count = (uint16_t)left;
        received.taken = taken;
        received.length = answer.length;
    }
    return received;
}

uint8_t plain_receiver_switch(struct bystrodol_line *line, uint8_t *buffer1, size_t buffer1_length, uint8_t *buffer2,
                              size_t buffer2_length) {
    uint8_t refusal = plain_line_switch(&line->settings, buffer1, buffer1_length, buffer2, buffer2_length);
    if (refusal == BYSTRODOL_ACCEPTED) {
        memset(line->receiver.held, 0, sizeof line->receiver.held);
        line->receiver.count = 0;
    }
    return refusal;
}
