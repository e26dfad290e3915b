#include "reader.h"
#include "stepper.h"
#include "system.h"

struct reader reader;
struct memory second;
size_t pages, reply_length, table_length, report_length;
uint8_t run[RUN_MOST];
size_t run_length;

static uint32_t random_state;

void restart_random(void) { random_state = 0; }

uint8_t random_byte(void) {
    random_state = random_state * 1664525 + 1013904223;
    return (uint8_t)(random_state >> 24);
}

void fill_random(void *at, size_t n) {
    for (uint8_t *byte = at; n > 0; n--) *byte++ = random_byte();
}

int is_stored(const struct memory *memory, size_t page) { return memory->index[page / 8] >> page % 8 & 1; }

void set_stored(struct memory *memory, size_t page) { memory->index[page / 8] |= (uint8_t)(1 << page % 8); }

void clear_stored(struct memory *memory, size_t page) { memory->index[page / 8] &= (uint8_t)~(1 << page % 8); }

void make_index_legal(struct memory *memory) {
    for (size_t page = pages; page < 8 * BYSTRODOL_INDEX_BYTES; page++) clear_stored(memory, page);
}

/* The bytes of the templates that are not in use: the last ones of a memory, and of a reader. */
static size_t unused(void) { return BYSTRODOL_PAGE_BYTES * (BYSTRODOL_PAGES_MOST - pages); }

void copy_reader(struct reader *to, const struct reader *from) { memcpy(to, from, sizeof *to - unused()); }

void fill_memory(struct memory *memory) { fill_random(memory, sizeof *memory - unused()); }

void make_reader(size_t capacity) {
    pages = table_length = capacity;
    reply_length = BYSTRODOL_REPLY_BYTES;
    report_length = BYSTRODOL_REPORT_BYTES;
    reader.line.settings = bystrodol_fresh();
    memset(reader.line.receiver.held, 0xEF, sizeof reader.line.receiver.held);
    reader.line.receiver.count = 0;
    fill_memory(&reader.memory);
    fill_random(reader.reply, sizeof reader.reply);
    fill_random(reader.table, sizeof reader.table);
    fill_random(reader.report, sizeof reader.report);
    make_index_legal(&reader.memory);
}

void append(const uint8_t *bytes, size_t n) {
    if (n > RUN_MOST - run_length) fail("a run is too long");
    memcpy(run + run_length, bytes, n);
    run_length += n;
}

void append_noise(size_t n) {
    for (; n > 0; n--) {
        uint8_t byte = random_byte();
        if (byte == 0x01) byte = 0xEF;
        append(&byte, 1);
    }
}

void append_packet(enum identifier identifier, const uint8_t *content, size_t n) {
    size_t length = plain_build(0xFFFFFFFF, (uint8_t)identifier, content, n, run + run_length, RUN_MOST - run_length);
    if (length == 0) fail("a packet was not built");
    run_length += length;
}

struct command command_of(size_t number, size_t capacity) {
    const uint8_t high = (uint8_t)((capacity - 1) >> 8), low = (uint8_t)(capacity - 1);
    const struct command commands[COMMANDS] = {
        {"04h Search, all stored", 6, {0x04, 1, 0, 0, (uint8_t)(capacity >> 8), (uint8_t)capacity}},
        {"06h Store", 4, {0x06, 1, high, low}},
        {"07h LoadChar", 4, {0x07, 1, high, low}},
        {"08h UpChar", 2, {0x08, 1}},
        {"09h DownChar", 2, {0x09, 1}},
        {"0Ch DeletChar, one page", 5, {0x0C, high, low, 0, 1}},
        {"0Dh Empty", 1, {0x0D}},
        {"0Eh SetSysPara", 3, {0x0E, 4, 12}},
        {"0Fh ReadSysPara", 1, {0x0F}},
        {"12h SetPwd", 5, {0x12, 1, 2, 3, 4}},
        {"13h VfyPwd", 5, {0x13, 0, 0, 0, 5}},
        {"15h SetAdder", 5, {0x15, 1, 2, 3, 4}},
        {"18h WriteNotepad", 34, {0x18, 15, 1, 2, 3, 4}},
        {"19h ReadNotepad", 2, {0x19, 15}},
        {"1Dh TempleteNum", 1, {0x1D}},
        {"1Fh ReadIndexTable", 2, {0x1F, 3}},
        {"40h HandShake", 1, {0x40}},
    };
    return commands[number];
}

/* The lent memory of the reader, as arguments. */
#define LENT(part) reader.memory.part, sizeof reader.memory.part
#define BUFFERS LENT(buffer1), LENT(buffer2)
#define NUMBERS reader.memory.scores, pages, reader.memory.thresholds, BYSTRODOL_THRESHOLDS
#define LIBRARY reader.memory.templates, BYSTRODOL_PAGE_BYTES * pages, LENT(index)
#define MEMORY LIBRARY, LENT(notepad), BUFFERS, NUMBERS

struct bystrodol_answer call_stepped(__typeof__(bystrodol_step) *step) {
    return STEPPED(step, step(&reader.line.settings, MEMORY, run, run_length, reader.reply, reply_length));
}

void fresh_stepped(__typeof__(bystrodol_fresh) *fresh) { reader.line.settings = STEPPED(fresh, fresh()); }

uint8_t line_switch_stepped(__typeof__(bystrodol_line_switch) *line_switch) {
    return STEPPED(line_switch, line_switch(&reader.line.settings, BUFFERS));
}

uint8_t close_gaps_stepped(__typeof__(bystrodol_close_gaps) *close_gaps) {
    return STEPPED(close_gaps, close_gaps(&reader.line.settings, LIBRARY, reader.table, table_length));
}

uint8_t salvage_stepped(__typeof__(bystrodol_salvage) *salvage) {
    return STEPPED(salvage, salvage(LIBRARY, reader.report, report_length));
}

#define COMPARED(memory)                                                                     \
    (memory).index, sizeof(memory).index, (memory).notepad, sizeof(memory).notepad,          \
        (memory).templates, BYSTRODOL_PAGE_BYTES * pages

uint8_t compare_stepped(__typeof__(bystrodol_compare) *compare) {
    return STEPPED(compare, compare(COMPARED(reader.memory), COMPARED(second), reader.report, report_length));
}

struct bystrodol_received receive_stepped(__typeof__(bystrodol_receive) *receive, const uint8_t *piece, size_t n) {
    return STEPPED(receive, receive(&reader.line, MEMORY, piece, n, reader.reply, reply_length));
}

uint8_t receiver_switch_stepped(__typeof__(bystrodol_receiver_switch) *receiver_switch) {
    return STEPPED(receiver_switch, receiver_switch(&reader.line, BUFFERS));
}
