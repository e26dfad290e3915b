/* The tables of instruction counts. */
#include "benchmarks.h"
#include "reader.h"
#include "stepper.h"
#include "system.h"

enum { ROWS_MOST = 48, CAPACITIES = 6, LIBRARIES = 2, PIECES = 4, COLUMNS_MOST = CAPACITIES };

/* A call is measured at these capacities, what is done to a library at those of a library, a run in pieces of these lengths, a service once. */
static const size_t capacities[CAPACITIES] = {1, 64, 256, 257, 999, 1000};
static const size_t libraries[LIBRARIES] = {64, 1000};
static const size_t piece_lengths[PIECES] = {1, 16, 60, BYSTRODOL_HELD_MOST};

/* ---- rows: a row is measured once in each column */

struct row {
    const char *name, *trouble;
    size_t bytes; /* of the run, where the counts are told by the byte; else 0 */
    int is_bound[COLUMNS_MOST]; /* by request [4], [6], [8], [9], [10] or [11]: at most 1.1 times plain C */
    int may_grow;               /* with the pages; by request [6] no other row may */
    size_t carried;             /* calls that were not refused, in each column */
    size_t ours[COLUMNS_MOST], plain[COLUMNS_MOST];
};

struct table {
    struct row rows[ROWS_MOST];
    size_t length;
};

static struct table calls, gaps, salvages, comparisons, received, services;
static struct row *row;
static size_t column;

/* A new row, for a reader of so many pages. Its password is given, its buffers are filled, its last page is stored, every score reaches
 * its threshold. */
static void begin(struct table *table, const char *name, size_t capacity) {
    if (table->length == ROWS_MOST) fail("a table has too many rows");
    row = &table->rows[table->length++];
    row->name = name;
    row->carried = 0;
    make_reader(capacity);
    /* What is drawn next is the same at every capacity. */
    restart_random();
    set_stored(&reader.memory, capacity - 1);
    memset(reader.memory.thresholds, 0, sizeof reader.memory.thresholds);
    reader.line.settings.password[3] = 5;
    reader.line.settings.verified = reader.line.settings.filled1 = reader.line.settings.filled2 = 1;
    run_length = 0;
}

static int is_same(const struct reader *a, const struct reader *b) {
    const struct bystrodol_line *first = &a->line, *second = &b->line;
    return memcmp(&first->settings, &second->settings, sizeof first->settings) == 0 &&
           first->receiver.count == second->receiver.count &&
           memcmp(first->receiver.held, second->receiver.held, sizeof first->receiver.held) == 0 &&
           memcmp(&a->memory, &b->memory, sizeof a->memory) == 0 && memcmp(a->reply, b->reply, sizeof a->reply) == 0 &&
           memcmp(a->table, b->table, sizeof a->table) == 0 && memcmp(a->report, b->report, sizeof a->report) == 0;
}

/* A measurement: start, our call, turn, the plain call, finish. Both start from the same reader. */
static struct reader before, after;

static void start(void) { before = reader; }

static void turn(size_t count) {
    row->ours[column] += count;
    after = reader;
    reader = before;
}

static void finish(size_t count, int same_answer) {
    row->plain[column] += count;
    if (!same_answer || !is_same(&after, &reader)) row->trouble = "OTHER RESULTS";
}

#define MEASURE(service, ...)                                                                  \
    do {                                                                                       \
        start();                                                                               \
        size_t ours = STEPPED(bystrodol_##service, bystrodol_##service(__VA_ARGS__));          \
        turn(step_count);                                                                      \
        size_t plain = STEPPED(plain_##service, plain_##service(__VA_ARGS__));                 \
        finish(step_count, ours == plain);                                                     \
    } while (0)

/* What a call comes to: an acknowledge code, silence, or a refusal. */
enum { SILENT = 0x100, REFUSED = 0x200 };

static void expect(int is_so) {
    if (!is_so && !row->trouble) row->trouble = "NOT AS EXPECTED";
}

static void measure_call(int expected) {
    start();
    struct bystrodol_answer ours = call_stepped(bystrodol_step);
    turn(step_count);
    struct bystrodol_answer plain = call_stepped(plain_step);
    finish(step_count, ours.refusal == plain.refusal && ours.used == plain.used && ours.length == plain.length);
    row->carried += plain.refusal == BYSTRODOL_ACCEPTED;
    int outcome = plain.refusal ? REFUSED + plain.refusal : plain.length ? reader.reply[9] : SILENT;
    expect(outcome == expected);
}

/* ---- the rows of calls */

static void measure_command(int expected, const uint8_t *content, size_t n) {
    run_length = 0;
    append_packet(COMMAND, content, n);
    measure_call(expected);
}

static void store_all(void) {
    for (size_t page = 0; page < pages; page++) set_stored(&reader.memory, page);
}

/* A new row of a Search of all pages. It grows with them, and request [8] bounds it. */
static void begin_search(const char *name, size_t capacity) {
    begin(&calls, name, capacity);
    row->may_grow = row->is_bound[column] = 1;
}

/* Search is the first of the commands. A Search of one page may not grow. */
static void search_rows(size_t capacity) {
    const struct command all = command_of(0, capacity);
    const uint8_t last[] = {0x04, 1, (uint8_t)((capacity - 1) >> 8), (uint8_t)(capacity - 1), 0, 1};
    begin_search(all.name, capacity);
    store_all();
    measure_command(0x00, all.content, all.length);
    begin_search("04h Search, half stored", capacity);
    measure_command(0x00, all.content, all.length);
    begin_search("04h Search, no match: 09h", capacity);
    store_all();
    memset(reader.memory.scores, 0, sizeof reader.memory.scores);
    memset(reader.memory.thresholds, 0xFF, sizeof reader.memory.thresholds);
    measure_command(0x09, all.content, all.length);
    begin(&calls, "04h Search, none stored: 09h", capacity);
    row->may_grow = 1;
    for (size_t page = 0; page < pages; page++) clear_stored(&reader.memory, page);
    measure_command(0x09, all.content, all.length);
    begin(&calls, "04h Search, one page", capacity);
    measure_command(0x00, last, sizeof last);
}

static void command_rows(size_t capacity) {
    const uint8_t delete_all[] = {0x0C, 0, 0, (uint8_t)(capacity >> 8), (uint8_t)capacity};
    const uint8_t delete_last[] = {0x0C, (uint8_t)((capacity - 1) >> 8), (uint8_t)(capacity - 1), 0, 1};
    search_rows(capacity);
    for (size_t i = 1; i < COMMANDS; i++) {
        const struct command command = command_of(i, capacity);
        begin(&calls, command.name, capacity);
        row->is_bound[column] = command.content[0] == 0x1D || (command.content[0] == 0x40 && capacity == 1);
        row->may_grow = command.content[0] == 0x0C || command.content[0] == 0x0D;
        /* Store wants a vacant page. */
        if (command.content[0] == 0x06) clear_stored(&reader.memory, capacity - 1);
        measure_command(0x00, command.content, command.length);
    }
    begin(&calls, "0Ch DeletChar, all pages", capacity);
    row->may_grow = 1;
    measure_command(0x00, delete_all, sizeof delete_all);
    begin(&calls, "0Ch DeletChar, buffers wiped", capacity);
    row->may_grow = 1;
    reader.line.settings.origin1 = reader.line.settings.origin2 = (uint16_t)(capacity - 1);
    measure_command(0x00, delete_last, sizeof delete_last);
}

static void refused_command_rows(size_t capacity) {
    static const uint8_t count[] = {0x1D}, unknown[] = {0x05}, password[] = {0x13, 0, 0, 0, 6};
    const uint8_t store[] = {0x06, 1, (uint8_t)((capacity - 1) >> 8), (uint8_t)(capacity - 1)};
    begin(&calls, "wrong sum: 01h", capacity);
    append_packet(COMMAND, count, sizeof count);
    run[run_length - 1]++;
    measure_call(0x01);
    begin(&calls, "unknown command: 19h", capacity);
    measure_command(0x19, unknown, sizeof unknown);
    begin(&calls, "wrong password: 13h", capacity);
    measure_command(0x13, password, sizeof password);
    begin(&calls, "06h Store, page stored: 22h", capacity);
    measure_command(0x22, store, sizeof store);
    begin(&calls, "locked: 21h", capacity);
    reader.line.settings.verified = 0;
    measure_command(0x21, count, sizeof count);
}

/* The found mark is set: the status word hides it, and the settings keep it. */
static void locked_parameters_row(size_t capacity) {
    static const uint8_t read[] = {0x0F};
    begin(&calls, "locked: 0Fh ReadSysPara", capacity);
    reader.line.settings.verified = 0;
    reader.line.settings.found = 1;
    measure_command(0x00, read, sizeof read);
    expect(reader.reply[10] == 0 && reader.reply[11] == 0 && reader.line.settings.found);
}

/* The call that does least: it makes the tests that come before every other, that of the index among them. */
static const struct row *least;

static void silent_rows(size_t capacity) {
    static const uint8_t hand_shake[] = {0x40};
    begin(&calls, "another address: silent", capacity);
    append_packet(COMMAND, hand_shake, sizeof hand_shake);
    run[2]--;
    measure_call(SILENT);
    begin(&calls, "unfinished packet: silent", capacity);
    append_packet(COMMAND, hand_shake, sizeof hand_shake);
    run_length--;
    measure_call(SILENT);
    least = row;
    begin(&calls, "1024 bytes of noise: silent", capacity);
    append_noise(1024);
    measure_call(SILENT);
}

static void refusal_rows(size_t capacity) {
    begin(&calls, "refusal 1", capacity);
    pages = 0;
    measure_call(REFUSED + BYSTRODOL_BAD_LENGTH);
    begin(&calls, "refusal 2", capacity);
    reply_length--;
    measure_call(REFUSED + BYSTRODOL_BAD_ROOM);
    begin(&calls, "refusal 3, a setting", capacity);
    reader.line.settings.level = 6;
    measure_call(REFUSED + BYSTRODOL_BAD_SETTING);
    begin(&calls, "refusal 3, a mark", capacity);
    reader.line.settings.verified = 2;
    measure_call(REFUSED + BYSTRODOL_BAD_SETTING);
    begin(&calls, "refusal 3, an origin", capacity);
    reader.line.settings.origin1 = (uint16_t)capacity;
    measure_call(REFUSED + BYSTRODOL_BAD_SETTING);
}

static void upload_row(const char *name, size_t capacity, uint8_t size) {
    static const uint8_t up[] = {0x08, 1};
    begin(&calls, name, capacity);
    reader.line.settings.size = size;
    measure_command(0x00, up, sizeof up);
}

static void download_row(const char *name, size_t capacity, uint8_t size) {
    static const uint8_t down[] = {0x09, 1};
    const size_t bytes = (size_t)32 << size;
    begin(&calls, name, capacity);
    reader.line.settings.size = size;
    measure_command(0x00, down, sizeof down);
    for (size_t got = 0; got < BYSTRODOL_PAGE_BYTES; got += bytes) {
        run_length = 0;
        append_packet(got + bytes < BYSTRODOL_PAGE_BYTES ? DATA : LAST_DATA, reader.memory.buffer2 + got, bytes);
        measure_call(SILENT);
    }
    expect(reader.line.settings.filled1);
}

static void measure_calls(size_t capacity) {
    calls.length = 0;
    command_rows(capacity);
    upload_row("upload, 32 bytes a packet", capacity, 0);
    upload_row("upload, 64 bytes a packet", capacity, 1);
    upload_row("upload, 128 bytes a packet", capacity, 2);
    upload_row("upload, 256 bytes a packet", capacity, 3);
    download_row("download, 32 bytes a packet", capacity, 0);
    download_row("download, 64 bytes a packet", capacity, 1);
    download_row("download, 128 bytes a packet", capacity, 2);
    download_row("download, 256 bytes a packet", capacity, 3);
    refused_command_rows(capacity);
    locked_parameters_row(capacity);
    silent_rows(capacity);
    refusal_rows(capacity);
}

/* ---- the rows of closing the gaps, of salvage, and of comparing */

/* A call over a library. It writes table or report, unless it is refused. */
#define MEASURE_LIBRARY(service, written, expected)                                                                        \
    do {                                                                                                                   \
        start();                                                                                                           \
        const uint8_t ours = service##_stepped(bystrodol_##service);                                                       \
        turn(step_count);                                                                                                  \
        const uint8_t plain = service##_stepped(plain_##service);                                                          \
        finish(step_count, ours == plain);                                                                                 \
        expect(plain == expected);                                                                                         \
        expect((plain == BYSTRODOL_ACCEPTED) == (memcmp(before.written, reader.written, sizeof before.written) != 0));     \
    } while (0)

static void measure_gaps(uint8_t expected) { MEASURE_LIBRARY(close_gaps, table, expected); }

static void measure_salvage(uint8_t expected) { MEASURE_LIBRARY(salvage, report, expected); }

/* A new row of a library whose stored pages are those from the first on, so far apart; from the capacity on there are none. The buffers come
 * from the first and the last of them. All pages have bytes. */
static void begin_library(struct table *table, const char *name, size_t capacity, size_t first, size_t apart) {
    begin(table, name, capacity);
    for (size_t page = 0; page < pages; page++) clear_stored(&reader.memory, page);
    for (size_t page = first; page < pages; page += apart) {
        set_stored(&reader.memory, page);
        if (page == first) reader.line.settings.origin1 = (uint16_t)page;
        reader.line.settings.origin2 = (uint16_t)page;
    }
}

/* The same, and bound. */
static void begin_bound(struct table *table, const char *name, size_t capacity, size_t first, size_t apart) {
    begin_library(table, name, capacity, first, apart);
    row->is_bound[column] = 1;
}

static void gaps_rows(size_t capacity) {
    begin_bound(&gaps, "no gap, all stored", capacity, 0, 1);
    measure_gaps(BYSTRODOL_ACCEPTED);
    begin_bound(&gaps, "one gap, page 0", capacity, 1, 1);
    measure_gaps(BYSTRODOL_ACCEPTED);
    begin_bound(&gaps, "every second page stored", capacity, 1, 2);
    measure_gaps(BYSTRODOL_ACCEPTED);
    begin_library(&gaps, "none stored", capacity, capacity, 1);
    measure_gaps(BYSTRODOL_ACCEPTED);
    begin_library(&gaps, "gaps: refusal 1, the table", capacity, 1, 2);
    table_length--;
    measure_gaps(BYSTRODOL_BAD_LENGTH);
    begin_library(&gaps, "gaps: refusal 3, a setting", capacity, 1, 2);
    reader.line.settings.level = 6;
    measure_gaps(BYSTRODOL_BAD_SETTING);
}

static void salvage_rows(size_t capacity) {
    begin_bound(&salvages, "none vacant", capacity, 0, 1);
    measure_salvage(BYSTRODOL_ACCEPTED);
    begin_bound(&salvages, "all vacant, clean", capacity, capacity, 1);
    memset(reader.memory.templates, 0, BYSTRODOL_PAGE_BYTES * capacity);
    measure_salvage(BYSTRODOL_ACCEPTED);
    begin_bound(&salvages, "all vacant, dirty", capacity, capacity, 1);
    measure_salvage(BYSTRODOL_ACCEPTED);
    begin_library(&salvages, "every second vacant, dirty", capacity, 1, 2);
    measure_salvage(BYSTRODOL_ACCEPTED);
    begin_library(&salvages, "salvage: refusal 1, report", capacity, 1, 2);
    report_length--;
    measure_salvage(BYSTRODOL_BAD_LENGTH);
}

/* The second reader is only read. The rows bound are those of all pages stored. */
static struct memory second_before;

static void measure_compare(uint8_t expected) {
    second_before = second;
    MEASURE_LIBRARY(compare, report, expected);
    expect(memcmp(&second, &second_before, sizeof second) == 0);
}

/* A new row of a library, and of another that is the same. */
static void begin_compare(const char *name, size_t capacity, size_t first, size_t apart) {
    begin_library(&comparisons, name, capacity, first, apart);
    report_length = capacity + BYSTRODOL_NOTE_PAGES;
    second = reader.memory;
}

/* This byte of every page is another in the second. */
static void change_byte(size_t at) {
    for (size_t page = 0; page < pages; page++) second.templates[BYSTRODOL_PAGE_BYTES * page + at] ^= 1;
}

static void compare_rows(size_t capacity) {
    begin_compare("all stored, same", capacity, 0, 1);
    row->is_bound[column] = 1;
    measure_compare(BYSTRODOL_ACCEPTED);
    begin_compare("all stored, last byte other", capacity, 0, 1);
    row->is_bound[column] = 1;
    change_byte(BYSTRODOL_PAGE_BYTES - 1);
    measure_compare(BYSTRODOL_ACCEPTED);
    begin_compare("all stored, first byte other", capacity, 0, 1);
    change_byte(0);
    measure_compare(BYSTRODOL_ACCEPTED);
    begin_compare("every second stored, same", capacity, 1, 2);
    measure_compare(BYSTRODOL_ACCEPTED);
    begin_compare("all in the first alone", capacity, 0, 1);
    memset(second.index, 0, sizeof second.index);
    measure_compare(BYSTRODOL_ACCEPTED);
    begin_compare("none stored, compared", capacity, capacity, 1);
    measure_compare(BYSTRODOL_ACCEPTED);
    begin_compare("compare: refusal 1, report", capacity, 0, 1);
    report_length--;
    measure_compare(BYSTRODOL_BAD_LENGTH);
    begin_compare("compare: refusal 3, second", capacity, 0, 1);
    set_stored(&second, capacity);
    measure_compare(BYSTRODOL_BAD_SETTING);
}

static void measure_libraries(size_t capacity) {
    gaps.length = salvages.length = comparisons.length = 0;
    gaps_rows(capacity);
    salvage_rows(capacity);
    compare_rows(capacity);
}

/* ---- the rows of received bytes: a run that comes in pieces */

/* What a caller has of a run: how much of it was taken, by how many calls and instructions, and the replies, joined. */
struct heard {
    size_t taken, calls, instructions, length;
    uint8_t replies[BYSTRODOL_REPLY_BYTES];
};

/*
 * The caller of request [1] with a piece: it offers the rest, then an empty piece, until a call takes nothing, answers
 * nothing and leaves the held bytes as they are. It sees the last by their count, since a call that takes nothing can
 * only drop bytes. Its own instructions are not counted.
 */
static void offer(__typeof__(bystrodol_receive) *receive, const uint8_t *piece, size_t n, struct heard *heard) {
    const struct bystrodol_receiver *receiver = &reader.line.receiver;
    struct bystrodol_received answer;
    size_t count;
    do {
        count = receiver->count;
        answer = receive_stepped(receive, piece, n);
        if (answer.refusal != BYSTRODOL_ACCEPTED) fail("a legal reader was refused");
        if (answer.taken > n || answer.length > sizeof heard->replies - heard->length) fail("an answer is too long");
        memcpy(heard->replies + heard->length, reader.reply, answer.length);
        heard->length += answer.length;
        heard->taken += answer.taken;
        heard->calls++;
        heard->instructions += step_count;
        piece += answer.taken, n -= answer.taken;
    } while (answer.taken != 0 || answer.length != 0 || receiver->count != count);
}

static struct heard hear(__typeof__(bystrodol_receive) *receive) {
    struct heard heard = {0, 0, 0, 0, {0}};
    const size_t most = piece_lengths[column];
    for (size_t at = 0; at < run_length; at += most)
        offer(receive, run + at, run_length - at < most ? run_length - at : most, &heard);
    return heard;
}

static void measure_run(int expected) {
    row->bytes = run_length;
    start();
    const struct heard ours = hear(bystrodol_receive);
    turn(ours.instructions);
    const struct heard plain = hear(plain_receive);
    finish(plain.instructions, ours.taken == plain.taken && ours.calls == plain.calls && ours.length == plain.length &&
                                   memcmp(ours.replies, plain.replies, sizeof ours.replies) == 0);
    expect(plain.taken == run_length && (plain.length ? plain.replies[9] : SILENT) == expected);
}

/* A data packet of a size, into buffer 1. */
static void data_row(const char *name, uint8_t size) {
    const size_t bytes = (size_t)32 << size;
    begin(&received, name, 1);
    reader.line.settings.size = size;
    reader.line.settings.transfer = 1;
    reader.line.settings.filled1 = 0;
    append_packet(DATA, reader.memory.buffer2, bytes);
    measure_run(SILENT);
    expect(reader.line.settings.got == bytes);
}

/* One page: with more the test of the index costs less. */
static void measure_received(void) {
    static const uint8_t hand_shake[] = {0x40}, count[] = {0x1D};
    received.length = 0;
    begin(&received, "40h HandShake, 12 bytes", 1);
    append_packet(COMMAND, hand_shake, sizeof hand_shake);
    measure_run(0x00);
    begin(&received, "1Dh TempleteNum, 12 bytes", 1);
    append_packet(COMMAND, count, sizeof count);
    measure_run(0x00);
    data_row("data packet, 139 bytes", 2);
    data_row("data packet, 267 bytes", 3);
    begin(&received, "noise, 1024 bytes", 1);
    append_noise(1024);
    measure_run(SILENT);
}

/* ---- the rows of services */

static void build_row(const char *name, size_t n) {
    begin(&services, name, 1);
    MEASURE(build, 0x12345678, DATA, reader.memory.buffer1, n, reader.reply, reply_length);
}

/* A row of a receiver that holds so many bytes, or of a count that is not legal. */
static void begin_held(const char *name, uint16_t count) {
    begin(&services, name, 1);
    fill_random(reader.line.receiver.held, sizeof reader.line.receiver.held);
    reader.line.receiver.count = count;
}

static void measure_refusal(uint8_t expected) {
    static const uint8_t piece[] = {0xEF, 0x01};
    start();
    struct bystrodol_received ours = receive_stepped(bystrodol_receive, piece, sizeof piece);
    turn(step_count);
    struct bystrodol_received plain = receive_stepped(plain_receive, piece, sizeof piece);
    finish(step_count, ours.refusal == plain.refusal && ours.taken == plain.taken && ours.length == plain.length);
    expect(plain.refusal == expected && plain.taken == 0 && plain.length == 0 && is_same(&before, &reader));
}

static void measure_receiver(void) {
    begin_held("receiver: line switch", 200);
    start();
    uint8_t ours = receiver_switch_stepped(bystrodol_receiver_switch);
    turn(step_count);
    uint8_t plain = receiver_switch_stepped(plain_receiver_switch);
    finish(step_count, ours == plain);
    expect(plain == BYSTRODOL_ACCEPTED && reader.line.receiver.count == 0);
    begin_held("receiver: refusal 1", BYSTRODOL_HELD_MOST + 1);
    pages = 0;
    measure_refusal(BYSTRODOL_BAD_LENGTH);
    begin_held("receiver: refusal 2", BYSTRODOL_HELD_MOST + 1);
    reply_length--;
    measure_refusal(BYSTRODOL_BAD_ROOM);
    begin_held("receiver: refusal 3, setting", 200);
    reader.line.settings.level = 6;
    measure_refusal(BYSTRODOL_BAD_SETTING);
    begin_held("receiver: refusal 3, count", BYSTRODOL_HELD_MOST + 1);
    measure_refusal(BYSTRODOL_BAD_SETTING);
}

static void measure_services(void) {
    begin(&services, "fresh settings", 1);
    start();
    fresh_stepped(bystrodol_fresh);
    turn(step_count);
    fresh_stepped(plain_fresh);
    finish(step_count, 1);
    expect(reader.line.settings.size == 2);
    begin(&services, "line switch", 1);
    start();
    uint8_t ours = line_switch_stepped(bystrodol_line_switch);
    turn(step_count);
    uint8_t plain = line_switch_stepped(plain_line_switch);
    finish(step_count, ours == plain);
    begin(&services, "sum of 1024 bytes", 1);
    append_noise(1024);
    MEASURE(sum, run, run_length);
    begin(&services, "used of 1024 bytes of noise", 1);
    append_noise(1024);
    MEASURE(used, run, run_length);
    begin(&services, "used of a packet", 1);
    append_packet(DATA, reader.memory.buffer1, BYSTRODOL_CONTENT_MOST_DATA);
    MEASURE(used, run, run_length);
    build_row("build, 1 byte of content", 1);
    build_row("build, 64 bytes of content", 64);
    build_row("build, 256 bytes of content", BYSTRODOL_CONTENT_MOST_DATA);
    build_row("build, refused", BYSTRODOL_CONTENT_MOST_DATA + 1);
    begin(&services, "count", 1);
    row->is_bound[column] = 1;
    MEASURE(count, reader.memory.index, sizeof reader.memory.index);
    begin(&services, "an index brought over", 1);
    MEASURE(bring_over, reader.memory.notepad, BYSTRODOL_OLD_INDEX_BYTES, reader.memory.index, sizeof reader.memory.index);
    expect(memcmp(reader.memory.index, reader.memory.notepad, BYSTRODOL_OLD_INDEX_BYTES) == 0);
    begin(&services, "bringing over, refused", 1);
    MEASURE(bring_over, reader.memory.notepad, BYSTRODOL_OLD_INDEX_BYTES - 1, reader.memory.index, sizeof reader.memory.index);
    measure_receiver();
}

/* ---- output: tables in Markdown, their columns aligned */

struct summary {
    size_t ratios, at_most_one, above, worst, troubles, bound, broken;
    const char *worst_name;
};

static void put_ratio(size_t hundredths) {
    put_number(hundredths / 100);
    put_text(hundredths % 100 < 10 ? ".0" : "."), put_number(hundredths % 100);
}

static size_t tenths_of(size_t count, size_t divisor) { return (10 * count + divisor / 2) / divisor; }

/* The width is that of the whole number before the point. */
static void put_tenths_in(size_t width, size_t tenths) {
    put_number_in(width, tenths / 10), put_text("."), put_number(tenths % 10);
}

/* A count, or the count by the byte. */
static void put_count(size_t count, size_t bytes) {
    if (bytes == 0)
        put_number_in(9, count);
    else
        put_tenths_in(7, tenths_of(count, bytes));
    put_text(" |");
}

static void put_row(const struct row *shown, size_t from, size_t columns, struct summary *summary) {
    put_text("| "), put_text_in(28, shown->name), put_text(" |");
    for (size_t i = from; i < from + columns; i++) {
        size_t ours = shown->ours[i], plain = shown->plain[i], ratio = (100 * ours + plain / 2) / plain;
        put_count(ours, shown->bytes), put_count(plain, shown->bytes);
        put_text(ratio < 1000 ? "  " : " "), put_ratio(ratio), put_text(" |");
        summary->ratios++;
        summary->at_most_one += ours <= plain;
        summary->above += 10 * ours > 11 * plain;
        summary->bound += shown->is_bound[i] != 0;
        if (shown->is_bound[i] && 10 * ours > 11 * plain) put_text(" ABOVE 1.1"), summary->broken++;
        if (ratio > summary->worst) summary->worst = ratio, summary->worst_name = shown->name;
    }
    if (shown->trouble) put_text(" "), put_text(shown->trouble), summary->troubles++;
    put_text("\n");
}

/* The rows in so many columns, from one on. */
static void put_table(const char *heading, const struct table *table, size_t from, size_t columns,
                      struct summary *summary) {
    put_text(heading);
    for (size_t i = 0; i < table->length; i++) put_row(&table->rows[i], from, columns, summary);
    put_text("\n");
}

/* What a row takes beside the tests that every call makes: those of the index are fewer the more pages there are. */
static size_t own_part(const struct row *shown, size_t i) { return shown->ours[i] - shown->carried * least->ours[i]; }

/* Whether it takes more at some capacity than at the first, in all or beside those tests. */
static int grows(const struct row *shown) {
    for (size_t i = 1; i < CAPACITIES; i++)
        if (shown->ours[i] > shown->ours[0] || own_part(shown, i) > own_part(shown, 0)) return 1;
    return 0;
}

static void put_growing(struct summary *summary) {
    const char *between = "Ours grow with the pages: ";
    for (size_t i = 0; i < calls.length; i++)
        if (grows(&calls.rows[i])) {
            put_text(between), put_text(calls.rows[i].name), between = "; ";
            if (!calls.rows[i].may_grow) put_text(" (MAY NOT)"), summary->broken++;
        }
    put_text(".\n\n");
}

/* The share of the line's time that our dearest received byte takes, at one instruction a cycle. */
static void put_share(void) {
    const size_t cycles = 10 * 48000000 / 57600;
    size_t most = 0;
    for (size_t i = 0; i < received.length; i++)
        for (size_t j = 0; j < PIECES; j++) {
            size_t tenths = tenths_of(received.rows[i].ours[j], received.rows[i].bytes);
            if (tenths > most) most = tenths;
        }
    put_text("A byte of ten bits at 57600 baud and 48 MHz: "), put_number(cycles), put_text(" cycles; ours at most ");
    put_tenths_in(0, most), put_text(" instructions, "), put_tenths_in(0, tenths_of(10 * most, cycles));
    put_text("%.\n\n");
}

static void put_summary(const struct summary *summary) {
    put_text("counts: "), put_number(summary->ratios), put_text(" ratios, "), put_number(summary->at_most_one);
    put_text(" at most 1, "), put_number(summary->above), put_text(" above 1.1, the largest ");
    put_ratio(summary->worst), put_text(" ("), put_text(summary->worst_name), put_text("); ");
    put_number(summary->troubles), put_text(" rows with other results; of ");
    put_number(summary->bound), put_text(" that may not be above 1.1 and all that may not grow, ");
    put_number(summary->broken), put_text(" do\n");
}

int print_counts(void) {
    struct summary summary = {0, 0, 0, 0, 0, 0, 0, ""};
    for (column = 0; column < CAPACITIES; column++) measure_calls(capacities[column]);
    for (column = 0; column < LIBRARIES; column++) measure_libraries(libraries[column]);
    for (column = 0; column < PIECES; column++) measure_received();
    column = 0;
    measure_services();
    put_table("| a call, at 1, 64, 256 pages  |  1: ours |     1: C | ratio | 64: ours |    64: C | ratio "
              "|256: ours |   256: C | ratio |\n|---|---:|---:|---:|---:|---:|---:|---:|---:|---:|\n",
              &calls, 0, 3, &summary);
    put_table("| at 257, 999, 1000 pages      |257: ours |   257: C | ratio |999: ours |   999: C | ratio "
              "|1000:ours |  1000: C | ratio |\n|---|---:|---:|---:|---:|---:|---:|---:|---:|---:|\n",
              &calls, 3, 3, &summary);
    put_table("| closing the gaps, 64, 1000   | 64: ours |    64: C | ratio |1000:ours |  1000: C | ratio |\n"
              "|---|---:|---:|---:|---:|---:|---:|\n",
              &gaps, 0, LIBRARIES, &summary);
    put_table("| salvage, 64, 1000 pages      | 64: ours |    64: C | ratio |1000:ours |  1000: C | ratio |\n"
              "|---|---:|---:|---:|---:|---:|---:|\n",
              &salvages, 0, LIBRARIES, &summary);
    put_table("| comparing, 64, 1000 pages    | 64: ours |    64: C | ratio |1000:ours |  1000: C | ratio |\n"
              "|---|---:|---:|---:|---:|---:|---:|\n",
              &comparisons, 0, LIBRARIES, &summary);
    put_table("| a received byte, in pieces   |  1: ours |     1: C | ratio | 16: ours |    16: C | ratio "
              "| 60: ours |    60: C | ratio |267: ours |   267: C | ratio |\n"
              "|---|---:|---:|---:|---:|---:|---:|---:|---:|---:|---:|---:|---:|\n",
              &received, 0, PIECES, &summary);
    put_table("| a service                    |     ours |        C | ratio |\n|---|---:|---:|---:|\n", &services, 0, 1,
              &summary);
    put_growing(&summary);
    put_share();
    put_summary(&summary);
    return summary.troubles != 0 || summary.broken != 0;
}
