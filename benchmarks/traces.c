/*
 * Pairs of legal locked readers that differ only in guarded contents get the same runs and line switches, up to and
 * including the right password; whole, by the step, or in pieces, by receivers that hold the same. The
 * addresses of a call's instructions must be the same in both, and so must the bytes of the reply.
 */
#include "benchmarks.h"
#include "reader.h"
#include "stepper.h"
#include "system.h"

static const size_t capacities[] = {1, 8, 9, 257, 999, 1000};
enum { CAPACITIES = sizeof capacities / sizeof *capacities };

/* ---- a pair: two readers with the same public settings */

static struct reader pair[2];

/* What differs in a pair: everything; nothing and all that there can be; and each of the others alone. */
enum kind { EVERYTHING, EXTREMES, FILLED_MARKS, INDEX, ORIGINS, FOUND_MARK, SCORES, THRESHOLDS, KINDS };

static void set_marks(struct bystrodol_settings *settings, uint8_t marks) {
    settings->filled1 = marks & 1;
    settings->filled2 = marks >> 1 & 1;
}

static void make_locked_settings(struct bystrodol_settings *settings) {
    fill_random(settings->password, sizeof settings->password);
    settings->password[0] |= 1;
    settings->level = (uint8_t)(1 + random_byte() % 5);
    settings->size = (uint8_t)(random_byte() % 4);
    settings->baud = (uint8_t)(1 + random_byte() % 12);
    settings->sensor = random_byte();
    set_marks(settings, random_byte());
    settings->found = random_byte() & 1;
}

/* A filled buffer's origin is a page that is stored, if one is found, or none. */
static uint16_t random_origin(const struct memory *memory, size_t capacity, uint8_t is_filled) {
    for (int tries = 0; is_filled && tries < 8; tries++) {
        size_t page = (random_byte() << 8 | random_byte()) % capacity;
        if (is_stored(memory, page)) return (uint16_t)page;
    }
    return BYSTRODOL_NO_PAGE;
}

static void set_origins(struct reader *reader, size_t capacity) {
    struct bystrodol_settings *settings = &reader->line.settings;
    settings->origin1 = random_origin(&reader->memory, capacity, settings->filled1);
    settings->origin2 = random_origin(&reader->memory, capacity, settings->filled2);
}

static void make_pair(size_t capacity, enum kind kind, size_t number) {
    struct bystrodol_settings *first = &pair[0].line.settings, *second = &pair[1].line.settings;
    make_reader(capacity);
    make_locked_settings(&reader.line.settings);
    copy_reader(&pair[0], &reader);
    copy_reader(&pair[1], &reader);
    switch (kind) {
    case EVERYTHING:
        fill_memory(&pair[1].memory);
        set_marks(second, random_byte());
        second->found = !first->found;
        break;
    case EXTREMES:
        memset(&pair[0].memory, 0x00, sizeof pair[0].memory);
        memset(&pair[1].memory, 0xFF, sizeof pair[1].memory);
        set_marks(first, 0), first->found = 0;
        set_marks(second, 3), second->found = 1;
        break;
    case FILLED_MARKS:
        set_marks(first, 0);
        set_marks(second, (uint8_t)(1 + random_byte() % 3));
        break;
    case INDEX: /* one page of it */
        clear_stored(&pair[0].memory, number % capacity);
        set_stored(&pair[1].memory, number % capacity);
        break;
    case ORIGINS: /* none, and a page for each buffer */
        for (int i = 0; i < 2; i++) {
            set_stored(&pair[i].memory, 0);
            set_stored(&pair[i].memory, number % capacity);
            set_marks(&pair[i].line.settings, 3);
        }
        break;
    case FOUND_MARK:
        second->found = !first->found;
        break;
    case SCORES:
        fill_random(pair[1].memory.scores, sizeof pair[1].memory.scores);
        break;
    default: /* THRESHOLDS */
        fill_random(pair[1].memory.thresholds, sizeof pair[1].memory.thresholds);
    }
    make_index_legal(&pair[0].memory);
    make_index_legal(&pair[1].memory);
    if (kind == ORIGINS)
        second->origin1 = 0, second->origin2 = (uint16_t)(number % capacity);
    else if (kind == EVERYTHING || kind == EXTREMES || kind == FILLED_MARKS)
        set_origins(&pair[0], capacity), set_origins(&pair[1], capacity);
}

/* ---- calls: a command in one of its shapes, another packet, other bytes, or a line switch */

enum shape { VALID, DAMAGED, FOREIGN, NOISY, UNFINISHED, TOO_LONG, SHAPES };

#define A 0xFF, 0xFF, 0xFF, 0xFF

static const struct {
    size_t length;
    uint8_t bytes[12];
} other_runs[] = {
    {0, {0}},                                                  /* nothing */
    {1, {0xEF}},                                               /* half a mark */
    {12, {0xEF, 0x01, A, 0x01, 0x00, 0x03, 0x05, 0x00, 0x09}}, /* no such command */
    {12, {0xEF, 0x01, A, 0x03, 0x00, 0x03, 0x40, 0x00, 0x46}}, /* no such identifier */
    {12, {0xEF, 0x01, A, 0x01, 0x00, 0x02, 0x40, 0x00, 0x43}}, /* length 2 */
    {12, {0xEF, 0x01, A, 0x01, 0x01, 0x01, 0x40, 0x00, 0x43}}, /* a command of length 257 */
    {12, {0xEF, 0x01, A, 0x02, 0x01, 0x02, 0x40, 0x00, 0x45}}, /* the front of a data packet of length 258 */
    {12, {0xEF, 0x01, A, 0x08, 0x01, 0x03, 0x40, 0x00, 0x4C}}, /* a data packet of length 259 */
    {12, {0xEF, 0x01, A, 0x07, 0x00, 0x03, 0x00, 0x00, 0x0A}}, /* an acknowledge */
};

enum call {
    READ_PARAMETERS = READ_SYS_PARA_NUMBER * SHAPES + VALID,
    READ_PARAMETERS_TOO_LONG = READ_SYS_PARA_NUMBER * SHAPES + TOO_LONG,
    OTHER_RUN = COMMANDS * SHAPES,
    DATA_PACKET = OTHER_RUN + sizeof other_runs / sizeof *other_runs,
    LAST_DATA_PACKET,
    NOISE,
    WRONG_PASSWORD,
    LOCKED_CALLS,
    LINE_SWITCH = LOCKED_CALLS,
    RIGHT_PASSWORD,
    LOAD_FIRST_PAGE,
    NO_CALL
};

/* Every pair gets the two of ReadSysPara. The rounds that are all others, and how many of these one pair gets. */
enum { ROUNDS = 6, OTHER_CALLS = LOCKED_CALLS - 2, CALLS_EACH = (OTHER_CALLS + ROUNDS - 1) / ROUNDS };

static enum call other_call(size_t number) {
    size_t call = number % OTHER_CALLS;
    call += call >= READ_PARAMETERS;
    call += call >= READ_PARAMETERS_TOO_LONG;
    return (enum call)call;
}

static void append_command(struct command command, enum shape shape) {
    if (shape == NOISY) append_noise(16);
    append_packet(COMMAND, command.content, command.length + (shape == TOO_LONG));
    if (shape == DAMAGED) run[run_length - 1]++;
    if (shape == FOREIGN) run[2]--;
    if (shape == UNFINISHED) run_length--;
}

static void append_data(enum identifier identifier) {
    uint8_t content[BYSTRODOL_CONTENT_MOST_DATA];
    fill_random(content, sizeof content);
    append_packet(identifier, content, (size_t)32 << pair[0].line.settings.size);
}

static void append_password(uint8_t change) {
    uint8_t content[5] = {0x13};
    memcpy(content + 1, pair[0].line.settings.password, 4);
    content[4] ^= change;
    append_packet(COMMAND, content, sizeof content);
}

static void make_run(enum call call) {
    static const uint8_t load[] = {0x07, 1, 0, 0};
    run_length = 0;
    switch (call) {
    case DATA_PACKET:
        append_data(DATA);
        break;
    case LAST_DATA_PACKET:
        append_data(LAST_DATA);
        break;
    case NOISE:
        append_noise(64);
        break;
    case WRONG_PASSWORD:
        append_password(1);
        break;
    case RIGHT_PASSWORD:
        append_password(0);
        break;
    case LOAD_FIRST_PAGE:
        append_packet(COMMAND, load, sizeof load);
        break;
    case LINE_SWITCH:
        break;
    default:
        if (call >= OTHER_RUN)
            append(other_runs[call - OTHER_RUN].bytes, other_runs[call - OTHER_RUN].length);
        else
            append_command(command_of(call / SHAPES, pages), call % SHAPES);
    }
}

/* ---- pieces */

/* A piece of one of these lengths, or the rest of the run. */
static size_t random_piece(size_t rest) {
    static const size_t lengths[] = {0, 1, 2, 5, 9, 11, 12, 16, 30, 60, 139, BYSTRODOL_HELD_MOST};
    const size_t length = lengths[random_byte() % (sizeof lengths / sizeof *lengths)];
    return length < rest ? length : rest;
}

/* Both receivers hold the same noise, of one of these lengths; and there are old bytes in all other cells. */
static void hold_noise(void) {
    static const uint16_t counts[] = {0, 0, 1, 2, 9, 30, 60, BYSTRODOL_HELD_MOST};
    struct bystrodol_receiver receiver;
    for (size_t i = 0; i < sizeof receiver.held; i++) receiver.held[i] = random_byte() | 0x80;
    receiver.count = counts[random_byte() % (sizeof counts / sizeof *counts)];
    pair[0].line.receiver = pair[1].line.receiver = receiver;
}

/* ---- the comparison */

static __typeof__(bystrodol_step) *step;
static __typeof__(bystrodol_line_switch) *line_switch;
static __typeof__(bystrodol_receive) *receive;
static __typeof__(bystrodol_receiver_switch) *receiver_switch;
static int in_pieces;
static size_t first_count, first_trace[TRACE_MOST];

/* What of the last call was not the same in both. */
static int path_differs, reply_differs;

/* A call of the reader with the whole run, or of its receiver with a piece. The reader takes all of the run. */
static struct bystrodol_received call_reader(enum call call, const uint8_t *piece, size_t n) {
    struct bystrodol_received received = {BYSTRODOL_ACCEPTED, n, 0};
    if (call == LINE_SWITCH)
        received.refusal = in_pieces ? receiver_switch_stepped(receiver_switch) : line_switch_stepped(line_switch);
    else if (in_pieces)
        received = receive_stepped(receive, piece, n);
    else {
        struct bystrodol_answer answer = call_stepped(step);
        received.refusal = answer.refusal, received.length = answer.length;
    }
    return received;
}

/* Puts a reader of the pair in the place of the called one, calls it, and takes it back. */
static struct bystrodol_received make_call(struct reader *called, enum call call, const uint8_t *piece, size_t n) {
    copy_reader(&reader, called);
    struct bystrodol_received received = call_reader(call, piece, n);
    if (received.refusal != BYSTRODOL_ACCEPTED) fail("a legal reader was refused");
    if (step_count > TRACE_MOST) fail("a call has more instructions than a trace holds");
    copy_reader(called, &reader);
    return received;
}

/* The reply rooms of a pair have the same bytes before its first call. */
static int differs(enum call call) {
    make_run(call);
    if (in_pieces) hold_noise();
    size_t at = 0;
    do {
        size_t n = in_pieces ? random_piece(run_length - at) : run_length;
        struct bystrodol_received first = make_call(&pair[0], call, run + at, n);
        first_count = step_count;
        memcpy(first_trace, step_trace, step_count * sizeof *step_trace);
        struct bystrodol_received second = make_call(&pair[1], call, run + at, n);
        if (second.taken != first.taken) fail("two receivers took different numbers of bytes");
        path_differs =
            step_count != first_count || memcmp(first_trace, step_trace, step_count * sizeof *step_trace) != 0;
        reply_differs =
            second.length != first.length || memcmp(pair[0].reply, pair[1].reply, sizeof pair[0].reply) != 0;
        at += first.taken;
    } while (!path_differs && !reply_differs && at < run_length);
    return path_differs || reply_differs;
}

/*
 * ReadSysPara, which tells a locked reader's parameters, right and a byte too long, while the found marks are as the pair
 * was made; a round's calls with a line switch somewhere among them; and then the right password. The first call that
 * differs.
 */
static enum call first_difference(size_t round) {
    const size_t switched = random_byte() % CALLS_EACH;
    if (differs(READ_PARAMETERS)) return READ_PARAMETERS;
    if (differs(READ_PARAMETERS_TOO_LONG)) return READ_PARAMETERS_TOO_LONG;
    for (size_t i = 0; i < CALLS_EACH; i++) {
        if (i == switched && differs(LINE_SWITCH)) return LINE_SWITCH;
        enum call call = other_call(CALLS_EACH * round + i);
        if (differs(call)) return call;
    }
    if (differs(RIGHT_PASSWORD)) return RIGHT_PASSWORD;
    if (!pair[0].line.settings.verified || !pair[1].line.settings.verified) fail("the right password was not accepted");
    return NO_CALL;
}

/* The password is given now: path and reply of LoadChar must differ if only one reader has stored the page. */
static int differs_unlocked(void) {
    clear_stored(&pair[0].memory, 0);
    set_stored(&pair[1].memory, 0);
    return differs(LOAD_FIRST_PAGE) && path_differs && reply_differs;
}

/* ---- output */

/* An address as the function that it is in, and how far. */
static void put_place(size_t address) {
    const struct {
        const char *name;
        size_t address;
    } functions[] = {
        {"the program", 0},
        {"bystrodol_step", (size_t)bystrodol_step},
        {"bystrodol_line_switch", (size_t)bystrodol_line_switch},
        {"bystrodol_receive", (size_t)bystrodol_receive},
        {"bystrodol_receiver_switch", (size_t)bystrodol_receiver_switch},
        {"plain_step", (size_t)plain_step},
        {"plain_line_switch", (size_t)plain_line_switch},
        {"plain_receive", (size_t)plain_receive},
        {"plain_receiver_switch", (size_t)plain_receiver_switch},
        {"memcpy", (size_t)memcpy},
        {"memmove", (size_t)memmove},
        {"memset", (size_t)memset},
    };
    size_t nearest = 0;
    for (size_t i = 1; i < sizeof functions / sizeof *functions; i++)
        if (functions[i].address <= address && functions[i].address > functions[nearest].address) nearest = i;
    put_text(functions[nearest].name), put_text("+0x"), put_hexadecimal(address - functions[nearest].address);
}

static void put_next(const size_t *trace, size_t count, size_t i) {
    if (i < count)
        put_place(trace[i]);
    else
        put_text("its end");
}

/* Where the two last calls part: the last instruction that they share, and the next one of each. */
static void put_parting(void) {
    size_t i = 0;
    while (i < first_count && i < step_count && first_trace[i] == step_trace[i]) i++;
    put_text("after "), put_place(i > 0 ? first_trace[i - 1] : 0);
    put_text(" one goes to "), put_next(first_trace, first_count, i);
    put_text(", the other to "), put_next(step_trace, step_count, i);
}

static void put_difference(const char *name, size_t capacity, size_t number, enum call call) {
    put_text(name), put_text(": capacity "), put_number(capacity), put_text(", pair "), put_number(number);
    put_text(", call "), put_number(call), put_text(": ");
    if (path_differs)
        put_parting();
    else
        put_text("one path, two replies");
    put_text("\n");
}

/*
 * Compares so many pairs, and tells whether all is as it must be. The pairs of a round get the same calls. KINDS pairs in
 * a row are of each kind, and KINDS * CAPACITIES of each kind at each capacity.
 */
static int compare_pairs(const char *name, size_t pairs, size_t round) {
    size_t differ = 0, unlocked_differ = 0;
    for (size_t i = 0; i < pairs; i++) {
        enum kind kind = (enum kind)(i % KINDS);
        size_t capacity = capacities[(i / KINDS + kind) % CAPACITIES];
        make_pair(capacity, kind, i);
        enum call call = first_difference(i / round);
        if (call == NO_CALL)
            unlocked_differ += (size_t)differs_unlocked();
        else if (differ++ == 0)
            put_difference(name, capacity, i, call);
    }
    put_text(name), put_text(", unlocked: "), put_number(pairs - differ), put_text(" pairs, ");
    put_number(unlocked_differ), put_text(" differ in path and reply ");
    put_text("(LoadChar of a page that only one has stored: all must)\n");
    put_text(name), put_text(": "), put_number(pairs), put_text(" pairs, "), put_number(differ), put_text(" differ\n");
    return differ == 0 && unlocked_differ == pairs;
}

int compare_traces(int of_plain, int pieces) {
    if (command_of(READ_SYS_PARA_NUMBER, 1).content[0] != 0x0F) fail("ReadSysPara is not where it is looked for");
    step = of_plain ? plain_step : bystrodol_step;
    line_switch = of_plain ? plain_line_switch : bystrodol_line_switch;
    receive = of_plain ? plain_receive : bystrodol_receive;
    receiver_switch = of_plain ? plain_receiver_switch : bystrodol_receiver_switch;
    in_pieces = pieces;
    return pieces ? !compare_pairs("traces in pieces", ROUNDS * KINDS, KINDS) : !compare_pairs("traces", ROUNDS * KINDS * CAPACITIES, KINDS * CAPACITIES);
}
