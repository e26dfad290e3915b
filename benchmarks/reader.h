/* The reader that is called, always at one place in memory, and the run that it is called with. */
#ifndef READER_H
#define READER_H

#include "plain.h"

/* Behind the reply room that is lent lie bytes that must stay. */
enum { REPLY_ROOM = BYSTRODOL_REPLY_BYTES + 68, RUN_MOST = 2048 };

struct memory {
    uint16_t scores[BYSTRODOL_PAGES_MOST];
    uint16_t thresholds[BYSTRODOL_THRESHOLDS];
    uint8_t index[BYSTRODOL_INDEX_BYTES];
    uint8_t notepad[BYSTRODOL_PAGE_BYTES];
    uint8_t buffer1[BYSTRODOL_PAGE_BYTES];
    uint8_t buffer2[BYSTRODOL_PAGE_BYTES];
    uint8_t templates[BYSTRODOL_PAGE_BYTES * BYSTRODOL_PAGES_MOST];
};

struct reader {
    struct bystrodol_line line;
    uint8_t reply[REPLY_ROOM];
    uint16_t table[BYSTRODOL_PAGES_MOST];
    uint8_t report[BYSTRODOL_REPORT_BYTES];
    struct memory memory;
};

extern struct reader reader;

/* The memory of the reader that it is compared with. */
extern struct memory second;

extern size_t pages, reply_length, table_length, report_length;

/* Copies a reader, but for the templates behind the pages in use. */
void copy_reader(struct reader *to, const struct reader *from);

/* Makes a reader of so many pages with fresh settings, pseudo-random memory and a receiver that holds nothing, in whose
 * cells old bytes lie. */
void make_reader(size_t capacity);

/* Pseudo-random bytes in all memory but the templates behind the pages in use. */
void fill_memory(struct memory *memory);

int is_stored(const struct memory *memory, size_t page);
void set_stored(struct memory *memory, size_t page);
void clear_stored(struct memory *memory, size_t page);

/* Clears the index bits at and above the capacity. */
void make_index_legal(struct memory *memory);

/* Pseudo-random bytes, the same after each restart and whenever the program runs. */
void restart_random(void);
uint8_t random_byte(void);
void fill_random(void *at, size_t n);

/* ---- the run */

extern uint8_t run[RUN_MOST];
extern size_t run_length;

enum identifier { COMMAND = 1, DATA = 2, ACKNOWLEDGE = 7, LAST_DATA = 8 };

/* At the end of the run: any bytes; noise, in which no packet starts; a packet to the address of a fresh reader. */
void append(const uint8_t *bytes, size_t n);
void append_noise(size_t n);
void append_packet(enum identifier identifier, const uint8_t *content, size_t n);

/* ---- the seventeen commands, with parameters for a reader that does them all, if its last page is stored, with a score that reaches the
 * threshold, or, for Store, vacant */

struct command {
    const char *name;
    uint8_t length, content[36];
};

/* How many there are, and which of them is ReadSysPara. */
enum { COMMANDS = 17, READ_SYS_PARA_NUMBER = 8 };
struct command command_of(size_t number, size_t capacity);

/* ---- calls of the reader, ours or plain C's, that are stepped through */

/* Fresh settings go into the reader. */
void fresh_stepped(__typeof__(bystrodol_fresh) *fresh);
struct bystrodol_answer call_stepped(__typeof__(bystrodol_step) *step);
uint8_t line_switch_stepped(__typeof__(bystrodol_line_switch) *line_switch);
uint8_t close_gaps_stepped(__typeof__(bystrodol_close_gaps) *close_gaps);
uint8_t salvage_stepped(__typeof__(bystrodol_salvage) *salvage);
uint8_t compare_stepped(__typeof__(bystrodol_compare) *compare);

/* ---- the same of its receiver */

struct bystrodol_received receive_stepped(__typeof__(bystrodol_receive) *receive, const uint8_t *piece, size_t n);
uint8_t receiver_switch_stepped(__typeof__(bystrodol_receiver_switch) *receiver_switch);

#endif
