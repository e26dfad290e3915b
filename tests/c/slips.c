/*
 * Wrong doors: each goes on to the right one, and makes a slip before it or behind it. tests/c/run compiles the tests with every door's name changed to slipped_..,
 * links them with this, and starts them with the name of each slip, which it reads here. A name begins with the test that must refuse it.
 */
#include "bystrodol.h"

#include <string.h>

int tests_main(void);

static const char *chosen;
static int slip(const char *name) { return strcmp(chosen, name) == 0; }

/* ---- in the settings: at every door alike */

/* Two fields of so many bytes exchanged; one byte read as another, and kept as it is; and what the line switch leaves. */
static const struct {
    const char *name;
    enum { EXCHANGED, READ_AS, LEFT } kind;
    uint8_t at, to, length;
} fields[] = {
    {"reader: password, address", EXCHANGED, 0, 4, 4},           {"reader: first and last of the address", EXCHANGED, 4, 7, 1},
    {"reader: address, level", EXCHANGED, 7, 8, 1},              {"reader: level, size code", EXCHANGED, 8, 9, 1},
    {"reader: size code, baud factor", EXCHANGED, 9, 10, 1},     {"reader: baud factor, transfer", EXCHANGED, 10, 11, 1},
    {"reader: transfer, sensor type", EXCHANGED, 11, 12, 1},     {"reader: bytes of the sensor type", EXCHANGED, 12, 13, 1},
    {"reader: sensor type, bytes got", EXCHANGED, 12, 14, 2},    {"reader: bytes got, verified mark", EXCHANGED, 15, 16, 1},
    {"reader: verified, filled mark 1", EXCHANGED, 16, 17, 1},   {"reader: filled marks", EXCHANGED, 17, 18, 1},
    {"reader: filled mark 2, found mark", EXCHANGED, 18, 19, 1}, {"reader: verified, found mark", EXCHANGED, 16, 19, 1},
    {"reader: found mark, origin 1", EXCHANGED, 19, 20, 1},      {"reader: origins", EXCHANGED, 20, 22, 2},
    {"reader: verified mark 2 is clear", READ_AS, 16, 2, 0},     {"reader: filled mark 1 of 2 is clear", READ_AS, 17, 2, 0},
    {"reader: filled mark 2 of 2 is clear", READ_AS, 18, 2, 0},  {"reader: found mark 2 is clear", READ_AS, 19, 2, 0},
    {"reader: verified mark 255 is set", READ_AS, 16, 255, 1},   {"reader: level 0 is 1", READ_AS, 8, 0, 1},
    {"reader: transfer left", LEFT, 11, 0, 1},                   {"reader: bytes got left", LEFT, 14, 0, 2},
    {"reader: verified mark left", LEFT, 16, 0, 1},              {"reader: filled mark 1 left", LEFT, 17, 0, 1},
    {"reader: filled mark 2 left", LEFT, 18, 0, 1},              {"reader: found mark left", LEFT, 19, 0, 1},
    {"reader: origin 1 left", LEFT, 20, 0, 2},                   {"reader: origin 2 left", LEFT, 22, 0, 2},
    {"gaps: level, size code", EXCHANGED, 8, 9, 1},              {"gaps: filled marks", EXCHANGED, 17, 18, 1},
    {"gaps: found mark 2 is clear", READ_AS, 19, 2, 0},          {"", LEFT, 0, 0, 0},
}, *f = fields;

static struct bystrodol_line was;
static int is_read_as;

static void exchange(void *settings) {
    uint8_t *const one = (uint8_t *)settings + f->at, *const other = (uint8_t *)settings + f->to, kept[4];
    if (f->kind == EXCHANGED) memcpy(kept, one, f->length), memcpy(one, other, f->length), memcpy(other, kept, f->length);
}

static void enter(void *settings) {
    uint8_t *const byte = (uint8_t *)settings + f->at;
    memcpy(&was.settings, settings, sizeof was.settings);
    is_read_as = f->kind == READ_AS && *byte == f->to;
    if (is_read_as) *byte = f->length;
    exchange(settings);
}

static void leave(void *settings, int is_switched) {
    uint8_t *const byte = (uint8_t *)settings + f->at;
    exchange(settings);
    if (is_read_as && *byte == f->length) *byte = f->to;
    if (is_switched && f->kind == LEFT) memcpy(byte, (uint8_t *)&was + f->at, f->length);
}

struct bystrodol_settings slipped_fresh(void) {
    struct bystrodol_settings s = bystrodol_fresh();
    exchange(&s);
    return s;
}

/* ---- in what is lent to a call, in what it writes, and in what it returns */

#define LENT                                                                                                                                       \
    uint8_t *templates, size_t templates_length, uint8_t *index, size_t index_length, uint8_t *notepad, size_t notepad_length, uint8_t *buffer1,   \
        size_t length1, uint8_t *buffer2, size_t length2, const uint16_t *scores, size_t scores_length, const uint16_t *thresholds,                \
        size_t thresholds_length, const uint8_t *run, size_t run_length, uint8_t *reply, size_t reply_length
#define AS_LENT                                                                                                                                    \
    templates, templates_length, index, index_length, notepad, notepad_length, buffer1, length1, buffer2, length2, scores, scores_length,          \
        thresholds, thresholds_length, run, run_length, reply, reply_length

struct bystrodol_answer slipped_step(struct bystrodol_settings *settings, LENT) {
    enter(settings);
    struct bystrodol_answer a = bystrodol_step(settings, AS_LENT);
    leave(settings, 0);
    return slip("reader: used and length") ? (struct bystrodol_answer){a.refusal, a.length, a.used} : a;
}

struct bystrodol_received slipped_receive(struct bystrodol_line *line, LENT) {
    struct bystrodol_receiver *const held = &line->receiver;
    uint8_t *const first = buffer1;
    was.receiver = *held;
    if (slip("reader: buffers exchanged")) buffer1 = buffer2, buffer2 = first;
    if (slip("reader: the notepad a byte further")) notepad++;
    if (slip("reader: the scores a page further")) scores++;
    if (slip("reader: even addresses")) buffer2 -= (size_t)buffer2 % 2;
    if (slip("reader: scores counted in 16 bits")) scores_length &= 0xFFFF;
    if (slip("receiver: a piece in 16 bits")) run_length &= 0xFFFF;
    enter(&line->settings);
    struct bystrodol_received r = bystrodol_receive(line, AS_LENT);
    leave(&line->settings, 0);
    if (slip("reader: refusals 2 and 3") && r.refusal > 1) r.refusal ^= 1;
    if (slip("reader: refused, a byte of the reply room written") && r.refusal == BYSTRODOL_BAD_SETTING) reply[0] ^= 1;
    if (slip("receiver: refused, emptied") && r.refusal) memset(held, 0, sizeof *held);
    if (slip("receiver: NULL refused") && !run && !r.refusal) r.refusal = BYSTRODOL_BAD_LENGTH;
    if (slip("reader: a byte behind the reply") && !r.refusal) reply[r.length] ^= 1;
    if (slip("reader: a byte behind the templates") && !r.refusal) templates[templates_length] ^= 1;
    if (slip("reader: a byte before the index") && !r.refusal) index[-1] ^= 1;
    if (slip("receiver: spare byte left")) held->spare = was.receiver.spare;
    if (slip("receiver: last cell left")) held->held[BYSTRODOL_UNFINISHED_MOST] = was.receiver.held[BYSTRODOL_UNFINISHED_MOST];
    if (slip("receiver: held bytes told as taken")) r.taken += was.receiver.count;
    return slip("receiver: taken and length") ? (struct bystrodol_received){r.refusal, r.length, r.taken} : r;
}

/* ---- in the line switch and in the services */

uint8_t slipped_line_switch(struct bystrodol_settings *settings, uint8_t *buffer1, size_t length1, uint8_t *buffer2, size_t length2) {
    enter(settings);
    uint8_t refusal = bystrodol_line_switch(settings, buffer1, length1, buffer2, length2);
    leave(settings, !refusal);
    return refusal;
}

uint8_t slipped_receiver_switch(struct bystrodol_line *line, uint8_t *buffer1, size_t length1, uint8_t *buffer2, size_t length2) {
    was.receiver = line->receiver;
    enter(&line->settings);
    uint8_t refusal = bystrodol_receiver_switch(line, buffer1, length1, buffer2, length2);
    leave(&line->settings, !refusal);
    if (slip("receiver: switched, spare byte left")) line->receiver.spare = was.receiver.spare;
    if (slip("receiver: switched, cells left")) memcpy(line->receiver.held, was.receiver.held, BYSTRODOL_HELD_MOST);
    return refusal;
}

uint16_t slipped_sum(const uint8_t *run, size_t length) { return bystrodol_sum(run, slip("services: a sum in 16 bits") ? length & 0xFFFF : length); }

size_t slipped_used(const uint8_t *run, size_t length) { return bystrodol_used(run, length) + (slip("services: a lone EF used") && length == 1); }

size_t slipped_build(uint32_t address, uint8_t identifier, const uint8_t *content, size_t length, uint8_t *room, size_t room_length) {
    return bystrodol_build(slip("services: address turned") ? __builtin_bswap32(address) : address, identifier, content, length, room, room_length);
}

uint16_t slipped_count(const uint8_t *index, size_t length) { return bystrodol_count(index, slip("services: 129 bytes counted") && length == 129 ? 128 : length); }

uint8_t slipped_bring_over(const uint8_t *old, size_t old_length, uint8_t *index, size_t length) {
    uint8_t refusal = bystrodol_bring_over(old, old_length, index, length);
    if (slip("services: refused, a byte brought over") && refusal && length) index[0] = old_length ? old[0] : 0;
    return refusal;
}

/* ---- in closing the gaps */

static uint8_t page_was[BYSTRODOL_PAGE_BYTES], index_was[BYSTRODOL_INDEX_BYTES];
static uint16_t table_was[BYSTRODOL_PAGES_MOST];

/* The first templates in turn, the last one first; table and origins go by that. */
static void reverse(struct bystrodol_settings *s, uint8_t *templates, uint16_t *table, size_t pages, uint16_t count) {
    for (size_t low = 0, high = count; low + 1 < high; low++) {
        uint8_t *const one = templates + BYSTRODOL_PAGE_BYTES * low, *const other = templates + BYSTRODOL_PAGE_BYTES * --high;
        memcpy(page_was, one, sizeof page_was), memcpy(one, other, sizeof page_was), memcpy(other, page_was, sizeof page_was);
    }
    for (size_t old = 0; old < pages; old++)
        if (table[old] != BYSTRODOL_NO_PAGE) table[old] = count - 1 - table[old];
    if (s->origin1 != BYSTRODOL_NO_PAGE) s->origin1 = count - 1 - s->origin1;
    if (s->origin2 != BYSTRODOL_NO_PAGE) s->origin2 = count - 1 - s->origin2;
}

/* The last template, on this page, is lost. */
static void skip(uint8_t *templates, uint8_t *index, uint16_t *table, size_t pages, size_t last) {
    memset(templates + BYSTRODOL_PAGE_BYTES * last, 0, BYSTRODOL_PAGE_BYTES), index[last / 8] &= (uint8_t)~(1u << last % 8);
    for (size_t old = 0; old < pages; old++) table[old] = table[old] == last ? BYSTRODOL_NO_PAGE : table[old];
}

static void turn_table(uint16_t *table, size_t pages) {
    memcpy(table_was, table, 2 * pages), memset(table, 0xFF, 2 * pages);
    for (size_t old = 0; old < pages; old++)
        if (table_was[old] < pages) table[table_was[old]] = (uint16_t)old;
}

uint8_t slipped_close_gaps(struct bystrodol_settings *settings, uint8_t *templates, size_t templates_length, uint8_t *index, size_t index_length,
                           uint16_t *table, size_t table_length) {
    const size_t pages = templates_length / BYSTRODOL_PAGE_BYTES;
    if (slip("gaps: the table's length in 16 bits")) table_length &= 0xFFFF;
    enter(settings);
    if (pages) memcpy(page_was, templates + templates_length - BYSTRODOL_PAGE_BYTES, BYSTRODOL_PAGE_BYTES);
    if (index_length == sizeof index_was) memcpy(index_was, index, sizeof index_was);
    uint8_t refusal = bystrodol_close_gaps(settings, templates, templates_length, index, index_length, table, table_length);
    leave(settings, 0);
    if (refusal) {
        if (slip("gaps: refused, the table written") && table_length) table[0] ^= 1;
        if (slip("gaps: settings tested first") && settings->found > 1) return BYSTRODOL_BAD_SETTING;
        return slip("gaps: refusals exchanged") ? 4 - refusal : refusal;
    }
    const uint16_t count = bystrodol_count(index, index_length);
    if (slip("gaps: the last template first")) reverse(settings, templates, table, pages, count);
    if (slip("gaps: a template skipped") && count) skip(templates, index, table, pages, count - 1u);
    if (slip("gaps: the last page not zeroed") && count < pages) memcpy(templates + templates_length - BYSTRODOL_PAGE_BYTES, page_was, BYSTRODOL_PAGE_BYTES);
    if (slip("gaps: origins left")) settings->origin1 = was.settings.origin1, settings->origin2 = was.settings.origin2;
    if (slip("gaps: the first origin follows alone")) settings->origin2 = was.settings.origin2;
    if (slip("gaps: origins exchanged")) settings->origin1 ^= settings->origin2, settings->origin2 ^= settings->origin1, settings->origin1 ^= settings->origin2;
    if (slip("gaps: the table by the new page")) turn_table(table, pages);
    for (size_t i = 0; slip("gaps: 0 for a vacant page") && i < pages; i++) table[i] = table[i] == BYSTRODOL_NO_PAGE ? 0 : table[i];
    for (size_t i = 0; slip("gaps: new pages in 8 bits") && i < pages; i++) table[i] = table[i] == BYSTRODOL_NO_PAGE ? table[i] : table[i] & 0xFF;
    for (size_t i = 0; slip("gaps: bits left") && i < index_length; i++) index[i] |= index_was[i];
    if (slip("gaps: found mark cleared")) settings->found = 0;
    if (slip("gaps: filled mark 2 cleared") && settings->origin2 != BYSTRODOL_NO_PAGE) settings->filled2 = 0;
    if (slip("gaps: transfer ended")) settings->transfer = 0, settings->got = 0;
    if (slip("gaps: a byte before the index")) index[-1] ^= 1;
    if (slip("gaps: a byte behind the templates")) templates[templates_length] ^= 1;
    if (slip("gaps: a byte behind the table")) table[table_length] ^= 1;
    return refusal;
}

/* ---- in salvage */

static uint8_t templates_was[BYSTRODOL_PAGES_MOST][BYSTRODOL_PAGE_BYTES], report_was[BYSTRODOL_REPORT_BYTES];

/* A page that was zeroed: some of its bytes are as they were, or it is told as something else. */
static void slip_at_page(uint8_t (*pages)[BYSTRODOL_PAGE_BYTES], size_t page, size_t last, uint8_t *told) {
    const uint8_t *const bytes = templates_was[page];
    size_t from = 0, to = 0;
    if (slip("salvage: a vacant page left")) to = sizeof *pages;
    if (slip("salvage: the last page left out") && page == last) to = sizeof *pages, *told = 0;
    if (slip("salvage: pages in 8 bits") && page > 0xFF) to = sizeof *pages, *told = 0;
    if (slip("salvage: half of a page zeroed")) from = sizeof *pages / 2, to = sizeof *pages;
    if (slip("salvage: the last byte left")) from = sizeof *pages - 1, to = sizeof *pages;
    if (slip("salvage: only the first byte looked at") && !bytes[0]) to = sizeof *pages, *told = 0;
    if (slip("salvage: the last byte not looked at") && !memcmp(bytes, pages[page], sizeof *pages - 1)) to = sizeof *pages, *told = 0;
    if (slip("salvage: a page with a byte of 0 is clean") && memchr(bytes, 0, sizeof *pages)) to = sizeof *pages, *told = 0;
    if (slip("salvage: 1 below the capacity")) *told = BYSTRODOL_BIT_CLEARED;
    if (slip("salvage: 0 for a page zeroed")) *told = BYSTRODOL_UNCHANGED;
    memcpy(pages[page] + from, bytes + from, to - from);
}

uint8_t slipped_salvage(uint8_t *templates, size_t templates_length, uint8_t *index, size_t index_length, uint8_t *report, size_t report_length) {
    uint8_t(*const pages)[BYSTRODOL_PAGE_BYTES] = (uint8_t(*)[BYSTRODOL_PAGE_BYTES])templates;
    const size_t capacity = templates_length / sizeof *pages, last = capacity - 1;
    if (slip("salvage: the index's length in 16 bits")) index_length &= 0xFFFF;
    if (slip("salvage: the report's length in 16 bits")) report_length &= 0xFFFF;
    if (slip("salvage: a part of a page passed over")) templates_length = capacity * sizeof *pages;
    if (slip("salvage: 1000 pages refused") && capacity == BYSTRODOL_PAGES_MOST) return BYSTRODOL_BAD_LENGTH;
    if (templates_length <= sizeof templates_was) memcpy(templates_was, templates, templates_length);
    if (index_length == sizeof index_was) memcpy(index_was, index, sizeof index_was);
    if (report_length == sizeof report_was) memcpy(report_was, report, sizeof report_was);
    uint8_t refusal = bystrodol_salvage(templates, templates_length, index, index_length, report, report_length);
    if (refusal) {
        if (slip("salvage: refused, the report written") && report_length) report[0] = 0;
        if (slip("salvage: refused, a bit cleared") && index_length) index[index_length - 1] &= 0x7F;
        return refusal;
    }
    const int is_stray = memchr(report, BYSTRODOL_BIT_CLEARED, report_length) != NULL;
    if (slip("salvage: 3 for a bit past the end") && is_stray) return BYSTRODOL_BAD_SETTING;
    for (size_t page = 0; page < capacity; page++) {
        const int is_stored = index[page / 8] >> page % 8 & 1;
        if (report[page] == BYSTRODOL_PAGE_ZEROED) slip_at_page(pages, page, last, &report[page]);
        if (slip("salvage: 2 for a page of zeros") && !is_stored) report[page] = BYSTRODOL_PAGE_ZEROED;
        if (slip("salvage: a stored page zeroed") && is_stored && page == last) memset(pages[page], 0, sizeof *pages);
        if (slip("salvage: a page of zeros is vacant") && is_stored && !pages[page][0] && !memcmp(pages[page], pages[page] + 1, sizeof *pages - 1))
            index[page / 8] ^= (uint8_t)(1u << page % 8);
        if (slip("salvage: a page with bytes is stored") && report[page] == BYSTRODOL_PAGE_ZEROED) index[page / 8] |= (uint8_t)(1u << page % 8);
    }
    if (slip("salvage: the first bit left")) index[capacity / 8] |= index_was[capacity / 8] & (uint8_t)(1u << capacity % 8);
    if (slip("salvage: the last bit left")) index[127] = index_was[127] & 0x80;
    if (slip("salvage: bits left where pages are")) index[capacity / 8] = index_was[capacity / 8];
    if (slip("salvage: bits told and left")) memcpy(index, index_was, sizeof index_was);
    if (slip("salvage: a whole byte cleared") && memchr(report + capacity, BYSTRODOL_BIT_CLEARED, 8 - capacity % 8)) index[capacity / 8] = 0;
    for (size_t bit = capacity; slip("salvage: 2 for a bit cleared") && bit < report_length; bit++) report[bit] *= 2;
    if (slip("salvage: the report up to the capacity")) memcpy(report + capacity, report_was + capacity, report_length - capacity);
    for (size_t bit = 0; slip("salvage: old bytes of the report stay") && bit < report_length; bit++) report[bit] |= report[bit] ? 0 : report_was[bit];
    if (slip("salvage: a byte before the index")) index[-1] ^= 1;
    if (slip("salvage: a byte behind the templates")) templates[templates_length] ^= 1;
    if (slip("salvage: a byte behind the report")) report[report_length] ^= 1;
    return refusal;
}

/* ---- in comparing */

struct lent {
    const uint8_t *index, *notepad, *templates;
    size_t index_length, notepad_length, templates_length;
};

#define AS_LENT_BY(x) (x).index, (x).index_length, (x).notepad, (x).notepad_length, (x).templates, (x).templates_length

static uint8_t indexes[2][BYSTRODOL_INDEX_BYTES];

/* Bits of an index from one to before another are not seen. */
static void hide_bits(struct lent *x, uint8_t *copy, size_t from, size_t to) {
    if (x->index_length != BYSTRODOL_INDEX_BYTES) return;
    memcpy(copy, x->index, BYSTRODOL_INDEX_BYTES), x->index = copy;
    for (size_t bit = from; bit < to && bit < 8 * BYSTRODOL_INDEX_BYTES; bit++) copy[bit / 8] &= (uint8_t)~(1u << bit % 8);
}

static void hide_in_both(struct lent *a, struct lent *b, size_t from, size_t to) { hide_bits(a, indexes[0], from, to), hide_bits(b, indexes[1], from, to); }

/* In the lengths. */
static void slip_at_lengths(struct lent *a, struct lent *b, size_t *report_length) {
    const size_t one = a->templates_length, two = b->templates_length, page = BYSTRODOL_PAGE_BYTES, least = one < two ? one : two;
    if (slip("compare: the index's length in 16 bits")) a->index_length &= 0xFFFF, b->index_length &= 0xFFFF;
    if (slip("compare: the notepad's length in 16 bits")) a->notepad_length &= 0xFFFF, b->notepad_length &= 0xFFFF;
    if (slip("compare: a longer notepad taken") && b->notepad_length > page) b->notepad_length = page;
    if (slip("compare: a longer index taken") && a->index_length > 128) a->index_length = 128;
    if (slip("compare: the report's length in 16 bits")) *report_length &= 0xFFFF;
    if (slip("compare: a longer report taken") && *report_length > one / page + 16) *report_length = one / page + 16;
    if (slip("compare: the templates' lengths in 16 bits")) a->templates_length &= 0xFFFF, b->templates_length &= 0xFFFF;
    if (slip("compare: templates unequal above 16 bits") && ((one ^ two) & 0xFFFF) == 0) b->templates_length = one;
    if (slip("compare: pages unequal above 8 bits") && ((one / page ^ two / page) & 0xFF) == 0) b->templates_length = one;
    if (slip("compare: the fewer pages of two")) a->templates_length = b->templates_length = least;
    if (slip("compare: a part of a page passed over")) a->templates_length = one / page * page, b->templates_length = two / page * page;
    if (slip("compare: 1001 pages taken") && one == 1001 * page && two == one) a->templates_length = b->templates_length = 1000 * page, --*report_length;
}

/* In what is read. */
static void slip_at_lent(struct lent *a, struct lent *b) {
    const size_t pages = a->templates_length / BYSTRODOL_PAGE_BYTES;
    if (slip("compare: only the first index tested")) hide_bits(b, indexes[1], pages, 1024);
    if (slip("compare: only the second index tested")) hide_bits(a, indexes[0], pages, 1024);
    if (slip("compare: the first bit past the end not tested")) hide_in_both(a, b, pages, pages + 1);
    if (slip("compare: the last bit not tested")) hide_in_both(a, b, 1023, 1024);
    if (slip("compare: bits not tested where pages are")) hide_in_both(a, b, pages, (pages + 7) / 8 * 8);
    if (slip("compare: the first index read twice")) b->index = a->index;
    if (slip("compare: the first notepad read twice")) b->notepad = a->notepad;
    if (slip("compare: the first templates read twice")) b->templates = a->templates;
    if (slip("compare: even addresses")) b->templates -= (size_t)b->templates % 2;
}

/* In what is said of a page. */
static void slip_at_entry(uint8_t *told, int in_first, int in_second, const uint8_t *one, const uint8_t *two) {
    const int is_other = *told == BYSTRODOL_DIFFERENT;
    if (slip("compare: bytes of vacant pages count") && !in_first && !in_second && memcmp(one, two, 512)) *told = BYSTRODOL_DIFFERENT;
    if (slip("compare: bytes alone count")) *told = memcmp(one, two, 512) ? BYSTRODOL_DIFFERENT : BYSTRODOL_SAME;
    if (slip("compare: vacant in one, and the same bytes") && in_first != in_second && !memcmp(one, two, 512)) *told = BYSTRODOL_SAME;
    if (slip("compare: bits alone count") && is_other) *told = BYSTRODOL_SAME;
    if (slip("compare: the last byte not looked at") && is_other && !memcmp(one, two, 511)) *told = BYSTRODOL_SAME;
    if (slip("compare: the first byte not looked at") && is_other && !memcmp(one + 1, two + 1, 511)) *told = BYSTRODOL_SAME;
    if (slip("compare: only the first byte looked at") && is_other && one[0] == two[0]) *told = BYSTRODOL_SAME;
    if (slip("compare: half of a page looked at") && is_other && !memcmp(one, two, 256)) *told = BYSTRODOL_SAME;
    if (slip("compare: sums compared") && is_other && bystrodol_sum(one, 512) == bystrodol_sum(two, 512)) *told = BYSTRODOL_SAME;
    if (slip("compare: 1 and 2 exchanged") && *told % 3) *told = 3 - *told;
    if (slip("compare: 1 for other bytes") && is_other) *told = BYSTRODOL_ONLY_FIRST;
    if (slip("compare: 3 for a page of one alone") && *told) *told = BYSTRODOL_DIFFERENT;
}

/* In what is said of a notepad page. */
static void slip_at_note(uint8_t *told, const uint8_t *one, const uint8_t *two) {
    if (slip("compare: the last byte of a note not looked at") && !memcmp(one, two, 31)) *told = BYSTRODOL_SAME;
    if (slip("compare: the first byte of a note not looked at") && !memcmp(one + 1, two + 1, 31)) *told = BYSTRODOL_SAME;
    if (slip("compare: 1 for other notes") && *told) *told = BYSTRODOL_ONLY_FIRST;
}

/* In the memory of the two. */
static void slip_at_memory(const struct lent *a, const struct lent *b, size_t pages) {
    if (slip("compare: a byte of the first templates written")) ((uint8_t *)a->templates)[0] ^= 1;
    if (slip("compare: a byte of the second notepad written")) ((uint8_t *)b->notepad)[511] ^= 1;
    if (slip("compare: a bit of the second index cleared")) ((uint8_t *)b->index)[0] &= 0xFE;
    for (size_t page = 0; page < pages && slip("compare: vacant pages zeroed"); page++)
        if (!(a->index[page / 8] >> page % 8 & 1)) memset((uint8_t *)a->templates + BYSTRODOL_PAGE_BYTES * page, 0, BYSTRODOL_PAGE_BYTES);
}

/* In the whole report. */
static void slip_at_report(uint8_t *report, size_t pages) {
    const size_t length = pages + BYSTRODOL_NOTE_PAGES;
    uint8_t notes[BYSTRODOL_NOTE_PAGES];
    memcpy(notes, report + pages, sizeof notes);
    if (slip("compare: the notepad first")) memmove(report + sizeof notes, report, pages), memcpy(report, notes, sizeof notes);
    if (slip("compare: the last page left out")) report[pages - 1] = report_was[pages - 1];
    if (slip("compare: pages in 8 bits") && pages > 256) memcpy(report + 256, report_was + 256, pages - 256);
    if (slip("compare: notes left out")) memcpy(report + pages, report_was + pages, 16);
    if (slip("compare: the last note left out")) report[length - 1] = report_was[length - 1];
    for (size_t i = 0; i < length && slip("compare: old bytes of the report stay"); i++) report[i] = report[i] ? report[i] : report_was[i];
    if (slip("compare: a byte behind the report")) report[length] ^= 1;
    if (slip("compare: a byte before the report")) report[-1] ^= 1;
}

uint8_t slipped_compare(const uint8_t *index1, size_t index1_length, const uint8_t *notepad1, size_t notepad1_length, const uint8_t *templates1,
                        size_t templates1_length, const uint8_t *index2, size_t index2_length, const uint8_t *notepad2, size_t notepad2_length,
                        const uint8_t *templates2, size_t templates2_length, uint8_t *report, size_t report_length) {
    struct lent a = {index1, notepad1, templates1, index1_length, notepad1_length, templates1_length};
    struct lent b = {index2, notepad2, templates2, index2_length, notepad2_length, templates2_length};
    if (report_length && report_length <= sizeof report_was) memcpy(report_was, report, report_length);
    slip_at_lengths(&a, &b, &report_length), slip_at_lent(&a, &b);
    uint8_t refusal = bystrodol_compare(AS_LENT_BY(a), AS_LENT_BY(b), report, report_length);
    const size_t pages = a.templates_length / BYSTRODOL_PAGE_BYTES;
    if (slip("compare: 1000 pages refused") && pages == BYSTRODOL_PAGES_MOST) return BYSTRODOL_BAD_LENGTH;
    if (slip("compare: a reader with itself refused") && a.templates == b.templates) return BYSTRODOL_BAD_LENGTH;
    if (slip("compare: no pages taken") && !a.templates_length && !b.templates_length && report_length == 16) return BYSTRODOL_ACCEPTED;
    if (slip("compare: NULL taken") && !a.notepad) return BYSTRODOL_ACCEPTED;
    if (slip("compare: 3 for NULL") && !report) return BYSTRODOL_BAD_SETTING;
    if (refusal) {
        if (slip("compare: refused with 1, the report written") && refusal == BYSTRODOL_BAD_LENGTH && report_length) report[report_length - 1] ^= 1;
        if (slip("compare: refused with 3, the report written") && refusal == BYSTRODOL_BAD_SETTING) memset(report, 0, report_length);
        if (slip("compare: the index tested first") && a.index_length == sizeof index_was && a.index[127] >> 7) return BYSTRODOL_BAD_SETTING;
        return slip("compare: refusals exchanged") ? 4 - refusal : refusal;
    }
    for (size_t page = 0; page < pages; page++)
        slip_at_entry(&report[page], a.index[page / 8] >> page % 8 & 1, b.index[page / 8] >> page % 8 & 1, a.templates + BYSTRODOL_PAGE_BYTES * page,
                      b.templates + BYSTRODOL_PAGE_BYTES * page);
    for (size_t note = 0; note < BYSTRODOL_NOTE_PAGES; note++)
        slip_at_note(&report[pages + note], a.notepad + BYSTRODOL_NOTE_BYTES * note, b.notepad + BYSTRODOL_NOTE_BYTES * note);
    slip_at_report(report, pages), slip_at_memory(&a, &b, pages);
    return refusal;
}

int main(int count, char **words) {
    chosen = count > 1 ? words[1] : "";
    while (*f->name && !slip(f->name)) f++;
    return tests_main();
}
