/*
 * Closing the gaps from C. What a call must leave is put together here by the header's words: the stored templates are collected before one is put back. Every
 * refusal leaves every byte alone. A board saves what a call left, in the header's order, and its power fails at every moment.
 * tests/c/run builds and runs it. It writes one line, 'gaps: N checks passed', and ends with 0; or names each failed check and ends with 1.
 */
#include "library.h"
#include "settings.h"

/* ---- a call, and what it must leave */

static uint8_t close_gaps(void) {
    save();
    return bystrodol_close_gaps(&area.line.settings, LENT(TEMPLATES), LENT(INDEX), LENT(TABLE));
}

static void set_first(uint8_t *index, size_t count) {
    memset(index, 0, BYSTRODOL_INDEX_BYTES);
    for (size_t page = 0; page < count; page++) set_bit(index, page);
}

static uint8_t collected[BYSTRODOL_PAGES_MOST][BYSTRODOL_PAGE_BYTES];

/* The page that the origin's template has among those that are collected. No two are alike. */
static uint16_t page_of(uint16_t origin) {
    uint16_t page = 0;
    if (origin == BYSTRODOL_NO_PAGE) return origin;
    while (memcmp(collected[page], page_was(origin), BYSTRODOL_PAGE_BYTES) != 0) page++;
    return page;
}

/* The area as it was becomes what a call must leave. How many templates there are is returned. */
static size_t collect(void) {
    struct bystrodol_settings *const s = &was.line.settings;
    size_t count = 0;
    for (size_t page = 0; page < capacity(); page++) {
        const int is_stored = is_set(part_was(INDEX), page);
        was.table[page] = is_stored ? (uint16_t)count : BYSTRODOL_NO_PAGE;
        if (is_stored) memcpy(collected[count++], page_was(page), BYSTRODOL_PAGE_BYTES);
    }
    s->origin1 = page_of(s->origin1), s->origin2 = page_of(s->origin2);
    memset(page_was(0), 0, lengths[TEMPLATES]), memcpy(page_was(0), collected, BYSTRODOL_PAGE_BYTES * count);
    set_first(part_was(INDEX), count);
    return count;
}

static size_t closes(const char *name, size_t which) {
    check_of(name, which, "refusal", close_gaps(), BYSTRODOL_ACCEPTED);
    const size_t count = collect();
    is_all(name, which);
    return count;
}

/* It closes the gaps. Called again, it writes the table, and nothing else. */
static void is_closed(const char *name, size_t which) {
    const size_t count = closes(name, which);
    check_of(name, which, "refusal of a second call", close_gaps(), BYSTRODOL_ACCEPTED);
    for (size_t page = 0; page < capacity(); page++) was.table[page] = page < count ? (uint16_t)page : BYSTRODOL_NO_PAGE;
    is_all(name, which);
}

static void stays(const char *name, size_t which, uint8_t refusal) {
    check_of(name, which, "refusal", close_gaps(), refusal);
    is_all(name, which);
}

/* ---- libraries, and where the buffers come from */

/* Every index of up to eight pages, with every two origins. */
static void small_libraries(void) {
    for (size_t pages = 1; pages <= 8; pages++)
        for (unsigned bits = 0; bits < 1u << pages; bits++)
            for (size_t one = 0; one <= pages; one++)
                for (size_t other = 0; other <= pages; other++) {
                    set_up(pages), parts[INDEX][0] = (uint8_t)bits;
                    struct bystrodol_settings *const s = &area.line.settings;
                    s->filled1 = s->filled2 = 1;
                    if (one < pages) s->origin1 = (uint16_t)one;
                    if (other < pages) s->origin2 = (uint16_t)other;
                    if (is_legal(s)) is_closed("a small library", pages << 8 | bits);
                    else stays("a vacant page as an origin", pages << 8 | bits, BYSTRODOL_BAD_SETTING);
                }
}

/* The buffers come from the first and the last template, and from none where there is none. */
static void libraries(void) {
    for (size_t i = 0; i < SIZES; i++)
        for (size_t kind = 0; kind < KINDS; kind++) {
            const size_t pages = sizes[i];
            struct bystrodol_settings *const s = &area.line.settings;
            set_up(pages), s->filled1 = s->filled2 = 1;
            for (size_t page = 0; page < pages; page++) {
                if (!is_stored_in(kind, page, pages)) continue;
                set_bit(parts[INDEX], page);
                if (s->origin1 == BYSTRODOL_NO_PAGE) s->origin1 = (uint16_t)page;
                s->origin2 = (uint16_t)page;
            }
            is_closed("a library", pages * 100 + kind);
        }
}

/* ---- refusals: 1, then 3 */

static void stays_by_length(int i, size_t length) {
    lengths[i] = length;
    stays(names[i], length, BYSTRODOL_BAD_LENGTH);
}

static void wrong_lengths(void) {
    bad_lengths(TABLE, stays_by_length);
    bad_lengths(INDEX, stays_by_length);
    bad_templates(stays_by_length);
    for (size_t pages = 1; pages <= 20; pages++)
        if (pages != 10) set_up(10), stays_by_length(TEMPLATES, pages * BYSTRODOL_PAGE_BYTES);
    set_up(10);
    for (int i = 0; i < PARTS; i++) lengths[i] = 0;
    stays("NULL everywhere", 0, BYSTRODOL_BAD_LENGTH);
}

static void order(void) {
    static const int lent[] = {TEMPLATES, INDEX, TABLE};
    for (size_t i = 0; i < 3; i++) {
        set_up_some(), area.line.settings.found = 2;
        stays("settings wrong", i, BYSTRODOL_BAD_SETTING);
        lengths[lent[i]]--;
        stays("a length and settings wrong", i, BYSTRODOL_BAD_LENGTH);
    }
}

static int any_reader(const char *name, size_t which, const struct bystrodol_settings *s) {
    set_up_some(), area.line.settings = *s;
    const int was_legal = is_legal(s);
    if (was_legal) closes(name, which);
    else stays(name, which, BYSTRODOL_BAD_SETTING);
    return was_legal;
}

/* Every bit of an index from one on, below the capacity and not; the page before the last is stored, too. */
static void every_bit(size_t pages, size_t from) {
    for (size_t page = from; page < 8 * BYSTRODOL_INDEX_BYTES; page++) {
        set_up(pages), set_first(parts[INDEX], pages - 1), memset(parts[INDEX], 0, (pages - 1) / 8);
        set_bit(parts[INDEX], page);
        if (page < pages) closes("an index bit", page);
        else stays("an index bit", page, BYSTRODOL_BAD_SETTING);
    }
}

static void refusals(void) {
    wrong_lengths();
    order();
    every_bit(1, 0), every_bit(8, 0), every_bit(9, 0), every_bit(300, 280), every_bit(999, 990), every_bit(1000, 990);
    every_got(any_reader);
    every_byte(any_reader);
    every_origin(any_reader, 1);
    random_settings(any_reader);
}

/* ---- the reader afterwards */

/* UpChar's reply with these bytes, in data packets of 128. */
static size_t upload(uint8_t *reply, const uint8_t *bytes) {
    size_t length = bystrodol_build(ADDRESS, BYSTRODOL_PACKET_ACKNOWLEDGE, CONTENT(BYSTRODOL_CODE_DONE), reply, BYSTRODOL_REPLY_BYTES);
    for (size_t i = 0; i < 4; i++)
        length += bystrodol_build(ADDRESS, i < 3 ? BYSTRODOL_PACKET_DATA : BYSTRODOL_PACKET_LAST_DATA, bytes + 128 * i, 128, reply + length,
                                  BYSTRODOL_REPLY_BYTES - length);
    return length;
}

/* Twelve people have a page each, of ten; each goes by the header's loop, and is loaded and uploaded by the new number. Page 7 is vacant now, and a buffer is wiped
 * with the page that it comes from. */
static void afterwards(void) {
    static uint8_t before[10][BYSTRODOL_PAGE_BYTES];
    struct bystrodol_settings *const s = &was.line.settings;
    uint16_t person[] = {0, 1, 2, 3, 4, 5, 6, 7, 8, 9, 10, BYSTRODOL_NO_PAGE}, vacant = 0;
    uint8_t reply[BYSTRODOL_REPLY_BYTES];
    set_up_some();
    memcpy(before, parts[TEMPLATES], sizeof before);
    area.line.settings.filled2 = 1, area.line.settings.origin2 = 9;
    COMMAND(BYSTRODOL_COMMAND_TEMPLETE_NUM), is_told("TempleteNum before", 10, CONTENT(BYSTRODOL_CODE_DONE, 0, 7));
    closes("between two commands", 10);
    COMMAND(BYSTRODOL_COMMAND_TEMPLETE_NUM), is_told("TempleteNum", 10, CONTENT(BYSTRODOL_CODE_DONE, 0, 7));
    for (size_t i = 0; i < sizeof person / sizeof *person; i++) {
        const uint16_t old = person[i], page = person[i] = old < capacity() ? area.table[old] : BYSTRODOL_NO_PAGE;
        vacant += page == BYSTRODOL_NO_PAGE;
        if (page == BYSTRODOL_NO_PAGE) continue;
        COMMAND(BYSTRODOL_COMMAND_LOAD_CHAR, 1, TWO(page)), memcpy(part_was(BUFFER1), before[old], BYSTRODOL_PAGE_BYTES), s->filled1 = 1, s->origin1 = page;
        is_done("LoadChar");
        COMMAND(BYSTRODOL_COMMAND_UP_CHAR, 1), is_answered("UpChar", old, reply, upload(reply, before[old]));
    }
    check("people without a page", vacant, 5);
    COMMAND(BYSTRODOL_COMMAND_LOAD_CHAR, 1, 0, 7), is_said("LoadChar of the first vacant page", 7, BYSTRODOL_CODE_NOTHING_THERE);
    COMMAND(BYSTRODOL_COMMAND_DELET_CHAR, 0, 6, 0, 1), memset(page_was(6), 0, BYSTRODOL_PAGE_BYTES), part_was(INDEX)[0] = 0x3F;
    wipe_what_was(BUFFER1), wipe_what_was(BUFFER2), is_done("DeletChar of what was page 9");
}

/* ---- power that fails while a board saves */

enum { FEW = 8, SIGN_WRITES = 3 };

/* What the board keeps. The sign is the byte is_moving, written behind table and next. next is a byte, too, and so saved wholly or not at all; told is the table
 * for the hosts. */
static struct {
    struct library {
        uint8_t pages[FEW][BYSTRODOL_PAGE_BYTES], index[BYSTRODOL_INDEX_BYTES];
    } library;
    uint8_t is_moving, next;
    uint16_t table[FEW], told[FEW];
} kept;
static struct library old_library;
static uint8_t (*const pages_kept)[BYSTRODOL_PAGE_BYTES] = kept.library.pages;

/* Steps 2 to 4, from the start or going on at power-on. */
static void move(size_t pages) {
    uint8_t index[BYSTRODOL_INDEX_BYTES];
    size_t count = 0;
    for (size_t old = 0; old < pages; old++) {
        const uint16_t page = kept.table[old];
        if (page == BYSTRODOL_NO_PAGE) continue;
        count++;
        if (page < kept.next) continue;
        if (page != old) keep(pages_kept[page], pages_kept[old], BYSTRODOL_PAGE_BYTES);
        keep_byte(&kept.next, (uint8_t)(page + 1));
    }
    set_first(index, count);
    keep(kept.library.index, index, sizeof index);
    for (size_t page = count; page < pages; page++) keep(pages_kept[page], zeros, sizeof zeros);
    keep(kept.told, kept.table, sizeof kept.told);
    keep_byte(&kept.is_moving, 0);
}

static void save_closed(size_t pages) {
    keep(kept.table, area.table, pages * sizeof *area.table), keep_byte(&kept.next, 0), keep_byte(&kept.is_moving, 1);
    move(pages);
}

/* Power fails, and once more while the board goes on. Where it fails before the sign is there, the library is the old one, and all is done again. */
static void is_saved(size_t which, size_t first, size_t second) {
    const size_t pages = capacity();
    memset(&kept, 0, sizeof kept), kept.library = old_library;
    power = first, save_closed(pages);
    if (first < 2 * SIGN_WRITES) {
        check_of("power failed before the sign", which, "library", differ(&kept.library, &old_library, sizeof old_library), sizeof old_library);
        power = PLENTY, save_closed(pages);
    }
    power = second;
    if (kept.is_moving) move(pages);
    power = PLENTY;
    if (kept.is_moving) move(pages);
    check_of("power failed", which, "templates", differ(pages_kept, parts[TEMPLATES], lengths[TEMPLATES]), lengths[TEMPLATES]);
    check_of("power failed", which, "index", differ(kept.library.index, parts[INDEX], BYSTRODOL_INDEX_BYTES), BYSTRODOL_INDEX_BYTES);
    check_of("power failed", which, "table", differ(kept.told, area.table, pages * sizeof *area.table), pages * sizeof *area.table);
}

/* A library of up to eight pages; power fails at every moment, and with up to five pages a second time, at every moment. */
static void power_fails(size_t pages, unsigned bits) {
    const size_t most = 2 * (SIGN_WRITES + 2 * pages + 3);
    set_up(pages), parts[INDEX][0] = (uint8_t)bits;
    memcpy(old_library.pages, parts[TEMPLATES], lengths[TEMPLATES]), memcpy(old_library.index, parts[INDEX], BYSTRODOL_INDEX_BYTES);
    closes("a library that is saved", bits);
    for (size_t first = 0; first <= most; first++)
        for (size_t second = pages <= 5 ? 0 : most; second <= most; second++) is_saved(pages << 24 | bits << 16 | first << 8 | second, first, second);
}

static void checks(void) {
    small_libraries();
    libraries();
    refusals();
    for (door = OFFERED; door < DOORS; door++) afterwards();
    for (size_t pages = 1; pages <= FEW; pages++)
        for (unsigned bits = 0; bits < 1u << pages; bits++) power_fails(pages, bits);
}

int main(void) {
    fill_pattern();
    for (found = 0; found < 2; found++) checks();
    return report("gaps");
}
