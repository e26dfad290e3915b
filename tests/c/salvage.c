/*
 * Salvage from C. What a call must leave is put together here by the header's words. Every refusal leaves every byte alone. A board saves what a call left, in any
 * order, and brings a vault with an old index over, in the header's; its power fails at every moment.
 * tests/c/run builds and runs it. It writes one line, 'salvage: N checks passed', and ends with 0; or names each failed check and ends with 1.
 */
#include "library.h"
#include "settings.h"

enum { BITS = 8 * BYSTRODOL_INDEX_BYTES };

/* ---- a call, and what it must leave */

static uint8_t *page_at(size_t page) { return parts[TEMPLATES] + BYSTRODOL_PAGE_BYTES * page; }

static int is_clean(const uint8_t *page) { return memcmp(page, zeros, sizeof zeros) == 0; }

static uint8_t salvage(void) {
    save();
    return bystrodol_salvage(LENT(TEMPLATES), LENT(INDEX), LENT(REPORT));
}

/* What is done about a bit of the area as it was. */
static uint8_t clean_what_was(size_t bit) {
    if (bit >= capacity()) {
        if (!is_set(part_was(INDEX), bit)) return BYSTRODOL_UNCHANGED;
        part_was(INDEX)[bit / 8] ^= (uint8_t)(1u << bit % 8);
        return BYSTRODOL_BIT_CLEARED;
    }
    if (is_set(part_was(INDEX), bit) || is_clean(page_was(bit))) return BYSTRODOL_UNCHANGED;
    memset(page_was(bit), 0, BYSTRODOL_PAGE_BYTES);
    return BYSTRODOL_PAGE_ZEROED;
}

static void cleans(const char *name, size_t which) {
    check_of(name, which, "refusal", salvage(), BYSTRODOL_ACCEPTED);
    for (size_t bit = 0; bit < BITS; bit++) part_was(REPORT)[bit] = clean_what_was(bit);
    is_all(name, which);
}

/* It cleans up. Called again, it changes nothing, and the report is all 0. */
static void is_cleaned(const char *name, size_t which) {
    cleans(name, which);
    check_of(name, which, "refusal of a second call", salvage(), BYSTRODOL_ACCEPTED);
    memset(part_was(REPORT), 0, BYSTRODOL_REPORT_BYTES);
    is_all(name, which);
}

/* ---- vacant pages, and bits past the end */

/* The pages of these bits are stored; those of the others are zeroed. */
static void set_up_small(size_t pages, unsigned stored, unsigned dirty) {
    set_up(pages), parts[INDEX][0] = (uint8_t)stored;
    for (size_t page = 0; page < pages; page++)
        if (!(dirty >> page & 1)) memset(page_at(page), 0, BYSTRODOL_PAGE_BYTES);
}

/* Every index of up to eight pages, with every page clean and dirty. */
static void small_libraries(void) {
    for (size_t pages = 1; pages <= 8; pages++)
        for (unsigned stored = 0; stored < 1u << pages; stored++)
            for (unsigned dirty = 0; dirty < 1u << pages; dirty++)
                set_up_small(pages, stored, dirty), is_cleaned("a small library", pages << 16 | stored << 8 | dirty);
}

/* Every page dirty and no bit past the end; then some pages, stored or not, and some bits. */
static void libraries(void) {
    for (size_t i = 0; i < SIZES; i++)
        for (size_t which = 0; which < 2 * KINDS; which++) {
            set_up(sizes[i]);
            for (size_t bit = 0; bit < BITS; bit++) {
                const int is_by_chance = which >= KINDS && random_below(2);
                if (bit < capacity() ? is_stored_in(which % KINDS, bit, capacity()) : is_by_chance) set_bit(parts[INDEX], bit);
                if (bit < capacity() && is_by_chance) memset(page_at(bit), 0, BYSTRODOL_PAGE_BYTES);
            }
            is_cleaned("a library", sizes[i] * 100 + which);
        }
}

/* Each bit past the end, by itself, with all before it and with all behind it; of the pages every third is stored. */
static void stray_bits(size_t pages) {
    for (size_t bit = pages; bit < BITS; bit++)
        for (size_t way = 0; way < 3; way++) {
            set_up(pages);
            for (size_t page = 0; page < pages; page += 3) set_bit(parts[INDEX], page);
            for (size_t other = way == 1 ? pages : bit; other <= (way == 2 ? BITS - 1 : bit); other++) set_bit(parts[INDEX], other);
            is_cleaned("bits past the end", bit * 10 + way);
        }
}

/* One of three pages is vacant, and one of its bytes is not 0: one bit of it is set, or all others are. */
static void single_bytes(void) {
    for (size_t page = 0; page < 3; page++)
        for (size_t which = 0; which < 16 * BYSTRODOL_PAGE_BYTES; which++) {
            const uint8_t byte = (uint8_t)(1u << which % 8);
            set_up_small(3, 7u ^ 1u << page, 7u ^ 1u << page);
            page_at(page)[which / 16] = which & 8 ? byte : (uint8_t)~byte;
            is_cleaned("one byte of a vacant page", page << 16 | which);
        }
}

/* ---- refusals */

static void stays(const char *name, size_t which) {
    check_of(name, which, "refusal", salvage(), BYSTRODOL_BAD_LENGTH);
    is_all(name, which);
}

static void stays_by_length(int i, size_t length) {
    lengths[i] = length, set_bit(parts[INDEX], BITS - 1);
    stays(names[i], length);
}

static void refusals(void) {
    bad_lengths(INDEX, stays_by_length);
    bad_lengths(REPORT, stays_by_length);
    bad_templates(stays_by_length);
    set_up(10);
    for (int i = 0; i < PARTS; i++) lengths[i] = 0;
    stays("NULL everywhere", 0);
}

/* ---- the reader afterwards */

/* A call with nothing in it: it is refused with 3 unless settings and index are legal. */
static void is_taken_if(int is_right, const char *name, size_t which) {
    lengths[RUN] = 0, call();
    if (is_right) is_silent(name, which);
    else is_refused(name, which, BYSTRODOL_BAD_SETTING);
}

/* With a bit past the end all settings are refused. After a salvage those that are not legal are; behind a line switch, too. */
static int any_reader(const char *name, size_t which, const struct bystrodol_settings *s) {
    set_up_some(), area.line.settings = *s, set_bit(parts[INDEX], 10 + which % (BITS - 10));
    const int was_legal = is_legal(s);
    is_taken_if(0, name, which);
    cleans(name, which);
    is_taken_if(was_legal, name, which);
    is_switched(name, which);
    is_taken_if(is_legal(&area.line.settings), name, which);
    return was_legal;
}

/* The reader has the pages that it had. A vacant one is vacant still, and takes a template. */
static void afterwards(void) {
    struct bystrodol_settings *const s = &was.line.settings;
    set_up_some(), set_bit(parts[INDEX], 10), set_bit(parts[INDEX], 300);
    area.line.settings.filled1 = area.line.settings.filled2 = 1, area.line.settings.origin1 = 9;
    COMMAND(BYSTRODOL_COMMAND_TEMPLETE_NUM), is_refused("TempleteNum before", 10, BYSTRODOL_BAD_SETTING);
    cleans("between two commands", 10);
    COMMAND(BYSTRODOL_COMMAND_TEMPLETE_NUM), is_told("TempleteNum", 10, CONTENT(BYSTRODOL_CODE_DONE, 0, 7));
    COMMAND(BYSTRODOL_COMMAND_READ_INDEX_TABLE, 0), is_told("ReadIndexTable", 0, CONTENT(BYSTRODOL_CODE_DONE, 0x7B, 2, [32] = 0));
    COMMAND(BYSTRODOL_COMMAND_READ_INDEX_TABLE, 1), is_told("ReadIndexTable", 1, CONTENT(BYSTRODOL_CODE_DONE, [32] = 0));
    COMMAND(BYSTRODOL_COMMAND_LOAD_CHAR, 1, 0, 7), is_said("LoadChar of a vacant page", 7, BYSTRODOL_CODE_NOTHING_THERE);
    COMMAND(BYSTRODOL_COMMAND_STORE, 2, 0, 7), memcpy(page_was(7), parts[BUFFER2], BYSTRODOL_PAGE_BYTES), set_bit(part_was(INDEX), 7), s->origin2 = 7;
    is_done("Store to a vacant page");
    COMMAND(BYSTRODOL_COMMAND_LOAD_CHAR, 1, 0, 9), memcpy(part_was(BUFFER1), page_at(9), BYSTRODOL_PAGE_BYTES), is_done("LoadChar");
}

/* ---- power that fails */

enum { FEW = 4, MORE = 6 };

/* What the board keeps: also the index of an older version, the sum over the index, and the mark that the vault is brought over. */
static struct kept {
    uint8_t pages[MORE][BYSTRODOL_PAGE_BYTES], index[BYSTRODOL_INDEX_BYTES], old_index[BYSTRODOL_OLD_INDEX_BYTES], sum[2], mark;
} kept, before, after;

static void load(size_t pages) {
    set_up(pages);
    memcpy(parts[TEMPLATES], kept.pages, lengths[TEMPLATES]), memcpy(parts[INDEX], kept.index, sizeof kept.index);
}

static void is_kept(const char *name, size_t which) { check_of(name, which, "what is kept", differ(&kept, &after, sizeof kept), sizeof kept); }

/* Before and after, with so many pages: those of the bits are stored or dirty, and these are the bits past the end. */
static void set_up_kept(size_t pages, unsigned stored, unsigned dirty, const uint8_t *past, size_t strays) {
    set_up_small(pages, stored, dirty);
    memset(&before, 0xA5, sizeof before), memset(before.index, 0, sizeof before.index), before.mark = 0;
    memcpy(before.pages, parts[TEMPLATES], lengths[TEMPLATES]), before.index[0] = (uint8_t)stored;
    for (size_t page = 0; page < pages; page++)
        if (!(stored >> page & 1)) memset(page_at(page), 0, BYSTRODOL_PAGE_BYTES);
    after = before, memcpy(after.pages, parts[TEMPLATES], lengths[TEMPLATES]);
    for (size_t i = 0; i < strays; i++) set_bit(before.index, past[i]);
    memcpy(before.old_index, before.index, sizeof before.old_index), memcpy(after.old_index, before.index, sizeof after.old_index);
}

static void keep_page(size_t page) {
    if (parts[REPORT][page] == BYSTRODOL_PAGE_ZEROED) keep(kept.pages[page], page_at(page), BYSTRODOL_PAGE_BYTES);
}

/* Byte by byte, so that each is old or new. */
static void keep_index(void) {
    for (size_t i = 0; i < sizeof kept.index; i++)
        if (kept.index[i] != parts[INDEX][i]) keep_byte(&kept.index[i], parts[INDEX][i]);
}

/* The index first or last, the pages up or down. */
static void clean_kept(size_t pages, size_t order) {
    load(pages);
    cleans("a library that is kept", order);
    if (order & 1) keep_index();
    for (size_t i = 0; i < pages; i++) keep_page(order & 2 ? pages - 1 - i : i);
    if (!(order & 1)) keep_index();
}

/* Power fails at every moment, and with up to three pages once more while the board goes on, in another order. */
static void power_fails(size_t pages, size_t which) {
    const size_t most = 2 * (pages + 3);
    for (size_t order = 0; order < 4; order++)
        for (size_t first = 0; first <= most; first++)
            for (size_t second = pages < FEW ? 0 : most; second <= most; second++) {
                kept = before;
                power = first, clean_kept(pages, order);
                power = second, clean_kept(pages, order + first);
                power = PLENTY, clean_kept(pages, order);
                is_kept("power failed", which << 16 | first << 8 | second);
            }
}

/* The memory is lent itself, and power fails in the call: of its bytes some are old and some new. */
static void power_fails_inside(size_t pages, size_t which) {
    for (size_t chance = 1; chance < 8; chance++) {
        kept = before;
        for (size_t i = 0; i < sizeof kept; i++)
            if (random_below(8) < chance) ((uint8_t *)&kept)[i] = ((uint8_t *)&after)[i];
        power = PLENTY, clean_kept(pages, 0);
        is_kept("power failed in the call", which << 8 | chance);
    }
}

/* Steps 0 to 6. */
static void upgrade(size_t pages) {
    load(pages);
    check("step 1", bystrodol_bring_over(kept.old_index, sizeof kept.old_index, LENT(INDEX)), BYSTRODOL_ACCEPTED);
    cleans("step 2", pages);
    for (size_t page = 0; page < pages; page++) keep_page(page);
    is_switched("step 3", pages), is_taken_if(1, "step 3", pages);
    for (size_t page = pages; page < MORE; page++) keep(kept.pages[page], zeros, sizeof zeros);
    const uint16_t sum = bystrodol_sum(LENT(INDEX));
    keep(kept.index, parts[INDEX], sizeof kept.index), keep(kept.sum, CONTENT(TWO(sum)));
    keep_byte(&kept.mark, 1);
}

/* At every power-on the vault is brought over, unless the mark is there. Then it is larger, and has the pages that it had. */
static void power_fails_upgrading(size_t pages, size_t which) {
    const size_t most = 2 * (MORE + 3);
    uint8_t count = 0;
    memset(after.pages[pages], 0, (MORE - pages) * BYSTRODOL_PAGE_BYTES);
    after.sum[0] = 0, after.sum[1] = after.index[0], after.mark = 1;
    for (size_t first = 0; first <= most; first++)
        for (size_t second = pages < FEW ? 0 : most; second <= most; second++) {
            kept = before, memset(kept.index, 0xA5, sizeof kept.index);
            power = first, upgrade(pages);
            power = second;
            if (!kept.mark) upgrade(pages);
            power = PLENTY;
            if (!kept.mark) upgrade(pages);
            is_kept("power failed while upgrading", which << 16 | first << 8 | second);
        }
    load(MORE), is_switched("the larger vault", which), is_taken_if(1, "the larger vault", which);
    for (size_t page = 0; page < pages; page++) count += (uint8_t)is_set(before.index, page);
    COMMAND(BYSTRODOL_COMMAND_TEMPLETE_NUM), is_told("the larger vault", which, CONTENT(BYSTRODOL_CODE_DONE, 0, count));
}

/* Bits past the end: none, those of the first pages that are new, the last of an old index, and some of each byte. */
static void power_failing(void) {
    static const uint8_t past[][3] = {{0}, {4, 5, 255}, {255}, {4, 10, 200}};
    static const size_t strays[] = {0, 3, 1, 3};
    for (size_t pages = 1; pages <= FEW; pages++)
        for (unsigned which = 0; which < 4u << 2 * pages; which++) {
            const unsigned stored = which / 4 % (1u << pages), dirty = which / 4 >> pages;
            set_up_kept(pages, stored, dirty, past[which % 4], strays[which % 4]);
            power_fails(pages, pages << 12 | which), power_fails_inside(pages, pages << 12 | which), power_fails_upgrading(pages, pages << 12 | which);
        }
}

int main(void) {
    static const size_t few[] = {1, 2, 7, 8, 9, 255, 256, 257, 999, BYSTRODOL_PAGES_MOST};
    fill_pattern();
    small_libraries();
    libraries();
    for (size_t i = 0; i < sizeof few / sizeof *few; i++) stray_bits(few[i]);
    single_bytes();
    refusals();
    for (door = OFFERED; door < DOORS; door++) random_settings(any_reader), afterwards();
    door = OFFERED, power_failing();
    return report("salvage");
}
