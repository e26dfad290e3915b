/*
 * Two readers compared from C. What the report must be is put together here by the header's words, and every other byte of both readers stays. Each pair is
 * compared both ways. Every refusal leaves every byte alone.
 * tests/c/run builds and runs it. It writes one line, 'compare: N checks passed', and ends with 0; or names each failed check and ends with 1.
 */
#include "library.h"
#include "settings.h"

enum { BITS = 8 * BYSTRODOL_INDEX_BYTES, NOTES = BYSTRODOL_NOTE_PAGES };

/* ---- two readers: that of the area, and another in an area of its own, so many bytes further */

static struct area other, other_was;
static uint8_t *others[PARTS];
static size_t other_lengths[PARTS], other_extent, shift;

/* Whether the reader of the area is lent as the second. */
static int is_second;

static uint8_t *part_of(int is_other, int i) { return is_other ? others[i] : parts[i]; }

static uint8_t *page_of(int is_other, size_t page) { return part_of(is_other, TEMPLATES) + BYSTRODOL_PAGE_BYTES * page; }

static uint8_t *note_of(int is_other, size_t note) { return part_of(is_other, NOTEPAD) + BYSTRODOL_NOTE_BYTES * note; }

/* The other reader is as that of the area, and the report has its length. */
static void make_other(void) {
    lengths[REPORT] = capacity() + NOTES, other_extent = shift + extent();
    memcpy(other_lengths, lengths, sizeof lengths), memcpy((uint8_t *)&other + shift, &area, extent());
    for (int i = 0; i < PARTS; i++) others[i] = (uint8_t *)&other + shift + (parts[i] - (uint8_t *)&area);
}

static void set_up_two(size_t pages) { set_up(pages), make_other(); }

/* The same, with these pages stored in the first and in the second. */
static void set_up_small(size_t pages, unsigned stored, unsigned other_stored) {
    set_up_two(pages), parts[INDEX][0] = (uint8_t)stored, others[INDEX][0] = (uint8_t)other_stored;
}

/* Some bytes of so many become others: one bit, all, the first or the last. */
static void change(uint8_t *bytes, size_t length) {
    const uint8_t bit = (uint8_t)(1u << random_below(8));
    switch (random_below(4)) {
    case 0: bytes[random_below(length)] ^= bit; break;
    case 1: bytes[0] ^= bit; break;
    case 2: bytes[length - 1] ^= bit; break;
    default:
        for (size_t i = 0; i < length; i++) bytes[i] ^= bit;
    }
}

static void change_notes(unsigned notes) {
    for (size_t note = 0; note < NOTES; note++)
        if (notes >> note & 1) change(note_of(1, note), BYSTRODOL_NOTE_BYTES);
}

/* ---- a call, and what it must leave */

#define OTHER(i) (other_lengths[i] ? others[i] : NULL), other_lengths[i]

static uint8_t compare(void) {
    save(), memcpy(&other_was, &other, other_extent);
    if (is_second) return bystrodol_compare(OTHER(INDEX), OTHER(NOTEPAD), OTHER(TEMPLATES), LENT(INDEX), LENT(NOTEPAD), LENT(TEMPLATES), LENT(REPORT));
    return bystrodol_compare(LENT(INDEX), LENT(NOTEPAD), LENT(TEMPLATES), OTHER(INDEX), OTHER(NOTEPAD), OTHER(TEMPLATES), LENT(REPORT));
}

static void are_all(const char *name, size_t which) {
    is_all(name, which);
    check_of(name, which, "the other reader", differ(&other, &other_was, other_extent), other_extent);
}

static uint8_t entry_of_page(size_t page) {
    const int in_first = is_set(part_of(is_second, INDEX), page), in_second = is_set(part_of(!is_second, INDEX), page);
    if (!in_first && !in_second) return BYSTRODOL_SAME;
    if (!in_second) return BYSTRODOL_ONLY_FIRST;
    if (!in_first) return BYSTRODOL_ONLY_SECOND;
    return memcmp(page_of(0, page), page_of(1, page), BYSTRODOL_PAGE_BYTES) == 0 ? BYSTRODOL_SAME : BYSTRODOL_DIFFERENT;
}

static uint8_t entry_of_note(size_t note) {
    return memcmp(note_of(0, note), note_of(1, note), BYSTRODOL_NOTE_BYTES) == 0 ? BYSTRODOL_SAME : BYSTRODOL_DIFFERENT;
}

static void compares(const char *name, size_t which) {
    uint8_t wanted[BYSTRODOL_PAGES_MOST + NOTES];
    for (size_t page = 0; page < capacity(); page++) wanted[page] = entry_of_page(page);
    for (size_t note = 0; note < NOTES; note++) wanted[capacity() + note] = entry_of_note(note);
    check_of(name, which, "refusal", compare(), BYSTRODOL_ACCEPTED);
    memcpy(part_was(REPORT), wanted, lengths[REPORT]);
    are_all(name, which);
}

/* Both ways. The second report is the first with 1 and 2 exchanged. */
static void are_compared(const char *name, size_t which) {
    uint8_t turned[BYSTRODOL_PAGES_MOST + NOTES];
    is_second = 0, compares(name, which);
    for (size_t i = 0; i < lengths[REPORT]; i++) turned[i] = parts[REPORT][i] % 3 ? 3 - parts[REPORT][i] : parts[REPORT][i];
    is_second = 1, compares(name, which);
    check_of(name, which, "the report exchanged", differ(turned, parts[REPORT], lengths[REPORT]), lengths[REPORT]);
    is_second = 0;
}

/* No entry but one is other than 0. */
static void is_only(const char *name, size_t which, size_t entry, uint8_t wanted) {
    size_t count = 0;
    for (size_t i = 0; i < lengths[REPORT]; i++) count += parts[REPORT][i] != BYSTRODOL_SAME;
    check_of(name, which, "the entry", parts[REPORT][entry], wanted);
    check_of(name, which, "entries other than 0", count, wanted != BYSTRODOL_SAME);
}

static void are_same(const char *name, size_t which) { are_compared(name, which), is_only(name, which, 0, BYSTRODOL_SAME); }

/* Both ways, too. */
static void stays(const char *name, size_t which, uint8_t refusal) {
    for (is_second = 0; is_second < 2; is_second++) check_of(name, which, "refusal", compare(), refusal), are_all(name, which);
    is_second = 0;
}

/* ---- pages and notes */

/* Every two indexes of up to four pages, with the bytes of every page the same and not. */
static void small_libraries(void) {
    for (size_t pages = 1; pages <= 4; pages++)
        for (unsigned which = 0; which < 1u << 3 * pages; which++) {
            const unsigned all = (1u << pages) - 1, changed = which >> 2 * pages;
            set_up_small(pages, which & all, which >> pages & all);
            for (size_t page = 0; page < pages; page++)
                if (changed >> page & 1) change(page_of(1, page), BYSTRODOL_PAGE_BYTES);
            change_notes((unsigned)random_below(1u << NOTES));
            are_compared("a small library", pages << 16 | which);
        }
}

/* A library of each kind, with another of its kind and with two of any. Their addresses lie every number of bytes modulo 16 apart. All pages have other bytes, or
 * some have. */
static void libraries(void) {
    for (size_t i = 0; i < SIZES; i++)
        for (size_t which = 0; which < 3 * KINDS; which++) {
            const size_t kind = which % KINDS, other_kind = which < KINDS ? kind : random_below(KINDS);
            shift = which % 16, set_up_two(sizes[i]);
            for (size_t page = 0; page < capacity(); page++) {
                if (is_stored_in(kind, page, capacity())) set_bit(parts[INDEX], page);
                if (is_stored_in(other_kind, page, capacity())) set_bit(others[INDEX], page);
                if (random_below(1 + which / KINDS) == 0) change(page_of(1, page), BYSTRODOL_PAGE_BYTES);
            }
            change_notes((unsigned)random_below(1u << NOTES));
            are_compared("a library", sizes[i] * 100 + which);
        }
    shift = 0;
}

/* Each bit of each byte of a page, in one of three that are stored. Then two of its bytes exchanged. */
static void single_bytes(void) {
    for (size_t page = 0; page < 3; page++) {
        uint8_t *const bytes = (set_up_small(3, 7, 7), page_of(0, page));
        for (size_t bit = 0; bit < 8 * BYSTRODOL_PAGE_BYTES; bit++) {
            bytes[bit / 8] ^= (uint8_t)(1u << bit % 8);
            are_compared("one bit of a page", page << 16 | bit), is_only("one bit of a page", page << 16 | bit, page, BYSTRODOL_DIFFERENT);
            bytes[bit / 8] ^= (uint8_t)(1u << bit % 8);
        }
        for (size_t one = 0; one < BYSTRODOL_PAGE_BYTES; one++) {
            const size_t two = random_below(BYSTRODOL_PAGE_BYTES);
            const uint8_t byte = bytes[one];
            bytes[one] = bytes[two], bytes[two] = byte;
            are_compared("two bytes exchanged", page << 16 | one);
            bytes[two] = bytes[one], bytes[one] = byte;
        }
        are_same("all bytes as they were", page);
    }
}

/* Each bit of the notepad. */
static void bytes_of_notes(void) {
    set_up_small(3, 7, 7);
    for (size_t bit = 0; bit < 8 * BYSTRODOL_PAGE_BYTES; bit++) {
        const uint8_t byte = (uint8_t)(1u << bit % 8);
        parts[NOTEPAD][bit / 8] ^= byte;
        are_compared("one bit of the notepad", bit), is_only("one bit of the notepad", bit, 3 + bit / 8 / BYSTRODOL_NOTE_BYTES, BYSTRODOL_DIFFERENT);
        parts[NOTEPAD][bit / 8] ^= byte;
    }
}

/* Each bit of a page that is vacant in one or in both. */
static void bytes_of_vacant_pages(void) {
    for (unsigned stored = 0; stored < 3; stored++) {
        set_up_small(3, stored & 1 ? 7 : 5, stored & 2 ? 7 : 5);
        for (size_t bit = 0; bit < 8 * BYSTRODOL_PAGE_BYTES; bit++) {
            const uint8_t byte = (uint8_t)(1u << bit % 8);
            page_of(0, 1)[bit / 8] ^= byte;
            are_compared("one bit of a vacant page", stored << 16 | bit);
            page_of(0, 1)[bit / 8] ^= byte;
        }
    }
}

/* The two readers share some of their memory, or all of it; or the pages of the second are those of the first, so many bytes further. */
static void shared_memory(void) {
    static const int compared[] = {INDEX, NOTEPAD, TEMPLATES};
    static const size_t further[] = {1, 2, 16, 255, 511, 512, 513, 1024, 4096};
    for (unsigned shared = 0; shared < 8; shared++) {
        set_up_small(9, 0x5B, 0x6E), change_notes(0xA5C3);
        for (size_t page = 0; page < capacity(); page++) change(page_of(1, page), BYSTRODOL_PAGE_BYTES);
        for (size_t i = 0; i < 3; i++)
            if (shared >> i & 1) others[compared[i]] = parts[compared[i]];
        are_compared("shared memory", shared);
        if (shared == 7) is_only("a reader with itself", shared, 0, BYSTRODOL_SAME);
    }
    for (size_t i = 0; i < sizeof further / sizeof *further; i++) {
        set_up_two(20), memset(parts[INDEX], 0xFF, 2), memset(others[INDEX], 0x7E, 2), others[TEMPLATES] = parts[TEMPLATES] + further[i];
        are_compared("pages that overlap", further[i]);
        others[NOTEPAD] = parts[TEMPLATES] + further[i], others[INDEX] = parts[INDEX];
        are_compared("a notepad in the templates", further[i]);
    }
}

/* Memory that cannot be written. */
static void read_only_memory(void) {
    static const uint8_t index1[BYSTRODOL_INDEX_BYTES] = {0x0D}, notepad1[BYSTRODOL_PAGE_BYTES] = {1, 2}, templates1[4 * BYSTRODOL_PAGE_BYTES] = {3, 4};
    static const uint8_t index2[BYSTRODOL_INDEX_BYTES] = {0x07}, notepad2[BYSTRODOL_PAGE_BYTES] = {1, 2, [511] = 5}, templates2[4 * BYSTRODOL_PAGE_BYTES] = {3, 3};
    uint8_t report[4 + NOTES];
    check("read-only memory", bystrodol_compare(index1, sizeof index1, notepad1, sizeof notepad1, templates1, sizeof templates1, index2, sizeof index2, notepad2,
                                                sizeof notepad2, templates2, sizeof templates2, report, sizeof report), BYSTRODOL_ACCEPTED);
    check("the report", differ(report, CONTENT(3, 2, 0, 1, [19] = 3)), sizeof report);
}

/* ---- refusals: 1, then 3 */

static void stays_by_length(int i, size_t length) {
    lengths[i] = length;
    stays(names[i], length, BYSTRODOL_BAD_LENGTH);
}

/* The other's templates are as long, or right; the report is that of either. */
static void stays_by_templates(int i, size_t length) {
    make_other();
    stays_by_length(i, length);
    other_lengths[i] = 10 * BYSTRODOL_PAGE_BYTES;
    stays_by_length(i, length);
    lengths[REPORT] = 10 + NOTES;
    stays_by_length(i, length);
}

/* Two lengths of templates that are not the same, each a right one or nearly so. */
static void unequal(size_t one, size_t two) {
    set_up_bytes(one > two ? one : two), make_other();
    lengths[TEMPLATES] = one, other_lengths[TEMPLATES] = two;
    for (size_t i = 0; i < 2; i++) {
        lengths[REPORT] = (i ? two : one) / BYSTRODOL_PAGE_BYTES + NOTES;
        stays("unequal templates", one << 20 | two, BYSTRODOL_BAD_LENGTH);
    }
}

static void unequal_templates(void) {
    static const size_t pairs[][2] = {{10, 138}, {10, 266}, {256, 1}, {744, 1000}, {999, 1000}};
    for (size_t one = 1; one <= 20; one++)
        for (size_t two = 1; two < one; two++) unequal(one * BYSTRODOL_PAGE_BYTES, two * BYSTRODOL_PAGE_BYTES);
    for (size_t i = 0; i < sizeof pairs / sizeof *pairs; i++) unequal(pairs[i][0] * BYSTRODOL_PAGE_BYTES, pairs[i][1] * BYSTRODOL_PAGE_BYTES);
    unequal(5120, 5121), unequal(5120, 5119), unequal(5120, 5120 + 256), unequal(5120, 5120 + 511);
}

static void wrong_reports(void) {
    static const size_t pages[] = {1, 240, 241, 255, 256, 257, 999, BYSTRODOL_PAGES_MOST};
    for (size_t i = 0; i < sizeof pages / sizeof *pages; i++) {
        const size_t right = pages[i] + NOTES, wrong[] = {0, pages[i], right - 1, right + 1, right % 256, right ^ 256, right + NOTES, BYSTRODOL_REPORT_BYTES};
        set_up_two(pages[i]);
        for (size_t j = 0; j < sizeof wrong / sizeof *wrong; j++)
            if (wrong[j] != right) stays_by_length(REPORT, wrong[j]);
    }
}

static void wrong_lengths(void) {
    set_up_two(10), bad_lengths_but(lengths[INDEX], INDEX, stays_by_length);
    set_up_two(10), bad_lengths_but(lengths[NOTEPAD], NOTEPAD, stays_by_length);
    set_up_two(10), bad_lengths_but(lengths[REPORT], REPORT, stays_by_length);
    bad_templates(stays_by_templates);
    unequal_templates();
    wrong_reports();
}

/* One length is 0 and its pointer NULL, and then all are. */
static void nothing_lent(void) {
    static const int lent[] = {INDEX, NOTEPAD, TEMPLATES, REPORT};
    for (size_t i = 0; i < 4; i++) set_up_two(10), stays_by_length(lent[i], 0);
    set_up_two(10);
    for (int i = 0; i < PARTS; i++) lengths[i] = other_lengths[i] = 0;
    stays("NULL everywhere", 0, BYSTRODOL_BAD_LENGTH);
}

/* Each bit past the end, in one and in both; every third page is stored. With a length that is not right it is 1. */
static void stray_bits(size_t pages) {
    static const int lent[] = {INDEX, NOTEPAD, TEMPLATES, REPORT};
    set_up_two(pages);
    for (size_t page = 0; page < pages; page += 3) set_bit(parts[INDEX], page), set_bit(others[INDEX], page);
    for (size_t bit = pages; bit < BITS; bit++) {
        const uint8_t byte = parts[INDEX][bit / 8];
        const int i = lent[bit % 4];
        set_bit(parts[INDEX], bit), stays("a bit past the end", bit, BYSTRODOL_BAD_SETTING);
        lengths[i]--, stays("a length and a bit past the end", bit, BYSTRODOL_BAD_LENGTH), lengths[i]++;
        if (bit % 8 == 0) set_bit(others[INDEX], bit), stays("a bit past the end in both", bit, BYSTRODOL_BAD_SETTING), others[INDEX][bit / 8] = byte;
        parts[INDEX][bit / 8] = byte;
    }
    are_same("no bit past the end", pages);
}

static void refusals(void) {
    static const size_t few[] = {1, 2, 7, 8, 9, 64, 257, 999, BYSTRODOL_PAGES_MOST};
    wrong_lengths();
    nothing_lent();
    for (size_t i = 0; i < sizeof few / sizeof *few; i++) stray_bits(few[i]);
}

/* ---- what else is done to a library */

static void salvage(void) {
    lengths[REPORT] = BYSTRODOL_REPORT_BYTES;
    check("a salvage", bystrodol_salvage(LENT(TEMPLATES), LENT(INDEX), LENT(REPORT)), BYSTRODOL_ACCEPTED);
    lengths[REPORT] = capacity() + NOTES;
}

static void close_gaps(int is_other) {
    struct bystrodol_settings s = bystrodol_fresh();
    const uint8_t refusal = bystrodol_close_gaps(&s, page_of(is_other, 0), lengths[TEMPLATES], part_of(is_other, INDEX), lengths[INDEX], LENT(TABLE));
    check("gaps closed", refusal, BYSTRODOL_ACCEPTED);
}

/* A salvage changes no entry against a copy kept before. Nor does closing the gaps, once those of the copy are closed, too. */
static void kept_copies(void) {
    for (size_t i = 0; i < SIZES; i++)
        for (size_t kind = 0; kind < KINDS; kind++) {
            set_up(sizes[i]);
            for (size_t page = 0; page < capacity(); page++)
                if (is_stored_in(kind, page, capacity())) set_bit(parts[INDEX], page);
            make_other(), set_bit(parts[INDEX], capacity() + random_below(BITS - capacity()));
            stays("before a salvage", kind, BYSTRODOL_BAD_SETTING);
            salvage(), are_same("after a salvage", kind);
            close_gaps(0), are_compared("after the gaps were closed", kind);
            close_gaps(1), are_same("after those of the copy were closed", kind);
        }
}

/* The other reader has an index of 32 bytes, which is brought over. */
static void old_index(void) {
    set_up_two(256);
    for (size_t page = 0; page < capacity(); page++)
        if (is_stored_in(KINDS / 2, page, capacity())) set_bit(parts[INDEX], page);
    other_lengths[INDEX] = BYSTRODOL_OLD_INDEX_BYTES, memcpy(others[BUFFER1], parts[INDEX], BYSTRODOL_OLD_INDEX_BYTES);
    stays("an index of 32 bytes", 256, BYSTRODOL_BAD_LENGTH);
    other_lengths[INDEX] = BYSTRODOL_INDEX_BYTES;
    check("brought over", bystrodol_bring_over(others[BUFFER1], BYSTRODOL_OLD_INDEX_BYTES, OTHER(INDEX)), BYSTRODOL_ACCEPTED);
    are_same("an index brought over", 256);
}

/* The smaller reader has five pages, and a bit past its end; the larger eight. */
static void unequal_pages(void) {
    set_up_small(8, 0xB5, 0x35), memset(page_of(1, 5), 0, 3 * BYSTRODOL_PAGE_BYTES), change(page_of(1, 2), BYSTRODOL_PAGE_BYTES);
    other_lengths[TEMPLATES] = 5 * BYSTRODOL_PAGE_BYTES;
    stays("unequal pages", 5, BYSTRODOL_BAD_LENGTH);
    check("a salvage", bystrodol_salvage(OTHER(TEMPLATES), OTHER(INDEX), others[REPORT], BYSTRODOL_REPORT_BYTES), BYSTRODOL_ACCEPTED);
    other_lengths[TEMPLATES] = lengths[TEMPLATES];
    are_compared("pages of zeros", 8), compares("pages of zeros", 8);
    check("the report", differ(parts[REPORT], CONTENT(0, 0, 3, 0, 0, 1, 0, 1, [23] = 0)), 24);
}

/* ---- a reader at work, through three doors, and its copy */

static void has_entry(const char *name, size_t entry, uint8_t wanted) {
    lengths[REPORT] = capacity() + NOTES, are_compared(name, entry), compares(name, entry);
    is_only(name, entry, entry, wanted);
}

/* Each command is answered as if nobody compared, and the entry shows what it did. A reader that is locked is compared, too. */
static void at_work(void) {
    static const uint8_t note[32] = {1, 2, 3};
    struct bystrodol_settings *const s = &was.line.settings;
    uint8_t content[34] = {BYSTRODOL_COMMAND_WRITE_NOTEPAD, 2};
    set_up_some(), area.line.settings.filled1 = area.line.settings.filled2 = 1, make_other();
    has_entry("a copy", 0, BYSTRODOL_SAME);
    COMMAND(BYSTRODOL_COMMAND_STORE, 2, 0, 7), memcpy(page_was(7), parts[BUFFER2], BYSTRODOL_PAGE_BYTES), set_bit(part_was(INDEX), 7), s->origin2 = 7;
    is_done("Store"), has_entry("Store", 7, BYSTRODOL_ONLY_FIRST);
    COMMAND(BYSTRODOL_COMMAND_DELET_CHAR, 0, 7, 0, 1), memset(page_was(7), 0, BYSTRODOL_PAGE_BYTES), part_was(INDEX)[0] = 0x7B, wipe_what_was(BUFFER2);
    is_done("DeletChar of the new page"), has_entry("DeletChar of the new page", 7, BYSTRODOL_SAME);
    COMMAND(BYSTRODOL_COMMAND_DELET_CHAR, 0, 9, 0, 1), memset(page_was(9), 0, BYSTRODOL_PAGE_BYTES), part_was(INDEX)[1] = 0;
    is_done("DeletChar"), has_entry("DeletChar", 9, BYSTRODOL_ONLY_SECOND);
    COMMAND(BYSTRODOL_COMMAND_STORE, 1, 0, 9), memcpy(page_was(9), parts[BUFFER1], BYSTRODOL_PAGE_BYTES), set_bit(part_was(INDEX), 9), s->origin1 = 9;
    is_done("Store of another template"), has_entry("Store of another template", 9, BYSTRODOL_DIFFERENT);
    memcpy(others[TEMPLATES] + 9 * BYSTRODOL_PAGE_BYTES, parts[BUFFER1], BYSTRODOL_PAGE_BYTES), memcpy(content + 2, note, sizeof note);
    send(BYSTRODOL_PACKET_COMMAND, content, sizeof content), memcpy(part_was(NOTEPAD) + 64, note, sizeof note);
    is_done("WriteNotepad"), has_entry("WriteNotepad", 10 + 2, BYSTRODOL_DIFFERENT);
    COMMAND(BYSTRODOL_COMMAND_SET_PWD, 1, 2, 3, 4), memcpy(s->password, CONTENT(1, 2, 3, 4)), is_done("SetPwd");
    COMMAND(BYSTRODOL_COMMAND_TEMPLETE_NUM), is_said("a locked reader", 0, BYSTRODOL_CODE_PASSWORD_FIRST), has_entry("a locked reader", 10 + 2, BYSTRODOL_DIFFERENT);
}

/* The first has pages 0 and 3, the second only page 0 with the same bytes, and notepad page 2 differs. */
static void example(void) {
    set_up_small(10, 9, 1), note_of(1, 2)[31] ^= 0x80;
    are_compared("the example", 0), compares("the example", 0);
    check("the report", differ(parts[REPORT], CONTENT(0, 0, 0, 1, [12] = 3, [25] = 0)), 26);
}

int main(void) {
    fill_pattern();
    example();
    small_libraries();
    shared_memory();
    read_only_memory();
    refusals();
    libraries();
    single_bytes();
    bytes_of_notes();
    bytes_of_vacant_pages();
    kept_copies();
    old_index();
    unequal_pages();
    for (door = OFFERED; door < DOORS; door++) at_work();
    return report("compare");
}
