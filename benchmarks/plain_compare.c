/* Comparing two readers in plain C: what the counts of request [11] are held against. It is written as plain.c is. */
#include "plain.h"

#include <string.h>

/* No bit at or above the capacity is set: seen from all of them joined, many at a time. */
static int fits(const uint8_t *index, size_t pages) {
    uint8_t joined = (uint8_t)(index[pages / 8] >> pages % 8);
    for (size_t i = pages / 8 + 1; i < BYSTRODOL_INDEX_BYTES; i++) joined |= index[i];
    return joined == 0;
}

/* Whether a byte differs is seen from all of them joined, too. */
static inline int differ(const uint8_t *one, const uint8_t *other, size_t length) {
    uint8_t joined = 0;
    for (size_t i = 0; i < length; i++) joined |= one[i] ^ other[i];
    return joined != 0;
}

/* Templates that differ in their first byte need no more. */
static inline int are_other(const uint8_t *one, const uint8_t *other) {
    return one[0] != other[0] || differ(one, other, BYSTRODOL_PAGE_BYTES);
}

/* Of eight pages those that one of the two alone has, and then those that both have, each by its bit. */
static void compare_pages(const uint8_t *templates1, const uint8_t *templates2, uint8_t *report, unsigned first, unsigned second) {
    for (unsigned one = first ^ second; one != 0; one &= one - 1) {
        const int page = __builtin_ctz(one);
        report[page] = first >> page & 1 ? BYSTRODOL_ONLY_FIRST : BYSTRODOL_ONLY_SECOND;
    }
    for (unsigned both = first & second; both != 0; both &= both - 1) {
        const size_t page = (size_t)__builtin_ctz(both), at = BYSTRODOL_PAGE_BYTES * page;
        if (are_other(templates1 + at, templates2 + at)) report[page] = BYSTRODOL_DIFFERENT;
    }
}

uint8_t plain_compare(const uint8_t *index1, size_t index1_length, const uint8_t *notepad1, size_t notepad1_length,
                      const uint8_t *templates1, size_t templates1_length, const uint8_t *index2, size_t index2_length,
                      const uint8_t *notepad2, size_t notepad2_length, const uint8_t *templates2,
                      size_t templates2_length, uint8_t *report, size_t report_length) {
    const size_t pages = templates1_length / BYSTRODOL_PAGE_BYTES;
    if (templates1_length % BYSTRODOL_PAGE_BYTES != 0 || pages < 1 || pages > BYSTRODOL_PAGES_MOST ||
        templates2_length != templates1_length || index1_length != BYSTRODOL_INDEX_BYTES ||
        index2_length != BYSTRODOL_INDEX_BYTES || notepad1_length != BYSTRODOL_PAGE_BYTES ||
        notepad2_length != BYSTRODOL_PAGE_BYTES || report_length != pages + BYSTRODOL_NOTE_PAGES)
        return BYSTRODOL_BAD_LENGTH;
    if (!fits(index1, pages) || !fits(index2, pages)) return BYSTRODOL_BAD_SETTING;
    memset(report, BYSTRODOL_SAME, report_length);
    for (size_t page = 0; page < pages; page += 8) {
        const size_t at = BYSTRODOL_PAGE_BYTES * page;
        compare_pages(templates1 + at, templates2 + at, report + page, index1[page / 8], index2[page / 8]);
    }
    for (size_t note = 0; note < BYSTRODOL_NOTE_PAGES; note++) {
        const size_t at = BYSTRODOL_NOTE_BYTES * note;
        report[pages + note] = differ(notepad1 + at, notepad2 + at, BYSTRODOL_NOTE_BYTES) ? BYSTRODOL_DIFFERENT : BYSTRODOL_SAME;
    }
    return BYSTRODOL_ACCEPTED;
}
