/* Cleaning up a library in plain C: what the counts of request [10] are held against. It is written as plain.c is. */
#include "plain.h"

#include <string.h>

/* A template mostly shows in its first byte. Whether all bytes are 0 is seen from all of them joined, many at a time. */
static int is_zero(const uint8_t *page) {
    uint8_t joined = 0;
    if (page[0] != 0) return 0;
    for (size_t i = 0; i < BYSTRODOL_PAGE_BYTES; i++) joined |= page[i];
    return joined == 0;
}

/* The vacant pages among eight, from this one on. */
static void zero_vacant(uint8_t *templates, uint8_t *report, size_t page, unsigned vacant) {
    for (; vacant != 0; vacant >>= 1, page++) {
        uint8_t *at = templates + BYSTRODOL_PAGE_BYTES * page;
        if ((vacant & 1) == 0 || is_zero(at)) continue;
        memset(at, 0, BYSTRODOL_PAGE_BYTES);
        report[page] = BYSTRODOL_PAGE_ZEROED;
    }
}

/* The stray bits among eight, from this one on. */
static void clear_stray(uint8_t *index, uint8_t *report, size_t bit, unsigned stray) {
    index[bit / 8] &= (uint8_t)~stray;
    for (; stray != 0; stray >>= 1, bit++)
        if (stray & 1) report[bit] = BYSTRODOL_BIT_CLEARED;
}

uint8_t plain_salvage(uint8_t *templates, size_t templates_length, uint8_t *index, size_t index_length,
                      uint8_t *report, size_t report_length) {
    const size_t pages = templates_length / BYSTRODOL_PAGE_BYTES, whole = pages / 8;
    const unsigned past = 0xFFu << pages % 8 & 0xFF;
    if (templates_length % BYSTRODOL_PAGE_BYTES != 0 || pages < 1 || pages > BYSTRODOL_PAGES_MOST ||
        index_length != BYSTRODOL_INDEX_BYTES || report_length != BYSTRODOL_REPORT_BYTES)
        return BYSTRODOL_BAD_LENGTH;
    memset(report, BYSTRODOL_UNCHANGED, BYSTRODOL_REPORT_BYTES);
    for (size_t i = 0; i < whole; i++) zero_vacant(templates, report, 8 * i, (uint8_t)~index[i]);
    zero_vacant(templates, report, 8 * whole, (uint8_t)~(index[whole] | past));
    clear_stray(index, report, 8 * whole, index[whole] & past);
    for (size_t i = whole + 1; i < BYSTRODOL_INDEX_BYTES; i++)
        if (index[i] != 0) clear_stray(index, report, 8 * i, index[i]);
    return BYSTRODOL_ACCEPTED;
}
