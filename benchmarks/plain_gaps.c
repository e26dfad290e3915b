/* Closing the gaps of a library in plain C: what the counts of request [9] are held against. It is written as plain.c is. */
#include "plain.h"
#include "plain_tests.h"

/* The first pages are stored, so many of them, and no other. */
static void set_first_stored(uint8_t *index, size_t count) {
    memset(index, 0xFF, count / 8);
    memset(index + count / 8, 0, BYSTRODOL_INDEX_BYTES - count / 8);
    index[count / 8] = (uint8_t)((1u << count % 8) - 1);
}

static void follow(uint16_t *origin, const uint16_t *table) {
    if (*origin != BYSTRODOL_NO_PAGE) *origin = table[*origin];
}

uint8_t plain_close_gaps(struct bystrodol_settings *settings, uint8_t *templates, size_t templates_length,
                         uint8_t *index, size_t index_length, uint16_t *table, size_t table_length) {
    size_t pages = templates_length / BYSTRODOL_PAGE_BYTES, next = 0;
    if (templates_length % BYSTRODOL_PAGE_BYTES != 0 || pages < 1 || pages > BYSTRODOL_PAGES_MOST ||
        index_length != BYSTRODOL_INDEX_BYTES || table_length != pages)
        return BYSTRODOL_BAD_LENGTH;
    if (!is_legal(settings) || !fits(index, pages) || !are_origins(settings, index, pages))
        return BYSTRODOL_BAD_SETTING;
    for (size_t page = 0; page < pages; page++) {
        if (!is_stored(index, page)) {
            table[page] = BYSTRODOL_NO_PAGE;
            continue;
        }
        if (page != next)
            memmove(templates + BYSTRODOL_PAGE_BYTES * next, templates + BYSTRODOL_PAGE_BYTES * page,
                    BYSTRODOL_PAGE_BYTES);
        table[page] = (uint16_t)next++;
    }
    memset(templates + BYSTRODOL_PAGE_BYTES * next, 0, BYSTRODOL_PAGE_BYTES * (pages - next));
    set_first_stored(index, next);
    follow(&settings->origin1, table);
    follow(&settings->origin2, table);
    return BYSTRODOL_ACCEPTED;
}
