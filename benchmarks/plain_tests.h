/* Whether settings, index and origins are legal, in plain C. */
#ifndef PLAIN_TESTS_H
#define PLAIN_TESTS_H

#include "bystrodol.h"

#include <string.h>

/* ---- the index */

static inline int is_stored(const uint8_t *index, size_t page) { return index[page / 8] >> page % 8 & 1; }

/* No bit at or above the capacity is set. */
static inline int fits(const uint8_t *index, size_t pages) {
    size_t i = pages / 8;
    if (pages % 8 != 0 && index[i++] >> pages % 8 != 0) return 0;
    for (; i < BYSTRODOL_INDEX_BYTES; i++)
        if (index[i] != 0) return 0;
    return 1;
}

/* ---- the settings */

static inline int is_locked(const struct bystrodol_settings *settings) {
    static const uint8_t none[4];
    return memcmp(settings->password, none, sizeof none) != 0 && !settings->verified;
}

static inline size_t data_size(const struct bystrodol_settings *settings) { return (size_t)32 << settings->size; }

static inline int is_filled(const struct bystrodol_settings *settings, uint8_t buffer) {
    return buffer == 1 ? settings->filled1 : settings->filled2;
}

static inline int is_level(uint8_t level) { return level >= 1 && level <= 5; }

static inline int is_size(uint8_t size) { return size <= 3; }

static inline int is_baud(uint8_t baud) { return baud >= 1 && baud <= 12; }

static inline int is_mark(uint8_t mark) { return mark <= 1; }

static inline int is_legal(const struct bystrodol_settings *settings) {
    if (!is_mark(settings->verified) || !is_mark(settings->filled1) || !is_mark(settings->filled2) ||
        !is_mark(settings->found))
        return 0;
    if (!is_level(settings->level) || !is_size(settings->size) || !is_baud(settings->baud)) return 0;
    if (settings->transfer == 0) return settings->got == 0;
    return settings->transfer <= 2 && settings->got < BYSTRODOL_PAGE_BYTES &&
           settings->got % data_size(settings) == 0 && !is_filled(settings, settings->transfer) && !is_locked(settings);
}

/* An origin is none, or a page that is stored, of a filled buffer. */
static inline int is_origin(uint16_t origin, uint8_t filled, const uint8_t *index, size_t pages) {
    return origin == BYSTRODOL_NO_PAGE || (origin < pages && is_stored(index, origin) && filled);
}

static inline int are_origins(const struct bystrodol_settings *settings, const uint8_t *index, size_t pages) {
    return is_origin(settings->origin1, settings->filled1, index, pages) &&
           is_origin(settings->origin2, settings->filled2, index, pages);
}

#endif
