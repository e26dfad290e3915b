/* Libraries of every kind and size, and a memory that keeps its bytes over power-off, for a board that saves one. */
#include "area.h"

/* ---- libraries */

enum { KINDS = 24, SIZES = 7 };
static const size_t sizes[SIZES] = {9, 64, 255, 256, 257, 999, BYSTRODOL_PAGES_MOST};

/* Whether a page of so many is stored, in a library of one of the kinds; the last are by chance, from few to nearly all. */
static inline int is_stored_in(size_t kind, size_t page, size_t pages) {
    switch (kind) {
    case 0: return 0;
    case 1: return 1;
    case 2: return page == 0;
    case 3: return page == pages - 1;
    case 4: return page != 0;
    case 5: return page != pages - 1;
    case 6: return page % 2 == 0;
    case 7: return page % 2 == 1;
    case 8: return page < pages / 2;
    case 9: return page >= pages / 2;
    case 10: return page / 8 % 2 == 0;
    case 11: return page / 8 % 2 == 1;
    default: return random_below(KINDS - 11) < kind - 11;
    }
}

/* ---- writes to the memory that keeps its bytes */

enum { PLENTY = 1000 };
static const uint8_t zeros[BYSTRODOL_PAGE_BYTES];

/* There is power for so many halves of a write. A write that it fails in leaves the second half erased, but a byte as it was; those behind it are not made. */
static size_t power;

static inline void keep(void *to, const void *from, size_t length) {
    if (power == 1 && length > 1) memset(to, 0xFF, length), memcpy(to, from, length / 2);
    if (power > 1) memcpy(to, from, length);
    power -= power > 2 ? 2 : power;
}

static inline void keep_byte(uint8_t *to, uint8_t byte) { keep(to, &byte, 1); }
