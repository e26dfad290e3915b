/*
 * Settings of every kind, legal as the header says and not, for a reader of ten pages. A test hands over what it does with any of them; that says whether they are
 * legal, by is_legal.
 */
#include "area.h"

/* Pages 0, 1, 3, 4, 5, 6 and 9 of ten are stored. */
static inline void set_up_some(void) { set_up(10), parts[INDEX][0] = 0x7B, parts[INDEX][1] = 0x02; }

static inline int is_origin(uint16_t origin, uint8_t filled) {
    return origin == BYSTRODOL_NO_PAGE || (origin < capacity() && is_set(parts[INDEX], origin) && filled == 1);
}

static inline int is_legal(const struct bystrodol_settings *s) {
    const int is_open = s->verified || !(s->password[0] | s->password[1] | s->password[2] | s->password[3]);
    if (s->verified > 1 || s->filled1 > 1 || s->filled2 > 1 || s->found > 1) return 0;
    if (!is_origin(s->origin1, s->filled1) || !is_origin(s->origin2, s->filled2)) return 0;
    if (s->level < 1 || s->level > 5 || s->size > 3 || s->baud < 1 || s->baud > 12) return 0;
    if (s->transfer == 0) return s->got == 0;
    return s->transfer <= 2 && s->got < 512 && s->got % (32 << s->size) == 0 && is_open && !(s->transfer == 1 ? s->filled1 : s->filled2);
}

/* Legal settings in twelve ways: each buffer filled from a page or not; without a password, locked, and open; with a transfer where there can be one. */
static inline struct bystrodol_settings legal_settings(size_t way) {
    const uint8_t filled1 = way & 1, filled2 = way >> 1 & 1, lock = (uint8_t)(way / 4), transfer = lock == 1 || (filled1 && filled2) ? 0 : filled1 ? 2 : 1;
    return (struct bystrodol_settings){{0, 0, 0, lock ? 7 : 0}, {1, 2, 3, 4}, 4, 1, 11, transfer, 0x1234, transfer ? 192 : 0, lock == 2, filled1, filled2, found,
                                       filled1 ? 3 : BYSTRODOL_NO_PAGE, filled2 ? 9 : BYSTRODOL_NO_PAGE};
}

typedef int any_settings(const char *name, size_t which, const struct bystrodol_settings *s);

/* Every byte of the settings takes every value, the marks among them. */
static inline void every_byte(any_settings *any) {
    static const char *const fields[] = {"password", "address", "level, size code, baud factor and transfer", "sensor type and bytes got", "marks", "origins"};
    for (size_t way = 0; way < 12; way++)
        for (size_t at = 0; at < sizeof(struct bystrodol_settings); at++)
            for (unsigned byte = 0; byte < 256; byte++) {
                struct bystrodol_settings s = legal_settings(way);
                ((uint8_t *)&s)[at] = (uint8_t)byte;
                any(fields[at / 4], at << 8 | byte, &s);
            }
}

/* The bytes got of a transfer, at each size. */
static inline void every_got(any_settings *any) {
    for (unsigned which = 0; which < 8 * 1025; which++) {
        struct bystrodol_settings s = bystrodol_fresh();
        s.transfer = 1 + which % 2, s.size = which / 2 % 4, s.got = (uint16_t)(which / 8);
        any("a transfer's bytes got", which, &s);
    }
}

/* Numbers so far apart as the origin of a buffer that is filled, the other one not. */
static inline void every_origin(any_settings *any, unsigned apart) {
    for (unsigned n = 0; n <= 0xFFFF; n += apart)
        for (size_t way = 1; way <= 2; way++) {
            struct bystrodol_settings s = legal_settings(way);
            *(way == 1 ? &s.origin1 : &s.origin2) = (uint16_t)n;
            any("an origin", n, &s);
        }
}

/* Legal settings with up to four random bytes, and settings that are all random. */
static inline void random_settings(any_settings *any) {
    size_t legal = 0;
    for (size_t which = 0; which < 12 * 1024; which++) {
        struct bystrodol_settings s = legal_settings(which % 12);
        for (size_t i = 0; i < which / 12 % 5; i++) ((uint8_t *)&s)[random_below(sizeof s)] = (uint8_t)random_below(256);
        for (size_t i = 0; which % 4 == 0 && i < sizeof s; i++) ((uint8_t *)&s)[i] = (uint8_t)random_below(256);
        legal += (size_t)any("settings of random bytes", which, &s);
    }
    check("settings of random bytes, of which some are legal", legal > 2048 && legal < 10 * 1024, 1);
}
