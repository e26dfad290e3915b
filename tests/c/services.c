/*
 * The four services from C, and an index brought over: each answer is held to one that is written here. tests/c/run builds and runs it.
 * It writes one line, 'services: N checks passed', and ends with 0; or names each failed check and ends with 1.
 */
#include "bystrodol.h"
#include "check.h"

enum { LONGEST = BYSTRODOL_CONTENT_MOST_DATA + BYSTRODOL_FRAME_BYTES, ROOM = 512, GUARD = 63, MANY = 65537 };

/* ---- the sum */

static void sums(void) {
    static const uint8_t three[] = {0x01, 0xFF, 0x10};
    static uint8_t full[MANY + 257];
    memset(full, 0xFF, sizeof full), full[300] = 0xFE;
    check("sum of the empty run at NULL", bystrodol_sum(NULL, 0), 0);
    check("sum of one byte", bystrodol_sum(three, 1), 0x01);
    check("sum of three bytes", bystrodol_sum(three, 3), 0x110);
    check("sum of two bytes from another place", bystrodol_sum(three + 1, 2), 0x10F);
    check("the largest sum", bystrodol_sum(full, 257), 0xFFFF);
    check("a sum past 65535", bystrodol_sum(full, 258), 0x00FE);
    check("the sum of more than 65535 bytes", bystrodol_sum(full, 0x10000 + 257), 0xFFFE);
}

/* ---- the bytes used: document 01's examples, and request [3]'s limits */

#define A 0xFF, 0xFF, 0xFF, 0xFF

static const struct {
    const char *name;
    size_t used, length;
    uint8_t bytes[14];
} runs[] = {
    {"P1: a whole packet", 12, 12, {0xEF, 0x01, A, 0x01, 0x00, 0x03, 0x40, 0x00, 0x44}},
    {"P8: a whole packet", 12, 12, {0xEF, 0x01, A, 0x01, 0x00, 0x03, 0x1D, 0x00, 0x21}},
    {"P3: noise that ends in EF", 1, 2, {0x41, 0xEF}},
    {"P4: a wrong sum", 12, 12, {0xEF, 0x01, A, 0x01, 0x00, 0x03, 0x40, 0x00, 0x45}},
    {"P5: another address", 12, 12, {0xEF, 0x01, 0, 0, 0, 0, 0x01, 0x00, 0x03, 0x40, 0x00, 0x44}},
    {"P6: a length below 3", 2, 10, {0xEF, 0x01, A, 0x01, 0x00, 0x02, 0x40}},
    {"P6 before its length is all there", 0, 8, {0xEF, 0x01, A, 0x01, 0x00}},
    {"P7: a command's length above 256", 2, 10, {0xEF, 0x01, A, 0x01, 0x01, 0x01, 0x40}},
    {"P7: the length 256, unfinished", 0, 10, {0xEF, 0x01, A, 0x01, 0x01, 0x00, 0x40}},
    {"a lone EF", 0, 1, {0xEF}},
    {"noise without marks", 3, 3, {0x41, 0xEF, 0x02}},
    {"noise before an unfinished packet", 4, 7, {0x41, 0xEF, 0x02, 0xEF, 0xEF, 0x01, 0x55}},
    {"an identifier that no packet has", 3, 13, {0x41, 0xEF, 0x01, A, 0x03, 0x00, 0x03, 0x40, 0x00, 0x46}},
    {"a packet between noise", 14, 14, {0x41, 0xEF, 0xEF, 0x01, A, 0x01, 0x00, 0x03, 0x40, 0x00, 0x44}},
};
static const uint8_t *const p1 = runs[0].bytes, *const p8 = runs[1].bytes;

static void used(void) {
    for (size_t i = 0; i < sizeof runs / sizeof *runs; i++) check(runs[i].name, bystrodol_used(runs[i].bytes, runs[i].length), runs[i].used);
    for (size_t n = 0; n < 12; n++) check_of("P1, unfinished", n, "bytes used", bystrodol_used(n ? p1 : NULL, n), 0);
}

/* A head with every identifier and every length field up to 300, and beyond: awaited where a packet can have them, and otherwise passed over. */
static void heads(void) {
    for (unsigned identifier = 0; identifier < 256; identifier++)
        for (unsigned length = 0; length < 0x10000; length += length < 300 ? 1 : 251) {
            const uint8_t head[] = {0xEF, 0x01, A, (uint8_t)identifier, (uint8_t)(length >> 8), (uint8_t)length};
            unsigned most = identifier == 2 || identifier == 8 ? 258 : identifier == 1 || identifier == 7 ? 256 : 0;
            check_of("a head", identifier * 0x10000 + length, "bytes used", bystrodol_used(head, sizeof head), 3 <= length && length <= most ? 0 : 2);
        }
}

/* ---- building a packet: the room lies at an odd address between two guards, and every byte of all three is looked at */

static uint8_t area[GUARD + ROOM + GUARD], before[sizeof area], content[MANY];
static uint8_t *const room = area + GUARD;

static void fill_area(void) {
    for (size_t i = 0; i < sizeof area; i++) area[i] = before[i] = (uint8_t)(0xA5 + 7 * i);
}

/* Builds into the first length bytes of the room; a room of no bytes is NULL. */
static size_t build(uint32_t address, uint8_t identifier, const uint8_t *bytes, size_t n, size_t length) {
    fill_area();
    return bystrodol_build(address, identifier, bytes, n, length ? room : NULL, length);
}

/* The packet stands in the room, and nothing else is changed. */
static void built(const char *name, size_t got, const uint8_t *packet, size_t n) {
    check_of(name, n, "length", got, n);
    memcpy(before + GUARD, packet, n);
    check_of(name, n, "packet, room and guards", differ(area, before, sizeof area), sizeof area);
}

static void refused(const char *name, size_t which, size_t got) {
    check_of(name, which, "length", got, 0);
    check_of(name, which, "room and guards", differ(area, before, sizeof area), sizeof area);
}

static void builds(void) {
    static const uint8_t handshake[] = {0x40}, count[] = {0x1D}, none[] = {0x00, 0x00, 0x00};
    static const uint8_t done[] = {0xEF, 0x01, A, 0x07, 0x00, 0x03, 0x00, 0x00, 0x0A};
    static const uint8_t zero[] = {0xEF, 0x01, A, 0x07, 0x00, 0x05, 0x00, 0x00, 0x00, 0x00, 0x0C};
    static const uint8_t other[] = {0xEF, 0x01, 0x12, 0x34, 0x56, 0x78, 0x08, 0x00, 0x03, 0x40, 0x00, 0x4B};
    built("P1's packet", build(0xFFFFFFFF, 1, handshake, 1, ROOM), p1, 12);
    built("P1's reply", build(0xFFFFFFFF, 7, none, 1, ROOM), done, sizeof done);
    built("P8's packet", build(0xFFFFFFFF, 1, count, 1, ROOM), p8, 12);
    built("P8's reply", build(0xFFFFFFFF, 7, none, 3, ROOM), zero, sizeof zero);
    built("an address, high byte first", build(0x12345678, 8, handshake, 1, ROOM), other, sizeof other);
    for (size_t n = 0; n < 12; n++) refused("too small a room, NULL at 0", n, build(0xFFFFFFFF, 1, handshake, 1, n));
    for (unsigned i = 0; i < 256; i++) {
        const size_t most = i == BYSTRODOL_PACKET_DATA || i == BYSTRODOL_PACKET_LAST_DATA ? BYSTRODOL_CONTENT_MOST_DATA : BYSTRODOL_CONTENT_MOST_OTHER;
        refused("no content, at NULL", i, build(0xFFFFFFFF, (uint8_t)i, NULL, 0, ROOM));
        refused("too much content", i, build(0xFFFFFFFF, (uint8_t)i, content, most + 1, ROOM));
        refused("content of 65537 bytes", i, build(0xFFFFFFFF, (uint8_t)i, content, MANY, ROOM));
        if (i != 1 && i != 2 && i != 7 && i != 8) refused("an identifier that no packet has", i, build(0xFFFFFFFF, (uint8_t)i, handshake, 1, ROOM));
    }
}

/* A packet of every length, in a room with no byte to spare, whose bytes are put together here; it is found again whole. */
static void packets(uint8_t identifier, size_t most) {
    for (size_t n = 1; n <= most; n++) {
        const size_t length = n + BYSTRODOL_FRAME_BYTES;
        uint8_t packet[LONGEST] = {0xEF, 0x01, 1, 2, 3, 4, identifier, (uint8_t)((n + 2) >> 8), (uint8_t)(n + 2)};
        size_t sum = packet[6] + packet[7] + packet[8];
        for (size_t i = 0; i < n; i++) sum += content[i] = packet[9 + i] = (uint8_t)(0xFF - i * i * n % 7);
        packet[length - 2] = (uint8_t)(sum >> 8), packet[length - 1] = (uint8_t)sum;
        refused("a room one byte short", n, build(0x01020304, identifier, content, n, length - 1));
        built("a packet", build(0x01020304, identifier, content, n, length), packet, length);
        check_of("a packet", n, "bytes used", bystrodol_used(room, length), length);
        check_of("a packet, unfinished", n, "bytes used", bystrodol_used(room, length - 1), 0);
        check_of("a packet", n, "sum", bystrodol_sum(room + 6, n + 3), sum);
    }
}

/* ---- the set bits of an index */

/* The bits of some bytes, one by one. */
static size_t bits_of(const uint8_t *bytes, size_t length) {
    size_t bits = 0;
    for (size_t i = 0; i < 8 * length; i++) bits += bytes[i / 8] >> i % 8 & 1;
    return bits;
}

/* Every byte at every place, the others FF and then 0, in an index that begins at one of eight addresses, by the byte. Every other length is refused. */
static void counts(void) {
    static uint8_t around[3 * BYSTRODOL_INDEX_BYTES];
    for (size_t at = 0; at < BYSTRODOL_INDEX_BYTES; at++)
        for (unsigned byte = 0; byte < 256; byte++)
            for (unsigned others = 0; others < 256; others += 255) {
                uint8_t *const index = around + 1 + byte % 8;
                memset(around, 0xFF, sizeof around), memset(index, (int)others, BYSTRODOL_INDEX_BYTES);
                index[at] = (uint8_t)byte;
                check_of("an index", at << 8 | byte, "count", bystrodol_count(index, BYSTRODOL_INDEX_BYTES), bits_of(index, BYSTRODOL_INDEX_BYTES));
            }
    for (size_t n = 0; n <= sizeof around; n++)
        if (n != 128) check_of("an index of another length", n, "count", bystrodol_count(n ? around : NULL, n), BYSTRODOL_NO_COUNT);
}

/* ---- an index brought over: the new one lies in the room, between guards */

static uint8_t old[2 * BYSTRODOL_INDEX_BYTES], old_was[sizeof old];

/* Every two lengths, over other bytes and over what was brought over before. An index of no bytes is NULL. */
static void is_brought(size_t old_length, size_t length, int is_again) {
    const size_t which = old_length << 16 | length;
    const int is_right = old_length == 32 && length == 128;
    if (!is_again) fill_area();
    memcpy(before, area, sizeof area), memcpy(old_was, old, sizeof old);
    uint8_t refusal = bystrodol_bring_over(old_length ? old : NULL, old_length, length ? room : NULL, length);
    if (is_right) memcpy(before + GUARD, old, 32), memset(before + GUARD + 32, 0, 96);
    check_of("bringing over", which, "refusal", refusal, is_right ? BYSTRODOL_ACCEPTED : BYSTRODOL_BAD_LENGTH);
    check_of("bringing over", which, "index and guards", differ(area, before, sizeof area), sizeof area);
    check_of("bringing over", which, "the old index", differ(old, old_was, sizeof old), sizeof old);
    if (is_right) check("bringing over, the count", bystrodol_count(room, length), bits_of(old, 32));
}

static void brought_over(void) {
    for (size_t i = 0; i < sizeof old; i++) old[i] = (uint8_t)(37 * i + 11);
    for (size_t n = 0; n <= sizeof old; n++)
        for (size_t m = 0; m <= ROOM; m++) is_brought(n, m, 0);
    for (size_t p = 0; p < 256; p++) {
        memset(old, 0, sizeof old), old[p / 8] = (uint8_t)(1u << p % 8);
        is_brought(32, 128, 1);
    }
}

int main(void) {
    sums();
    used();
    heads();
    builds();
    packets(BYSTRODOL_PACKET_COMMAND, BYSTRODOL_CONTENT_MOST_OTHER), packets(BYSTRODOL_PACKET_ACKNOWLEDGE, BYSTRODOL_CONTENT_MOST_OTHER);
    packets(BYSTRODOL_PACKET_DATA, BYSTRODOL_CONTENT_MOST_DATA), packets(BYSTRODOL_PACKET_LAST_DATA, BYSTRODOL_CONTENT_MOST_DATA);
    counts();
    brought_over();
    return report("services");
}
