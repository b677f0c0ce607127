/* Speck64/128 and PRESENT-80 as one-way functions, in C: the password encrypted under the
   parameter, xor the password. Compiled once for each compiler, with TABLE naming the list. */
#include "baselines.h"

static inline uint32_t left(uint32_t x, int r) { return x << r | x >> (32 - r); }
static inline uint32_t right(uint32_t x, int r) { return x >> r | x << (32 - r); }

static uint64_t speck(uint64_t high, uint64_t low, uint64_t password)
{
    uint32_t l[3] = { low >> 32, high, high >> 32 };
    uint32_t k = low, x = password >> 32, y = password;
    for (uint32_t i = 0; i < 27; i++) {
        x = (right(x, 8) + y) ^ k;
        y = left(y, 3) ^ x;
        uint32_t m = (right(l[0], 8) + k) ^ i;
        k = left(k, 3) ^ m;
        l[0] = l[1];
        l[1] = l[2];
        l[2] = m;
    }
    return ((uint64_t)x << 32 | y) ^ password;
}

/* The S-box, and what it makes of the lowest nibble or byte after the permutation. */
#define S(n) (0x21748FE3DA09B65Cull >> 4 * (n) & 15)
#define SPREAD(x) (((x) & 1) | ((x) >> 1 & 1) << 16 | ((x) >> 2 & 1) << 32 | ((x) >> 3 & 1) << 48)
#define NIBBLE(n) SPREAD(S(n))
#define BYTE(v) (NIBBLE((v) & 15) | NIBBLE((v) >> 4) << 1)
#define CHANGE(n) ((S(n) ^ (n)) << 60)

#define ROW(F, v) F(v), F(v + 1), F(v + 2), F(v + 3), F(v + 4), F(v + 5), F(v + 6), F(v + 7), \
    F(v + 8), F(v + 9), F(v + 10), F(v + 11), F(v + 12), F(v + 13), F(v + 14), F(v + 15)
#define ROWS(F) ROW(F, 0ull), ROW(F, 16ull), ROW(F, 32ull), ROW(F, 48ull), ROW(F, 64ull), \
    ROW(F, 80ull), ROW(F, 96ull), ROW(F, 112ull), ROW(F, 128ull), ROW(F, 144ull), ROW(F, 160ull), \
    ROW(F, 176ull), ROW(F, 192ull), ROW(F, 208ull), ROW(F, 224ull), ROW(F, 240ull)
#define BYTE_1(v) BYTE(v) << 2
#define BYTE_2(v) BYTE(v) << 4
#define BYTE_3(v) BYTE(v) << 6
#define BYTE_4(v) BYTE(v) << 8
#define BYTE_5(v) BYTE(v) << 10
#define BYTE_6(v) BYTE(v) << 12
#define BYTE_7(v) BYTE(v) << 14

static const uint8_t s_box[16] = { ROW(S, 0) };
static const uint64_t changes[16] = { ROW(CHANGE, 0ull) };
static const uint64_t nibbles[16] = { ROW(NIBBLE, 0) };
static const uint64_t t8[8][256] = { { ROWS(BYTE) }, { ROWS(BYTE_1) }, { ROWS(BYTE_2) }, { ROWS(BYTE_3) },
    { ROWS(BYTE_4) }, { ROWS(BYTE_5) }, { ROWS(BYTE_6) }, { ROWS(BYTE_7) } };

/* The S-box layer and the permutation: bit by bit, then by tables. */
static inline uint64_t bit_by_bit(uint64_t s)
{
    uint64_t r = 0;
    for (int i = 0; i < 64; i++) {
        uint64_t bit = s_box[s >> i / 4 * 4 & 15] >> i % 4 & 1;
        r |= bit << (i == 63 ? 63 : 16 * i % 63);
    }
    return r;
}

static inline uint64_t nibble_table(uint64_t s)
{
    uint64_t r = 0;
    for (int i = 0; i < 16; i++)
        r |= nibbles[s >> 4 * i & 15] << i;
    return r;
}

static inline uint64_t eight_tables(uint64_t s)
{
    return t8[0][s & 255] ^ t8[1][s >> 8 & 255] ^ t8[2][s >> 16 & 255] ^ t8[3][s >> 24 & 255]
        ^ t8[4][s >> 32 & 255] ^ t8[5][s >> 40 & 255] ^ t8[6][s >> 48 & 255] ^ t8[7][s >> 56];
}

static inline uint64_t eight_tables_tree(uint64_t s)
{
    return ((t8[0][s & 255] | t8[1][s >> 8 & 255]) | (t8[2][s >> 16 & 255] | t8[3][s >> 24 & 255]))
        | ((t8[4][s >> 32 & 255] | t8[5][s >> 40 & 255]) | (t8[6][s >> 48 & 255] | t8[7][s >> 56]));
}

/* + and ^ by turns, so that a compiler keeps the tree: no two of these numbers share a bit. */
static inline uint64_t eight_tables_forced(uint64_t s)
{
    return ((t8[0][s & 255] + t8[1][s >> 8 & 255]) ^ (t8[2][s >> 16 & 255] + t8[3][s >> 24 & 255]))
        ^ ((t8[4][s >> 32 & 255] + t8[5][s >> 40 & 255]) ^ (t8[6][s >> 48 & 255] + t8[7][s >> 56]));
}

static inline uint64_t horner(uint64_t s)
{
    uint64_t r = t8[0][s >> 56];
    for (int i = 6; i >= 0; i--)
        r = r * 4 + t8[0][s >> 8 * i & 255];
    return r;
}

static inline uint64_t tree(uint64_t s)
{
    uint64_t a = t8[0][s & 255] + t8[0][s >> 8 & 255] * 4;
    uint64_t b = t8[0][s >> 16 & 255] + t8[0][s >> 24 & 255] * 4;
    uint64_t c = t8[0][s >> 32 & 255] + t8[0][s >> 40 & 255] * 4;
    uint64_t d = t8[0][s >> 48 & 255] + t8[0][s >> 56] * 4;
    return (a + (b << 4)) + ((c + (d << 4)) << 8);
}

/* The shape of the proved code: two tables, for bytes 0 and 4. */
static inline uint64_t column(uint64_t s)
{
    return t8[0][s & 255] + t8[4][s >> 32 & 255];
}

static inline uint64_t two_tables(uint64_t s)
{
    return column(s) + (column(s >> 8) << 2) + (column(s >> 16) << 4) + (column(s >> 24) << 6);
}

/* The key register: bits 79 to 16, which are the round key, and bits 15 to 0. */
struct key {
    uint64_t upper, lower;
};

static inline struct key load(uint64_t high, uint64_t low)
{
    return (struct key){ high << 48 | low >> 16, low & 0xffff };
}

static inline struct key advance(struct key k, uint64_t round)
{
    uint64_t upper = k.upper >> 19 | k.lower << 45 | k.upper << 61;
    upper = (uint64_t)s_box[upper >> 60] << 60 | (upper & 0x0fffffffffffffff);
    return (struct key){ upper ^ round >> 1, (k.upper >> 3 & 0xffff) ^ (round & 1) << 15 };
}

/* As published: the round key goes in before the layer. */
#define PUBLISHED(name, layer) \
    static uint64_t name(uint64_t high, uint64_t low, uint64_t password) \
    { \
        struct key k = load(high, low); \
        uint64_t s = password; \
        for (uint64_t round = 1; round < 32; round++) { \
            s = layer(s ^ k.upper); \
            k = advance(k, round); \
        } \
        return s ^ k.upper ^ password; \
    }

/* With the key schedule of the proved code: the S-box by what it changes, of the lower number only
   19 bits in use, and the key a round ahead. */
#define AHEAD(name, layer) \
    static uint64_t name(uint64_t high, uint64_t low, uint64_t password) \
    { \
        uint64_t upper = high << 48 | low >> 16, lower = low; \
        uint64_t s = password ^ upper; \
        for (uint64_t round = 1; round < 32; round++) { \
            uint64_t turned = lower << 45 | upper >> 19; \
            lower = upper >> 3 ^ round << 15; \
            upper = turned ^ changes[turned >> 60] ^ round >> 1; \
            s = layer(s) ^ upper; \
        } \
        return s ^ password; \
    }

PUBLISHED(present_bits, bit_by_bit)
PUBLISHED(present_nibble, nibble_table)
PUBLISHED(present_horner, horner)
PUBLISHED(present_tree, tree)
PUBLISHED(present_eight, eight_tables)
PUBLISHED(present_eight_tree, eight_tables_tree)
AHEAD(present_two_ahead, two_tables)
AHEAD(present_eight_ahead, eight_tables)
AHEAD(present_eight_forced_ahead, eight_tables_forced)

const struct baseline TABLE[] = {
    { "Speck", SPECK, speck },
    { "PRESENT bit by bit", PRESENT, present_bits },
    { "PRESENT 16 entries, by nibble", PRESENT, present_nibble },
    { "PRESENT 256 entries, Horner", PRESENT, present_horner },
    { "PRESENT 256, as a tree", PRESENT, present_tree },
    { "PRESENT 8 x 256", PRESENT, present_eight },
    { "PRESENT 8 x 256, as a tree", PRESENT, present_eight_tree },
    { "PRESENT 2 x 256, ahead", PRESENT_AHEAD, present_two_ahead },
    { "PRESENT 8 x 256, ahead", PRESENT_AHEAD, present_eight_ahead },
    { "PRESENT 8 x 256, forced, ahead", PRESENT_AHEAD, present_eight_forced_ahead },
    { 0 },
};
