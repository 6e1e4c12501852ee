/* Tries libcheri-caps: the worked rows, and random words and requests against plain formulas.
 * caps [COUNT]: how many random ones; says how many differ, and ends with 0 where none does. */
#include "cheri_caps.h"
#include "formulas.h"
#include <inttypes.h>
#include <stdio.h>
#include <stdlib.h>
#include <string.h>

static unsigned long tried, wrong;

static void check(bool good, const char *what, uint64_t address, uint64_t upper, uint64_t given) {
    tried += 1;
    if (!good && ++wrong <= 20) printf("%s: %016" PRIx64 " %016" PRIx64 ", %016" PRIx64 "\n", what, upper, address, given);
}
#define ROW(good) check(good, #good, 0, 0, 0)

static uint64_t state = 0x9e3779b97f4a7c15u;
static uint64_t drawn(void) {
    state ^= state << 13;
    state ^= state >> 7;
    state ^= state << 17;
    return state * 0x2545f4914f6cdd1du;
}
/* a number of a drawn size, now and then near a power */
static uint64_t sized(void) {
    uint64_t n = drawn() >> (drawn() % 64);
    switch (drawn() % 4) {
    case 0: return ((uint64_t)1 << (drawn() % 64)) + drawn() % 5 - 2;
    case 1: return n & ~(uint64_t)0 << (drawn() % 64);
    default: return n;
    }
}

static u128 top_of(cheri_number_t n) { return (u128)n.high << 64 | n.low; }
static cheri_word_t word(uint64_t upper, uint64_t address) { return (cheri_word_t){address, upper}; }
static cheri_word_t bits(cheri_cap_t c) { return word(c.upper, c.address); }
static cheri_cap_t root(void) { return cheri_cap(word(0xffff1ffffc018004u, 0), true); }
static cheri_cap_t root_at(uint64_t address) { return cheri_set_address(root(), address); }
static cheri_cap_t bounded(cheri_cap_t c, uint64_t length) { bool exact; return cheri_set_bounds(c, length, &exact); }
static bool is(cheri_cap_t c, bool tag, uint64_t base, u128 top) {
    return c.tag == tag && cheri_base(bits(c)) == base && top_of(cheri_top(bits(c))) == top;
}
static uint64_t high_in_memory(cheri_cap_t c) {
    uint8_t bytes[16];
    uint64_t high;
    cheri_to_memory(bits(c), bytes);
    memcpy(&high, bytes + 8, 8);
    return high;
}
/* the value of a row over capabilities, by its words: rd 10, rs1 11, rs2 12 */
static cheri_cap_t row(unsigned funct7, unsigned rs2, cheri_cap_t cs1, cheri_cap_t cs2) {
    cheri_cap_t out = {0};
    ROW(cheri_execute(funct7 << 25 | rs2 << 20 | 11u << 15 | 10u << 7 | 0x5b, cs1, cs2, root(), &out));
    return out;
}
enum { SEAL = 0x0b, UNSEAL = 0x0c, EXACTLY = 0x09, OF_ONE = 0x7f, GET_PERM = 0, GET_TYPE = 1, GET_BASE = 2, GET_LEN = 3, GET_TAG = 4,
       GET_SEALED = 5, CRRL = 8, CRAM = 9 };

static void worked_rows(void) {
    uint8_t zeros[16] = {0};
    cheri_cap_t data = cheri_cap(cheri_from_memory(zeros), false), none = {0};
    ROW(row(OF_ONE, GET_BASE, data, none).address == 0);
    ROW(row(OF_ONE, GET_LEN, data, none).address == UINT64_MAX);
    ROW(row(OF_ONE, GET_TYPE, data, none).address == UINT64_MAX);
    ROW(row(OF_ONE, GET_PERM, data, none).address == 0);
    ROW(row(OF_ONE, GET_TAG, data, none).address == 0);
    ROW(row(OF_ONE, GET_SEALED, data, none).address == 0);
    ROW(root().tag && high_in_memory(root()) == 0xffff000000000000u);
    ROW(row(OF_ONE, GET_PERM, root(), none).address == 0x78fff);
    cheri_cap_t third = bounded(root_at(0x80001000), 4095);
    ROW(is(third, true, 0x80001000, 0x80001fff) && high_in_memory(third) == 0xffff000007fe5004u);
    cheri_cap_t fourth = bounded(root_at(0x80001001), 4096), length = {0};
    ROW(is(fourth, true, 0x80001000, 0x80002008) && high_in_memory(fourth) == 0xffff000000039004u);
    length.address = 4096;
    length = cheri_cap(word(NULL_UPPER, 4096), false);
    cheri_cap_t exactly = row(EXACTLY, 12, root_at(0x80001001), length);
    ROW(!exactly.tag && exactly.upper == fourth.upper && exactly.address == fourth.address);
    cheri_cap_t fifth = bounded(root_at(1), 8191);
    ROW(is(fifth, true, 0, 8192) && high_in_memory(fifth) == 0xffff000000018005u);
    ROW(cheri_is_exact(0xfffffffffffff000u, 0x1000) && !cheri_is_exact(0xfffffffffffff000u, 0x2000));
    ROW(cheri_representable_length(8191) == 8192 && cheri_alignment_mask(8191) == 0xfffffffffffffff0u);
    ROW(cheri_representable_length(UINT64_MAX) == 0 && cheri_alignment_mask(UINT64_MAX) == 0xff80000000000000u);
    ROW(is(cheri_set_address(third, 0x800047ff), true, 0x80001000, 0x80001fff));
    ROW(is(cheri_set_address(third, 0x80000800), true, 0x80001000, 0x80001fff));
    cheri_cap_t above = cheri_set_address(third, 0x80004800), below = cheri_set_address(third, 0x800007ff);
    ROW(!above.tag && cheri_base(bits(above)) == 0x80005000);
    ROW(!below.tag && cheri_base(bits(below)) == 0x7fffd000);
    cheri_cap_t low = bounded(root(), 16);
    ROW(is(cheri_set_address(low, UINT64_MAX), true, 0, 16) && !cheri_set_address(low, UINT64_MAX - 0x800).tag);
    cheri_cap_t last = cheri_set_address(third, 0x80001fff);
    ROW(is(bounded(last, 0), true, 0x80001fff, 0x80001fff) && is(bounded(last, 1), false, 0x80001fff, 0x80002000));
    cheri_cap_t sealed = row(SEAL, 12, root(), root_at(0x3fffb)), reserved = row(SEAL, 12, root(), root_at(0x3fffc));
    ROW(sealed.tag && row(OF_ONE, GET_TYPE, sealed, none).address == 0x3fffb);
    ROW(!reserved.tag && row(OF_ONE, GET_TYPE, reserved, none).address == 0xfffffffffffffffcu);
    cheri_cap_t sentry = row(OF_ONE, 0x11, root(), none);
    ROW(sentry.tag && cheri_otype(bits(sentry)) == 0x3fffe && !row(UNSEAL, 12, sentry, root_at(0x3fffe)).tag);
    char text[64];
    size_t count = cheri_disassemble(0x22b5055b, true, text);
    ROW(count == 23 && !memcmp(text, "cincoffset ca0, ca0, a1", 23));
    ROW(cheri_disassemble(0, false, text) > 0 && !cheri_execute(0, root(), root(), root(), &none));
}

/* what a word says, tagged or not */
static void of_word(uint64_t address, uint64_t upper) {
    cheri_word_t w = word(upper, address), back;
    struct record r = record_of(address, upper);
    cheri_fields_t f;
    uint8_t bytes[16];
    uint64_t halves[2];
    bool good = may_be_tagged(address, upper);
    check(cheri_base(w) == (uint64_t)r.base, "base", address, upper, 0);
    check(top_of(cheri_top(w)) == r.top, "top", address, upper, 0);
    check(cheri_perms(w) == r.perms && cheri_otype(w) == r.otype && cheri_flag(w) == r.flag, "fields", address, upper, 0);
    cheri_decompress(w, &f);
    check(f.base == (uint64_t)r.base && ((u128)f.top_high << 64 | f.top_low) == r.top && f.address == address && f.perms == r.perms
          && f.otype == r.otype && f.flag == r.flag, "decompress", address, upper, 0);
    check(cheri_is_well_formed(w) == good && cheri_cap(w, true).tag == good && !cheri_cap(w, false).tag, "well-formed", address, upper, 0);
    cheri_cap_t out = cheri_cap(word(1, 2), false);
    bool made = cheri_compress(&f, &out);
    check(made == has_word(&r), "compress", address, upper, 0);
    check(made ? out.tag && out.address == address && out.upper == upper_of(&r, exponent_of(r.top - r.base), r.top - r.base >= 4096)
               : !out.tag && out.upper == 1 && out.address == 2, "compressed word", address, upper, 0);
    cheri_to_memory(w, bytes);
    memcpy(halves, bytes, 16);
    back = cheri_from_memory(bytes);
    check(halves[0] == address && halves[1] == (upper ^ NULL_UPPER) && back.address == address && back.upper == upper,
          "memory", address, upper, 0);
}

/* the address moved */
static void of_move(uint64_t address, uint64_t upper, uint64_t moved) {
    u128 base, top, base_there, top_there;
    bounds_of(address, upper, &base, &top);
    bounds_of(moved, upper, &base_there, &top_there);
    bool same = base == base_there && top == top_there;
    check(cheri_is_representable(word(upper, address), moved) == same, "representable", address, upper, moved);
    cheri_cap_t c = cheri_cap(word(upper, address), true), got = cheri_set_address(c, moved);
    bool stays = c.tag && same && (upper >> 27 & 0x3ffff) == 0x3ffff;
    check(got.tag == stays && got.upper == upper && got.address == moved, "set address", address, upper, moved);
}

/* bounds set */
static void of_request(uint64_t address, uint64_t upper, uint64_t length) {
    cheri_cap_t c = cheri_cap(word(upper, address), true);
    struct record r = record_of(address, upper), set = r;
    struct request q = rounded(address, length);
    bool exact = false, is_exact = q.base == address && q.top == (u128)address + length;
    bool tag = c.tag && r.otype == 0x3ffff && r.base <= address && (u128)address + length <= r.top;
    set.base = q.base;
    set.top = q.top % (2 * ALL);
    cheri_cap_t got = cheri_set_bounds(c, length, &exact);
    check(got.tag == tag && exact == is_exact && got.address == address && got.upper == upper_of(&set, q.e, q.internal),
          "set bounds", address, upper, length);
    check(cheri_is_exact(address, length) == (is_exact && q.top <= ALL), "exact", address, upper, length);
    struct request from_zero = rounded(0, length);
    u128 granule = length < 4096 ? 1 : power(from_zero.e + 3);
    check(cheri_representable_length(length) == (uint64_t)from_zero.top, "CRRL", address, upper, length);
    check(cheri_alignment_mask(length) == (uint64_t)(ALL - granule), "CRAM", address, upper, length);
}

/* a word of drawn bits, or of a drawn capability */
static void drawn_word(uint64_t *address, uint64_t *upper) {
    *address = drawn() % 2 ? drawn() : sized();
    *upper = drawn();
    if (drawn() % 4 == 0) return;
    struct request q = rounded(*address, sized());
    unsigned perms = (unsigned)(drawn() & 0xffff), otype = drawn() % 4 ? 0x3ffff : (unsigned)(drawn() & 0x3ffff);
    struct record r = {q.base, q.top % (2 * ALL), *address, perms, otype, drawn() & 1};
    *upper = upper_of(&r, q.e, q.internal);
}

int main(int count, char **words) {
    unsigned long most = count > 1 ? strtoul(words[1], 0, 10) : 1000000, well_formed = 0;
    worked_rows();
    for (unsigned long i = 0; i < most; i += 1) {
        uint64_t address, upper, base;
        drawn_word(&address, &upper);
        base = cheri_base(word(upper, address));
        well_formed += may_be_tagged(address, upper);
        of_word(address, upper);
        of_move(address, upper, drawn() % 3 ? base + sized() : base - sized());
        of_request(address, upper, sized());
    }
    printf("%lu words, %lu of them well-formed, %lu comparisons, %lu wrong\n", most, well_formed, tried, wrong);
    return wrong != 0;
}
